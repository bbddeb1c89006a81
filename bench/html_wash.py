#!/usr/bin/env python3
"""Times and memory of the washer, from a message's HTML to the bytes of its page, beside bluemonday.

Build the program first, by `tools/build bench`. Then run this file, from anywhere:

    bench/html_wash.py [TIMES] [--bluemonday PATH]

TIMES is the number of times that each text is measured (5 by default), PATH a program that washes a file by bluemonday (Go) as
`PATH bench FILE RUNS` and prints its MB for each processor second; it is left out if there is no such program, which
$BLUEMONDAY may name too. Times are processor seconds of a call, the mean of a process that makes TIMES of them and reads the text, less those on an
empty text: a call also reads the message of 1,000 parts that the text is said to belong to. Less than a millisecond counts as one. 'growth' is that of the
whole text by that of a tenth of it, of which ten times as many calls are made. A tenth that takes less than 20 milliseconds may fit into the processor's
cache: then growth is that of a text of ten times the size by that of the whole one.
Memory is the highest that the program held, less what it held on an empty text and less the text and the page, for each byte of the text.

It ends with status 1 if the mail is washed less than 3.5 times as fast as by bluemonday or takes more than 2 bytes of memory for each
byte, or if a hostile text takes more than 5 times the mail's time for each byte (6 times with style elements) or more than 12 times as
long at ten times the size.
"""
import argparse
import os
import random
import re
import statistics
import subprocess
import sys
import tempfile
import time

HERE = os.path.dirname(os.path.abspath(__file__))
PROGRAM = os.path.join(HERE, "..", "bin", "bench")
MAIL = 1_000_000
LARGE = 20_000_000
MESSAGE = 26_000_000
MANY = 1_000_000
NAMES = 4_000_000
# seconds below which a text may fit into the cache of the processor
CACHED = 0.02
# glibc keeps what was freed for the next call, however large it is, so that no size is charged for fresh pages at each call
KEEPING = {"MALLOC_MMAP_THRESHOLD_": str(1 << 30), "MALLOC_TRIM_THRESHOLD_": str(1 << 34)}

HEAD = (
    '<!DOCTYPE html>\r\n<html><head><meta http-equiv="Content-Type" content="text/html; charset=utf-8"><title>The week</title>\r\n'
    '<style type="text/css">body { margin: 0 } td.c { padding: 4px 8px } @media (max-width: 600px) { .w { width: 100% !important } }</style></head>\r\n'
    '<body bgcolor="#f4f4f4" style="margin:0;padding:0"><center>\r\n'
)
WORDS = (
    "meeting harvest ferry lantern budget orchard station minutes the of and to with a in for river bridge &amp; caf&eacute; &nbsp; &ndash; "
    "&lsquo;notes&rsquo; gr\u00f6\u00dfer letter winter answer library &#8212; garden"
).split()


def text(numbers, count):
    return " ".join(numbers.choices(WORDS, k=count))


def story(numbers, number):
    """A table with a picture, a headline that is a link, and a paragraph."""
    return (
        '<table role="presentation" width="600" border="0" cellpadding="0" cellspacing="0" class="w" style="width:600px;border-collapse:collapse;background:#ffffff">'
        f'<tbody><tr><td class="c" width="140" valign="top" style="padding:4px 8px"><a href="https://click.e.example/{numbers.getrandbits(64):x}?m={number}&amp;p=1" target="_blank">'
        f'<img src="https://img.e.example/{number}.jpg" alt="{number}" width="120" height="80" border="0" style="display:block"></a></td>\r\n'
        f'<td class="c" align="left" valign="top" style="padding:4px 8px;font-family:Arial,Helvetica,sans-serif;font-size:{numbers.randrange(11, 17)}px;line-height:1.4;color:#333333">'
        f'<h2 style="margin:0 0 8px;font-size:18px"><a href="https://click.e.example/{numbers.getrandbits(64):x}?m={number}&amp;p=2" style="color:#0066cc;text-decoration:none">{text(numbers, 6)}</a></h2>'
        f'<p style="margin:0 0 1em">{text(numbers, numbers.randrange(20, 60))}<br>{text(numbers, 12)} <b>{text(numbers, 2)}</b></p></td></tr></tbody></table>\r\n'
    )


def reply(numbers, number):
    """A quoted reply as a mail program writes it, and a picture that is a part of the message."""
    return (
        f'<div class="quote">On day {number} <a href="mailto:a{number}@e.example">a{number}</a> wrote:<blockquote type="cite" style="margin:0 0 0 1ex;border-left:1px #cccccc solid;padding-left:1ex">'
        f'<p class="Normal"><span style="font-family:\'Open Sans\',sans-serif">{text(numbers, numbers.randrange(15, 50))}</span> <font face="Arial" size="2">{text(numbers, 15)}</font></p>'
        f'<img src="cid:part{number % 1000}@n" alt="picture"><!-- {number} --></blockquote></div>\r\n'
    )


def mail(size=MAIL):
    numbers, pieces, length, number = random.Random(3), [HEAD], 0, 0
    while length < size - len(HEAD):
        piece = reply(numbers, number) if number % 4 == 3 else story(numbers, number)
        pieces.append(piece)
        length += len(piece.encode())
        number += 1
    return ("".join(pieces) + "</center></body></html>\r\n").encode()


def repeated(piece, before=b"", after=b""):
    """A text of this many bytes, between what begins and ends it."""
    return lambda size: before + (piece * (size // len(piece) + 1))[:size] + after


def counted(piece_of, before="", after=""):
    """A text of this many pieces, each made of its number."""
    return lambda count: (before + "".join(map(piece_of, range(count))) + after).encode()


def attributes(names_of):
    """One tag with the attributes of these names."""
    return lambda count: ("<td " + " ".join(names_of(count)) + ">").encode()


def random_names(count):
    numbers, letters = random.Random(2), "abcdefghijklmnopqrstuvwxyz0123456789"
    return ("".join(numbers.choices(letters, k=5)) for _ in range(count))


def shuffled_names(count):
    order = list(range(count))
    random.Random(1).shuffle(order)
    return (f"a{number}" for number in order)


OPEN = b"<div>" * 128
STYLE = "color:red;background:url(x);font-family:'A B';margin:1px 2px;width:expression(1);padding:4px 8px;border:1px solid #cccccc;"
SMALL = "".join(f" {letter}" for letter in "abcdefghijklmnop")

# 200 rules, for classes that the tags have and for others
RULES = "<style>" + "".join(f".c{number}{{color:red;margin:{number}px}}" for number in range(200)) + "</style>"
CLASSES = " ".join(f"c{number}" for number in range(0, 2000, 2))
SHEET = b"<style>"
SHEET_END = b"</style><p>a"

# a name, the work, how to make a text of a size, and that size in bytes or pieces
SHAPES = [
    ("</b> in vain below 128 open", "wash", repeated(b"</b>", OPEN), LARGE),
    ("</td> in vain below 128 open", "wash", repeated(b"</td>", OPEN), LARGE),
    ("</li> in vain below 128 <b>", "wash", repeated(b"</li>", b"<b>" * 128), LARGE),
    ("<p> below 128 open", "wash", repeated(b"<p>", OPEN), LARGE),
    ("<b> without end", "wash", repeated(b"<b>"), LARGE),
    ("<b></b>", "wash", repeated(b"<b></b>"), LARGE),
    ("<td> run", "wash", repeated(b"<td>"), LARGE),
    ("<li> run", "wash", repeated(b"<li>"), LARGE),
    ("<table> run", "wash", repeated(b"<table>"), LARGE),
    ("<br> run", "wash", repeated(b"<br>"), LARGE),
    ("attributes of one listed name", "wash", attributes(lambda count: ("align=left" for _ in range(count))), NAMES),
    ("attributes of one unlisted name", "wash", attributes(lambda count: ("a" for _ in range(count))), NAMES),
    ("attributes of rising names", "wash", attributes(lambda count: (f"a{number}" for number in range(count))), NAMES),
    ("attributes of shuffled names", "wash", attributes(shuffled_names), NAMES),
    ("attributes of random names", "wash", attributes(random_names), NAMES),
    ("listed and unlisted in turn", "wash", attributes(lambda count: ("align" if number % 2 else f"a{number}" for number in range(count))), NAMES),
    ("tags of 16 attributes", "wash", counted(lambda number: f"<b{SMALL}></b>"), MANY),
    ("one style", "wash", lambda size: b'<p style="' + (STYLE.encode() * (size // len(STYLE) + 1))[:size] + b'">', LARGE),
    ("one style without a semicolon", "wash", repeated(b"a ", b'<p style="color:', b'">'), LARGE),
    ("styles of 200 bytes", "wash", counted(lambda number: f'<p style="{(STYLE * 2)[:200]}">a'), 100_000),
    ("cid: of 1,000 parts", "wash", counted(lambda number: f'<img src="cid:part{number % 1000}@n">'), MANY),
    ("relative links", "wash", counted(lambda number: f'<a href="story/{number}.html">'), MANY),
    ("relative pictures, unasked", "wash-below", counted(lambda number: f'<img src="story/{number}.png">'), MANY),
    ("relative links below a long base", "wash-below", counted(lambda number: f'<a href="story/{number}.html">'), 200_000),
    ("web pictures, asked for", "wash-images", counted(lambda number: f'<img src="http://e.example/{number}">'), MANY),
    ("one URL", "wash", repeated(b"a", b'<a href="http://e.example/', b'">'), LARGE),
    ("one URL to be escaped", "wash", lambda size: b'<a href="http://e.example/' + b"\xc3\xa9" * (size // 2) + b'">', LARGE),
    ("one title that never ends", "wash", repeated(b"&lt;a", b"<title>"), LARGE),
    ("one script that never ends", "wash", repeated(b"</script", b"<script>"), LARGE),
    ("dropped elements in a row", "wash", repeated(b"<title>a</title>"), LARGE),
    ("text", "wash", repeated(b"the quick brown fox "), LARGE),
    ("quotation marks", "wash", repeated(b'"'), LARGE),
    ("references", "wash", repeated(b"&lt;"), LARGE),
    ("one attribute of references", "wash", repeated(b"&lt;", b'<p title="', b'">'), LARGE),
]

STYLE_SHAPES = [
    ("20,000 tags of 1,000 classes", "wash", counted(lambda number: f'<b class="{CLASSES}">a</b>', RULES), 20_000),
    ("one class attribute", "wash", repeated(b"a ", RULES.encode() + b'<b class="', b'">'), LARGE),
    ("one class", "wash", repeated(b"a", RULES.encode() + b'<b class="', b'">'), LARGE),
    ("tags without rules of theirs", "wash", counted(lambda number: "<b class=a>a</b>", RULES), MANY),
    ("a style element that never ends", "wash", repeated(b"p{color:red}", SHEET), MESSAGE),
    ("style blocks that never close", "wash", repeated(b"p{color:red;", SHEET, SHEET_END), MESSAGE),
    ("left braces", "wash", repeated(b"{", SHEET, SHEET_END), MESSAGE),
    ("comments that never close", "wash", repeated(b"/*", SHEET, SHEET_END), MESSAGE),
    ("selectors between commas", "wash", repeated(b"p,", SHEET, b"p{color:red}" + SHEET_END), MESSAGE),
    ("style blocks", "wash", repeated(b"p{color:red}", SHEET, SHEET_END), MESSAGE),
    ("100,000 style elements", "wash", counted(lambda number: "<style>p{color:red}</style>", after="<p>a"), 100_000),
]


def high_water(pid):
    """The highest memory of a process so far. What wait4 tells would count what this process held when it began the other."""
    with open(f"/proc/{pid}/status", encoding="ascii", errors="replace") as file:
        found = re.search(r"VmHWM:\s*(\d+)", file.read())
    return int(found[1]) * 1024 if found else 0


class Run:
    """The mean processor seconds of some calls on a text, the bytes of its page, and the highest memory of the process in bytes."""

    def __init__(self, work, path, times):
        with open(path, "rb") as source:
            child = subprocess.Popen([PROGRAM, work, str(times)], stdin=source, stdout=subprocess.PIPE, stderr=subprocess.PIPE, env={**os.environ, **KEEPING})
        self.memory, ended = 0, 0
        while not ended:
            self.memory = max(self.memory, high_water(child.pid))
            ended, status, usage = os.wait4(child.pid, os.WNOHANG)
            time.sleep(0.002)
        rows = [row.split() for row in child.stderr.read().splitlines()]
        child.returncode = status
        if status != 0 or len(rows) != times:
            sys.exit(f"bench {work} ended with status {os.waitstatus_to_exitcode(status)}")
        # the program makes one call more, for its result
        self.seconds = (usage.ru_utime + usage.ru_stime) / (times + 1)
        self.page = int(rows[0][1])


def stored(folder, name, data):
    path = os.path.join(folder, name)
    with open(path, "wb") as file:
        file.write(data)
    return path


class Alone:
    """What each work takes on an empty text."""

    def __init__(self, folder, times):
        path = stored(folder, "empty", b"")
        self.runs = {work: Run(work, path, 4 * times) for work in ("wash", "wash-images", "wash-below")}

    def seconds(self, work, run):
        return max(1e-3, run.seconds - self.runs[work].seconds)

    def memory(self, work, run, size):
        """Bytes beside the text and the page."""
        return run.memory - self.runs[work].memory - size - run.page


def bluemonday_rate(program, path):
    """MB for each processor second."""
    done = subprocess.run([program, "bench", path, "7"], capture_output=True, text=True, check=True)
    return float(re.search(r"([\d.]+) MB/cpu-s", done.stdout)[1])


def measure_mail(folder, alone, times, peer, missed):
    """The seconds for each byte."""
    data = mail()
    path = stored(folder, "mail", data)
    rates, peers, memory = [], [], 0
    for _ in range(times):
        run = Run("wash", path, 20)
        rates.append(len(data) / 1e6 / alone.seconds("wash", run))
        memory = max(memory, alone.memory("wash", run, len(data)) / len(data))
        if peer:
            peers.append(bluemonday_rate(peer, path))
    print(f"mail of {len(data):,} bytes: {max(rates):.1f} MB a second, page of {run.page:,} bytes, {memory:.2f} bytes of memory a byte (2 are allowed)")
    if memory > 2:
        missed.append("mail: more than 2 bytes of memory for each byte")
    if peer:
        ratio = statistics.median(ours / theirs for ours, theirs in zip(rates, peers))
        print(f"bluemonday: {max(peers):.1f} MB a second; {ratio:.1f} times as fast (3.5 are wanted)")
        if ratio < 3.5:
            missed.append("mail: less than 3.5 times bluemonday's speed")
    else:
        print("bluemonday: not installed, left out")
    return 1 / (max(rates) * 1e6)


def measure_shape(name, work, make, size, most, folder, alone, times, base, missed):
    data = make(size)
    run = Run(work, stored(folder, "text", data), times)
    seconds = alone.seconds(work, run)
    tenth = alone.seconds(work, Run(work, stored(folder, "other", make(size // 10)), 10 * times))
    if tenth < CACHED:
        growth = alone.seconds(work, Run(work, stored(folder, "other", make(10 * size)), times)) / seconds
    else:
        growth = seconds / tenth
    more = seconds / len(data) / base
    print(
        f"{name:34} {len(data) / 1e6:6.1f} MB  {seconds / len(data) * 1e9:7.1f} ns a byte  {more:5.2f} times the mail  growth {growth:5.1f}"
        f"  page {run.page / 1e6:7.1f} MB  {alone.memory(work, run, len(data)) / len(data):6.2f} bytes a byte",
        flush=True,
    )
    if more > most:
        missed.append(f"{name}: {more:.1f} times the mail's time for each byte ({most} are allowed)")
    if growth > 12:
        missed.append(f"{name}: ten times the size takes {growth:.1f} times as long (12 are allowed)")


def main():
    parser = argparse.ArgumentParser()
    parser.add_argument("times", nargs="?", type=int, default=5)
    parser.add_argument("--bluemonday", default=os.environ.get("BLUEMONDAY"))
    given = parser.parse_args()
    missed = []
    with tempfile.TemporaryDirectory() as folder:
        alone = Alone(folder, given.times)
        print(", ".join(f"{work} of an empty text {run.seconds * 1e3:.1f} ms" for work, run in alone.runs.items()))
        base = measure_mail(folder, alone, given.times, given.bluemonday, missed)
        for most, shapes in ((5, SHAPES), (6, STYLE_SHAPES)):
            for shape in shapes:
                measure_shape(*shape, most, folder, alone, given.times, base, missed)
    for line in missed:
        print("MISSED", line)
    sys.exit(1 if missed else 0)


if __name__ == "__main__":
    main()
