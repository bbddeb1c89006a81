#!/usr/bin/env python3
"""Times of the scanner on a newsletter of 1 MB and on hostile texts of 8 to 35 MB, beside html5lib's tokenizer and `grep -c '<'`.

Build the program first, by `tools/build bench`. Then run this file, from anywhere, and give it the number of times
that each text is measured (5 by default). html5lib is a package of most systems; without it that figure is left out. A figure is the
least of those times, in nanoseconds for each byte: of the spans alone, with each tag read in place, and with the token of each. How many times the newsletter's a
text's time is, and html5lib's, is the median of pairs that are measured one right after the other, since a machine's pace changes.
`growth` is how much longer a text takes than one of a tenth of its size, which fits a processor's cache. It ends with status 1 where
the newsletter is read less than 60 times as fast as by html5lib, where a hostile text takes more than 5 times the newsletter's time for
each byte, where reading tags in place takes more than 3 times as long as the spans alone, or where one that takes more than the newsletter's takes more than 20 times as long at ten times the size. One tag with millions
of different names that don't rise is measured without a bound: each name is sought in a tree that doesn't fit a processor's cache.
"""
import os
import random
import statistics
import subprocess
import sys
import tempfile
import time

try:
    from html5lib._tokenizer import HTMLTokenizer
except ImportError:
    SYSTEM = "/usr/bin/python3"
    if os.path.exists(SYSTEM) and os.path.realpath(sys.executable) != os.path.realpath(SYSTEM):
        os.execv(SYSTEM, [SYSTEM, *sys.argv])
    HTMLTokenizer = None

LARGE = 26_000_000
MANY = 4_000_000
HERE = os.path.dirname(os.path.abspath(__file__))
PROGRAM = os.path.join(HERE, "..", "bin", "bench")

ROW = (
    '<tr><td align="left" valign="top" width="300" style="padding:10px 20px;font-family:Arial,sans-serif;color:#333333">'
    '<a href="https://news.example.org/story?id=%d&amp;from=mail" title="Story %d" class=link>Story &amp; more &ndash; no. %d</a><br>'
    "The quick brown fox jumps over the lazy dog&nbsp;&hellip;<!-- row %d --></td>"
    "<td><img src='cid:picture%d' alt=\"\" width=120 height=80 border=0></td></tr>\r\n"
)


def newsletter(size=1_000_000):
    rows, number, length = ["<!DOCTYPE html>\r\n<html><head><title>News</title><style>td { color: red }</style></head><body><table>\r\n"], 0, 0
    while length < size:
        row = ROW % ((number,) * 5)
        rows.append(row)
        length += len(row)
        number += 1
    return "".join(rows + ["</table></body></html>\r\n"]).encode()


def repeated(piece, before=b"", after=b""):
    """A text of so many bytes that begins like this and goes on with the piece again and again."""
    return lambda size: (before + piece * (size // len(piece) + 1))[:size] + after


def attributes(name_of, order=lambda numbers: numbers):
    """One tag with so many attributes."""
    return lambda count: b"<a " + b" ".join(name_of(number) for number in order(list(range(count)))) + b">"


def counted(number):
    return b"a%d" % number


def falling(numbers):
    return numbers[::-1]


def shuffled(numbers):
    random.Random(1).shuffle(numbers)
    return numbers


def random_names(count):
    """Five-byte names, drawn at random."""
    letters = random.Random(2)
    return b"<a " + b" ".join(bytes(letters.choices(b"abcdefghijklmnopqrstuvwxyz0123456789", k=5)) for _ in range(count)) + b">"


def small_tags(count):
    return (b"<a " + b" ".join(bytes([letter]) for letter in b"abcdefghijklmnop") + b">") * (count // 4)


# shapes that are measured without a bound
UNBOUNDED = {"attributes of many names, falling", "attributes of many names, shuffled", "attributes of random names", "tags of 16 attributes"}

# a name, what makes the text of a size, and the size
SHAPES = [
    ("text", repeated(b"the quick brown fox jumps over the lazy dog "), LARGE),
    ("<", repeated(b"<"), LARGE),
    ("&", repeated(b"&"), LARGE),
    ("&#", repeated(b"&#"), LARGE),
    ("&a", repeated(b"&a"), LARGE),
    ("&notit;", repeated(b"&notit;"), LARGE),
    ("<a ", repeated(b"<a "), LARGE),
    ("<b>", repeated(b"<b>"), LARGE),
    ("</>", repeated(b"</>"), LARGE),
    ("<!--", repeated(b"<!--"), LARGE),
    ("- after <!--", repeated(b"-", b"<!--"), LARGE),
    ("--! after <!--", repeated(b"--!", b"<!--"), LARGE),
    ("</script in a script", repeated(b"</script", b"<script>"), LARGE),
    ("<script><!--<script", repeated(b"<script><!--<script"), LARGE),
    ("<!--> in a script", repeated(b"<!-->", b"<script>"), LARGE),
    ("</title in a title", repeated(b"</title", b"<title>"), LARGE),
    ("one attribute value", repeated(b"x", b'<a b="', b'">'), LARGE),
    ("& in a value", repeated(b"&", b'<a b="', b'">'), LARGE),
    ("CR", repeated(b"\r"), LARGE),
    ("U+0000", repeated(b"\0"), LARGE),
    ("attributes of one name", attributes(lambda number: b"a"), MANY),
    ("attributes of many names, rising", attributes(counted), MANY),
    ("attributes of many names, falling", attributes(counted, falling), MANY),
    ("attributes of many names, shuffled", attributes(counted, shuffled), MANY),
    ("attributes of random names", random_names, MANY),
    ("tags of 16 attributes", small_tags, MANY),
]


def seconds_of(work, path, times):
    """The least of the times that the program takes in one run, and what it counts."""
    with open(path, "rb") as source:
        done = subprocess.run([PROGRAM, work, str(times)], stdin=source, capture_output=True, check=True)
    return min(int(line.split()[0]) for line in done.stderr.splitlines()) / 1e6, done.stdout.decode().strip()


def grep_seconds(path):
    start = time.perf_counter()
    subprocess.run(["grep", "-c", "<", path], stdout=subprocess.DEVNULL, check=False)
    return time.perf_counter() - start


def html5lib_seconds(text):
    start = time.perf_counter()
    for _ in HTMLTokenizer(text):
        pass
    return time.perf_counter() - start


def stored(folder, name, data):
    path = os.path.join(folder, name)
    with open(path, "wb") as file:
        file.write(data)
    return path


class Newsletter:
    """The text that the others are measured beside."""

    def __init__(self, folder):
        self.data = newsletter()
        self.path = stored(folder, "newsletter", self.data)
        self.nanoseconds = 1e9 / len(self.data)

    def tokens(self):
        return seconds_of("tokens", self.path, 30)[0] * self.nanoseconds


def measure_newsletter(letter, times, missed):
    spans = min(seconds_of("spans", letter.path, 30)[0] for _ in range(times)) * letter.nanoseconds
    grep = min(grep_seconds(letter.path) for _ in range(times)) * letter.nanoseconds
    tags = min(seconds_of("tags", letter.path, 30)[0] for _ in range(times)) * letter.nanoseconds
    tokens = [letter.tokens() for _ in range(times)]
    print(f"newsletter of 1 MB: spans {spans:.2f}, tags {tags:.2f}, tokens {min(tokens):.2f}, grep {grep:.2f}")
    if HTMLTokenizer:
        text = letter.data.decode()
        pairs = [(letter.tokens(), html5lib_seconds(text) * letter.nanoseconds) for _ in range(2 * times)]
        ratio = statistics.median(theirs / ours for ours, theirs in pairs)
        print(f"html5lib {min(theirs for _, theirs in pairs):.0f}: {ratio:.1f} times (60 are wanted)")
        if ratio < 60:
            missed.append("newsletter: less than 60 times html5lib's speed")


def measure_shape(name, data, tenth, letter, folder, times, missed):
    path, small = stored(folder, "text", data), stored(folder, "tenth", tenth)
    nanoseconds = 1e9 / len(data)
    spans, count = seconds_of("spans", path, times)
    tags = seconds_of("tags", path, times)[0]
    runs = [(letter.tokens(), seconds_of("tokens", path, 1)[0], seconds_of("tokens", small, 2)[0]) for _ in range(times)]
    more = statistics.median(tokens * nanoseconds / base for base, tokens, _ in runs)
    growth = statistics.median(tokens / few for _, tokens, few in runs)
    print(
        f"{name:36} spans {spans * nanoseconds:6.2f}  tags {tags * nanoseconds:6.2f}  tokens {min(tokens for _, tokens, _ in runs) * nanoseconds:6.2f}"
        f"  {more:5.2f} times the newsletter  growth {growth:5.1f}  grep {grep_seconds(path) * nanoseconds:5.2f}"
        f"  ({count} spans of {len(data):,} bytes)"
    )
    if tags > 3 * spans:
        missed.append(f"{name}: reading tags in place takes more than 3 times as long as the spans")
    if name in UNBOUNDED:
        return
    if more > 5:
        missed.append(f"{name}: more than 5 times the newsletter's time")
    if more > 1 and growth > 20:
        missed.append(f"{name}: ten times the size takes more than 20 times as long")


def main():
    times = int(sys.argv[1]) if len(sys.argv) > 1 else 5
    missed = []
    with tempfile.TemporaryDirectory() as folder:
        letter = Newsletter(folder)
        measure_newsletter(letter, times, missed)
        for name, make, size in SHAPES:
            measure_shape(name, make(size), make(size // 10), letter, folder, times, missed)
    for line in missed:
        print("MISSED", line)
    sys.exit(1 if missed else 0)


if __name__ == "__main__":
    main()
