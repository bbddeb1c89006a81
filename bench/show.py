#!/usr/bin/env python3
"""Times `webmail show` on messages of 2.6 and 26 MB, plain, HTML, flowed and hostile, beside Python's own decode, escape and encode,
on one of a large attachment beside `base64 -d`, and on the example newsletter.

    bench/show.py [WORD]      only the shapes whose names contain the word

Run by hand after `tools/build webmail`. Prints processor seconds (user and system), peak memory for each byte read, and the
ratios that have bounds. Exits with 1 if one is above its bound.
"""
import html, os, resource, subprocess, sys, tempfile, time

TOP = os.path.dirname(os.path.dirname(os.path.abspath(__file__)))
PROGRAM = os.path.join(TOP, "bin", "webmail")
LARGE = 26_214_400
SMALL = LARGE // 10
ATTACHED = 20_000_000
# the small size fits a processor's cache, so ten times the size may take more than ten times as long
GROWTH = 25
HEAD = b"Subject: bench\r\n\r\n"
NESTED = "".join(f"Content-Type: multipart/mixed; boundary=b{i}\n\n--b{i}\n" for i in range(33)).encode() + b"\n"
HTML = b"Subject: bench\r\nContent-Type: text/html; charset=utf-8\r\n\r\n"
FLOWED = b"Subject: bench\r\nContent-Type: text/plain; charset=utf-8; format=flowed\r\n\r\n"
NEWSLETTER = os.path.join(TOP, "examples", "newsletter.eml")
PARAGRAPH = (
    b'<h2 style="color:#264653;margin:12px 0 4px">Week</h2>\r\n<p class="x" style="color:#333;margin:0 0 10px">From Monday on the '
    b'<b>chapel caf\xc3\xa9</b> is open until nine.\r\nSoup is at six &amp; music at seven.</p>\r\n<ul><li>Monday: leek soup</li>'
    b'<li>Tuesday: <i>closed</i></li></ul>\r\n<p><a href="https://college.example/cafe">The whole week</a></p>\r\n'
    b'<img src="https://tracker.example/open?who=ann" width=1 height=1>\r\n'
)
QUOTES = (
    b"> The quick brown fox jumps over the lazy dog, and over the dog again it \r\n> jumps.\r\n>> Did it jump? It did, and it did so for the second time on that very \r\n"
    b">> morning.\r\n>\r\n> It did.\r\nSo it goes on.\r\n\r\n"
)
TEXT = b"The quick brown fox jumps over the lazy dog, and over the dog again it jumps\r\n"

# for each shape: what stands before, the line that is repeated, and what stands after
SHAPES = {
    "plain text": (HEAD, TEXT, b""),
    "HTML mail": (HTML, PARAGRAPH, b""),
    "flowed quotes": (FLOWED, QUOTES, b""),
    "flowed: one paragraph": (FLOWED, b"The quick brown fox jumps over the lazy dog, and over the dog again it \r\n", b""),
    "flowed: marks alone": (FLOWED, b">", b""),
    "flowed: empty lines": (FLOWED, b"\n", b""),
    "flowed: empty quoted lines": (FLOWED, b">\n", b""),
    "flowed: depths up and down": (FLOWED, b">" * 16 + b"\n\n", b""),
    "less-than signs": (HEAD, b"<", b""),
    "header lines": (b"", b"X-Field: of a header\r\n", b"\r\n"),
    "short header lines": (b"", b"a:b\n", b"\n"),
    "lines that are no field": (b"", b"no field\r\n", b"\r\n"),
    "one folded field": (b"Subject: x\r\n", b" and on\r\n", b"\r\n"),
    "openings of words": (b"Subject: ", b"=?", b"\r\n\r\n"),
    "adjacent words": (b"Subject:", b" =?utf-8?q?a?=", b"\r\n\r\n"),
    "a word never closed": (b"Subject: =?utf-8?q?", b"a", b"\r\n\r\n"),
    "a value of blanks": (b"Subject: a", b" ", b"b\r\n\r\n"),
    "carriage returns": (HEAD, b"\r", b""),
    "bytes that are no UTF-8": (HEAD, b"\xff", b""),
    "bytes of ISO-8859-1": (b"Content-Type: text/plain; charset=iso-8859-1\r\n\r\n", b"\xe9", b""),
    "quotation marks": (HEAD, b'"', b""),
    "a subject of quotation marks": (b"Subject: ", b'"', b"\r\n\r\n"),
    "a subject of ampersands": (b"Subject: ", b"&", b"\r\n\r\n"),
    "nested boundaries, empty lines": (NESTED, b"\n", b""),
    "nested boundaries, CR LF": (NESTED, b"\r\n", b""),
    "nested boundaries, two hyphens": (NESTED, b"--\n", b""),
    "nested boundaries, short lines": (NESTED, b"123456789\n", b""),
}

# Markup around each of many short paragraphs makes a page this many times as long as its message, and it is kept whole: bounds on
# its memory are twice that.
LONG_PAGES = {"flowed: empty lines": 2 * 15, "flowed: empty quoted lines": 2 * 7.5, "flowed: depths up and down": 2 * 24}


def write(path, shape, size):
    """Writes a message of a shape, a piece at a time: a child's peak memory counts what this process holds when it starts."""
    head, line, tail = SHAPES[shape]
    room = size - len(head) - len(tail)
    piece = line * (65_536 // len(line) + 1)
    with open(path, "wb") as file:
        file.write(head)
        while room > 0:
            room -= file.write(piece[:room])
        file.write(tail)


def measure(command, source):
    """Processor seconds and peak kilobytes of the best of some runs."""
    best = None
    for _ in range(7):
        with open(source, "rb") as given:
            child = subprocess.Popen(command, stdin=given, stdout=subprocess.DEVNULL)
            _, status, usage = os.wait4(child.pid, 0)
        if status != 0:
            sys.exit(f"{command} ended with status {status}")
        seconds = usage.ru_utime + usage.ru_stime
        if best is None or seconds < best[0]:
            best = (seconds, usage.ru_maxrss)
    return best


def write_attached(path, attachment, size):
    """Writes a message of a short text and an attachment of so many bytes under base64, and the attachment by itself."""
    line = b"QUJDREVGR0hJSktMTU5PUFFSU1RVVldYWVphYmNkZWZnaGlqa2xtbm9wcXJzdHV2d3h5ejAxMjM0\r\n"
    with open(path, "wb") as message, open(attachment, "wb") as file:
        message.write(b"Subject: bench\r\nContent-Type: multipart/mixed; boundary=b\r\n\r\n--b\r\n\r\nsee below\r\n--b\r\n")
        message.write(b"Content-Type: image/png; name=a.png\r\nContent-Transfer-Encoding: base64\r\n\r\n")
        for _ in range(size // len(line)):
            message.write(line)
            file.write(line.replace(b"\r", b""))
        message.write(b"--b--\r\n")


PYTHON = (
    "import html, sys\n"
    "body = sys.stdin.buffer.read()\n"
    "sys.stdout.buffer.write(html.escape(body.decode('utf-8', 'replace')).encode())\n"
)


def main():
    if not os.path.exists(PROGRAM):
        sys.exit("build the program first: tools/build webmail")
    wanted = {name: shape for name, shape in SHAPES.items() if len(sys.argv) < 2 or sys.argv[1] in name or name == "plain text"}
    failed = []
    with tempfile.TemporaryDirectory() as folder:
        seconds = {}
        base = measure([sys.executable, "-c", "pass"], os.devnull)[0]
        for size in (SMALL, LARGE):
            for name in wanted:
                path = os.path.join(folder, "message")
                write(path, name, size)
                own, peak = measure([PROGRAM, "show"], path)
                seconds[name, size] = own
                if size == LARGE:
                    python = measure([sys.executable, "-c", PYTHON], path)[0] - base
                    seconds[name, "python"] = python
                    seconds[name, "peak"] = peak * 1024 / size
                    print(f"{name:31} {own:7.3f} s  python {python:7.3f} s  {own / python:5.2f}  {peak * 1024 / size:6.2f} bytes a byte")
        path, attachment = os.path.join(folder, "message"), os.path.join(folder, "attachment")
        write_attached(path, attachment, ATTACHED)
        own, peak = measure([PROGRAM, "show"], path)
        decoding, _ = measure(["base64", "-d"], attachment)
        print(f"{'an attachment of 20 MB':31} {own:7.3f} s  base64 {decoding:7.3f} s  {own / decoding:5.2f}  {peak * 1024 / ATTACHED:6.2f} bytes a byte")
        own, newsletter_peak = measure([PROGRAM, "show"], NEWSLETTER)
        print(f"{'the newsletter':31} {own:7.3f} s  {newsletter_peak:8} kilobytes")
        bounds = [
            ("an attachment beside base64 -d", own / decoding, 3),
            ("an attachment: memory", peak * 1024 / ATTACHED, 3),
            ("plain text beside Python", seconds["plain text", LARGE] / seconds["plain text", "python"], 2),
        ]
        if "less-than signs" in wanted:
            bounds.append(("less-than signs beside Python", seconds["less-than signs", LARGE] / seconds["less-than signs", "python"], 1))
        for name in {"header lines", "short header lines", "lines that are no field", "one folded field"}.intersection(wanted):
            bounds.append((f"{name} beside plain text", seconds[name, LARGE] / seconds["plain text", LARGE], 3))
        for name in wanted:
            if name.startswith("nested"):
                bounds.append((f"{name} beside plain text", seconds[name, LARGE] / seconds["plain text", LARGE], 5))
            bounds.append((f"{name}: growth of time", seconds[name, LARGE] / max(seconds[name, SMALL], 0.001), GROWTH))
            bounds.append((f"{name}: memory", seconds[name, "peak"], LONG_PAGES.get(name, 6)))
        for name, got, most in bounds:
            mark = "" if got <= most else "   PAST THE BOUND"
            print(f"{name:45} {got:6.2f} of {most}{mark}")
            if got > most:
                failed.append(name)
    sys.exit(1 if failed else 0)


main()
