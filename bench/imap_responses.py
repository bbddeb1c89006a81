#!/usr/bin/env python3
"""Measures imap_responses on the bytes of a server, beside Python's imaplib on the same bytes in memory.

Build the program first, by `tools/build bench`. Then run this file, from anywhere, with the number of runs of each measurement (5 by
default). A figure is the least time of those runs in milliseconds, of the reading alone. `bench` reads each response with all its items;
imaplib splits lines and literals, and leaves the items as text. On FETCH lines the program should be 5 times as fast as imaplib. A
literal that is fed one byte at a time should take at most 20 times as long as one that is fed whole.
"""
import imaplib
import io
import os
import subprocess
import sys
import time

HERE = os.path.dirname(os.path.abspath(__file__))
PROGRAM = os.path.join(HERE, "..", "bin", "bench")
LITERAL = 33_554_432
WHOLE = "responses"


def fetch_lines(count=100_000, length=300):
    """Returns lines of `length` bytes, as servers answer `UID FETCH 1:* (UID FLAGS MODSEQ ENVELOPE ..)`."""
    rows = []
    for number in range(1, count + 1):
        head = f"* {number} FETCH (UID {number + 7} FLAGS (\\Seen $HasAttachment) MODSEQ ({9_000_000 + number}) RFC822.SIZE 48213"
        head += ' INTERNALDATE "17-Jul-1996 02:44:25 -0700" ENVELOPE ("Wed, 17 Jul 1996" "'
        tail = '" (("A" NIL "a" "example.org")) NIL NIL NIL NIL NIL NIL "<1@example.org>"))\r\n'
        rows.append(head + "x" * (length - len(head) - len(tail)) + tail)
    assert all(len(row) == length for row in rows)
    return "".join(rows).encode()


def nested_lists(size=26_000_000):
    depth = size // 2
    return b"* 1 FETCH (UID 7 BODYSTRUCTURE " + b"(" * depth + b")" * depth + b")\r\n"


def long_list(size=16_000_000):
    return b'* LIST (\\Sent) "/" ' + b"a" * size + b"\r\n"


def literal(size=LITERAL):
    return b"* 1 FETCH (UID 7 BODY[] {%d}\r\n" % size + b"x" * size + b")\r\n"


def short_units(count=1_000_000):
    return b"".join(b"* %d EXISTS\r\n" % (number % 10) for number in range(count))


def line_feeds(size=16_000_000):
    """Returns one line with LFs that no CR precedes."""
    return b"* LIST () NIL " + b"\n" * size + b"\r\n"


def sizes_of_nothing(count=5_000_000):
    """Returns one unit of empty literals."""
    return b"* X {0}\r\n" + b"{0}\r\n" * count + b"\r\n"


def ours(stream, piece, times):
    """Returns the least milliseconds, and what was read, if the stream arrives in pieces of that many bytes."""
    work = piece if piece == WHOLE else f"{WHOLE}-{piece}"
    done = subprocess.run([PROGRAM, work, str(times)], input=stream, capture_output=True, check=True)
    figures = [int(row.split()[0]) / 1000 for row in done.stderr.split(b"\n") if row]
    return min(figures), done.stdout.decode().replace("\n", ", ").strip(", ")


class FromMemory(imaplib.IMAP4):
    """imaplib over bytes in memory. Each command is answered at once."""

    def open(self, host="", port=0, timeout=None):
        self.stream = io.BytesIO(b"* OK [CAPABILITY IMAP4rev1] hi\r\n")

    def send(self, data):
        tag = data.split()[0]
        self.stream = io.BytesIO(b"* CAPABILITY IMAP4rev1\r\n" + tag + b" OK done\r\n")

    def read(self, size):
        return self.stream.read(size)

    def readline(self):
        return self.stream.readline()

    def shutdown(self):
        pass


def theirs(stream, times):
    found = []
    for _ in range(times):
        link = FromMemory()
        link.stream = io.BytesIO(stream)
        start = time.perf_counter()
        try:
            while True:
                link._get_response()
        except imaplib.IMAP4.abort:
            pass
        found.append((time.perf_counter() - start) * 1000)
    return min(found)


def main():
    times = int(sys.argv[1]) if len(sys.argv) > 1 else 5
    stream = fetch_lines()
    read, told = ours(stream, WHOLE, times)
    python = theirs(stream, times)
    print(f"100,000 FETCH lines of 300 bytes: {read:.1f} ms ({told}), imaplib {python:.0f} ms, {python / read:.1f} times")
    for piece in (1, 64, 4096):
        print(f"the same, {piece} bytes at a time: {ours(stream, piece, times)[0]:.1f} ms")
    stream = literal()
    whole = ours(stream, WHOLE, times)[0]
    python = theirs(stream, times)
    single = ours(stream, 1, times)[0]
    print(f"a literal of {LITERAL:,} octets: whole {whole:.1f} ms, imaplib {python:.1f} ms")
    print(f"the same, 64 bytes at a time: {ours(stream, 64, times)[0]:.1f} ms; one: {single:.1f} ms, {single / whole:.1f} times that of whole")
    for name, stream in [
        ("a FETCH of 26 MB of nested lists", nested_lists()),
        ("a LIST line of 16 MB", long_list()),
        ("1,000,000 short units", short_units()),
        ("a line of 16,000,000 LF", line_feeds()),
        ("5,000,000 empty literals", sizes_of_nothing()),
    ]:
        read, told = ours(stream, WHOLE, times)
        single = ours(stream, 1, 1)[0]
        print(f"{name}: {read:.1f} ms ({told}), one byte at a time {single:.0f} ms, imaplib {theirs(stream, 1):.0f} ms")


if __name__ == "__main__":
    main()
