#!/usr/bin/env python3
"""Measures mail_talk on a server's answer to a fetch of all messages of a folder, beside Python's imaplib on the same bytes in memory.

Build the program first, by `tools/build bench`. Then run this file, from anywhere, with the number of runs of each measurement (5 by
default). A figure is the least time of those runs in milliseconds, of the hearing alone. `bench` hears the bytes into a view of 50,000
rows; imaplib splits lines and literals, and leaves the items as text. Bounds: 60 MB a second in pieces of 65,536 bytes, one byte at a time
at most 20 times that, at least 5 times as fast as imaplib, and a peak of memory of at most 1.6 times what the view keeps and one unit.
The program ends with status 1 if a bound is not met.
"""
import subprocess
import sys

from imap_responses import PROGRAM, theirs

ROWS = 50_000
HEADER = 300
# What a row takes beside its header: its fields, its two flags, and its part of a node of the map of rows.
ROW = 200


def answer():
    """Returns what servers answer `UID FETCH 1:* (UID FLAGS MODSEQ INTERNALDATE RFC822.SIZE BODY.PEEK[HEADER.FIELDS (..)])`."""
    units = []
    for uid in range(1, ROWS + 1):
        header = f"Date: Mon, 30 Nov 2026 10:00:00 +0000\r\nSubject: {uid}\r\n"
        header += "References: <" + "x" * (HEADER - len(header) - 18) + ">\r\n\r\n"
        assert len(header) == HEADER
        units.append(f'* {uid} FETCH (FLAGS (\\Seen $Junk) UID {uid} INTERNALDATE " 1-Dec-2026 09:36:42 +0000" MODSEQ ({uid + 9}) RFC822.SIZE 4711'
                     f" BODY[HEADER.FIELDS (DATE SUBJECT REFERENCES)] {{{HEADER}}}\r\n{header})\r\n")
    return ("".join(units) + "A2 OK done\r\n").encode()


def ours(stream, piece, times):
    """Returns the least milliseconds, and the rows, if the answer arrives in pieces of that many bytes."""
    done = subprocess.run([PROGRAM, f"hear-{piece}", str(times)], input=stream, capture_output=True, check=True)
    figures = [int(row.split()[0]) / 1000 for row in done.stderr.split(b"\n") if row]
    return min(figures), int(done.stdout)


def peak(stream, piece):
    """Returns the bytes of memory of one run, in a process of its own."""
    script = "import resource,subprocess,sys; subprocess.run(sys.argv[1:], stdin=sys.stdin, stdout=subprocess.DEVNULL, check=True); print(resource.getrusage(resource.RUSAGE_CHILDREN).ru_maxrss)"
    done = subprocess.run([sys.executable, "-c", script, PROGRAM, f"hear-{piece}"], input=stream, capture_output=True, check=True)
    return int(done.stdout) * 1024


def main():
    times = int(sys.argv[1]) if len(sys.argv) > 1 else 5
    stream = answer()
    megabytes = len(stream) / 1_000_000
    met = True
    large = 0
    for piece in (65_536, 64, 1):
        took, rows = ours(stream, piece, times if piece > 1 else 1)
        assert rows == ROWS
        large = large or took
        print(f"{megabytes:.1f} MB in pieces of {piece:,} bytes: {took:.1f} ms, {megabytes / took * 1000:.0f} MB a second, {took / large:.1f} times the first")
        met &= took <= 20 * large
    met &= megabytes / large * 1000 >= 60
    python = theirs(stream, max(1, times // 2))
    print(f"imaplib: {python:.0f} ms, {python / large:.1f} times ours")
    met &= python >= 5 * large
    kept = ROWS * (HEADER + ROW) + len(stream) // ROWS
    # The program holds its whole input beside what it hears.
    used = peak(stream, 65_536) - peak(b"A2 OK done\r\n", 65_536) - len(stream)
    print(f"memory: {used / 1_000_000:.1f} MB beside the input, {used / kept:.2f} times what the view keeps and one unit")
    met &= used <= 1.6 * kept
    print("all bounds are met" if met else "a bound is not met")
    sys.exit(0 if met else 1)


if __name__ == "__main__":
    main()
