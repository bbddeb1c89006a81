#!/usr/bin/env python3
"""Measures flowed_text on 2.6 and 26 MB of clean and of hostile text.

Build the program first, by `tools/build bench`. Then run this file, from anywhere, with the number of runs of each measurement (3 by
default). A row has the least time of those runs for each size, in nanoseconds per byte of input, and the memory of the program per byte
of the larger input, the input itself included. If the larger input takes more than twice the time per byte, the row says so, and the exit
status is 1. Quoted texts that would be written in more than 64 MiB are refused, so these are measured on 60 and 600 kB.
"""
import os
import subprocess
import sys
import tempfile

LARGE = 26_000_000
# Written at a depth of 80, a text of short words is up to 84 times as long, and at most 64 MiB are written.
LARGE_QUOTED = 600_000
HERE = os.path.dirname(os.path.abspath(__file__))
PROGRAM = os.path.join(HERE, "..", "bin", "bench")

PROSE = "the quick brown fox jumps over the lazy dog and over the dog again it jumps "
READ = {
    "clean": b"> the quick brown fox jumps over the lazy dog and over \r\n> the dog again\r\n",
    "marks": b">",
    "spaces": b" ",
    "one-character flowed lines": b"x \r\n",
    "flowed lines of a space": b"  \n",
    "quoted flowed lines": b">>>>>>>> x \n",
    "depths that change": b"> x \nx \n",
    "signature lines": b"-- \n",
    "empty lines": b"\n",
    "carriage returns": b"\r",
    "one line": b"x",
}
WRITE = {
    "clean": PROSE.encode(),
    "marks": b">",
    "spaces": b" ",
    "one-character words": b"x ",
    "one word": b"x",
    "words of 100 characters": b"x" * 100 + b" ",
    "a short and a long word": b"x " + b"y" * 80 + b" ",
    "dashes": b"-- ",
    "From": b"From ",
    "accents": "\u00e9\u00e9\u00e9 ".encode(),
}
# write-flowed-quoted writes at a depth of 80, so each word is on a line of its own.
QUOTED = {shape: WRITE[shape] for shape in ("clean", "spaces", "one word")}
WORKS = {
    "read-flowed": (READ, LARGE),
    "read-flowed-del-sp": (READ, LARGE),
    "write-flowed": (WRITE, LARGE),
    "write-flowed-quoted": (QUOTED, LARGE_QUOTED),
}


def seconds(work, path, times):
    """Returns the least seconds of a call, and the peak memory of the program in bytes."""
    with open(path, "rb") as source:
        program = subprocess.Popen([PROGRAM, work, str(times)], stdin=source, stdout=subprocess.DEVNULL, stderr=subprocess.PIPE)
        lines = program.stderr.read().splitlines()
        _, status, usage = os.wait4(program.pid, 0)
    program.returncode = os.waitstatus_to_exitcode(status)
    if program.returncode != 0:
        sys.exit(f"{work}: status {program.returncode}")
    return min(int(line.split()[0]) for line in lines) / 1e6, usage.ru_maxrss * 1024


def measure(work, piece, size, folder, times):
    path = os.path.join(folder, "input")
    with open(path, "wb") as file:
        file.write(piece * (size // len(piece)))
    return seconds(work, path, times)


def main():
    times = int(sys.argv[1]) if len(sys.argv) > 1 else 3
    failed = False
    with tempfile.TemporaryDirectory() as folder:
        for work, (shapes, size) in WORKS.items():
            print(work)
            for shape, piece in shapes.items():
                small, _ = measure(work, piece, size // 10, folder, times)
                large, peak = measure(work, piece, size, folder, times)
                steep = large > 20 * small and large > 0.05
                failed = failed or steep
                figures = f"{small / size * 1e10:7.2f} {large / size * 1e9:7.2f}  peak {peak / size:6.1f}"
                print(f"  {shape:28} {figures}{'  not linear' if steep else ''}", flush=True)
    return 1 if failed else 0


if __name__ == "__main__":
    sys.exit(main())
