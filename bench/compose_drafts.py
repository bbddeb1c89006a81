#!/usr/bin/env python3
"""Measures compose_drafts on drafts of which one field is long: 52,428 and 524,288 bytes.

Build the program first, by `tools/build bench`. Then run this file, from anywhere, with the number of runs of each measurement (7 by
default). A row has the least time of those runs for each size, in nanoseconds per byte of the field, and the memory of the program per byte
of the larger field. If the larger field takes more than twice the time per byte, and more than 20 milliseconds, the row says so, and the exit
status is 1: less time is too short to tell.
"""
import os
import subprocess
import sys
import tempfile

LARGE = 524_288
HERE = os.path.dirname(os.path.abspath(__file__))
PROGRAM = os.path.join(HERE, "..", "bin", "bench")

FIELDS = ("to", "cc", "subject", "refs", "name", "address", "text")
DRAFT = {"to": "bob@d.example", "name": "Ann", "address": "ann@c.example", "text": "Hello"}
PROSE = "the quick brown fox jumps over the lazy dog and over the dog again it jumps "
SHAPES = {
    "text": {
        "prose": PROSE,
        "lines": "a line of a letter\n",
        "one word": "x",
        "spaces": " ",
        "marks": ">",
        "quoted lines": "> x\n",
        "accents": "\u00e9\u00e9\u00e9 ",
        "line ends": "\n",
        "signatures": "-- \n",
    },
    "to": {"boxes": "a@b,", "names": "Ann <a@b>,", "accents": "\u00e9 <a@b>,", "spaces": " "},
    "cc": {"boxes": "a@b,", "quoted names": '"\\"" <a@b>,'},
    "subject": {"letters": "x", "accents": "\u00e9", "equals signs": "=", "line ends": "\n"},
    "refs": {"identifiers": "<a@b> ", "less-than signs": "<", "letters": "x"},
    "name": {"quotes": '"', "accents": "\u00e9"},
}


def draft(field, piece, size):
    """The input of a draft of which a field is a piece again and again."""
    whole = (piece * (size // len(piece.encode()))).rstrip(",")
    if field in ("to", "cc") and not whole.strip():
        whole += "a@b"
    return "\0".join(whole if one == field else DRAFT.get(one, "") for one in FIELDS).encode()


def seconds(path, times):
    """Returns the least seconds of a call, and the peak memory of the program in bytes."""
    with open(path, "rb") as source:
        program = subprocess.Popen([PROGRAM, "build", str(times)], stdin=source, stdout=subprocess.DEVNULL, stderr=subprocess.PIPE)
        lines = program.stderr.read().splitlines()
        _, status, usage = os.wait4(program.pid, 0)
    program.returncode = os.waitstatus_to_exitcode(status)
    if program.returncode != 0:
        sys.exit(f"build: status {program.returncode}")
    if int(lines[0].split()[1]) == 0:
        sys.exit("build: a draft is no message")
    return min(int(line.split()[0]) for line in lines) / 1e6, usage.ru_maxrss * 1024


def main():
    times = int(sys.argv[1]) if len(sys.argv) > 1 else 7
    failed = False
    with tempfile.TemporaryDirectory() as folder:
        path = os.path.join(folder, "input")
        for field, shapes in SHAPES.items():
            print(field)
            for shape, piece in shapes.items():
                found = []
                for size in (LARGE // 10, LARGE):
                    with open(path, "wb") as file:
                        file.write(draft(field, piece, size))
                    found.append(seconds(path, times))
                (small, _), (large, peak) = found
                steep = large > 20 * small and large > 0.02
                failed = failed or steep
                figures = f"{small / LARGE * 1e10:7.2f} {large / LARGE * 1e9:7.2f}  peak {peak / LARGE:6.1f}"
                print(f"  {shape:28} {figures}{'  not linear' if steep else ''}", flush=True)
    return 1 if failed else 0


if __name__ == "__main__":
    sys.exit(main())
