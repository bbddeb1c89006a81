#!/usr/bin/env python3
"""Times of cid_parts on many addresses, and on long ones, over a message of 1,000 parts.

Build the program first, by `tools/build bench`. Then run this file, from anywhere, with the number of times that each is measured (5
by default). Each figure is the least of those times in milliseconds, of the call alone: the message's tree, its references, and all
addresses. 'growth' is that of the whole input by that of a tenth of it, without what the message alone takes.

It ends with status 1 if ten times the addresses, or a ten times longer one, take more than 12 times as long.
"""
import os
import subprocess
import sys

HERE = os.path.dirname(os.path.abspath(__file__))
PROGRAM = os.path.join(HERE, "..", "bin", "bench")
COUNT = 1_000_000
LENGTH = 20_000_000


def shapes():
    """A name, the work, how to make an input of a size, and that size."""
    yield "cid: of 1,000 parts", "refer", lambda n: "".join(f"cid:part{i % 1000}@n\n" for i in range(n)), COUNT
    yield "cid: with escapes", "refer", lambda n: "".join(f"cid:%70art{i % 1000}%40n\n" for i in range(n)), COUNT
    yield "cid: of no part", "refer", lambda n: "".join(f"cid:part{i}@m\n" for i in range(n)), COUNT
    yield "addresses of the web", "refer", lambda n: "".join(f"https://www.e.example/{i}\n" for i in range(n)), COUNT
    yield "relative, below a base of 1,000 bytes", "refer-below", lambda n: "".join(f"picture/{i}.png\n" for i in range(n)), COUNT
    yield "Content-Locations below that base", "refer-below", lambda n: "".join(f"{i % 1000}.png\n" for i in range(n)), COUNT
    yield "one long URL", "refer", lambda n: "https://e.example/" + "a" * n, LENGTH
    yield "one long URL to be escaped", "refer", lambda n: "https://e.example/" + "\u00e9" * (n // 2), LENGTH
    yield "one long path of ../", "refer-below", lambda n: "../" * (n // 3), LENGTH
    yield "one long cid:", "refer", lambda n: "cid:" + "%61" * (n // 3), LENGTH
    yield "one long data:", "refer", lambda n: "data:image/png;base64," + "A" * n, LENGTH


def least(work, text, times):
    """The least microseconds of some runs, and how many addresses refer to something."""
    done = subprocess.run([PROGRAM, work, str(times)], input=text.encode(), capture_output=True, check=True)
    rows = [row.split() for row in done.stderr.split(b"\n") if row]
    return min(int(row[0]) for row in rows), int(rows[0][1])


def main():
    times = int(sys.argv[1]) if len(sys.argv) > 1 else 5
    passed = True
    alone = {work: least(work, "", times)[0] for work in ("refer", "refer-below")}
    print(f"no address: {alone['refer'] / 1000:.1f} ms, below a base {alone['refer-below'] / 1000:.1f} ms")
    for name, work, make, size in shapes():
        whole, count = least(work, make(size), times)
        tenth, _ = least(work, make(size // 10), times)
        growth = (whole - alone[work]) / max(1, tenth - alone[work])
        passed = passed and growth <= 12
        print(f"{name}: {whole / 1000:.1f} ms, {count} refer to something, growth {growth:.1f}")
    sys.exit(0 if passed else 1)


if __name__ == "__main__":
    main()
