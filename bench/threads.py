#!/usr/bin/env python3
"""Measures thread_references on mailboxes of 16 MB, as strangers may make them.

Build the program first, by `tools/build bench`. Then run this file, from anywhere, with the number of runs of each measurement (3 by
default). A figure is the least time of those runs in milliseconds, of threading alone: the time to read the facts is subtracted. Each
shape should take at most 20 times as long as an ordinary mailbox of as many bytes, and half as many messages about half as long. One
shape may cost more: messages that each break a link of one long chain (15 s for 50,000, 2 s for 20,000), threaded at once, or added by one
call to a forest without messages. One message with 1,000,000 references should take at most 1 s.

The last lines add the messages of such a chain one by one, each by a call of its own. Each call links its message to the links that are
kept, and then sorts, prunes and merges all messages, so that twice as many take about four times as long; no bound is met there for
20,000, and only fewer are measured.
"""
import os
import random
import subprocess
import sys

HERE = os.path.dirname(os.path.abspath(__file__))
PROGRAM = os.path.join(HERE, "..", "bin", "bench")
SIZE = 16_000_000


def line(sent, name, references, subject="", reply=False):
    return f"{sent}|{name}|{' '.join(references)}|{'re' if reply else ''}|{subject}\n"


def ordinary(count):
    """Threads of ten messages, each of which refers to all before it."""
    pad = "x" * (SIZE // 50_000 // 6)
    rows = []
    for number in range(count):
        start = number - number % 10
        references = [f"{pad}{other}@x" for other in range(start, number)]
        rows.append(line(number, f"{pad}{number}@x", references, f"s{start}", bool(references)))
    return rows


def references_of(count, total, name):
    """`count` messages with `total` references together, by `name` of the number of a reference."""
    each = total // count
    return [line(n, f"m{n}", [name(n * each + k) for k in range(each)]) for n in range(count)]


def chain(count):
    return references_of(count, count * 60, lambda number: f"{number // 61 * 60 + number % 61:x}")


def one_long_chain(count):
    return references_of(count, count * 60, lambda number: f"{number:x}")


def comb(count):
    return references_of(count, count * 60, lambda number: "a" if number % 2 == 0 else f"{number:x}")


def star(count):
    return [line(n, f"m{n}", ["hub"] * 60) for n in range(count)]


def one_identifier(count):
    return [line(n, "a", ["a"] * 60) for n in range(count)]


def loops_by_turns(count):
    return references_of(count, count * 60, lambda number: "ab"[number % 2] + f"{number // 4 % 1000:x}")


def merging_dummies(count):
    return [line(n, f"m{n}", [f"d{n // 2}"], f"s{n // 2 % 50}") for n in range(count)]


def one_subject(count):
    return [line(n, f"m{n}", [], "x", n % 3 == 0) for n in range(count)]


def shuffled(count):
    draw = random.Random(22)
    return references_of(count, count * 60, lambda _: f"{draw.randrange(count):x}")


def breaks(count):
    """A chain over all later messages, each of which then breaks its link."""
    return [line(0, "first", [f"m{n}" for n in range(count)])] + [line(n, f"m{n}", []) for n in range(count)]


def one_message(count):
    return [line(0, "a", [f"{n:x}" for n in range(count)])]


def milliseconds(work, rows, times):
    done = subprocess.run([PROGRAM, work, str(times)], input="".join(rows).encode(), capture_output=True, check=True)
    return min(int(row.split()[0]) for row in done.stderr.split(b"\n") if row) / 1000


def threading(rows, times, work="list-threads"):
    return max(milliseconds(work, rows, times) - milliseconds("read-facts", rows, times), 0.001)


def main():
    times = int(sys.argv[1]) if len(sys.argv) > 1 else 3
    failed = []
    base = threading(ordinary(50_000), times)
    print(f"ordinary: {base:.0f} ms")
    for shape in (chain, one_long_chain, comb, star, one_identifier, loops_by_turns, merging_dummies, one_subject, shuffled):
        whole = threading(shape(50_000), times)
        half = threading(shape(25_000), times)
        print(f"{shape.__name__}: {whole:.0f} ms, {whole / base:.1f} times ordinary, {whole / half:.1f} times its half")
        if whole > 20 * base:
            failed.append(shape.__name__)
    for shape, count, limit in ((breaks, 20_000, 2_000), (breaks, 50_000, 15_000), (one_message, 1_000_000, 1_000)):
        took = threading(shape(count), times)
        print(f"{shape.__name__} {count}: {took:.0f} ms")
        if took > limit:
            failed.append(f"{shape.__name__} {count}")
    for count, limit in ((20_000, 2_000), (50_000, 15_000)):
        took = threading(breaks(count), times, "add-all-threads")
        print(f"breaks added at once {count}: {took:.0f} ms")
        if took > limit:
            failed.append(f"breaks added at once {count}")
    for count in (1_000, 2_000, 4_000):
        print(f"breaks added one by one {count}: {threading(breaks(count), 1, 'add-threads'):.0f} ms")
    print("over a bound:", ", ".join(failed) if failed else "none")
    return 1 if failed else 0


if __name__ == "__main__":
    sys.exit(main())
