#!/usr/bin/env python3
"""Measures pages of a long mailbox, and the draft that answers a long message.

Build the program first, by `tools/build draw_pages`. Then run this file, from anywhere, with the number of runs of each measurement (5 by default). A
figure is the least processor time of those runs. A page's time is what 400 more drawings of it take, divided by 400, so that making the
rows doesn't count. Bounds: the first page of a list of 50,000 messages takes at most 1.2 times as long as that of 100, the last page too, and the first page of
threads too; a reply to a message of 25,000,000 bytes takes at most 12 times as long as one to a tenth of it. The program ends with status 1 if a bound is not
met.
"""
import os, resource, subprocess, sys, tempfile

TOP = os.path.dirname(os.path.dirname(os.path.abspath(__file__)))
PROGRAM = os.path.join(TOP, "bin", "draw_pages")
MORE = 400


def seconds(words, data, times):
    """The least processor seconds of a run."""
    least = float("inf")
    for _ in range(times):
        with tempfile.TemporaryFile() as file:
            file.write(data)
            file.seek(0)
            before = resource.getrusage(resource.RUSAGE_CHILDREN)
            subprocess.run([PROGRAM, *map(str, words)], stdin=file, stdout=subprocess.DEVNULL, check=True)
            after = resource.getrusage(resource.RUSAGE_CHILDREN)
        least = min(least, after.ru_utime + after.ru_stime - before.ru_utime - before.ru_stime)
    return least


def page(kind, rows, number, times):
    """The seconds of one drawing of a page."""
    return (seconds((kind, rows, MORE + 1, number), b"", times) - seconds((kind, rows, 1, number), b"", times)) / MORE


def message(size):
    """A message of plain text."""
    line = b"Soup is at six, and on Thursday the string quartet plays.\r\n"
    return b"From: Ann <ann@c.example>\r\nSubject: s\r\nMessage-ID: <b@y>\r\n\r\n" + line * (size // len(line))


def main():
    times = int(sys.argv[1]) if len(sys.argv) > 1 else 5
    met = True

    def show(name, small, large, bound):
        nonlocal met
        holds = large <= bound * small
        met &= holds
        print(f"{name}: {small * 1e3:.3f} and {large * 1e3:.3f} ms, {large / small:.2f} times, bound {bound}{'' if holds else ', NOT MET'}")

    show("first page of a list", page("repeat-list", 100, 1, times), page("repeat-list", 50_000, 1, times), 1.2)
    show("last page of a list", page("repeat-list", 100, 2, times), page("repeat-list", 50_000, 1_000, times), 1.2)
    show("first page of threads", page("repeat-threads", 100, 1, times), page("repeat-threads", 50_000, 1, times), 1.2)
    show("a reply", seconds(("reply",), message(2_500_000), times), seconds(("reply",), message(25_000_000), times), 12)
    return 0 if met else 1


if __name__ == "__main__":
    sys.exit(main())
