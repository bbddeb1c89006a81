#!/usr/bin/env python3
"""Measures putting and getting the send state of a form in the file of an account, beside SQLite's shell.

Build the program first, by `tools/build keep_records`; the shell is Debian's sqlite3. Then run this file, from anywhere, with the number of runs of each
measurement (5 by default). The keeper opens the file in each call, checks the version of its tables, runs its statement and closes the file; the shell
does the same statements, with `.open` before each and the same journal and synchronous. A figure is what PAIRS more pairs of a put and a get take, divided by
PAIRS, as the least of the runs: milliseconds that passed, and of the processors. Bound: a pair of the keeper takes at most 3 times as long as one of the
shell, on a file of 10 forms and on one of 10,000. The program ends with status 1 if a bound is not met.
"""
import os, resource, shutil, sqlite3, subprocess, sys, tempfile, time

TOP = os.path.dirname(os.path.dirname(os.path.abspath(__file__)))
PROGRAM = os.path.join(TOP, "bin", "keep_records")
PAIRS = 50
BOUND = 3

TABLES = """
CREATE TABLE meta (id INTEGER PRIMARY KEY CHECK (id = 1), version INTEGER NOT NULL) STRICT;
CREATE TABLE identities (number INTEGER PRIMARY KEY, name TEXT NOT NULL, address TEXT NOT NULL) STRICT;
CREATE TABLE sends (form TEXT PRIMARY KEY, state INTEGER NOT NULL CHECK (state >= 1 AND state <= 3)) STRICT;
INSERT INTO meta VALUES (1, 1);
"""


def seconds(command, text, folder, pairs):
    """The seconds that passed, and the processor seconds, of a run in which each pair has an answer."""
    before, start = resource.getrusage(resource.RUSAGE_CHILDREN), time.monotonic()
    done = subprocess.run(command, input=text.encode(), cwd=folder, stdout=subprocess.PIPE, check=True)
    took, after = time.monotonic() - start, resource.getrusage(resource.RUSAGE_CHILDREN)
    if b"failed" in done.stdout or done.stdout.count(b"\n") < 2 * pairs:
        sys.exit(f"a call failed: {done.stdout[:200]!r}")
    return took, after.ru_utime + after.ru_stime - before.ru_utime - before.ru_stime


def keeper_calls(pairs):
    return "adopt a\n" + "".join(f"set {form} started\nstate {form}\n" for form in range(pairs))


def shell_calls(pairs):
    begin = ".open 61.db\nPRAGMA journal_mode = wal;\nPRAGMA synchronous = 2;\nSELECT version FROM meta WHERE id = 1;\n"
    lines = [begin]
    for form in range(pairs):
        lines.append(f"{begin}INSERT INTO sends (form, state) VALUES ('{form:016x}', 1) ON CONFLICT (form) DO UPDATE SET state = excluded.state;\n")
        lines.append(f"{begin}SELECT state FROM sends WHERE form = '{form:016x}';\n")
    return "".join(lines)


def pair(command, calls, forms, times):
    """The least seconds of one pair, on a file of so many forms."""
    least = {}
    for pairs in 0, PAIRS:
        for _ in range(times):
            folder = tempfile.mkdtemp(prefix="hollpaten-bench-")
            base = sqlite3.connect(os.path.join(folder, "61.db"))
            base.executescript(TABLES)
            base.executemany("INSERT INTO sends VALUES (?, 2)", [(f"{10**9 + form:016x}",) for form in range(forms)])
            base.commit()
            base.close()
            took = seconds(command, calls(pairs), folder, pairs)
            shutil.rmtree(folder)
            least[pairs] = tuple(map(min, took, least.get(pairs, took)))
    return [(more - none) / PAIRS for more, none in zip(least[PAIRS], least[0])]


def main():
    times = int(sys.argv[1]) if len(sys.argv) > 1 else 5
    met = True
    for forms in 10, 10_000:
        ours = pair([PROGRAM, "."], keeper_calls, forms, times)
        shell = pair(["sqlite3", "-batch"], shell_calls, forms, times)
        holds = ours[0] <= BOUND * shell[0]
        met &= holds
        print(f"a put and a get, {forms} forms: {ours[0] * 1e3:.2f} ms, shell {shell[0] * 1e3:.2f} ms, {ours[0] / shell[0]:.2f} times, bound {BOUND}{'' if holds else ', NOT MET'}; processors {ours[1] * 1e3:.2f} and {shell[1] * 1e3:.2f} ms")
    return 0 if met else 1


if __name__ == "__main__":
    sys.exit(main())
