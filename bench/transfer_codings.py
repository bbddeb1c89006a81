#!/usr/bin/env python3
"""Times of transfer_codings on 26 MB of clean and of hostile input, beside base64(1) and binascii.

Build the program first, by `tools/build bench`. Then run this file, from
anywhere, with the number of times that each is measured (7 by default). Each figure is the least of those times, in
nanoseconds for each byte of input. 'call' is the call alone, its memory included; 'process' is the whole program, from
its start to its end, with the reading of a file and the writing to /dev/null. 'streamed' is the same of a program that
encodes whole lines as they come, and holds no more than 58,368 bytes of input, as base64(1) holds little.

It ends with status 1 where clean input takes longer than another program takes for the same work, or a hostile shape takes
more than four times as long as clean input.
"""
import base64
import binascii
import os
import random
import subprocess
import sys
import tempfile
import time

SIZE = 26_000_000
HERE = os.path.dirname(os.path.abspath(__file__))
PROGRAM = os.path.join(HERE, "..", "bin", "bench")


def cut(piece):
    return (piece * (SIZE // len(piece) + 1))[:SIZE]


def with_junk(clean, junk):
    text = bytearray(clean)
    for start in range(0, len(text) - 10, 10):
        text[start + random.randrange(10)] = junk
    return bytes(text)


def inputs():
    random.seed(1)
    raw = random.randbytes(SIZE)
    encoded = base64.encodebytes(raw).replace(b"\n", b"\r\n")[: SIZE // 78 * 78]
    words = "lorem ipsum dolor sit amet and the sed do eiusmod tempor ut labore magna aliqua enim minim veniam".split()
    words += ["caf\u00e9", "x=1", "of\r\n"]
    prose = " ".join(random.choice(words) for _ in range(SIZE // 4)).encode()[:SIZE]
    quoted = binascii.b2a_qp(prose.replace(b"\r\n", b"\n")).replace(b"\n", b"\r\n")[:SIZE]
    return {
        "decode-base64": {
            "clean": encoded,
            "one junk in ten": with_junk(encoded, 0x21),
            "all junk": b"!" * SIZE,
            "all =": b"=" * SIZE,
            "all soft breaks": cut(b"=\r\n"),
            "one character a line": cut(b"A\r\n"),
        },
        "decode-quoted": {
            "clean": quoted,
            "one junk in ten": with_junk(quoted, 0x3D),
            "all junk": b"\xff" * SIZE,
            "all =": b"=" * SIZE,
            "all soft breaks": cut(b"=\r\n"),
            "all escapes": cut(b"=3D"),
            "all LF": b"\n" * SIZE,
            "all spaces": b" " * SIZE,
            "= and a space": cut(b"= "),
            "= and a letter": cut(b"a="),
            "a short line": cut(b"abc=\r\n"),
        },
        "encode-base64": {
            "clean": raw,
            "clean, 26 MB of text": raw[: SIZE // 78 * 57],
            "all junk": b"\xff" * SIZE,
            "all =": b"=" * SIZE,
            "all soft breaks": cut(b"=\r\n"),
        },
        "encode-quoted": {
            "clean": prose,
            "one junk in ten": with_junk(prose, 0xFF),
            "all junk": b"\xff" * SIZE,
            "all =": b"=" * SIZE,
            "all soft breaks": cut(b"=\r\n"),
            "all CR LF": cut(b"\r\n"),
            "all CR": b"\r" * SIZE,
        },
    }


def process_seconds(words, path, times):
    best = float("inf")
    for _ in range(times):
        with open(path, "rb") as source:
            start = time.perf_counter()
            subprocess.run(words, stdin=source, stdout=subprocess.DEVNULL, stderr=subprocess.DEVNULL, check=False)
            best = min(best, time.perf_counter() - start)
    return best


def call_seconds(work, path, times):
    with open(path, "rb") as source:
        words = [PROGRAM, work, str(times)]
        done = subprocess.run(words, stdin=source, stdout=subprocess.DEVNULL, stderr=subprocess.PIPE, check=True)
    return min(int(line.split()[0]) for line in done.stderr.splitlines()) / 1e6


def python_seconds(call, data, times):
    best = float("inf")
    for _ in range(times):
        start = time.perf_counter()
        call(data)
        best = min(best, time.perf_counter() - start)
    return best


def others(work, data, path, times):
    """The same work by other programs: what each is called, its seconds, and which of our figures stands beside it."""
    if work == "decode-base64":
        with open(path, "wb") as file:
            file.write(data.replace(b"\r", b""))
        return [
            ("base64 -d, process, lines ended by LF", process_seconds(["base64", "-d"], path, times), "process"),
            ("binascii.a2b_base64, call", python_seconds(binascii.a2b_base64, data, times), "call"),
        ]
    if work == "encode-base64":
        call = python_seconds(binascii.b2a_base64, data, times)
        return [
            ("base64, process", process_seconds(["base64"], path, times), "streamed"),
            ("binascii.b2a_base64, call, one line", call, "call"),
        ]
    call = binascii.a2b_qp if work == "decode-quoted" else binascii.b2a_qp
    return [(f"binascii.{call.__name__}, call", python_seconds(call, data, times), "call")]


def own_seconds(work, path, times):
    """Our seconds for some work: of the call, of the whole program, and where it can be, of the program that streams."""
    seconds = {"call": call_seconds(work, path, times), "process": process_seconds([PROGRAM, work], path, times)}
    if work == "encode-base64":
        seconds["streamed"] = process_seconds([PROGRAM, "stream-base64"], path, times)
    return seconds


def main():
    times = int(sys.argv[1]) if len(sys.argv) > 1 else 7
    missed = []
    with tempfile.TemporaryDirectory() as folder:
        path = os.path.join(folder, "input")
        for work, shapes in inputs().items():
            print(work)
            clean = None
            for shape, data in shapes.items():
                with open(path, "wb") as file:
                    file.write(data)
                own = own_seconds(work, path, times)
                call = own["call"] / len(data)
                clean = clean or call
                figures = "  ".join(f"{name} {seconds / len(data) * 1e9:6.2f}" for name, seconds in own.items())
                print(f"  {shape:22} {figures}  {call / clean:5.2f} times clean")
                if call > 4 * clean:
                    missed.append(f"{work}, {shape}: more than 4 times clean")
                if shape.startswith("clean"):
                    for name, seconds, ours in others(work, data, path, times):
                        print(f"    {name}: {seconds / len(data) * 1e9:.2f}")
                        if own[ours] > seconds:
                            missed.append(f"{work}, {shape}: slower than {name}")
    for line in missed:
        print("MISSED", line)
    sys.exit(1 if missed else 0)


if __name__ == "__main__":
    main()
