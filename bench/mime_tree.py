#!/usr/bin/env python3
"""Compares mime_tree with its definition on malformed messages, and times it beside Python's email parser.

Build the program first, by `tools/build bench`. Then run this file, from anywhere, with the number of
times that each is measured (5 by default). First come the malformed messages and 3,000 random ones: the program must
print what plain_mime_tree.py prints, which reads the definition as plainly as it can. Then come the times: each figure is
the least of the measured times in milliseconds, of the call alone. Python's parser reads bytes that are in memory, as the program
does. The program's figure on ten attachments is to be a twentieth of the parser's at most.
"""
import base64
import email
import os
import random
import subprocess
import sys
import time

import plain_mime_tree

HERE = os.path.dirname(os.path.abspath(__file__))
PROGRAM = os.path.join(HERE, "..", "bin", "bench")
SIZE = 26_000_000


def multi(boundary, *parts, kind="mixed", end=True, break_="\n"):
    text = f"Content-Type: multipart/{kind}; boundary=\"{boundary}\"\n\n"
    text += "".join(f"--{boundary}\n{part}\n" for part in parts) + (f"--{boundary}--\n" if end else "")
    return text.replace("\n", break_)


def nested(depth):
    """So many multiparts, each in the one before."""
    head = "".join(f"Content-Type: multipart/mixed; boundary=b{i}\n\n--b{i}\n" for i in range(depth))
    return head + "\nx\n" + "".join(f"--b{i}--\n" for i in reversed(range(depth)))


def malformed():
    page = "Content-Type: text/html\n\n<p>"
    yield from [
        "", "\n", "x", "\n\n", "Subject: a", "Subject: a\n\nbody", " x\n\n--a",
        "Content-Type: multipart/mixed\n\n--a\n\nx\n",
        "Content-Type: multipart/mixed; boundary=\n\n--\n\nx\n----\n",
        "Content-Type: multipart/mixed; boundary=\"\"\n\n--\n\nx\n",
        "Content-Type: multipart/mixed; boundary=a; boundary=b\n\n--b\n\nx\n--a\n\ny\n",
        "Content-Type: multipart/mixed; boundary=\"a; boundary=b\n\n--a\n\nx\n",
        "Content-Type: multipart/mixed; boundary=\"a;b\"\n\n--a;b\n\nx\n--a;b--\n",
        "Content-Type: multipart/mixed; boundary=\"a\\\"b\"\n\n--a\"b\n\nx\n",
        "Content-Type: multipart/mixed; boundary='a'\n\n--'a'\n\nx\n--a\n\ny\n",
        "Content-Type: multipart/mixed; boundary=a (b)\n\n--a (b)\n\nx\n",
        "Content-Type: multipart/mixed;\n boundary=\"a\n  b\"\n\n--a b\n\nx\n",
        "Content-Type: multipart/mixed; boundary\n =a\n\n--a\n\nx\n",
        "Content-Type : multipart/mixed; boundary=a\n\n--a\n\nx\n",
        "Content-Type: multipart/mixed, boundary=a\n\n--a\n\nx\n",
        "Content-Type: multipart; boundary=a\n\n--a\n\nx\n",
        "Content-Type: text\nContent-Type: text/html\n\nx",
        "Content-Type: text/html\nContent-Type: multipart/mixed; boundary=a\n\n--a\n\nx\n",
        multi("a"), multi("a", "\nx", end=False), multi("a", "x", "y: z", "", "\n", "\n\n"),
        multi("a", "\nx", "\ny", break_="\r\n"), multi("a", "\r\nx\r", "\ny\r\n").replace("--a\n", "--a\r\n", 2),
        multi("a", "\nx") + "epilogue\n--a\n\ny\n", "pre: x\n" + multi("a", "\nx").replace("\n\n--a", "\n\npreamble\n--a", 1),
        multi("a", "\nx").replace("--a\n", "--a \t\n").replace("--a--", "--a-- \t"),
        multi("a", "\nx").replace("--a\n", "--ab\n"), multi("a", "\nx\n --a\n--a x\n--a-\n---a\n--A"),
        multi("a--", "\nx\n--a--x"), multi("a--", "\nx") + "--a--\n", multi("a ", "\nx"), multi("a\t", "\nx\n--a"),
        multi("o", multi("oo", "\nx", "\ny"), "\nz"), multi("oo", multi("o", "\nx", "\ny"), "\nz"),
        multi("o", multi("o--", "\nx"), "\nz"), multi("o", multi("o", "\nx"), "\nz"),
        multi("o", multi("i", "\nx", end=False), "\nz"), multi("o", multi("i", "\nx\n--o", "\ny"), "\nz"),
        multi("o", "Content-Type: multipart/mixed; boundary=i\n\n--i\n--o\n\nx\n--i\n\ny"),
        multi("d", "\nSubject: a\n\nx", "Content-Type: text/plain\n\ny", kind="digest"),
        multi("d", multi("e", "\nx", kind="digest"), kind="digest"), multi("d", "", "\n", kind="digest"),
        "Content-Type: message/rfc822\n\nContent-Type: message/rfc822\n\n" + multi("a", "\nx"),
        "Content-Type: message/rfc822\n\n" + page, "Content-Type: message/rfc822\n", "Content-Type: message/partial\n\nx",
        "Content-Type: Message/RFC822\nContent-Transfer-Encoding: base64\n\nSubject: a\n\nx",
        multi("a", "Content-Type: message/rfc822\n\n" + multi("b", "\nx", "\ny"), "\nz"),
        "Content-Transfer-Encoding: x-uu\n\nx", "Content-Transfer-Encoding: BASE64\n\neA==",
        "Content-Transfer-Encoding:\n\nx", "Content-Transfer-Encoding: x\n" + multi("a", "\nx"),
        multi("a", "\nx", page, kind="alternative"), multi("a", page, "\nx", kind="alternative"),
        multi("a", multi("b", "\n1", "\n2", kind="alternative"), multi("c", "\n3", "\n4", kind="alternative"), kind="alternative"),
        multi("a", "\n0", multi("b", "\n1", "\n2"), kind="alternative"),
        multi("a", multi("b", "\n1", "\n2"), "Content-Type: x/y\n\n0", kind="alternative"),
        multi("a", "\nx", "Content-Type: text/html; charset=x\n\ny", kind="alternative"),
        multi("a", "Content-Disposition: attachment\n\nx", page), "Content-Type: text/plain; charset=koi8-r\n\nx",
        multi("a", "Content-Type: text/plain; charset=\"\"\n\nx", "Content-Type: text/html; charset=x\n\ny"),
        "Content-Type: TEXT/Plain; FORMAT=flowed; DelSp=\"YES\"\n\nx", "Content-Type: text/plain; format=flowed\n\nx",
        "Content-Disposition: inline; filename=\"a;b\\\"c\"; filename=d\nContent-Type: text/plain; name=e\n\nx",
        "Content-Type: image/png; name=\"caf\u00e9\"\n\nx", "Content-Type: text/html;;;= ; =x;charset\n\nx",
        nested(31), nested(32), nested(33), nested(34), nested(60),
        multi("a", *["\nx"] * 998), multi("a", *["\nx"] * 1000), multi("a", *["\nx"] * 1001),
        multi("a", multi("b", *["\nx"] * 400), multi("c", *["\ny"] * 700), "\nz"),
        "Content-Type: message/rfc822\n\n" * 40 + "\nx",
    ]


def random_messages(count):
    """Messages put together from what matters to a reader of multiparts."""
    random.seed(7)
    words = ["--a", "--b", "--a--", "--b--", "--ab", "--", "x", "", " y", "--a \t", "--b-- ", "Content-Type: text/html"]
    words += [f"Content-Type: multipart/{k}; boundary={b}" for k in ("mixed", "digest", "alternative") for b in ("a", "b", "ab")]
    words += ["Content-Type: message/rfc822", "Content-Transfer-Encoding: base64", "Content-Disposition: attachment;filename=q"]
    words += ["Content-Type: text/plain; charset=x", "Content-Type: text/plain; format=flowed"]
    for _ in range(count):
        lines = [random.choice(words) for _ in range(random.randrange(40))]
        yield "".join(line + random.choice(["\n", "\n", "\n", "\r\n", "\n\n", "\r\r\n", ""]) for line in lines)


def run(message, times=0):
    done = subprocess.run([PROGRAM, "tree", str(times)], input=message, capture_output=True, check=True)
    return done.stdout, [int(row.split()[0]) for row in done.stderr.split(b"\n") if row]


def compare():
    messages = list(malformed())
    count = len(messages)
    for message in messages + list(random_messages(3000)):
        raw = message.encode()
        want = plain_mime_tree.list_parts(raw).encode()
        got, _ = run(raw)
        if got != want:
            sys.exit(f"differs on {message!r}\nprogram:\n{got.decode()}\ndefinition:\n{want.decode()}")
    print(f"{count} malformed and 3000 random messages: the same trees")


def attachments():
    random.seed(1)
    files = [base64.encodebytes(random.randbytes(1_480_000)).decode() for _ in range(10)]
    heads = [f"Content-Type: application/pdf; name=\"{i}.pdf\"\nContent-Transfer-Encoding: base64\n\n{text}" for i, text in enumerate(files)]
    return multi("=_boundary", "\nhello", *heads, break_="\r\n").encode()


def hostile():
    start = b"Content-Type: multipart/mixed; boundary=x\n\n"
    head = "".join(f"Content-Type: multipart/mixed; boundary=b{i}\n\n--b{i}\n" for i in range(32)).encode()
    long = "a-boundary-of-many-bytes-"
    alike = "".join(f"Content-Type: multipart/mixed; boundary={long}{i}\n\n--{long}{i}\n" for i in range(32)).encode()
    yield "--x lines", start + b"--x\n" * (SIZE // 4)
    yield "--y lines", start + b"--y\n" * (SIZE // 4)
    yield "one-byte parts", start + b"--x\n\ny\n" * (SIZE // 7)
    yield "LF alone", start + b"\n" * SIZE
    yield "32 nested boundaries", head + b"\n" + b"--y\n" * (SIZE // 4)
    yield "32 nested boundaries, alike", alike + b"\n" + f"--{long}\n".encode() * (SIZE // 28)
    deep = "".join(f"Content-Type: multipart/mixed; boundary=b{i}\n\n--b{i}\n" for i in range(33)).encode() + b"\n"
    for name, line in (("LF", b"\n"), ("CR LF", b"\r\n"), ("-- and LF", b"--\n"), ("ten characters", b"123456789\n")):
        yield f"33 nested, lines of {name}", deep + line * (SIZE // len(line))
    yield "1,000,000 parameters", b"Content-Type: text/plain" + b"; a=\"b\"" * 1_000_000 + b"\n\nx"
    yield "one open quoted string", b"Content-Type: text/plain; a=\"" + b"\\\";" * (SIZE // 3) + b"\n\nx"
    yield "fields without a name", b"a:\n" * (SIZE // 3)
    yield "folds", b"Content-Type: text/plain;\n" + b" \n" * (SIZE // 2) + b" charset=x\n\nx"


def least(times, call):
    found = []
    for _ in range(times):
        start = time.perf_counter()
        call()
        found.append((time.perf_counter() - start) * 1000)
    return min(found)


def main():
    times = int(sys.argv[1]) if len(sys.argv) > 1 else 5
    compare()
    message = attachments()
    ours = min(run(message, times)[1]) / 1000
    theirs = least(max(1, times // 2), lambda: email.message_from_bytes(message))
    print(f"ten attachments, {len(message)} bytes: {ours:.2f} ms, email parser {theirs:.0f} ms, {theirs / ours:.0f} times")
    for name, message in hostile():
        ours = min(run(message, max(1, times // 2))[1]) / 1000
        print(f"{name}, {len(message)} bytes: {ours:.2f} ms")


if __name__ == "__main__":
    main()
