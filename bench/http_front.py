#!/usr/bin/env python3
"""Measures http_front on requests, beside Python's http.server and urllib on the same bytes.

Build the program first, by `tools/build bench`. Then run this file, from anywhere, with the number of runs of each measurement (5 by default). A
figure is the least time of those runs. Bounds: a GET of a list with the twelve header fields of a browser is read at least 20 times as fast as
http.server reads its head; a head of 16,000 bytes that comes byte by byte takes at most 1.2 times as long a byte as one of 1,600 bytes; and
a form of 1,000,000 bytes at most 3 times as long as urllib.parse.parse_qsl. The program ends with status 1 if a bound is not met.
"""
import http.server, io, os, subprocess, sys, tempfile, time, urllib.parse

TOP = os.path.dirname(os.path.dirname(os.path.abspath(__file__)))
PROGRAM = os.path.join(TOP, "bin", "bench")
READ_BYTES = 20_000_000

FIELDS = """Host: mail.d.example
User-Agent: Mozilla/5.0 (X11; Linux x86_64; rv:128.0) Gecko/20100101 Firefox/128.0
Accept: text/html,application/xhtml+xml,application/xml;q=0.9,image/avif,image/webp,*/*;q=0.8
Accept-Language: en-US,en;q=0.5
Accept-Encoding: gzip, deflate, br, zstd
DNT: 1
Sec-GPC: 1
Connection: keep-alive
Cookie: theme=dark; wm=0123456789abcdef0123456789abcdef
Upgrade-Insecure-Requests: 1
Sec-Fetch-Dest: document
Sec-Fetch-Site: same-origin"""


def request(line, fields="", body=b""):
    return (line + "\r\n" + "".join(field + "\r\n" for field in fields.splitlines()) + "\r\n").encode() + body


GET = request("GET /list?f=INBOX&p=2 HTTP/1.1", FIELDS)


def long_head(size):
    """A GET with fields of 50 bytes, up to 64 of them, and a last one that fills it up."""
    head = request("GET /identities HTTP/1.1", "\n".join(f"X{number:02}: " + "v" * 20 for number in range(40)))
    return head[:-4] + b"\r\nY: " + b"w" * (size - len(head) - 5) + b"\r\n\r\n"


def form(size):
    """A draft whose text has spaces, escapes and letters."""
    text = urllib.parse.quote_plus("Gr\u00fc\u00dfe, and so on. " * (size // 25))[: size - 200].rstrip("%0123456789ABCDEF")
    body = f"key=k&form=0000000000000001&identity=1&to=b%40d.example&cc=&subject=s&text={text}".encode()
    return request("POST /draft HTTP/1.1", f"Host: d\nContent-Length: {len(body)}", body), body


def ours(data, work, times):
    """The least seconds for one request, which must be read as an ask."""
    with tempfile.NamedTemporaryFile() as file:
        file.write(data)
        file.flush()
        done = subprocess.run([PROGRAM, work, str(times)], stdin=open(file.name, "rb"), capture_output=True, check=True)
    runs = [row.split() for row in done.stderr.decode().splitlines()]
    reads = READ_BYTES // len(data) + 1
    assert all(int(count) == reads for _, count in runs), runs
    return min(int(microseconds) for microseconds, _ in runs) / 1e6 / reads


class Reader(http.server.BaseHTTPRequestHandler):
    """Reads a head without a connection."""

    def __init__(self, data):
        self.rfile = io.BytesIO(data)
        self.wfile = io.BytesIO()
        self.raw_requestline = self.rfile.readline(65537)
        self.client_address = ("127.0.0.1", 1)
        assert self.parse_request()


def theirs(call, count, times):
    """The least seconds for one call."""
    least = float("inf")
    for _ in range(times):
        start = time.process_time()
        for _ in range(count):
            call()
        least = min(least, (time.process_time() - start) / count)
    return least


def main():
    times = int(sys.argv[1]) if len(sys.argv) > 1 else 5
    met = True

    def show(name, figure, bound, holds):
        nonlocal met
        met &= holds
        print(f"{name}: {figure}, bound {bound}{'' if holds else ', NOT MET'}")

    get, python = ours(GET, "asks", times), theirs(lambda: Reader(GET), 2_000, times)
    show("GET of a list", f"{get * 1e6:.2f} us, http.server {python * 1e6:.1f} us, {python / get:.1f} times as fast", "20", python / get >= 20)
    small, large = (ours(long_head(size), "asks-1", times) / size for size in (1_600, 16_000))
    show("a head byte by byte", f"{small * 1e9:.1f} and {large * 1e9:.1f} ns a byte, {large / small:.2f} times", "1.2", large <= 1.2 * small)
    data, body = form(1_000_000)
    posted, python = ours(data, "asks", times), theirs(lambda: urllib.parse.parse_qsl(body.decode(), keep_blank_values=True), 3, times)
    show("a form of 1 MB", f"{posted * 1e3:.2f} ms, parse_qsl {python * 1e3:.2f} ms, {posted / python:.2f} times as long", "3", posted <= 3 * python)
    return 0 if met else 1


if __name__ == "__main__":
    sys.exit(main())
