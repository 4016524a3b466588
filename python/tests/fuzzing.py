"""Requests that no client means: made by chance of right ones, each of which a server must answer, and none by a fault."""
from __future__ import annotations

import random
import select
import socket
import sys
from typing import List, Sequence, Tuple

NAMES = ("ana", "funnel", "Иванов", "%", "%00", "%ff", "..", "a b", "*", "~~0123456789abcdefghij", "x" * 300, "", "0", "-1",
         "null", "18446744073709551616", "9999999999999999999", "1e9", "%F0%9F%98%80", "'", '"', "<script>", "\\", "%2e%2e%2f",
         "true", "nan", "2024-03-04")
PATHS = ("", "v1", "v1/stat", "v1/edge", "v1/out_edges", "v1/in_edges", "v1/edges", "v1/levels", "v1/neighborhood",
         "v1/path", "v1/degrees", "v1/weights_in", "v1/components", "v1/cores", "v1/names", "v1/view", "v1/diff", "v1/rate",
         "v1/log", "v1/sessions", "v1/sessions/zed", "v1/sessions/zed/ask", "v1/rows", "v1/feeder", "v1/feeder/zed",
         "v1/feeder/zed/batches/1", "openapi.json", "live.js", "v1/ask", "metrics", "healthz", "readyz",
         "../etc/passwd", "//", f"v1/feeder/zed/batches/{'1' * 5_000}", "v1/feeder/zed/batches/%D9%A1")
FIELDS = ("kind", "source", "target", "vertex", "hops", "since", "until", "top", "by", "like", "session", "version", "beside",
          "most", "directed", "around", "feeder", "from", "to", "after", "zed")
METHODS = ("GET", "GET", "GET", "POST", "POST", "PUT", "DELETE", "HEAD", "PATCH", "OPTIONS", "ZED")
BODIES = ("", "{}", "[]", "null", '{"rows": []}', '{"rows": [["add", "k", "a", "b", 1, 1]]}', '{"call": "cores"}', "\x00",
          '{"call": "found", "ends": 5}', '{"call": "edges", "since": -1}', '{"operations": "a,k,x,y,1,1\\n"}', "add,k,a,b,1,1",
          '{"operations": "commit\\n", "texts": {}}', "[" * 5_000, '{"rows": [["add", "\\ud800", "a", "b"]]}', '{"rows": {}}',
          "add,k,\"a", "expire,99999999999999999999", 
          '{"questions": [{"question": "levels", "source": "ana"}, {"question": "x"}]}',
          '{"questions": [{"question": "cores", "since": "x"}, {"question": {}}, {"question": "names", "like": 5}]}')
HOSTS = ("localhost", "localhost", "127.0.0.1", "127.0.0.1", "evil")
KINDS = ("application/json", "text/csv", "text/html", "", "application/json; charset=utf-16", "multipart/form-data")
# Headers that say who asks, for what, and how: with each of these values, or with none of its own.
ANY = ("", " ", "*", "\x80\xff", "x" * 9_000, "null", ",", ";", "=", '"', "%00", "\t", "[", "]", "://", "\x7f")
ADDRESSES = ("http://[::1", "http://[", "[::1", "[", "//[x]", "http://[::1]:99999", "http://localhost:x", "http://localhost",
             "localhost:99999999999", "http://\xe2\x84\x80", "http://a@[b", "localhost:", ":", "@", "http://[v1.x]")
HEADERS = {"Host": (*ANY, *ADDRESSES), "Origin": (*ANY, *ADDRESSES),
           "Authorization": (*ANY, "Bearer", "Bearer ", "Bearer \xff\xfe", "bearer x y", "Basic !!!", f"Bearer {'x' * 9_000}"),
           "Content-Type": (*ANY, "text/csv; charset=\xff", "TEXT/CSV;;", "application/json; charset", "/", "text/csv,text/csv"),
           "Content-Length": (*ANY, "-1", "+5", "5, 5", "9" * 30, "1" * 5_000, "0x5", "1e3", "5.0", "\xb2"),
           "Accept": (*ANY, "text/html;q=x", "*/*;q=9e999", "/", "application/json" * 400),
           "Misteluk-Server": (*ANY, "zed", "\xd8\x00", "0" * 5_000), "Sec-Fetch-Site": (*ANY, "cross-site", "none"),
           "Last-Event-ID": (*ANY, "zed:1", "x:9999999999999999999"), "Cookie": ANY,
           "Range": (*ANY, "bytes=9-1", "bytes=" + "0-1," * 500), "Expect": (*ANY, "100-continue", "200-ok"),
           "Transfer-Encoding": (*ANY, "chunked", "gzip", "chunked, chunked"),
           "Connection": (*ANY, "upgrade", "close, keep-alive"),
           "Upgrade": (*ANY, "websocket", "h2c"), "If-Modified-Since": ANY, "X-Forwarded-For": (*ANY, *ADDRESSES)}
# A request with one of these may wait for more of it, which doesn't come.
OF_LENGTH = ("Content-Length", "Transfer-Encoding", "Connection", "Expect", "Upgrade")
BROKEN = (b"GET / HTTP/1.1\r\n\r\n", b"\x16\x03\x01\x02\x00", b"GET /v1/stat HTTP/9.9\r\nHost: localhost\r\n\r\n", b"GET\r\n\r\n",
          b"POST /v1/rows HTTP/1.1\r\nHost: localhost\r\nContent-Length: -5\r\n\r\n",
          b"GET " + b"/x" * 40_000 + b" HTTP/1.1\r\n\r\n",
          b"POST /v1/rows HTTP/1.1\r\nHost: localhost\r\nTransfer-Encoding: chunked\r\nContent-Type: text/csv\r\n\r\nzz\r\n",
          b"GET /v1/stat HTTP/1.1\r\nHost: localhost\r\n" + b"X-Y: z\r\n" * 3_000 + b"\r\n")


def request(chance: random.Random, tokens: Sequence[str] = ()) -> bytes:
    """A request as its bytes, with one of these tokens, where there are any."""
    if chance.random() < 0.02:
        return chance.choice(BROKEN)
    path = chance.choice(PATHS)
    if chance.random() < 0.7:
        fields = (f"{chance.choice(FIELDS)}={chance.choice(NAMES)}" for _ in range(chance.randrange(5)))
        path += "?" + "&".join(fields)
    body = chance.choice(BODIES).encode("utf-8", "surrogatepass") if chance.random() < 0.4 else b""
    if body and chance.random() < 0.3:
        at = chance.randrange(len(body))
        body = body[:at] + bytes([chance.randrange(256)]) + body[at + 1:]
    first = f"{chance.choice(METHODS)} /{path} HTTP/1.1".replace(" b", "%20b")
    bearer = [f"Authorization: Bearer {chance.choice(tokens)}".encode("ascii")] if tokens else []
    return b"\r\n".join([first.encode("utf-8"), *bearer, *headers(chance, len(body)), b"", body])


def headers(chance: random.Random, length: int) -> List[bytes]:
    """The headers of a request, of which some are none that a client means."""
    found = {"Host": chance.choice(HOSTS), "Connection": "close", "Content-Type": chance.choice(KINDS),
             "Content-Length": str(length)}
    if chance.random() < 0.3:
        name = chance.choice(list(HEADERS))
        found[name] = chance.choice(HEADERS[name])
    lines = [f"{name}: {it}".encode("latin-1") for name, it in found.items()]
    return lines + ([chance.choice(lines)] if chance.random() < 0.02 else [])


def may_wait(asked: bytes) -> bool:
    """Whether the server may wait for more than this is."""
    lines = dict(it.partition(b": ")[::2] for it in asked.partition(b"\r\n\r\n")[0].split(b"\r\n")[1:])
    return asked in BROKEN or any(lines.get(name.encode()) == it.encode("latin-1") for name in OF_LENGTH for it in HEADERS[name])


def answer(port: int, asked: bytes, seconds: float) -> bytes:
    """What the server says until it closes; none where it takes longer than so many seconds."""
    with socket.create_connection(("127.0.0.1", port), timeout=seconds) as link:
        parts: List[bytes] = []
        try:
            link.sendall(asked)
            if may_wait(asked):
                select.select([link], [], [], 0.2)
                link.shutdown(socket.SHUT_WR)
            while not parts or parts[-1]:
                parts.append(link.recv(1 << 16))
        except TimeoutError:
            return b""
        except OSError:  # (it closed amid what it was sent)
            parts.append(b"closed")
        return b"".join(parts) or b"closed"


def fuzz(port: int, count: int, seed: int, seconds: float = 30.0,
         tokens: Sequence[str] = ()) -> Tuple[List[Tuple[bytes, bytes]], int]:
    """Asks so many requests, and gives those that were answered by a fault or not at all, and how many were answered well."""
    chance, wrong, well = random.Random(seed), [], 0
    for _ in range(count):
        asked = request(chance, tokens)
        told = answer(port, asked, seconds)
        if not told or told.startswith(b"HTTP/1.1 500") or b"Traceback" in told:
            wrong.append((asked, told[:500]))
        well += told.startswith(b"HTTP/1.1 2")
    return wrong, well


if __name__ == "__main__":  # python3 fuzzing.py PORT COUNT SEED [TOKEN ..]: a server that runs elsewhere
    found, right = fuzz(*map(int, sys.argv[1:4]), tokens=sys.argv[4:])
    for it in found[:10]:
        print(*it, sep="\n", end="\n\n")
    print(f"{len(found)} answered by a fault or not at all, {right} answered well")
