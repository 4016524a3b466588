"""How a response is read: most have a length and come whole, and are read at once; the others `http.client` reads.

It is here for its gain: a short response takes 6 us so, and 77 by `http.client`, where a question takes some 420. And
`http.client` takes a head that the server's end cut for a whole one, and such a response for one without a body.
"""
from __future__ import annotations

import io
import re
import socket
from functools import lru_cache
from http.client import HTTPResponse, RemoteDisconnected
from typing import Any, Dict, NamedTuple, Optional

# How many bytes are taken at once, and how long a head is at most that is read at once.
AT_ONCE, MOST_HEAD = 1 << 18, 1 << 14
_STATUS = re.compile(rb"HTTP/1\.1 ([2-5]\d\d)(?: .*)?")
BEGIN, _NO_BODY = b"HTTP/1.", (204, 304)


class Response(NamedTuple):
    """A response: its status, its headers by small names, its body, and whether its connection ends with it."""

    status: int
    headers: Dict[str, str]
    body: bytes
    is_last: bool


class Head(NamedTuple):
    """The head of a response: its status, its headers by small names, and how long its body is."""

    status: int
    headers: Dict[str, str]
    length: int


class Begun(io.RawIOBase):
    """A socket of which something was read already, as `HTTPResponse` reads it."""

    def __init__(self, begin: bytes, link: socket.socket) -> None:
        self._begin, self._link = begin, link

    def readable(self) -> bool:
        return True

    def readinto(self, buffer: Any) -> int:
        part, self._begin = self._begin[:len(buffer)], self._begin[len(buffer):]
        if not part:
            return self._link.recv_into(buffer)
        buffer[:len(part)] = part
        return len(part)

    def makefile(self, mode: str) -> io.BufferedReader:
        return io.BufferedReader(self)


def read(link: socket.socket, method: str) -> Response:
    """The response to a request of this method. Raises `HTTPException` where it is none, and `OSError`."""
    data, more = b"", link.recv(AT_ONCE)
    while more and b"\r\n\r\n" not in data + more and _may_go_on(data + more):
        data, more = data + more, link.recv(AT_ONCE)
    if not more:
        raise RemoteDisconnected(f"it ended the connection {'amid' if data else 'without'} a response")
    return _whole(link, data + more) or _any(link, data + more, method)


def _may_go_on(data: bytes) -> bool:
    """Whether these bytes may begin a response whose head is to be read at once."""
    return len(data) < MOST_HEAD and data[:len(BEGIN)] == BEGIN[:len(data)]


def _whole(link: socket.socket, data: bytes) -> Optional[Response]:
    """A response that tells its length. `None` where it may be of another form; then nothing was taken."""
    head, mark, rest = data.partition(b"\r\n\r\n")
    found = _plain(head) if mark and len(head) <= MOST_HEAD else None
    left = -1 if found is None else found.length - len(rest)
    if found is None or left < 0:
        return None
    parts = [rest]
    while left:
        more = link.recv(min(left, AT_ONCE))
        if not more:
            raise RemoteDisconnected("it ended the connection amid a response")
        parts.append(more)
        left -= len(more)
    return Response(found.status, found.headers, b"".join(parts), found.headers.get("connection", "").lower() == "close")


@lru_cache(128)
def _plain(head: bytes) -> Optional[Head]:
    """A head of a response that tells its length; `None` for one of another form. (Most come again and again.)"""
    first, *lines = head.split(b"\r\n")
    status = _STATUS.fullmatch(first)
    headers = {name.decode("latin-1").lower(): value.strip().decode("latin-1")
               for name, _, value in (it.partition(b":") for it in lines)}
    length = headers.get("content-length", "")
    if (status is None or int(status[1]) in _NO_BODY or len(headers) < len(lines) or not length.isdigit()
            or not length.isascii() or "transfer-encoding" in headers):
        return None
    return Head(int(status[1]), headers, int(length))


def _any(link: socket.socket, data: bytes, method: str) -> Response:
    begun: Any = Begun(data, link)
    with HTTPResponse(begun, method=method) as response:
        response.begin()
        body = response.read()
        headers = {name.lower(): value for name, value in response.headers.items()}
        return Response(response.status, headers, body, bool(response.will_close))
