"""How a client talks with a server: requests over connections that are kept, of which each thread takes one."""
from __future__ import annotations

import copy
import json
import os
import socket
from collections import deque
from contextlib import suppress
from http.client import HTTPConnection, HTTPException, HTTPSConnection
from typing import Any, Deque, Dict, Mapping, NamedTuple, Optional, Tuple
from urllib.parse import SplitResult, quote, urlsplit

from . import answers
from .limits import RUN
from .server import UNIX
from ..engine.protocol import Denied
from ..errors import TABLE, Misread, NoAnswer, NoServer, StoreError, TooLarge, refusal
from ..feeds.pipes import has_more
from ..values.answers import Stat

JSON = "application/json"


class OfUnix(HTTPConnection):
    """A connection to a Unix socket."""

    def __init__(self, path: str, timeout: float) -> None:
        super().__init__("localhost", timeout=timeout)
        self._path = path

    def connect(self) -> None:
        self.sock = socket.socket(socket.AF_UNIX, socket.SOCK_STREAM)
        self.sock.settimeout(self.timeout)
        self.sock.connect(self._path)


class Told(NamedTuple):
    """What a server answered."""

    status: int
    media: str
    body: bytes
    retry_after: str = ""

    def json(self) -> Dict[str, Any]:
        try:
            found = json.loads(self.body) if self.body else {}
        except ValueError:
            found = None
        if not isinstance(found, dict):
            raise Misread("what answers there is no server of a store")
        return found


class Talk:
    """Requests to one server. `url` is `http://HOST:PORT`, `https://..`, each with a path before that of each call, or
    `unix:PATH`."""

    def __init__(self, url: str, token: Optional[str] = None, timeout: float = 60.0) -> None:
        self.url, self.timeout = url, timeout
        parts = urlsplit(url)
        if not (url.startswith(UNIX) and parts.path or parts.scheme in ("http", "https") and parts.hostname):
            raise ValueError(f"a server's address is http://HOST:PORT or unix:PATH, and not {url!r}")
        if parts.scheme in ("http", "https") and (parts.query or parts.fragment):
            raise ValueError(f"a server's address has no ? and no #, as {url!r} has")
        self._parts = parts
        # What stands before each call's path.
        self._begin = quote(parts.path.rstrip("/"), safe="/%:@!$&'()*+,;=~") if parts.hostname else ""
        token = token or os.environ.get("MISTELUK_TOKEN")
        if token and not (token.isprintable() and token.isascii()):
            raise ValueError("a token has printable ASCII signs alone")
        # What each request says.
        self._headers = "\r\n".join([f"Host: {_host_of(parts)}", "Accept-Encoding: identity",
                                     *([f"Authorization: Bearer {token}"] if token else [])])
        # Which run of the server this client knows, and how long a request's body may be at most, as that told.
        self.run, self.most_body = "", 1 << 30
        self._idle: Deque[HTTPConnection] = deque()
        self._process = os.getpid()

    def _connection(self) -> Tuple[HTTPConnection, bool]:
        """A connection, and whether it was used before. One that the server closed meanwhile isn't."""
        if os.getpid() != self._process:
            self._idle, self._process = deque(), os.getpid()
        while self._idle:
            try:
                found = self._idle.pop()
            except IndexError:  # (another thread took it)
                break
            if found.sock is not None and not has_more(found.sock.fileno(), 0):
                return found, True
            found.close()
        if self.url.startswith(UNIX):
            return OfUnix(self.url[len(UNIX):], self.timeout), False
        kind = HTTPSConnection if self._parts.scheme == "https" else HTTPConnection
        return kind(self._parts.hostname or "", self._parts.port, timeout=self.timeout), False

    def ask(self, method: str, path: str, body: Optional[Mapping[str, Any]] = None, was_sent: bool = False) -> Told:
        """What a request gives. A connection that the server closes meanwhile is made anew once: no call does harm that is made
        twice."""
        request = self._request(method, path, body)
        connection, is_old = self._connection()
        try:
            if connection.sock is None:
                connection.connect()
            was_sent = True
            return self._on(connection, method, request)
        except (ConnectionError, HTTPException) as fault:
            connection.close()
            if not is_old:
                raise self._gone(fault, was_sent) from fault
            self.close()
            return self.ask(method, path, body, was_sent)
        except socket.timeout as fault:
            connection.close()
            raise NoAnswer(f"{self.url} was silent for {self.timeout:g} s") from fault
        except OSError as fault:
            connection.close()
            raise self._gone(fault, was_sent) from fault
        except BaseException:
            connection.close()
            raise

    def _gone(self, fault: Exception, was_sent: bool) -> NoServer:
        found = NoServer(f"{self.url} doesn't answer: {str(fault) or type(fault).__name__}")
        found.is_sent = was_sent
        return found

    def _on(self, connection: HTTPConnection, method: str, request: bytes) -> Told:
        link: Any = connection.sock
        link.sendall(request)
        status, headers, whole, is_last = answers.read(link, method)
        if is_last:
            connection.close()
        self.run = headers.get(RUN, "")
        media = headers.get("content-type", "").partition(";")[0].strip().lower()
        self._idle.append(connection)
        return Told(status, media, whole, headers.get("retry-after", ""))

    def _request(self, method: str, path: str, body: Optional[Mapping[str, Any]]) -> bytes:
        """A request, in one piece, so that the server wakes once for it. Raises `TooLarge` where it takes none so long."""
        given = b"" if body is None else json.dumps(body).encode("ascii")
        if len(given) > self.most_body:
            raise TooLarge(f"a request of {len(given):,} bytes, and the server takes {self.most_body:,}")
        run = f"\r\n{RUN}: {self.run}" if self.run else ""
        media = "" if body is None else f"\r\nContent-Type: {JSON}"
        head = f"{method} {self._begin}{path} HTTP/1.1\r\n{self._headers}{run}{media}\r\nContent-Length: {len(given)}\r\n\r\n"
        return head.encode("latin-1") + given

    def call(self, method: str, path: str, body: Optional[Mapping[str, Any]] = None) -> Told:
        """What a request gives; a fault that the server tells is raised."""
        told = self.ask(method, path, body)
        if told.status >= 400:
            raise fault_of(told)
        return told

    def apart(self) -> "Talk":
        """The same with connections of its own."""
        found = copy.copy(self)
        found._idle = deque()
        return found

    def close(self) -> None:
        with suppress(IndexError):  # (another thread may take the last one)
            while True:
                self._idle.pop().close()


def _host_of(parts: SplitResult) -> str:
    """What a request names as its host."""
    host = parts.hostname or "localhost"
    name = f"[{host}]" if ":" in host else host if host.isascii() else host.encode("idna").decode("ascii")
    return name if parts.port is None else f"{name}:{parts.port}"


def part(name: str) -> str:
    """A name as a part of a path."""
    return quote(name, safe="")


def _stat(found: Mapping[str, int]) -> Stat:
    return Stat(found["version"], found["names"], found["edges"], found["free"], found["retired"], found["used"])


def fault_of(told: Told) -> Exception:
    """What is raised for a fault that the server told."""
    if told.media != JSON:
        return NoServer(f"the server is busy, or there is another one: status {told.status}")
    found = told.json()
    word, reason = str(found.get("error", "")), str(found.get("reason", ""))
    if found.get("denied"):
        return Denied(word, stat=_stat(found["stat"]) if "stat" in found else None)
    again = f"; ask again in {told.retry_after} s" if told.retry_after else ""
    if word in ("NoSeat", "NotAllowed", "Busy", "SessionClosed", "NoMemory", "TooLong"):
        kind: Any = NoAnswer if word == "TooLong" else TABLE[word].error
        fault: Exception = kind(f"{reason}{again}")
        return fault
    if told.status == 400 and word == "BadRequest":
        return ValueError(reason)
    return refusal(word, reason) if told.status in (400, 404, 409, 413) else StoreError(f"{word}: {reason}{again}")
