"""Who gets in: people by their tokens, or who is at this machine; and what each response says to a browser."""
from __future__ import annotations

from functools import lru_cache
from time import perf_counter
from typing import Any, Awaitable, Callable, Dict, Iterable, NamedTuple, Optional, Tuple, Union
from urllib.parse import urlsplit

from starlette.responses import Response

from . import log, wire
from .board import Full
from .door import Door
from .flow import CALL, PERSON, WORD, Message, Receive, Send, as_json
from .limits import LOOPBACK, RUN
from .metrics import Counts
from .page import FILES
from .people import EVERYONE, NOBODY, People, Person

App = Callable[[Any, Receive, Send], Awaitable[None]]
# What has no data, so that a browser can ask for the token by it, and who watches the server needs none.
OPEN = (*FILES, "/openapi.json", "/healthz", "/readyz")
# Which statuses say that a request was refused that may be right another time, or from another one.
REFUSED, OF_HEALTH = (401, 403, 409, 413, 503), ("healthz", "readyz")
HEADERS = [(b"x-content-type-options", b"nosniff"), (b"cache-control", b"no-store"), (b"referrer-policy", b"no-referrer"),
           (b"cross-origin-resource-policy", b"same-origin")]
# The headers of a request that say who asks.
OF_RUN = RUN.encode("ascii")
LOOKED_AT = {b"host", b"origin", b"sec-fetch-site", b"authorization", OF_RUN}


class Run(NamedTuple):
    """One run of a server: its name, which no other one has, and what it began with."""

    name: str
    began: str = "without an edge"


class Gate:
    """Lets requests in to the app that may ask, and notes who asks. Where the server has no people a request must be for this
    machine by its `Host`, so that no name of another one leads here, unless it comes by a Unix socket (`is_local`). None is let
    in from a page of another origin.

    Each response has the name of the server's run. A client that says another one knew the server before this one: it is told
    so, and nothing is done for it."""

    def __init__(self, app: App, people: People, is_local: bool, run: Run, door: Door, counts: Counts) -> None:
        self._app, self.people, self._is_local, self._run, self._door = app, people, is_local, run, door
        self.counts = counts
        self.headers = [*HEADERS, (OF_RUN, run.name.encode("ascii"))]

    async def __call__(self, scope: Any, receive: Receive, send: Send) -> None:
        if scope["type"] == "websocket":
            await send({"type": "websocket.close", "code": 1003})
            return
        if scope["type"] != "http":
            await self._app(scope, receive, send)
            return
        status, began = 0, perf_counter()

        async def send_on(message: Message) -> None:
            nonlocal status
            if message["type"] == "http.response.start":
                status = message["status"]
                message = {**message, "headers": [*message.get("headers", []), *self.headers]}
            await send(message)
        try:
            asks = self.asks(scope["path"], scope["headers"])
            if isinstance(asks, Person):
                scope[PERSON] = asks
                if asks is not NOBODY:
                    self._door.let_in(_transport_of(send))
            await (self._app if isinstance(asks, Person) else asks)(scope, receive, send_on)
        except Exception as fault:  # (a client is told nothing of it)
            if status and isinstance(fault, Full):  # (one that doesn't take its answer is no fault of the server's)
                _cut(send)
                return
            log.fault(f"{scope.get(CALL, 'a request')} has a fault", fault)
            if status:
                raise
            told = wire.fault("Fault", "the server has a fault, and its log tells which")
            await as_json(told, 500)(scope, receive, send_on)
        finally:
            self._note(scope, status, perf_counter() - began)

    def _note(self, scope: Any, status: int, seconds: float) -> None:
        """Counts a request that was answered, and logs one that was refused."""
        call = scope.get(CALL, "none")
        self.counts.answered(call, status, seconds)
        if status in REFUSED and call not in OF_HEALTH:
            word = scope.get(WORD, "NotAllowed")
            self.counts.refuse(word)
            peer, *_ = scope.get("client") or ("",)
            log.note("refused", who=scope.get(PERSON, NOBODY).name, peer=peer, call=call, status=status, error=word)

    def asks(self, path: str, given: Iterable[Tuple[bytes, bytes]]) -> Union[Person, Response]:
        """Who asks for a path with these headers; or what is told, where that one isn't let in."""
        headers = {name: value.decode("latin-1") for name, value in given if name in LOOKED_AT}
        found, known = self._person(path, headers), headers.get(OF_RUN)
        if isinstance(found, Person) and known and known != self._run.name:
            return as_json(wire.fault("SessionClosed", f"this server began anew, {self._run.began}"), 410)
        return found

    def _person(self, path: str, headers: Dict[bytes, str]) -> Union[Person, Response]:
        """The same, whichever server the client knows."""
        host, origin = headers.get(b"host", ""), headers.get(b"origin")
        is_elsewhere = headers.get(b"sec-fetch-site") in ("cross-site", "same-site") and path not in OPEN
        if is_elsewhere or origin and _place_of(origin) != host:
            return as_json(wire.fault("NotAllowed", "a page of another origin can't ask this server"), 403)
        if not self.people.are_any:
            if not self._is_local and _name_of(host) not in LOOPBACK:
                return as_json(wire.fault("NotAllowed", "this server is for its own machine, as localhost"), 403)
            return EVERYONE
        if path in OPEN:
            return NOBODY
        way, _, given = headers.get(b"authorization", "").partition(" ")
        found = self.people.known(given.strip()) if way.casefold() == "bearer" else None
        reason = "the header `Authorization: Bearer TOKEN` has to have a token that this server knows"
        return found or as_json(wire.fault("NotAllowed", reason), 401, {"www-authenticate": "Bearer"})


@lru_cache(256)
def _name_of(host: str) -> str:
    """The name of a `Host`, without its port."""
    try:
        return urlsplit(f"//{host}").hostname or ""
    except ValueError:
        return ""


@lru_cache(256)
def _place_of(origin: str) -> Optional[str]:
    """The host and port of an `Origin`; `None` where it is none."""
    try:
        return urlsplit(origin).netloc
    except ValueError:
        return None


def _transport_of(send: Send) -> Any:
    """The transport of a connection. (ASGI has no call for this, so it is asked of what uvicorn sends by.)"""
    return getattr(getattr(send, "__self__", None), "transport", None)


def _cut(send: Send) -> None:
    """Ends the connection at once. (A `close` of it waits until its reader has taken what is written, which may be never.)"""
    transport = _transport_of(send)
    if transport is not None:
        transport.abort()
