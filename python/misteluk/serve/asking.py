"""What clients in Python ask, in the engine's terms. Most of it is little, and answered on the loop without a thread's help."""
from __future__ import annotations

import json
import re
from typing import Any, Callable, Dict, Iterator, Mapping, Optional, Set

from starlette.requests import Request
from starlette.responses import Response

from . import wire
from .board import Board, Full
from .faults import told_fault
from .flow import CALL, PERSON, Message, Receive, Send, within
from .limits import LITTLE, ServerLimits
from .people import Person
from ..engine.protocol import Denied
from ..errors import StoreError
from ..session import Session
from ..values.names import NameTable

# How many edges are a few that are asked for by their names, or that go out of a vertex; and what asks for these.
FEW, FEW_OUT = 64, 4_096
OF_FEW = ("found", "out_of")
# How many vertices are remembered that have more.
MOST_HUBS = 10_000
# The tables of all edges that are kept as they were told, since each client asks for them, and how many bytes one has at most.
TABLES, MOST_KEPT = ("degrees", "labels", "cores"), 1 << 20
# Where it is asked, and where rows are posted.
ASKED, ASK, ROWS = re.compile(r"/v1/sessions/([^/]+)/ask"), "ask", "/v1/rows"
Ask = Callable[[Request], Any]


class Answers:
    """What held versions answer to clients in Python."""

    def __init__(self, board: Board, names: NameTable) -> None:
        self._board, self._named = board, wire.Named(names)
        # Vertices that had too many edges to be answered here: the library counts them all before it says so.
        self._hubs: Set[str] = set()

    async def turn(self) -> None:
        """Waits for a batch of the feed, which goes first."""
        await self._board.precedence.turn()

    def parts(self, name: str, asked: Mapping[str, Any], person: Person) -> Iterator[bytes]:
        """What a client's version answers, part by part."""
        call = str(asked.get("call"))
        with self._board.lent(name, None, person) as session:
            parts = wire.asked(session._held, call, asked, self._named)
            if call in TABLES and wire.is_of_all(asked) and wire.WIDEST * session.vertex_count <= MOST_KEPT:
                told = b"".join(parts)
                _told_of(session)[call] = told
                parts = iter([told])
            yield from parts

    def at_once(self, name: str, asked: Any, person: Person) -> Optional[bytes]:
        """The answer, where that takes little; else `None`."""
        call = asked.get("call") if isinstance(asked, dict) else None
        if self._board.is_busy or call not in OF_FEW and call not in TABLES:
            return None
        loan = self._board.lend(name, None, person)
        try:
            return self._little(loan[0].session, call, asked)
        finally:
            self._board.take_back(*loan)

    def _little(self, session: "Session[Any, Any]", call: Any, asked: Mapping[str, Any]) -> Optional[bytes]:
        if call == "found":
            ends = asked.get("ends")
            return wire.found(session._held, ends) if isinstance(ends, list) and len(ends) <= FEW else None
        if call == "out_of":
            return self._few(session, asked)
        return _told_of(session).get(call) if wire.is_of_all(asked) else None

    def _few(self, session: "Session[Any, Any]", asked: Mapping[str, Any]) -> Optional[bytes]:
        name = asked.get("name")
        if isinstance(name, str) and name in self._hubs:
            return None
        told = wire.few(session._held, asked, FEW_OUT)
        if told is None and len(self._hubs) < MOST_HUBS:
            self._hubs.add(str(name))
        return told


def _told_of(session: "Session[Any, Any]") -> Dict[str, bytes]:
    """The tables of a version that were told; it lets them go as it is closed."""
    held: Any = session._held
    found: Dict[str, bytes] = held.told
    return found


class Shortcut:
    """Leads what is asked and posted most straight to its answer, and lets Starlette look through its routes for all else."""

    def __init__(self, app: Any, ask: Ask, rows: Ask, answers: Answers, limits: ServerLimits) -> None:
        self._app, self._ask, self._rows, self._answers, self._limits = app, ask, rows, answers, limits

    async def __call__(self, scope: Any, receive: Receive, send: Send) -> None:
        is_post = scope["type"] == "http" and scope["method"] == "POST"
        found = ASKED.fullmatch(scope["path"]) if is_post else None
        if found is not None:
            await self._asked(found[1], scope, receive, send)
        elif is_post and scope["path"] == ROWS:
            answer = await self._rows(Request(scope, receive, send))
            await answer(scope, receive, send)
        else:
            await self._app(scope, receive, send)

    async def _asked(self, session: str, scope: Any, receive: Receive, send: Send) -> None:
        """Answers a question to a client's version."""
        try:
            async with within(self._limits.time, "the request's body doesn't come"):
                first = await receive()
        except Full as fault:
            await told_fault(fault, scope)(scope, receive, send)
            return
        scope[CALL] = ASK
        await self._answers.turn()
        told = self._told(session, first, scope)
        if isinstance(told, bytes):
            length = str(len(told)).encode("ascii")
            headers = [(b"content-length", length), (b"content-type", wire.COLUMNS.encode("ascii"))]
            await send({"type": "http.response.start", "status": 200, "headers": headers})
            await send({"type": "http.response.body", "body": told})
            return
        scope["path_params"] = {"session": session}
        answer = told or await self._ask(Request(scope, _again(first, receive), send))
        await answer(scope, receive, send)

    def _told(self, name: str, first: Message, scope: Any) -> "bytes | Response | None":
        """The answer to a request that came whole, or the fault of it; `None` where it is to go the long way."""
        body = first.get("body", b"")
        if first["type"] != "http.request" or first.get("more_body") or len(body) > min(self._limits.body, LITTLE):
            return None
        try:
            return self._answers.at_once(name, json.loads(body), scope[PERSON])
        except RecursionError:
            return None
        except (StoreError, Denied, ValueError, TypeError) as fault:
            return told_fault(fault, scope)


def _again(first: Message, receive: Receive) -> Receive:
    """A request's messages, whose first one was taken."""
    left = [first]

    async def again() -> Message:
        return left.pop() if left else await receive()
    return again
