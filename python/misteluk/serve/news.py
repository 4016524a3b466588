"""Those who await what comes next: a version above one that they know, or each version as an event."""
from __future__ import annotations

import asyncio
import json
from typing import Any, Awaitable, Callable, Dict, Optional, Set, Tuple

from .board import Board
from .flow import Receive, Send, Streamed, within
from .limits import ServerLimits

# For how many seconds at most a request waits for a version, and after how many of silence a stream says that it goes on.
LONGEST, SILENCE = 25.0, 15.0
# How many seconds are between two events at least: what came in meanwhile is one.
PAUSE = 0.1
EVENTS = "text/event-stream"
# An event: its id, and what it tells.
Told = Tuple[str, Dict[str, Any]]


class Bell:
    """Wakes those on the event loop who await a version. Any thread rings it."""

    def __init__(self) -> None:
        self._waiting: "Set[asyncio.Future[None]]" = set()
        self._loop: Optional[asyncio.AbstractEventLoop] = None
        self.is_over = False

    def ring(self) -> None:
        if self._waiting and self._loop is not None and not self._loop.is_closed():
            self._loop.call_soon_threadsafe(self._wake)

    def _wake(self) -> None:
        while self._waiting:
            it = self._waiting.pop()
            if not it.done():
                it.set_result(None)

    def close(self) -> None:
        """From here on nobody waits."""
        self.is_over = True
        self.ring()

    async def until(self, is_there: Callable[[], bool], seconds: float, gone: "Optional[asyncio.Future[None]]" = None) -> None:
        """Waits until that is so, it is over, who waits is gone, or so many seconds have passed."""
        self._loop = loop = asyncio.get_running_loop()
        end = loop.time() + seconds
        while loop.time() < end and not (gone is not None and gone.done()):
            rung: "asyncio.Future[None]" = loop.create_future()
            self._waiting.add(rung)  # (before it is looked: else a version could come between)
            try:
                if is_there() or self.is_over:
                    return
                await asyncio.wait({rung, *([] if gone is None else [gone])}, timeout=end - loop.time(),
                                   return_when=asyncio.FIRST_COMPLETED)
            finally:
                self._waiting.discard(rung)


class Events:
    """A stream of events: one for the last version, and then one for each that takes its place, if its reader keeps up. `known`
    is the version that the reader knows, by `Last-Event-ID`; what is told of a later one, and by which id, `told` gives."""

    def __init__(self, bell: Bell, board: Board, told: "Callable[[Optional[int]], Awaitable[Told]]", limits: ServerLimits,
                 is_let_in: Callable[[], bool], known: Optional[int]) -> None:
        self._bell, self._board, self._told, self._limits = bell, board, told, limits
        self._is_let_in, self._known = is_let_in, known

    async def __call__(self, scope: Any, receive: Receive, send: Send) -> None:
        gone: "asyncio.Future[None]" = asyncio.ensure_future(Streamed.gone(receive))
        try:
            await send({"type": "http.response.start", "status": 200, "headers": [
                (b"content-type", EVENTS.encode("ascii")), (b"x-accel-buffering", b"no")]})
            await self._say(send, "retry: 1000\n\n")
            while not gone.done() and not self._bell.is_over and self._is_let_in():
                await self._next(send, gone)
            if not gone.done():
                await send({"type": "http.response.body", "body": b"", "more_body": False})
        finally:
            gone.cancel()

    async def _next(self, send: Send, gone: "asyncio.Future[None]") -> None:
        await self._bell.until(self._is_new, SILENCE, gone)
        if not self._is_new():
            await self._say(send, ": \n\n")
            return
        name, told = await self._told(self._known)
        self._known = told["version"]
        await self._say(send, f"id: {name}\nevent: version\ndata: {json.dumps(told)}\n\n")
        await asyncio.sleep(PAUSE)

    def _is_new(self) -> bool:
        return self._board.stat.version != self._known

    async def _say(self, send: Send, text: str) -> None:
        async with within(self._limits.idle, "the events aren't read"):
            await send({"type": "http.response.body", "body": text.encode("ascii"), "more_body": True})
