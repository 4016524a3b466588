"""Answers on their way: made in worker threads, part by part, and no faster than their reader takes them."""
from __future__ import annotations

import asyncio
import json
import threading
from collections import Counter
from concurrent.futures import Future, ThreadPoolExecutor
from contextlib import contextmanager
from types import TracebackType
from typing import Any, Awaitable, Callable, Dict, Iterator, List, MutableMapping, Optional, Set, Tuple, Type, TypeVar

from starlette.responses import Response

from . import wire
from .board import Full
from .limits import BYTES_AT_ONCE, ServerLimits
from .people import EVERYONE, Person

R = TypeVar("R")
Message = MutableMapping[str, Any]
Send = Callable[[Message], Awaitable[None]]
Receive = Callable[[], Awaitable[Message]]
# What a request notes: who asks, by which call, and the word of the fault that it was told.
PERSON, CALL, WORD = "misteluk.person", "misteluk.call", "misteluk.word"
# How many questions may wait for each that is answered.
WAITING = 100


def as_json(value: Dict[str, Any], status: int = 200, headers: Optional[Dict[str, str]] = None) -> Response:
    """A short answer."""
    return Response(json.dumps(value).encode("ascii") + b"\n", status, headers, wire.JSON)


class within:
    """What is awaited here ends within so many seconds, or by `Full`. (Python has `asyncio.timeout` from 3.11 on only, and
    `asyncio.wait_for` makes a task of what it awaits.)"""

    def __init__(self, seconds: float, reason: str) -> None:
        self._seconds, self._reason, self._is_late = seconds, reason, False

    async def __aenter__(self) -> None:
        self._task = asyncio.current_task()
        self._timer = asyncio.get_running_loop().call_later(self._seconds, self._end)

    def _end(self) -> None:
        self._is_late = True
        if self._task is not None:
            self._task.cancel()

    async def __aexit__(self, kind: Optional[Type[BaseException]], fault: Optional[BaseException],
                        trace: Optional[TracebackType]) -> None:
        self._timer.cancel()
        if self._is_late and isinstance(fault, asyncio.CancelledError):
            raise Full("TooLong", self._reason, 1) from None


class Pool:
    """Threads that answer questions; those that wait are answered in turn."""

    def __init__(self, threads: int, limits: ServerLimits, name: str) -> None:
        self._threads, self._limits = threads, limits
        self._pool = ThreadPoolExecutor(threads, thread_name_prefix=name)
        self._waiting = 0
        self._made: "Set[Future[Any]]" = set()

    def begin(self, call: Callable[[], R]) -> "Future[R]":
        """Has one of the threads make a call, whoever waits for it."""
        made = self._pool.submit(call)
        self._made.add(made)
        made.add_done_callback(self._made.discard)
        return made

    async def run(self, call: Callable[[], R], undo: Optional[Callable[[Any], object]] = None) -> R:
        """What a call gives, made by one of the threads. Raises `Full` where too many wait, and where it takes too long; what it
        gives too late is undone."""
        if self._waiting >= WAITING * self._threads:
            raise Full("TooMany", "too many questions are waiting for an answer", 1)
        self._waiting += 1
        made = self.begin(call)
        try:
            async with within(self._limits.time, f"the answer takes longer than {self._limits.time:g} s"):
                return await asyncio.wrap_future(made)
        except (Full, asyncio.CancelledError):  # (one that waits still isn't made any more)
            made.add_done_callback(lambda it: undo(it.result()) if undo and not it.cancelled() and not it.exception() else None)
            raise
        finally:
            self._waiting -= 1

    @property
    def is_busy(self) -> bool:
        """Whether a thread is at an answer, or one waits for a thread."""
        return bool(self._made)

    def close(self) -> None:
        """Ends it: what waits isn't answered any more, and nobody waits for what a thread is at."""
        self._pool.shutdown(wait=False, cancel_futures=True)


class Shares:
    """How many questions each person has under way, so that none has all places where questions wait. (The event loop alone
    counts.) Those who have one token together are no person."""

    def __init__(self, most: int) -> None:
        self._most = most
        self._under_way: "Counter[str]" = Counter()

    @contextmanager
    def one(self, person: Person) -> Iterator[None]:
        """A question of a person. Raises `Full` where that one has too many."""
        if person.name == EVERYONE.name:
            yield
            return
        if self._under_way[person.name] >= self._most:
            raise Full("TooMany", f"{person.name} has {self._most} questions under way", 1)
        self._under_way[person.name] += 1
        try:
            yield
        finally:
            self._under_way[person.name] -= 1
            if not self._under_way[person.name]:
                del self._under_way[person.name]


class Flow:
    """An answer that is made part by part, by one thread at a time."""

    def __init__(self, parts: Iterator[bytes]) -> None:
        self._parts, self._lock, self._is_over = parts, threading.Lock(), False

    def more(self) -> Tuple[bytes, bool]:
        """The next bytes, and whether there are more."""
        try:
            with self._lock:
                return self._some()
        finally:
            if self._is_over:
                self.close()

    def _some(self) -> Tuple[bytes, bool]:
        found: List[bytes] = []
        size = 0
        for it in self._parts:
            found.append(it)
            size += len(it)
            if size >= BYTES_AT_ONCE:
                return b"".join(found), True
        return b"".join(found), False

    def close(self) -> None:
        """Lets go what the answer was made of. Where a thread is at a part of it, that one does so then: nobody waits for it."""
        self._is_over = True
        if self._lock.acquire(blocking=False):
            try:
                close = getattr(self._parts, "close", None)
                if close is not None:
                    close()
            finally:
                self._lock.release()


class Streamed:
    """A response that is written as its reader takes it. Nothing is made for one that went; and one that takes nothing for too
    long is left, so that it doesn't keep the version that it asked."""

    def __init__(self, flow: Flow, first: bytes, headers: Dict[str, str], pool: Pool, limits: ServerLimits) -> None:
        self._flow, self._first, self._pool, self._limits = flow, first, pool, limits
        self._headers = [(name.encode("ascii"), value.encode("ascii")) for name, value in headers.items()]

    async def __call__(self, scope: Any, receive: Receive, send: Send) -> None:
        gone = asyncio.ensure_future(self.gone(receive))
        try:
            await send({"type": "http.response.start", "status": 200, "headers": self._headers})
            part, is_more = self._first, True
            while not gone.done():
                async with within(self._limits.idle, "the answer isn't read"):
                    await send({"type": "http.response.body", "body": part, "more_body": is_more})
                if not is_more:
                    break
                part, is_more = await self._pool.run(self._flow.more)
        finally:
            gone.cancel()
            self._flow.close()

    @staticmethod
    async def gone(receive: Receive) -> None:
        """Ends when the reader goes."""
        while (await receive())["type"] != "http.disconnect":
            pass


def first_of(parts: Callable[[], Iterator[bytes]]) -> "Tuple[Flow, bytes, bool]":
    """An answer with its first bytes, and whether there are more. What goes wrong before these is raised."""
    flow = Flow(parts())
    try:
        first, is_more = flow.more()
    except BaseException:
        flow.close()
        raise
    return flow, first, is_more
