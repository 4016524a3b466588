"""Whose turn it is: posts that wait together are answered together."""
from __future__ import annotations

import asyncio
from concurrent.futures import Future
from contextlib import suppress
from typing import Any, Callable, List, Optional, Sequence

from .board import Full
from .flow import WAITING, Pool, within
from .limits import ServerLimits
from .posts import WaitingPost
from ..values.answers import Commit

# For which part of the time that the last turn took the next one waits for posts, and from how many seconds on it does. (A loop's
# timers are no finer.)
PART, LEAST = 0.5, 0.001


class Turns:
    """Leads posts to the thread that applies them, which takes all that wait by then: they go in by one sync. Only the event loop
    calls it.

    The first one of those who post again and again would begin the next turn alone, and the others wait until it is synced. So a
    turn waits for as many as the last one had, but for a part of the time alone that this took."""

    def __init__(self, pool: Pool, limits: ServerLimits, take: Callable[[Sequence[WaitingPost]], None]) -> None:
        self._pool, self._limits, self._take = pool, limits, take
        # Those that wait, and those whose turn it is, each with what tells that it is over.
        self._waiting: "List[tuple[WaitingPost, asyncio.Future[None]]]" = []
        self._is_under_way = False
        self._timer: Optional[asyncio.TimerHandle] = None
        # How many posts the last turn had, and for how long the next one waits.
        self._last, self._patience = 1, 0.0

    async def answer(self, post: WaitingPost) -> Commit:
        """What a post did, once its turn is over. Raises what it was refused by, and `Full` where too many wait, or it takes too
        long: one whose turn didn't come by then isn't made."""
        if len(self._waiting) >= WAITING:
            raise Full("TooMany", "too many questions are waiting for an answer", 1)
        waits = post, asyncio.get_running_loop().create_future()
        self._waiting.append(waits)
        self._look()
        try:
            async with within(self._limits.time, f"the answer takes longer than {self._limits.time:g} s"):
                await waits[1]
        finally:
            with suppress(ValueError):  # (its turn came)
                self._waiting.remove(waits)
        return post.told()

    def _look(self) -> None:
        """Begins a turn, where none is under way and as many wait as it waits for."""
        if self._is_under_way or not self._waiting:
            return
        if len(self._waiting) >= self._last or self._patience < LEAST:
            self._begin()
        elif self._timer is None:
            self._timer = asyncio.get_running_loop().call_later(self._patience, self._begin)

    def _begin(self) -> None:
        if self._timer is not None:
            self._timer.cancel()
            self._timer = None
        turn, self._waiting = self._waiting, []
        if not turn:  # (they were given up)
            return
        loop = asyncio.get_running_loop()
        self._is_under_way, self._last, begun = True, len(turn), loop.time()

        def over(made: "Future[Any]") -> None:
            with suppress(RuntimeError):  # (the loop has ended)
                loop.call_soon_threadsafe(self._end, turn, made, begun)
        self._pool.begin(lambda: self._take([post for post, _ in turn])).add_done_callback(over)

    def _end(self, turn: "List[tuple[WaitingPost, asyncio.Future[None]]]", made: "Future[Any]", begun: float) -> None:
        self._is_under_way, self._patience = False, PART * (asyncio.get_running_loop().time() - begun)
        for post, is_over in turn:
            if post.answer is None and post.fault is None and not made.cancelled():
                post.fault = made.exception()
            if not is_over.done():
                is_over.set_result(None)
        self._look()
