"""Who goes first: a batch of the feed, before those who ask."""
from __future__ import annotations

import asyncio
import threading
from contextlib import contextmanager, suppress
from typing import Iterator, Optional

# For how many seconds a question waits at most for batches that are being applied.
PATIENCE = 0.02


class Precedence:
    """Has questions wait while a batch is being applied, which takes milliseconds, but never longer than `PATIENCE`. Python runs
    one thread at a time: where clients ask without a pause, a feed's thread would wait for the loop's after each of its calls.

        with board.precedence.of_feed():      # in any thread
            ..
        await board.precedence.turn()         # on the event loop, before a question
    """

    def __init__(self) -> None:
        self._lock, self._applied = threading.Lock(), 0
        # The loop on which questions wait, what lets them go on, and the timer that does so where a batch takes long.
        self._loop: Optional[asyncio.AbstractEventLoop] = None
        self._gate: Optional[asyncio.Event] = None
        self._timer: Optional[asyncio.TimerHandle] = None

    @contextmanager
    def of_feed(self) -> Iterator[None]:
        """What is done here goes before questions."""
        self._count(1)
        try:
            yield
        finally:
            self._count(-1)
            if self._loop is not None:
                with suppress(RuntimeError):  # (the loop has ended)
                    self._loop.call_soon_threadsafe(self._let_on)

    def _count(self, one: int) -> None:
        with self._lock:
            self._applied += one

    async def turn(self) -> None:
        """Waits until no batch is being applied, at most `PATIENCE` seconds."""
        if not self._applied:
            return
        loop = asyncio.get_running_loop()
        if self._gate is None or self._loop is not loop:
            self._loop, self._gate, self._timer = loop, asyncio.Event(), None
        latest = loop.time() + PATIENCE
        while self._applied and loop.time() < latest:
            self._timer = self._timer or loop.call_at(latest, self._let_on)
            await self._gate.wait()

    def _let_on(self) -> None:
        """Has all that wait look again."""
        if self._timer is not None:
            self._timer.cancel()
            self._timer = None
        if self._gate is not None:
            self._gate.set()
            self._gate.clear()
