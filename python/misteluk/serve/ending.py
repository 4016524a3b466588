"""How a server ends: first what came in is saved, and then there is some time for answers that were begun.

A thread can't be ended amid a question over the whole graph. So the process is, if something of it goes on behind that time.
"""
from __future__ import annotations

import asyncio
import os
import sys
import threading
from typing import Any, Callable, Optional

from .door import QUEUE

# For how many seconds a server that ends waits for those who read their answers, and behind how many its process ends.
PATIENCE, LAST = 4.0, 4.6
# What uvicorn gives, which isn't there where this is read: `made` joins the two.
_Server: Any = object


class Ending(_Server):  # type: ignore[misc]
    """uvicorn's server. It stands before that in a class."""

    begun: Callable[[], None]
    before: Callable[[], None]

    async def startup(self, sockets: Any = None) -> None:
        await super().startup(sockets=sockets)
        self.begun()
        for it in sockets or []:  # (uvicorn's queue is as long as what it takes at once, which may be more than has room)
            it.listen(QUEUE)

    async def shutdown(self, sockets: Any = None) -> None:
        loop = asyncio.get_running_loop()
        await loop.run_in_executor(None, self.before)
        loop.call_later(PATIENCE, self._end)
        await super().shutdown(sockets=sockets)

    def _end(self) -> None:
        self.force_exit = True

    def handle_exit(self, number: Any, frame: Any) -> None:
        if self.should_exit:  # (uvicorn knows a second SIGINT alone)
            self._end()
        super().handle_exit(number, frame)


def made(base: Any, config: Any, before: Callable[[], None], begun: Callable[[], None] = lambda: None) -> Any:
    """The server that does the rest as this one, and calls what is given before it ends, and when it begins to answer."""
    found: Any = type("Server", (Ending, base), {})(config)
    found.begun, found.before = begun, before
    return found


class Deadline:
    """The end of the process, with the status that `last` gives, some seconds behind `begin`, unless `cancel` comes before."""

    def __init__(self, last: Callable[[], int]) -> None:
        self._last, self._timer, self._lock = last, threading.Timer(LAST, self._end), threading.Lock()
        self._timer.daemon = True
        self._status: Optional[int] = None

    def begin(self) -> None:
        self._timer.start()

    def cancel(self) -> None:
        self._timer.cancel()

    def status(self) -> int:
        """What `last` gives, which is asked once."""
        with self._lock:
            if self._status is None:
                self._status = self._last()
            return self._status

    def _end(self) -> None:
        try:
            status = self.status()
            for it in (sys.stdout, sys.stderr):
                it.flush()
        except Exception:  # (who read what is told is gone)
            status = 1
        os._exit(status)


__all__ = ["Deadline", "made"]
