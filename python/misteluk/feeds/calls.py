"""Calls that no interrupt breaks off are made in a thread of their own, one after another, and the caller waits.

An interrupt, or what else a handler of a signal raises, ends the waiting alone: Python raises it in the main thread, between any
two steps of it. What the other thread does goes on to its end.
"""
from __future__ import annotations

import _thread
import os
from queue import SimpleQueue
from typing import Any, Callable, Optional, TypeVar, cast

from ..errors import StoreError

T = TypeVar("T")


class Call:
    """A call, and what came of it. `left` says that its caller doesn't wait any more: one that was left before it was begun is
    not made."""

    __slots__ = ("what", "value", "fault", "left", "done")

    def __init__(self, what: Callable[[], Any]) -> None:
        self.what: Optional[Callable[[], Any]] = what
        self.value: Any = None
        self.fault: Optional[BaseException] = None
        self.left = False
        self.done = _thread.allocate_lock()
        self.done.acquire()

    def make(self) -> None:
        """Makes the call. Runs in the other thread alone."""
        what, self.what = self.what, None
        try:
            if what is not None and not self.left:
                self.value = what()
        except BaseException as fault:
            self.fault = fault
        self.done.release()


def _work(queue: "SimpleQueue[Optional[Call]]") -> None:
    """Makes the calls of a queue until it gives none."""
    while True:
        call = queue.get()
        if call is None:
            return
        call.make()
        call = None


class Calls:
    """A thread that makes calls, and their queue. It holds nothing of its owner but while it makes a call of it, so that one can
    be forgotten; with it the thread ends."""

    def __init__(self) -> None:
        self._queue: "SimpleQueue[Optional[Call]]" = SimpleQueue()
        self._process = os.getpid()
        # (a single step: a Thread's `start` waits, and can be interrupted)
        _thread.start_new_thread(_work, (self._queue,))

    def make(self, what: Callable[[], T]) -> T:
        """Has a call made, behind those that were to be made before, and waits for what it gives or raises."""
        if os.getpid() != self._process:
            raise StoreError("the store is another process's, of which this one is a fork: make a store here")
        call = Call(what)
        try:
            self._queue.put(call)
            call.done.acquire()
            if call.fault is None:
                return cast(T, call.value)
        except BaseException:
            call.left = True
            raise
        try:
            raise call.fault
        finally:
            call.fault = None  # (or it would hold itself, and its owner)

    def __del__(self) -> None:
        queue = getattr(self, "_queue", None)
        if queue is not None:
            queue.put(None)
