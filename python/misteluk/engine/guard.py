"""Calls that change something, one at a time and each of them once, whatever interrupts them.

Python raises an interrupt, or what else a signal's handler raises, in the main thread: after a call, after a jump back, as a
function begins, and Python 3.9 after most steps. So whether a call of the library was made its own counts say (`engine.library`),
and that the caller has what a call gave is noted by the one kind of step after which no Python looks for a signal (`noting`).
"""
from __future__ import annotations

import functools
import os
import sys
import threading
import weakref
from collections import deque
from itertools import repeat, starmap
from operator import attrgetter
from types import FrameType
from typing import Any, Callable, Deque, Dict, Iterator, List, Optional, TypeVar, cast

from ..errors import StoreError

F = TypeVar("F", bound=Callable[..., Any])
_RAW = attrgetter("raw")
_this_frame = sys._getframe


def noting(call: Callable[..., Any], *given: Any) -> "Iterator[Any]":
    """A call of a function in C, which is made by whoever looks for something in it. A method that ends so

        told = noting(setattr, self, "is_told", True)
        None in told
        return result

    notes that it gives its result, and gives it, and no interrupt comes between: Python looks for signals neither after `in` nor
    after a name. An interrupt before that leaves it unnoted. A `raise` may stand for the `return`. The function gives `None`:
    what else it gave would be compared, perhaps by a method in Python.
    """
    return starmap(call, (given,))


class Note(weakref.ref):  # type: ignore[type-arg]
    """What is to be given back once its owner is gone, or lets it go."""

    __slots__ = ("raw",)
    raw: Any


class Owned:
    """A handle in C, which its notes know of."""

    __slots__ = ("raw", "__weakref__")

    def __init__(self, raw: Any, notes: "Notes") -> None:
        self.raw = raw
        notes.know(self, raw)


class Notes:
    """What is to be given back, each once. Python itself notes what became of an owner that is forgotten, by a function in C: an
    interrupt that came in a finalizer would be lost, and so would what it was to give back."""

    def __init__(self) -> None:
        self._known: Dict[Note, Note] = {}
        self._pop: Callable[..., Optional[Note]] = self._known.pop
        # Those whose owners are gone, and those that were let go.
        self.gone: Deque[Note] = deque()
        self.left: Deque[Note] = deque()

    def know(self, owner: object, raw: Any) -> Note:
        note = Note(owner, self.gone.append)  # type: ignore[arg-type]
        note.raw = raw
        self._known[note] = note
        return note

    def let_go(self, *notes: Note) -> None:
        """Notes that this is to be given back now. A second time it isn't known any more."""
        self.left.extend(filter(None, map(self._pop, notes, repeat(None))))

    def give_back(self, call: Callable[..., Any], *before: Any) -> None:
        """Gives back what was noted, by a function in C."""
        while self.gone or self.left:
            try:
                self.left.extend(filter(None, map(self._pop, iter(self.gone.popleft, None), repeat(None))))
            except IndexError:  # (there are no more)
                pass
            try:
                deque(map(call, *map(repeat, before), map(_RAW, iter(self.left.popleft, None))), 0)
            except IndexError:
                pass

    def forget(self) -> None:
        """Gives nothing back of what was noted."""
        self.gone.clear()
        self.left.clear()


# An item for each fork between the process that loaded this module and the one that runs: to count them is quicker than to ask
# the kernel for the process.
FORKS: List[None] = []
os.register_at_fork(after_in_child=functools.partial(FORKS.append, None))


class Guard:
    """A lock that one thread has for as long as its call takes. A handler of a signal that interrupts such a call can't make
    another, and a fork can make none. (The lock of a call whose frame is gone is free: Python 3.9 may not give it back.)"""

    def __init__(self) -> None:
        self.lock = threading.RLock()
        self.holder: Optional[FrameType] = None
        self.forks = len(FORKS)

    @property
    def is_elsewhere(self) -> bool:
        """Whether this process is a fork of the one that made this."""
        return self.forks != len(FORKS)

    def check(self) -> None:
        if self.forks != len(FORKS):
            raise StoreError("the store is another process's, of which this one is a fork: make a store here")

    def is_below(self, frame: Optional[FrameType]) -> bool:
        """Whether a frame runs within the call that has the lock, as a handler's does."""
        while frame is not None and frame is not self.holder:
            frame = frame.f_back
        return frame is not None


def alone(method: F) -> F:
    """Makes the calls of a method one at a time, by the object's `_guard`."""
    @functools.wraps(method)
    def call(self: Any, *given: Any, **named: Any) -> Any:
        guard: Guard = self._guard
        if guard.forks != len(FORKS):
            guard.check()
        with guard.lock:
            if guard.holder is not None and guard.is_below(_this_frame()):
                raise StoreError("a signal's handler can't call a store while it interrupts another call of it")
            guard.holder = _this_frame()
            try:
                return method(self, *given, **named)
            finally:
                guard.holder = None
    return cast(F, call)


class Uncopied:
    """What has no copy, as the store of a process."""

    def __copy__(self) -> Any:
        raise TypeError("a store has no copy: save a session, and restore the file")

    def __deepcopy__(self, _: Any) -> Any:
        return self.__copy__()

    def __reduce__(self) -> Any:
        raise TypeError("a store isn't pickled: save a session, and restore the file")
