"""The processes that read a feed that a server follows: one for its file, and one for the file that was rotated away last."""
from __future__ import annotations

import threading
from typing import Callable, ContextManager, List, Optional, Protocol

from . import log
from .log import without_paths
from ..feeds.apart import Applied, Apart
from ..feeds.following import Following


class Others(Protocol):
    """The files that take the place of the one that is followed, as those of a log."""

    def next(self) -> Optional[Following]:
        """The next one, for which this waits; `None` once it is closed."""

    def close(self) -> None: ...


class Readers:
    """Who reads a followed feed: each has a thread here. Where its file was rotated away, and all is in that it had then, the
    next one begins; it reads on, since who writes may have it open still, until the next one was rotated away too."""

    def __init__(self, took: Callable[[Applied, int], None], ended: Callable[[Apart, Optional[BaseException]], None],
                 first: "Callable[[], ContextManager[None]]") -> None:
        # What is called for each batch, with how many rows it has, and once the last file's reader has ended; and in what batches
        # are applied.
        self._took, self._ended, self._first = took, ended, first
        self.last: Optional[Apart] = None
        self._before: Optional[Apart] = None
        self._others: Optional[Others] = None
        self._lock, self._is_over = threading.Lock(), False
        self._threads: List[threading.Thread] = []
        # How many files were rotated away; how many rows came in these after that; and why there may be some that aren't in.
        self.rotated = self.late = 0
        self.lost = ""
        # The readers, and what those counted that ended before the last one began.
        self._all: List[Apart] = []
        self._bad = self._killed = 0

    @property
    def bad(self) -> int:
        """How many rows were skipped."""
        return self._bad + sum(it.place.bad for it in self._all)

    @property
    def killed(self) -> int:
        """How many readers were killed."""
        return self._killed + sum(it.killed for it in self._all)

    @property
    def are_alive(self) -> bool:
        return any(it.is_alive() for it in self._threads)

    def begin(self, following: Following, others: Optional[Others] = None) -> None:
        """Has a feed go in, and then the others."""
        with self._lock:
            if self._is_over:
                following.close()
                return
            apart, self._others = Apart(following), others
            apart.on_left, apart.applying = lambda: self._leave(apart), self._first
            self._forget_ended()
            self._before, self.last = self.last, apart
            self._all.append(apart)
            thread = threading.Thread(target=self._run, args=(apart,), name="feed")
            self._threads = [*(it for it in self._threads if it.is_alive()), thread]
            thread.start()

    def _forget_ended(self) -> None:
        ended = [it for it in self._all if it.has_ended]
        self._bad += sum(it.place.bad for it in ended)
        self._killed += sum(it.killed for it in ended)
        self._all = [it for it in self._all if it not in ended]

    def _leave(self, apart: Apart) -> None:
        """Begins with the next file. The one before this one was rotated away twice, and is read to its end now."""
        more = None if self._others is None else self._others.next()
        if more is None:
            return
        self.rotated += 1
        log.state("rotated", f"{apart.name} is another file now, which is followed; the one before is read on", file=self.rotated)
        if self._before is not None:
            self._before.end()
        self.begin(more, self._others)

    def _run(self, apart: Apart) -> None:
        fault: Optional[BaseException] = None
        try:
            self._steps(apart)
        except BaseException as it:  # (whatever it is: who asks would else take the feed for one that goes on)
            fault = it
        finally:
            apart.close()
        if apart is self.last:
            self._ended(apart, fault)
        elif fault is not None:
            self.lost = without_paths(str(fault), apart.name)
            log.fault(f"the reading of a file that was rotated away ended: {fault}", None, self.lost)

    def _steps(self, apart: Apart) -> None:
        before = apart.place.rows
        for step in apart:
            self._took(step, step.rows - before)
            if apart.is_left:
                self.late += step.rows - before
            before = step.rows

    def stop(self) -> None:
        """Has what was read go in, ends all, and waits for that."""
        with self._lock:
            self._is_over = True
        if self._others is not None:
            self._others.close()
        for it in self._all:
            it.stop()
        for thread in self._threads:
            thread.join()
