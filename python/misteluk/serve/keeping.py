"""A server's store in a file: what a server that is killed begins with again."""
from __future__ import annotations

import contextlib
import fcntl
import os
import re
import threading
import time
from datetime import datetime, timezone
from typing import IO, Any, Dict, Optional

from . import log
from .board import Board
from .limits import USUAL_EVERY
from .log import without_paths
from ..errors import StoreError
from ..files import place_of
from ..store import Store

# A save is late when none came for so many times as long, and so many seconds.
LATE, SLOW = 2, 30.0


class Keeper:
    """Saves the last version of a store into a file: at intervals where there is another one, and at the end. A file takes the
    place of the one before when it is whole and on the disk."""

    def __init__(self, path: str, every: float = USUAL_EVERY) -> None:
        if not 0 < every <= 1e6:
            raise ValueError(f"a version is saved every so many seconds, a number above 0, and not {every}")
        self.path, self.every, self.fault, self.reason = path, every, "", ""
        # How many seconds the last save took.
        self.took: Optional[float] = None
        # The version that the file has, and since when it may not be the last one any more; nothing where there is no file.
        self._saved: Optional[int] = None
        self._when, self._over = time.monotonic(), threading.Event()
        self._saving, self._lock = threading.Lock(), _locked(place_of(path))
        _drop_parts(place_of(path))

    def restored(self, **options: Any) -> "Optional[Store[Any, Any]]":
        """The store that the file has, as version 0, and `None` where there is no file. Raises `SaveFault` for one that is
        damaged, or is another one: it stays as it is."""
        if not os.path.exists(self.path):
            return None
        store = Store.restore(self.path, progress=False, **{it: value for it, value in options.items() if value is not None})
        store.compact(store.open())  # (so it keeps no operations, and its versions are counted from 0)
        self._saved, self._when = 0, time.monotonic()
        return store

    def told_of_file(self) -> str:
        """What the file is of, for those who knew a server before this one."""
        when = datetime.fromtimestamp(os.stat(self.path).st_mtime, timezone.utc).isoformat(timespec="seconds")
        return f"with what was saved at {when}: what came in later isn't there"

    def run(self, board: Board) -> None:
        """Saves until `close` is called."""
        while not self._over.wait(self.every):
            self.save(board)

    def save(self, board: Board) -> None:
        """Saves the last version, if it isn't in the file. A fault is noted and told: the next time it is tried again."""
        try:
            with self._saving, board.lent() as session:
                begun = time.monotonic()
                if session.version != self._saved:
                    session.save(self.path)
                    self.took = round(time.monotonic() - begun, 3)
                self._saved, self._when, self.fault = session.version, time.monotonic(), ""
        except Exception as fault:
            self._failed(fault)

    def save_last(self, board: Board) -> None:
        """Saves at the end, when no more rows come in."""
        try:
            board.publish()  # (which may have failed behind the last batch)
            self.save(board)
        except Exception as fault:
            self.save(board)
            self._failed(fault)

    def _failed(self, fault: Exception) -> None:
        self.reason = without_paths(str(fault), self.path, "the file")
        self.fault = getattr(fault, "word", "") or type(fault).__name__
        is_meant = isinstance(fault, (StoreError, OSError))
        log.fault(f"the version isn't saved: {fault}", None if is_meant else fault, f"the version isn't saved: {self.reason}")

    @property
    def is_late(self) -> bool:
        """Whether the last save failed, or none came for too long."""
        return bool(self.fault) or time.monotonic() - self._when > LATE * self.every + SLOW

    def told(self) -> Dict[str, Any]:
        """The version that the file has, and how many seconds ago it was the last one; `None` where there is no file yet."""
        seconds = None if self._saved is None else round(time.monotonic() - self._when, 1)
        return {"version": self._saved, "seconds": seconds,
                **({"state": "failed", "error": self.fault, "reason": self.reason} if self.fault else {})}

    def stop(self) -> None:
        self._over.set()

    def close(self) -> None:
        self.stop()
        self._lock.close()


def _drop_parts(place: str) -> None:
    """Removes what saves left that were killed before their file was whole. (No other server saves there.)"""
    folder, name = os.path.split(place)
    for it in os.listdir(folder or "."):
        if re.fullmatch(rf"{re.escape(name)}\.[0-9a-f]{{8}}\.part", it):
            with contextlib.suppress(OSError):
                os.unlink(os.path.join(folder, it))


def _locked(place: str) -> "IO[str]":
    """A file beside that says that this process saves there. Raises `ValueError` where another one does."""
    file = open(f"{place}.lock", "a", encoding="ascii")
    try:
        fcntl.flock(file, fcntl.LOCK_EX | fcntl.LOCK_NB)
    except BlockingIOError:
        file.close()
        raise ValueError(f"another server saves in {place}") from None
    return file
