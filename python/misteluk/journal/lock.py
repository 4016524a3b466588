"""One process writes a store's file at a time: a lock beside it, which names who has it, and the last version that is in the
file.

It is a file of its own because SQLite's locks are the process's: closing any other descriptor of the database would drop them.
The version says whether a -wal was cut or removed: SQLite takes one for a store of fewer batches. It is written behind each batch
and never synced, so it is never ahead of the file, and a writer that closes leaves none.
"""
from __future__ import annotations

import fcntl
import os
import sys
import time
from contextlib import suppress

from ..errors import Locked

# How often the lock is tried, each time a fiftieth of a second later.
TRIES = 5
_ENDING, _DIGITS = "-lock", 20


class WritersLock:
    """The lock of a file at this place. Raises `Locked` where another one has it, also in this process. `noted` is the version
    that was noted last, by a writer that didn't close."""

    def __init__(self, place: str) -> None:
        self._file = os.fdopen(os.open(f"{place}{_ENDING}", os.O_RDWR | os.O_CREAT | os.O_CLOEXEC, 0o666), "r+b", buffering=0)
        is_taken = self._is_taken()
        noted, _, who = os.pread(self._file.fileno(), 300, 0).decode("utf-8", "replace").partition(" ")
        if not is_taken:
            self._file.close()
            raise Locked(f"{place} is written by {who.strip() or 'another process'}: a file has one writer at a time. `Store.at` "
                         "reads it meanwhile")
        self.noted = int(noted) if noted.isdecimal() else 0
        who = f"process {os.getpid()} ({os.path.basename(sys.argv[0]) or 'python'})"
        with suppress(OSError):  # (the lock is there, and on a full disk it names nobody)
            self._file.truncate(0)
            os.pwrite(self._file.fileno(), f"{self.noted:0{_DIGITS}} {who}\n".encode("utf-8", "replace"), 0)

    def note(self, version: int) -> None:
        """Notes the version that is in the file."""
        with suppress(OSError):
            os.pwrite(self._file.fileno(), b"%0*d" % (_DIGITS, version), 0)

    def _is_taken(self) -> bool:
        """Whether this one has the lock now. (`is_written` has it for a moment, too short for another try to meet it again.)"""
        for _ in range(TRIES):
            with suppress(OSError):
                fcntl.flock(self._file, fcntl.LOCK_EX | fcntl.LOCK_NB)
                return True
            time.sleep(0.02)
        return False

    def close(self, is_whole: bool) -> None:
        """Gives the lock back, also where a fork has the descriptor too. No version is noted then where the file is whole without
        its -wal."""
        if not self._file.closed:
            if is_whole:
                self.note(0)
            fcntl.flock(self._file, fcntl.LOCK_UN)
            self._file.close()


def is_written(place: str) -> bool:
    """Whether a process has the lock of the file at this place now."""
    try:
        with open(f"{place}{_ENDING}", "rb") as file:
            fcntl.flock(file, fcntl.LOCK_SH | fcntl.LOCK_NB)
        return False
    except FileNotFoundError:
        return False
    except OSError:
        return True
