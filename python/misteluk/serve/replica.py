"""A server that has another one's store: what was added there it applies and answers, and it says how far behind it is."""
from __future__ import annotations

import threading
import time
from contextlib import suppress
from typing import Any, Dict, Optional, Tuple

from . import log
from .board import Board
from .log import without_paths
from .server import UNIX
from .talk import Talk
from ..errors import StoreError
from ..journal.opening import take_over, units_of
from ..journal.recovery import State
from ..journal.replica import Added, Copy, First, FirstFile, begun, read_added
from ..journal.tables import Settings
from ..store import Store
from ..values import records
from ..values.units import Units

# How often a file is looked at, and how long it is left alone where that failed, in seconds.
PAUSE, AFTER_A_FAULT = 0.02, 0.5


class FirstServer:
    """The server whose store this one has."""

    def __init__(self, url: str) -> None:
        self.name, self._talk = url, Talk(url)

    def begin(self, seats: int) -> Tuple[State, Settings]:
        return begun(self._talk.call("GET", "/v1/log").json(), seats)

    def added(self, after: int) -> Added:
        """What came behind a version, for which the server waits."""
        self._talk.run = ""  # (another run of it has the same store)
        return read_added(self._talk.call("GET", f"/v1/log?after={after}").json())

    def close(self) -> None:
        self._talk.close()


def first_of(text: str) -> First:
    """The file or the server of this name."""
    if text.startswith(("http://", "https://", UNIX)):
        return FirstServer(text)
    return FirstFile(text)


class Replica:
    """A store that is another one's, and the thread that applies what is added there."""

    def __init__(self, name: str) -> None:
        self.first = first_of(name)
        try:
            state, settings = self.first.begin(records.MOST_SEATS)
        except BaseException:
            self.first.close()
            raise
        self._copy = Copy(state, settings)
        self.store: Store[Any, Any] = Store.__new__(Store)
        self.store._begin_with(self._copy, Units())
        self._over = threading.Event()
        self._thread: Optional[threading.Thread] = None
        # The last version of the first, since when it was ahead of this one, and why it can't be read.
        self._newest, self._ahead, self._fault = state.version, 0.0, ""

    def begin(self, board: Board) -> None:
        self._thread = threading.Thread(target=self._run, args=(board,), name="replica", daemon=True)
        self._thread.start()

    def _run(self, board: Board) -> None:
        while not self._over.is_set():
            try:
                is_more, self._fault = self._step(board), ""
                pause = 0.0 if is_more else PAUSE
            except Exception as fault:
                if not self._over.is_set():  # (else it ends, and its store may be closed by now)
                    self._failed(fault)
                pause = AFTER_A_FAULT
            self._over.wait(pause)

    def _step(self, board: Board) -> bool:
        """Applies what was added, and tells whether there is more."""
        added = self.first.added(self._copy.state.version)
        self._newest = added.newest
        self._ahead = added.rows[0].at / 1e6 if added.rows else 0.0
        if not added.rows and added.settings == self._copy.settings and not self._copy.lacks(added):
            return False
        before, ledger = self._copy.settings, self.store._ledger
        try:
            if self._copy.lacks(added):  # (by now only a base of the first has it)
                self._copy.become(*self.first.begin(records.MOST_SEATS))
            else:
                self._copy.take(added)
        finally:
            for row in added.rows:
                if row.version <= self._copy.state.version:
                    board.recent.note_records(row.version, row.operations, row.records)
            take_over(self._copy, ledger)
            if self._copy.settings != before:
                ledger.terms.units = units_of(self._copy.settings, ledger.terms.units)
            board.advance()
        self._ahead = self._ahead if self.behind else 0.0
        return bool(added.rows)

    def _failed(self, fault: Exception) -> None:
        told = f"{self.first.name} can't be read, and what is there answers: {fault}"
        if not self._fault:
            log.fault(told, None if isinstance(fault, (StoreError, OSError)) else fault, told)
        self._fault = without_paths(str(fault), self.first.name, "the first")

    @property
    def behind(self) -> int:
        return max(self._newest - self._copy.state.version, 0)

    @property
    def fault(self) -> str:
        return self._fault

    def told(self) -> Dict[str, Any]:
        """How many versions and seconds it is behind, as far as it knows; and why it doesn't know more."""
        seconds = max(time.time() - self._ahead, 0.0) if self._ahead else 0.0
        return {"behind": self.behind, "seconds": round(seconds, 3), **({"reason": self._fault} if self._fault else {})}

    def close(self) -> None:
        self._over.set()
        self.first.close() if isinstance(self.first, FirstServer) else None
        if self._thread is not None:
            self._thread.join(AFTER_A_FAULT * 4)
        with suppress(StoreError):
            self.store.close()
