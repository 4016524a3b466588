"""An engine whose batches wait for somebody who writes them down first: each is made ready, and then accepted or given up.

Making it ready meets every refusal and takes all memory, so that accepting it can't fail. Meanwhile the last version is the one
of before; the desk answers nothing, so that version is held beforehand, and whoever wants to hold it shares that hold.
"""
from __future__ import annotations

from ctypes import c_uint64
from typing import NamedTuple, Optional

from .calling import LibraryFlight, check, columns_of
from .guard import alone
from .held import LibraryVersion, Opening
from .library import LibraryEngine
from ..errors import StoreError
from ..values.answers import Commit, Stat


class Ready(NamedTuple):
    """A batch that is ready, the opening that has it and takes the place of the one in use, and the last version, as it is told
    meanwhile; and whether it is accepted or given up, once that is decided."""

    flight: LibraryFlight
    opening: Opening
    before: LibraryVersion
    stat: Stat
    is_accepted: Optional[bool] = None


class WaitingEngine(LibraryEngine):
    """An engine with the two phases of its desk. An interrupt may come between any two steps of them: what was decided is done by
    the next call, whichever that is, and `finish` and `cancel` find what was done by then."""

    _ready: Optional[Ready] = None

    @alone
    def begin(self, flight: LibraryFlight) -> None:
        """Makes a batch ready. Raises where it is refused, and nothing is changed then. Until `finish` or `cancel` is called it
        is asked for `stat` and `hold` alone."""
        flight.waits = True
        code = self._applied(self._settle(), flight)
        if code:
            self._help(self._settle(), code, flight)

    @alone
    def finish(self, flight: LibraryFlight) -> Commit:
        """Accepts a batch that is ready, once, however often this is called, and tells what it did."""
        self._decide(True)
        return self._receipt(flight)

    @alone
    def cancel(self) -> None:
        """Gives up the batch that is ready, where there is one: all is as it was."""
        self._decide(False)

    def _decide(self, is_accepted: bool) -> None:
        if self._ready is not None:
            self._ready = self._ready._replace(is_accepted=is_accepted)
            self._do(self._ready)

    def _do(self, ready: Ready) -> None:
        """Does what was decided. The version of before is only its sessions' then: where it has none the desk makes the next one
        in its table."""
        flight, opening = ready.flight, ready.opening
        ready.before.leave_handle()
        self.handles.give_back(self.library)
        if not flight.batch.opens:
            self._do_at(opening, flight, ready.is_accepted)
        elif ready.is_accepted:
            self._opening = self._opened(opening, flight, self._stat(opening))
        self._ready = None

    def _do_at(self, opening: Opening, flight: LibraryFlight, is_accepted: Optional[bool]) -> None:
        """Has the desk accept its batch or give it up. (It refuses that where an interrupt came after it, or before the batch was
        ready.)"""
        desk = opening.desk.raw
        self.library.desk_finish(desk, flight.counts) if is_accepted else self.library.desk_cancel(desk)
        number = self._stat(opening).version
        if number > opening.number:
            self._take(flight, opening.before)
            self._opening = opening._replace(number=number, kept=opening.kept + flight.batch.size)

    # How the engine does it.

    def _settle(self) -> Opening:
        ready = self._ready
        if ready is not None and self.is_closed:
            raise StoreError("the store is closed")
        if ready is not None and ready.is_accepted is None:
            return self._opening
        if ready is not None:
            self._do(ready)
        return super()._settle()

    def _applied(self, opening: Opening, flight: LibraryFlight) -> int:
        if not flight.waits:
            return super()._applied(opening, flight)
        if flight.batch.opens:
            return self._applied_apart(opening, flight)
        self._ready = Ready(flight, opening, self._last(self._opening), self._stat(self._opening))
        code = self.library.desk_begin(opening.desk.raw, flight.owned.raw)
        if code:
            self._ready = None
        return code

    def _applied_apart(self, opening: Opening, flight: LibraryFlight) -> int:
        """The code by which another desk opens with operations, which takes the place of the one in use if they are accepted."""
        apart = self._new(opening.number, opening.blocks, opening.shape)
        code = self.library.desk_open_columns(apart.desk.raw, columns_of(flight.batch.columns), c_uint64())
        if not code:
            self._ready = Ready(flight, apart, self._last(opening), self._stat(opening))
        return code

    def _apply_there(self, moved: Opening, flight: LibraryFlight) -> None:
        if not flight.waits:
            return super()._apply_there(moved, flight)
        check(self._applied(moved, flight))

    @alone
    def stat(self) -> Stat:
        opening, ready = self._settle(), self._ready
        return self._stat(opening) if ready is None else ready.stat

    def _let_begin(self, version: LibraryVersion) -> None:
        ready = self._ready
        version.begin() if ready is None else version.begin_with(ready.before)
