"""The store in this process: libmisteluk.so, by ctypes.

A desk takes batches; versions of it are held by handles, which any thread may ask while the desk works, since ctypes lets other
threads run meanwhile. An interrupt, as Ctrl-C, comes after a call and not amid it: whether the call was made the desk's count of
versions says. A batch that finds no room is refused before anything is done for it, or tried in another desk, which takes the
place of the one in use once it has the batch. What a finalizer lets go it only notes: the next call of the engine frees it. At
the end of the process nothing is freed, and in a fork nothing at all.
"""
from __future__ import annotations

import os
import time
import weakref
from contextlib import suppress
from ctypes import c_uint64
from typing import Any, Dict, List, Optional, Sequence

from . import interface
from .calling import WORDS, LibraryFlight, check, columns_of, opened, refusal_of
from .copies import Content, content_of
from .desks import Desks
from .finding import find_library
from .guard import Guard, Owned, alone
from .held import LibraryVersion, Opening
from .interface import Code
from .news import News
from .operations import Operations
from .protocol import LIBRARY, NO_FEEDS, Denied
from ..errors import NoSeat, SessionClosed, StoreError
from ..values.answers import Collected, Commit, Compacted, Stat
from ..values import records
from ..values.limits import MOST_BATCHES, MOST_BLOCKS, MOST_KINDS, Limits, within

# How many blocks a desk has at first, and how many times as many one that has room for more.
FIRST_BLOCKS, MORE_BLOCKS = 65_536, 4


class LibraryEngine(Desks):
    """A desk in this process. It begins anew by itself where it is full: of batches, or of blocks that held versions need.
    Versions that are held stay as they are. Where nothing says how many blocks, vertices or kinds there are at most, a larger
    desk with the same edges takes its place once they are needed. `endless`: before that it lets names and kinds go that have no
    edge. A desk without a limit on batches keeps none of those that it has applied."""

    name, most_blocks, feeds = LIBRARY, MOST_BLOCKS, NO_FEEDS

    def __init__(self, blocks: Optional[int], seats: int, endless: bool, limits: Limits = Limits(),
                 library: "Optional[str | os.PathLike[str]]" = None) -> None:
        if blocks is not None:
            within("blocks", blocks, records.LEAST_BLOCKS, MOST_BLOCKS)
        within("seats", seats, 1, records.MOST_SEATS)
        self.path = find_library(library)
        super().__init__(*opened(self.path))
        self.grows, self.limits, self.seats, self.endless = blocks is None, limits._checked(), seats, endless
        self.is_closed = False
        self.guard = self._guard = Guard()
        self._held: "Dict[int, weakref.ref[LibraryVersion]]" = {}
        self._versions: "List[weakref.ref[LibraryVersion]]" = []
        # (an endless one has few vertices at first, so that it lets those go that have no edge, before it takes many)
        is_plain = limits.vertices is limits.kinds is None
        self._opening = self._new(0, blocks or FIRST_BLOCKS, limits._shape(0, MOST_KINDS if endless and is_plain else 0))

    @property
    def blocks(self) -> int:
        return self._opening.blocks

    @property
    def operations_kept(self) -> int:
        return 0 if self._opening.shape.batches == MOST_BATCHES else self._opening.kept

    @property
    def has_ended(self) -> bool:
        return self.is_closed

    @property
    def is_elsewhere(self) -> bool:
        return self.guard.is_elsewhere

    @property
    def open_count(self) -> int:
        return sum(it() is not None for it in list(self._held.values()))

    def told(self) -> str:
        return f"the library {self.path}"

    def _settle(self) -> Opening:
        """Finds what became of a call that was interrupted, and gives back what was noted."""
        if self.is_closed:
            raise StoreError("the store is closed")
        opening = self._opening
        if opening.flying is not None or opening.begins_anew:
            opening = self._opening = self._found(opening)
        holds = opening.holds
        if holds.gone or holds.left:
            holds.give_back(self.library.desk_release, opening.desk.raw)
        self.handles.give_back(self.library)
        return opening

    def _found(self, opening: Opening) -> Opening:
        """What became of what is on its way. A desk counts one version more where the batch is in, and from 0 where it began
        anew; and it has vertices where it opened with some."""
        stat, flight = self._stat(opening), opening.flying
        number = stat.version
        if flight is not None and flight.batch.opens:
            opening = self._opened(opening, flight, stat) if stat.vertices else opening
        elif number < opening.number:
            opening = opening._replace(before=opening.number, kept=0)
        elif flight is not None and number > opening.number:
            more = flight.batch.batches - 1
            self._take(flight, opening.before + more)
            self._empty = [flight.owned]
            opening = opening._replace(before=opening.before + more, number=number + more, kept=opening.kept + flight.batch.size)
        return opening._replace(flying=None, begins_anew=False)

    def _opened(self, opening: Opening, flight: LibraryFlight, stat: Stat) -> Opening:
        """What a desk is that opened with operations, whose version 0 counts as the last one of their batches. Nothing was there
        and nothing was taken away or overflowed, so each edge was inserted once, and every other operation updated one."""
        number = opening.number + flight.batch.opens
        flight.counts.inserted, flight.counts.updated = stat.edges, flight.batch.size - stat.edges
        self._take(flight, number)
        self._empty = [flight.owned]
        return opening._replace(before=number, number=number, kept=0)

    # Batches.

    @alone
    def landed(self, flight: LibraryFlight) -> Optional[Commit]:
        self._settle()
        return None if flight.receipt is None else self._receipt(flight)

    @alone
    def fly(self, flight: LibraryFlight) -> Commit:
        opening = self._settle()
        if flight.batch.opens and self._stat(opening).vertices:  # (another thread was first; else the desk's own would be these)
            raise Denied("NotEmpty")
        code = self._applied(opening, flight)
        if code:
            self._help(self._settle(), code, flight)
        return self._receipt(flight)

    def _applied(self, opening: Opening, flight: LibraryFlight) -> int:
        """The code by which the desk takes a batch, or refuses it."""
        self._opening = opening._replace(flying=flight)
        if flight.batch.opens:
            return self.library.desk_open_columns(opening.desk.raw, columns_of(flight.batch.columns), c_uint64())
        return self.library.desk_apply(opening.desk.raw, flight.owned.raw, flight.counts)

    def _receipt(self, flight: LibraryFlight) -> Commit:
        opening = self._settle()
        assert flight.receipt is not None  # (it is in)
        if flight.collect:
            self._collect(opening)
        return flight.receipt

    # Room.

    def _help(self, opening: Opening, code: int, flight: LibraryFlight) -> None:
        """Applies a batch that was refused, where there can be room for it. Else raises, and nothing is changed."""
        if code not in WORDS or flight.batch.opens:
            raise refusal_of(code)
        stat, is_crowded = self._stat(opening), code in (Code.NAMES_FULL, Code.KINDS_FULL)
        if code == Code.BATCHES_FULL:
            version = self._last(opening)
            is_crowded = not self._has_room(opening.shape, *flight.batch.known_after(version.names(), version.kinds()))
            version.end()
        if not is_crowded and flight.batch.asked(stat.used) <= stat.free + stat.retired:
            check(self._applied(self._begin_anew(opening), flight))
        else:
            self._apply_there(self._moved(opening, stat, flight, is_crowded), flight)

    def _apply_there(self, moved: Opening, flight: LibraryFlight) -> None:
        """Applies a batch at another desk, which takes the place of the one in use once it has the batch."""
        check(self.library.desk_apply(moved.desk.raw, flight.owned.raw, flight.counts))
        self._opening = moved._replace(flying=flight)

    def _moved(self, opening: Opening, stat: Stat, flight: LibraryFlight, is_crowded: bool) -> Opening:
        """Another desk, with more room for a batch. An endless store lets names and kinds go that have no edge, where there would
        be too many. Raises `Denied` where what was said leaves no room."""
        asked, blocks = flight.batch.asked(stat.used), opening.blocks
        while self.grows and asked > blocks - stat.used and blocks < MOST_BLOCKS:
            blocks = min(blocks * MORE_BLOCKS, MOST_BLOCKS)
        is_short = asked > blocks - stat.used
        if is_short and not is_crowded:
            raise Denied("PoolEmpty", stat=stat)
        content, shape = self._content(opening), opening.shape
        if is_crowded and self.endless:
            content = content.without_idle_names()
        vertices, kinds = flight.batch.known_after(content.names, content.kinds)
        if not self._has_room(shape, vertices, kinds):
            over = self.limits._over(vertices, kinds)
            if over:
                raise Denied("NamesFull" if vertices > (shape.vertices or 0) else "KindsFull",
                             advice=f"There would be {'; '.join(over)}. {self.limits._advice}")
            shape = self.limits._shape(vertices, kinds)
        if is_short:
            raise Denied("PoolEmpty", stat=stat)
        flight.drops = is_crowded and self.endless
        return self._copy(content, opening.number, blocks, shape)

    @staticmethod
    def _has_room(shape: Limits, vertices: int, kinds: int) -> bool:
        return vertices <= (shape.vertices or 0) and kinds <= (shape.kinds or 0)

    @alone
    def fit(self, vertices: int, kinds: int, blocks: int) -> None:
        opening = self._settle()
        shape, more = opening.shape, opening.blocks
        if not (self._has_room(shape, vertices, kinds) or self.limits._over(vertices, kinds)):
            shape = self.limits._shape(vertices, kinds)
        while self.grows and more < min(blocks, MOST_BLOCKS):
            more = min(more * MORE_BLOCKS, MOST_BLOCKS)
        if (shape, more) != (opening.shape, opening.blocks):
            self._opening = self._copy(self._content(opening), opening.number, more, shape)

    # Versions.

    @alone
    def stat(self) -> Stat:
        return self._stat(self._settle())

    @alone
    def collect(self) -> Collected:
        opening = self._settle()
        freed, stat = self._collect(opening), self._stat(opening)
        numbers = [it.number for it in (held() for held in self._held.values()) if it is not None]
        return Collected(min(numbers, default=stat.version), freed, stat.retired)

    @alone
    def hold(self, slot: Optional[int]) -> LibraryVersion:
        opening = self._settle()
        self._held = {at: it for at, it in self._held.items() if it() is not None}
        place = next((it for it in range(self.seats) if it not in self._held), None) if slot is None else slot
        if place is None:
            raise NoSeat()
        if place in self._held:
            raise Denied("AlreadyOpen")
        try:
            version = self._hold(opening, place)
        except NoSeat:  # (the desk has 16: over its last version it begins anew, and those that are held need none there)
            version = self._hold(self._begin_anew(opening), place)
        self._held[version.slot] = weakref.ref(version)
        return version

    def _hold(self, opening: Opening, slot: int) -> LibraryVersion:
        version = LibraryVersion(self, opening, slot)
        self._let_begin(version)
        self._versions = [*(it for it in self._versions if it() is not None), weakref.ref(version)]
        return version

    def _let_begin(self, version: LibraryVersion) -> None:
        version.begin()

    def _last(self, opening: Opening) -> LibraryVersion:
        """The last version, to be read here."""
        try:
            return self._hold(opening, -1)
        except NoSeat:  # (sixteen versions have seats: the oldest one that has its own answers on without it)
            held = [it for it in (held() for held in self._versions) if it is not None and it.desk is opening.desk]
            for version in sorted(held, key=lambda it: it.number):
                version.leave_seat()
                opening.holds.give_back(self.library.desk_release, opening.desk.raw)
                with suppress(NoSeat):
                    return self._hold(opening, -1)
            raise

    @alone
    def listen(self, news: News) -> None:
        """Has somebody hear of each batch that is in, as long as there is somebody."""
        self._listeners = [*(it for it in self._listeners if it() is not None), weakref.ref(news)]

    @alone
    def hold_apart(self) -> LibraryVersion:
        """Holds the last version, and takes no seat of the store's."""
        return self._last(self._settle())

    @alone
    def release(self, version: LibraryVersion) -> None:
        held = self._held.get(version.slot)
        if self.is_closed or not (version.is_open or held is not None and held() is version):
            return
        version.end()
        if held is not None and held() is version:
            del self._held[version.slot]
        self._settle()

    def pair(self, earlier: LibraryVersion, later: LibraryVersion) -> Optional[Owned]:
        """Two versions of one desk, to be asked what became of edges from one to the other; `None` where the desk doesn't hold
        both, or the second one is the earlier, or a batch waits at the desk. It waits for another thread's call. A handler of a
        signal may close what it likes meanwhile, and may ask this amid another call: the desk then says that it isn't held."""
        pair = Owned(interface.Diff(), self.handles.diffs)
        with self._guard.lock:
            if self._guard.is_elsewhere:
                return None
            code = self.library.desk_diff(earlier.desk.raw, earlier.hold.raw, later.hold.raw, pair.raw)
        if code in (Code.NO_HANDLE, Code.NO_SEAT, Code.BAD_NUMBER):
            return None
        check(code)
        return pair

    @alone
    def close_versions(self) -> None:
        """Closes all versions that are held."""
        self._close_versions(self._versions)
        self._settle()

    def _close_versions(self, versions: "Sequence[weakref.ref[LibraryVersion]]") -> None:
        for it in versions:
            version = it()
            if version is not None:
                version.end()
        self._held = {at: it for at, it in self._held.items() if it not in versions}

    # Beginning anew.

    def _begin_anew(self, opening: Opening) -> Opening:
        """The desk begins anew over its last version, with the same names by the same numbers."""
        self._opening = opening._replace(begins_anew=True, flying=None)
        check(self.library.desk_rebase(opening.desk.raw))
        return self._settle()

    @alone
    def drop_idle_names(self) -> None:
        """Drops names and kinds that have no edge. The version's number stays."""
        opening = self._settle()
        content = self._content(opening).without_idle_names()
        self._opening = self._copy(content, opening.number, opening.blocks, opening.shape)

    @alone
    def begin_with(self, content: Content, number: int) -> None:
        """Has this content as the version of this number, in place of all that there is."""
        opening = self._settle()
        self._opening = self._copy(content, number, opening.blocks, opening.shape)

    def _content(self, opening: Opening) -> Content:
        version = self._last(opening)
        try:
            return content_of(version)
        finally:
            version.end()

    @alone
    def rebase(self, version: Any) -> Compacted:
        begun, opening = time.monotonic(), self._settle()
        if opening.rebased is None or opening.rebased[0]() is not version:  # (else an interrupt came before this was told)
            if not version.is_open:
                raise SessionClosed(f"the session of version {version.number} is closed")
            if version.desk is opening.desk and version.number == opening.number:
                opening = self._begin_anew(opening)
            else:
                opening = self._copy(content_of(version), 0, opening.blocks, opening.shape)
            stat = self._stat(opening)
            done = Compacted(0, stat.vertices, stat.edges, stat.used, time.monotonic() - begun)
            rebased = weakref.ref(version), done, self._versions
            self._opening = opening = opening._replace(before=0, number=0, rebased=rebased)
        assert opening.rebased
        self._close_versions(opening.rebased[2])
        return opening.rebased[1]

    @alone
    def renew(self) -> Compacted:
        begun, opening = time.monotonic(), self._settle()
        stat = self._stat(self._begin_anew(opening))
        return Compacted(stat.version, stat.vertices, stat.edges, stat.used, time.monotonic() - begun)

    # The end.

    @alone
    def close(self) -> None:
        self.is_closed = True
        self._close_versions(self._versions)
        self._opening = self._opening._replace(desk=Owned(interface.Desk(), self.handles.desks), flying=None, rebased=None)
        self.handles.give_back(self.library)
