"""Desks of the library: how one is made, counted and fed, and how it gets what another one has."""
from __future__ import annotations

import itertools
import weakref
from ctypes import c_uint64, sizeof
from typing import List

from . import interface
from .calling import MOST_AT_ONCE, Handles, Known, LibraryFlight, check, columns_of, fill, refusal_of
from .copies import Content, opening_of, operations_of
from .guard import Notes, Owned
from .held import Opening
from .interface import Code, Library
from .news import News
from .operations import Numbered, Operations
from ..values.answers import Stat
from ..values.limits import MOST_WEIGHT, Limits

# The numbers of desks: each of the process has its own.
_NUMBERS = itertools.count(1)


class Desks:
    """Makes desks, and asks those that are there."""

    _opening: Opening

    def __init__(self, library: Library, handles: Handles) -> None:
        self.library, self.handles = library, handles
        # The handle of a batch that was applied, and so has no operation: the next one takes it.
        self._empty: List[Owned] = []
        self._freed = c_uint64()
        # Who hears of each batch that is in.
        self._listeners: "List[weakref.ref[News]]" = []

    def _take(self, flight: LibraryFlight, before: int) -> None:
        """Takes what a batch did, where so many versions were made before the desk began, and tells of it."""
        flight.take(before)
        for it in self._listeners:
            news = it()
            if news is not None:
                news.hear(flight)

    def _new(self, version: int, blocks: int, shape: Limits) -> Opening:
        """An opening with an empty desk, of so many versions before."""
        desk = Owned(interface.Desk(), self.handles.desks)
        weight = shape.weight or MOST_WEIGHT
        limits = interface.Limits(sizeof(interface.Limits), shape.vertices, shape.kinds, shape.batches, weight)
        check(self.library.desk_new_within(next(_NUMBERS), limits, blocks, desk.raw))
        return Opening(desk, Notes(), version, version, Known.nothing(), blocks, shape)

    def _stat(self, opening: Opening) -> Stat:
        stat = interface.Stat()
        check(self.library.desk_stat(opening.desk.raw, stat))
        return Stat(stat.version + opening.before, stat.vertices, stat.edges, stat.blocks_free, stat.blocks_retired,
                    stat.blocks_used)

    def _collect(self, opening: Opening) -> int:
        check(self.library.desk_collect(opening.desk.raw, self._freed))
        return self._freed.value

    def flight(self, batch: Operations, collect: bool) -> LibraryFlight:
        owned = self._empty.pop() if self._empty else self._new_batch()
        if not batch.opens:
            fill(self.library, owned.raw, batch)
        return LibraryFlight(batch, collect, owned)

    def _new_batch(self) -> Owned:
        owned = Owned(interface.Batch(), self.handles.batches)
        check(self.library.batch_new(owned.raw))
        return owned

    def _copy(self, content: Content, number: int, blocks: int, shape: Limits) -> Opening:
        """A new desk, for which who makes it gives the one in use, with this content as the version of this number, so many
        blocks and these limits. It opens with the content; where its blocks are too few for loops that only have names and kinds
        known, it has batches, in which each of them goes at once. Raises `Denied` (PoolEmpty) where there are too few."""
        opening = self._new(number, blocks, shape)._replace(rebased=self._opening.rebased)
        insertions, removals = opening_of(content)
        code = self.library.desk_open_columns(opening.desk.raw, columns_of(insertions), c_uint64()) if insertions.codes else 0
        if code not in (Code.OK, Code.BLOCKS_FULL):
            raise refusal_of(code)
        if code or removals.codes and not self._stat(opening).free:
            opening, removals = self._new(number, blocks, shape)._replace(rebased=opening.rebased), operations_of(content)
        if removals.codes:
            self._apply_all(opening, removals)
            check(self.library.desk_rebase(opening.desk.raw))
        return opening

    def _apply_all(self, opening: Opening, operations: Numbered) -> None:
        """Applies operations at a desk, in batches as small as its free blocks want them."""
        at, count = 0, len(operations.codes)
        while at < count:
            part = Operations(columns=operations.some(slice(at, at + min(MOST_AT_ONCE, max(self._stat(opening).free, 1)))))
            flight = self.flight(part, True)
            check(self.library.desk_apply(opening.desk.raw, flight.owned.raw, flight.counts))
            self._collect(opening)
            at += part.size
