"""Operations of each sort that a batch applies to a large store, and the graph that they leave, in columns of numpy."""
from __future__ import annotations

from ctypes import c_uint64
from typing import Any, List, Tuple

import numpy

from bench.stores.caller import Caller, Names, operations
from bench.stores.wanted import Wanted, in_order
from misteluk.engine import interface

KINDS = b"ef", numpy.arange(1, 3, dtype="u8")


class Changed:
    """A batch of the library and the graph that it leaves, made side by side. Operations change edges of kind e, which are given
    by their places in the graph as it was; times are later than all of the graph."""

    def __init__(self, call: Caller, names: Names, wanted: Wanted, now: int) -> None:
        self.call, self.names, self.before, self.now = call, names, wanted, now
        self.batch, self.done = interface.Batch(), c_uint64()
        call("batch_new", self.batch)
        self.table = [it.copy() for it in wanted.table]
        self.gone = numpy.zeros(len(wanted), bool)
        self.new: List[Tuple[int, ...]] = []

    def ends(self, place: int) -> Tuple[bytes, bytes, bytes]:
        kind, source, target = (int(it[place]) for it in self.table[:3])
        return b"ef"[kind:kind + 1], b"v%d" % source, b"v%d" % target

    def insert(self, place: int, weight: int) -> None:
        self.call("batch_insert", self.batch, *self.ends(place), weight, self.now)
        self.table[3][place], self.table[5][place] = weight, self.now

    def add(self, place: int, amount: int) -> None:
        self.call("batch_add", self.batch, *self.ends(place), amount, self.now)
        self.table[3][place] += amount
        self.table[5][place] = self.now

    def remove(self, place: int) -> None:
        self.call("batch_remove", self.batch, *self.ends(place))
        self.gone[place] = True

    def insert_new(self, source: int, target: int, weight: int) -> None:
        self.call("batch_insert", self.batch, b"f", b"v%d" % source, b"v%d" % target, weight, self.now)
        self.new.append((1, source, target, weight, self.now, self.now))

    def expire(self, time: int) -> None:
        """Takes away what was touched before this time, and tells how many edges these are."""
        self.call("batch_expire", self.batch, time)
        self.gone |= self.table[5] < numpy.uint64(time)

    def columns(self, sort: int, places: Any, limit: int = interface.OPERATIONS) -> None:
        """Removals, or insertions of weight 5, of edges that are there, by columns."""
        count = len(places)
        weights, times = numpy.full(count, 5, "i8"), numpy.full(count, self.now, "u8")
        kinds, sources, targets = (numpy.ascontiguousarray(it[places]) for it in self.table[:3])
        self.done.value = 0
        told = operations(*KINDS, *self.names.words, numpy.full(count, sort, "u1"), kinds, sources, targets, weights, times)
        self.call("batch_columns", self.batch, told, limit, self.done)
        if sort == interface.REMOVE:
            self.gone[places] = True
        else:
            self.table[3][places], self.table[5][places] = 5, self.now

    def wanted(self) -> Wanted:
        """The graph that the batch leaves."""
        kept = [it[~self.gone] for it in self.table]
        for place, column in enumerate(kept):
            kept[place] = numpy.concatenate((column, numpy.array([it[place] for it in self.new], column.dtype)))
        return Wanted(self.before.names, in_order(tuple(kept)))
