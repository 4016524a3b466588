"""Desks at their limits: what a refusal leaves, compared with what was there before."""
from __future__ import annotations

from ctypes import c_uint64
from typing import Any, Optional, Tuple

import numpy

from bench.calls import Refused
from bench.checks import Checks
from bench.stores.caller import Caller, Names, View, fields, operations
from misteluk.engine import interface
from misteluk.engine.interface import Code

Limits = Tuple[int, int, int]


def one_edge(source: int, target: int, weight: int = 1) -> Tuple[Any, ...]:
    """Columns of one insertion."""
    return tuple(numpy.array([value], kind) for value, kind in ((source, "u4"), (target, "u4"), (weight, "i8"), (1, "u8")))


class Walled:
    """A desk under limits, and a batch."""

    def __init__(self, checks: Checks, call: Caller, limits: Limits, blocks: int, weight: Optional[int] = None) -> None:
        self.checks, self.call = checks, call
        self.desk, self.batch, self.done = call.opened(*limits, blocks, weight), interface.Batch(), c_uint64()
        call("batch_new", self.batch)

    def free(self) -> None:
        self.empty()
        self.call("batch_free", self.batch)
        self.call("desk_free", self.desk)

    def empty(self) -> None:
        """A batch that has no operations."""
        self.call("batch_free", self.batch)
        self.call("batch_new", self.batch)

    def state(self) -> Tuple[Any, ...]:
        """All counts, each edge, and the number of the batch's operations."""
        version, hold = self.call.hold(self.desk)
        size = self.call.size(version)
        found = fields(self.call.stat(self.desk)), fields(size), *self.call.edges(version, View(), size.edges)
        self.call.release(self.desk, (version, hold))
        return (*found, self.call.length(self.batch))

    def refused(self, what: str, code: Code, name: str, *given: Any) -> None:
        """A call is refused with a code, and leaves the desk and the batch."""
        before = self.state()
        self.checks.refused(what, code, self.call, name, *given)
        self.checks.equal(f"{what}: all is as it was", self.state(), before)

    def apply(self) -> Tuple[int, ...]:
        return self.call.apply(self.desk, self.batch)

    def apply_refused(self, what: str, code: Code) -> None:
        """The batch is refused with a code, as it is then let go."""
        self.refused(what, code, "desk_apply", self.desk, self.batch, interface.Counts())
        self.empty()

    def insert(self, kind: bytes, source: bytes, target: bytes, weight: int = 1, time: int = 1) -> None:
        self.call("batch_insert", self.batch, kind, source, target, weight, time)

    def load(self, kind: bytes, names: Names, sources: Any, targets: Any, weights: Any = None) -> Tuple[int, int]:
        """Inserts edges of weight 1, if no other is said, at times that are their places."""
        count = len(sources)
        times = numpy.arange(count, dtype="u8")
        return self.call.load(self.desk, kind, names, sources, targets, numpy.ones(count, "i8") if weights is None else weights,
                              times)

    def insert_columns(self, kind: bytes, names: Names, *columns: Any) -> Tuple[str, int]:
        """The code of a load, and how many insertions are in."""
        counts, done = interface.Counts(), c_uint64()
        try:
            self.call("desk_insert_columns", self.desk, kind, *names.words, *columns, counts, done)
        except Refused as refusal:
            return refusal.code.name, done.value
        return "OK", done.value

    def append(self, count: int, names: Names, weights: Any = None, limit: int = interface.OPERATIONS) -> int:
        """Appends so many insertions of an edge by columns, and tells how many are in."""
        done, ones = c_uint64(), numpy.ones(count, "i8")
        zeros = numpy.zeros(count, "u4")
        told = operations(b"e", numpy.ones(1, "u8"), *names.words, numpy.zeros(count, "u1"), zeros, zeros, zeros,
                          ones if weights is None else weights, ones.view("u8"))
        self.done = done
        self.call("batch_columns", self.batch, told, limit, done)
        return done.value
