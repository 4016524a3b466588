"""Stores with as many names or kinds as may be, and a vertex with millions of edges of the greatest weight."""
from __future__ import annotations

from typing import Any

import numpy

from bench.stores.asked import Asked
from bench.stores.caller import Names, View
from bench.stores.small_walls import SmallWalls
from bench.stores.walled import Walled, one_edge
from bench.stores.wanted import Wanted
from misteluk.engine.interface import Code

# A weight is at most this in size.
WEIGHT = 1 << 40


def columns(kind: int, sources: Any, targets: Any, weights: Any) -> Any:
    """What a load of the kind leaves, of edges that each come once; their times are their places."""
    times = numpy.arange(len(sources), dtype="u8")
    return numpy.full(len(sources), kind, "u4"), sources, targets, weights, times, times.copy()


class Full:
    """A tree of as many names as may be, each with edges to 32 others, and of each further kind an edge between the first two."""

    def __init__(self, walls: SmallWalls, names: int, kinds: bytes) -> None:
        self.checks, self.call, self.count, self.kinds = walls.checks, walls.call, names, kinds
        self.it: Walled = walls.opened(names, len(kinds), (1 << 32) - 1, names // 16 + 1_024)
        self.names = Names(names + 1)
        targets = numpy.arange(1, names, dtype="u4")
        self.tree = columns(0, targets // 32, targets, numpy.ones(names - 1, "i8"))

    def run(self) -> None:
        self.load()
        self.refuse()
        version, hold = self.call.hold(self.it.desk)
        more = [numpy.array([(kind, 0, 1, 1, 1, 1)[place] for kind in range(1, len(self.kinds))], column.dtype)
                for place, column in enumerate(self.tree)]
        wanted = Wanted(self.count, tuple(map(numpy.concatenate, zip(self.tree, more))))
        self.ask(Asked(self.checks, self.call, version, wanted))
        self.call.release(self.it.desk, (version, hold))
        self.it.free()

    def load(self) -> None:
        told = self.it.load(self.kinds[:1], self.names, *self.tree[1:3])
        self.checks.equal("edges of the tree", told, (self.count - 1, 0))
        for place in range(1, len(self.kinds)):
            self.it.insert(self.kinds[place:place + 1], b"v0", b"v1")
        self.checks.equal("edges of other kinds", self.it.apply()[1], len(self.kinds) - 1)

    def refuse(self) -> None:
        """A name more, a kind more, and both, for which the name's code comes; by an operation and by columns."""
        it, kind, new, full = self.it, self.kinds[:1], b"v%d" % self.count, (Code.NAMES_FULL.name, Code.KINDS_FULL.name)
        for source, target in ((b"v0", new), (new, b"v0")):
            it.insert(kind, source, target)
            it.apply_refused(f"name {self.count + 1}", Code.NAMES_FULL)
        it.insert(b"~", b"v0", b"v1")
        it.apply_refused(f"kind {len(self.kinds) + 1}", Code.KINDS_FULL)
        it.insert(b"~", b"v0", new)
        it.apply_refused("a name and a kind", Code.NAMES_FULL)
        before = it.state()
        for word, end, code in ((kind, self.count, full[0]), (b"~", 1, full[1]), (b"~", self.count, full[0])):
            self.checks.equal("by columns", it.insert_columns(word, self.names, *one_edge(0, end)), (code, 0))
        self.checks.equal("by columns: all is as it was", it.state(), before)

    def ask(self, asked: Asked) -> None:
        """The tree: each vertex has as many edges before it as its number can be divided by 32, and is of core 1."""
        asked.names(Names(self.count), self.kinds)
        asked.edges()
        asked.degrees()
        level, left = numpy.zeros(self.count, "u4"), numpy.arange(self.count)
        while left.any():
            level[left > 0] += 1
            left //= 32
        asked.table("levels", level, 0)
        asked.table("labels", numpy.zeros(self.count, "u4"))
        asked.table("cores", numpy.ones(self.count, "u4"))


class Hub:
    """A vertex with so many edges, of the greatest weight and of the least, and what is past these."""

    def __init__(self, walls: SmallWalls, count: int) -> None:
        self.checks, self.call, self.count = walls.checks, walls.call, count
        self.it, self.names = walls.opened(count + 1, 1, 1 << 20, count // 4), Names(count + 1)
        sources, targets = numpy.zeros(count, "u4"), numpy.arange(1, count + 1, dtype="u4")
        self.table = columns(0, sources, targets, numpy.where(targets % 4 == 0, -WEIGHT, WEIGHT))

    def run(self) -> None:
        self.checks.equal("edges", self.it.load(b"e", self.names, *self.table[1:4]), (self.count, 0))
        self.ask()
        self.refuse()
        self.change()
        self.ask()
        self.it.free()

    def ask(self) -> None:
        held = self.call.hold(self.it.desk)
        it = Asked(self.checks, self.call, held[0], Wanted(self.count + 1, self.table))
        for seen in (View(), View(0, (self.count // 3, self.count // 2))):
            it.degrees(seen)
            it.row(0, seen)
            it.edges(seen)
        for place in (0, 3, self.count - 1):
            it.edge(place)
        self.call.release(self.it.desk, held)

    def refuse(self) -> None:
        """Weights and amounts past the bounds, one by one and in columns: a load keeps the 4,096 before."""
        it, words = self.it, (b"e", b"v0", b"v1")
        for weight in (WEIGHT + 1, -WEIGHT - 1, (1 << 63) - 1, -(1 << 63)):
            for name in ("batch_insert", "batch_add"):
                it.refused(f"{name} of {weight}", Code.BAD_WEIGHT, name, it.batch, *words, weight, 1)
            weights = numpy.ones(10, "i8")
            weights[7] = weight
            self.checks.refused("in columns", Code.BAD_WEIGHT, it.append, 10, self.names, weights)
            self.checks.equal("the place in columns, and operations", (it.done.value, self.call.length(it.batch)), (7, 0))
        part = [column[:10_000].copy() for column in self.table[1:5]]
        part[2][5_000] = WEIGHT + 1
        self.checks.equal("in a load", it.insert_columns(b"e", self.names, *part), (Code.BAD_WEIGHT.name, 4_096))

    def change(self) -> None:
        """What would pass a bound leaves weight and times; the bound itself is reached again."""
        late = self.count + 9
        for target, amount in ((1, 1), (4, -1), (2, WEIGHT), (8, -WEIGHT), (3, -1), (12, 1), (5, -WEIGHT), (5, -WEIGHT)):
            self.call("batch_add", self.it.batch, b"e", b"v0", b"v%d" % target, amount, late)
            if abs(int(self.table[3][target - 1]) + amount) <= WEIGHT:
                self.table[3][target - 1] += amount
                self.table[5][target - 1] = late
        self.call("batch_insert", self.it.batch, b"e", b"v0", b"v6", -WEIGHT, late)
        self.table[3][5], self.table[5][5] = -WEIGHT, late
        self.checks.equal("what became of them", self.it.apply()[1:], (0, 5, 0, 0, 4, 0))
