"""Stores of smaller weights, which so may have more names: a vertex with millions of edges of the greatest weight, and as many
names as there may be at all."""
from __future__ import annotations

from ctypes import c_uint32, c_uint64
from typing import Any, Tuple

import numpy

from bench.calls import written_to
from bench.stores.caller import COLUMNS, STEP, View, fields, operations, words_of
from bench.stores.full import WEIGHT
from bench.stores.small_walls import BLOCKS, KINDS, MOST_NAMES, NAMES, PRODUCT, SmallWalls
from bench.stores.walled import Walled
from misteluk.engine import interface
from misteluk.engine.interface import Code

# The names of a hub's store; how many new ones a batch of these alone has, how many of the last are read back; and a limit of
# batches that keeps none.
NAMES_OF_HUB, NEW, LAST, BATCHES = 1 << 24, 1 << 18, 1_000, (1 << 32) - 1


def greatest_weight(names: int, kinds: int) -> int:
    """The greatest limit of weights: one for each kind of each name, and one more, are below 2^63."""
    return min(WEIGHT, ((1 << 63) - 1) // (names * kinds + 1))


def dictionary(first: int, last: int) -> Tuple[bytes, Any]:
    """The names from one number to before another, and where each ends."""
    each = [b"v%d" % it for it in range(first, last)]
    return b"".join(each), numpy.cumsum(numpy.fromiter(map(len, each), "u8", len(each)), dtype="u8")


class Light:
    """What both stores are asked: a desk with so many names, and with weights of at most the greatest size."""

    it: Walled

    def __init__(self, walls: SmallWalls, count: int, blocks: int) -> None:
        self.checks, self.call, self.count, self.most = walls.checks, walls.call, count, greatest_weight(count, 1)
        self.it = walls.opened(count, 1, BATCHES, blocks, self.most)

    def apply(self, names: Tuple[bytes, Any], sources: Any, targets: Any, weights: Any, times: Any) -> Tuple[int, ...]:
        """What became of a batch of insertions, whose ends are places in a dictionary."""
        done, count = c_uint64(), len(sources)
        told = operations(b"e", numpy.ones(1, "u8"), *names, numpy.zeros(count, "u1"), numpy.zeros(count, "u4"), sources, targets,
                          weights, times)
        self.call("batch_columns", self.it.batch, told, interface.MOST_OPERATIONS, done)
        self.checks.equal("operations", done.value, count)
        return self.it.apply()[1:]

    def name(self, begin: int) -> None:
        """Makes the names from this number on known, two by each insertion of a weight past the limit, which leaves no edge."""
        for first in range(begin, self.count, NEW):
            last = min(first + NEW, self.count)
            ends = numpy.arange(last - first, dtype="u4")
            sources = ends[::2].copy()
            targets = numpy.append(ends[1::2], ends[-1:])[:len(sources)].copy()
            told = self.apply(dictionary(first, last), sources, targets, numpy.full(len(sources), self.most + 1, "i8"),
                              numpy.ones(len(sources), "u8"))
            self.checks.equal(f"insertions from {first} on", told, (0, 0, 0, 0, len(sources), 0))

    def refused(self, what: str, source: bytes, target: bytes, weight: int) -> None:
        """An insertion of a name more is refused, and counts are as they were."""
        before = fields(self.call.stat(self.it.desk))
        self.it.insert(b"e", source, target, weight)
        self.checks.refused(what, Code.NAMES_FULL, self.call, "desk_apply", self.it.desk, self.it.batch, interface.Counts())
        self.checks.equal(f"{what}: counts", fields(self.call.stat(self.it.desk)), before)
        self.it.empty()

    def refuse(self) -> None:
        """A name more, also by an insertion whose weight is past the limit: such a one makes names known, too."""
        new = b"v%d" % self.count
        self.refused("a name more", b"v0", new, self.most)
        self.refused("a name more as a source", new, b"v0", -self.most)
        self.refused("a name more with a weight past the limit", b"v0", new, self.most + 1)

    def last_names(self, version: Any) -> None:
        """The last names by their numbers, and the last one's number."""
        first, number = self.count - LAST, c_uint32()
        text, ends = dictionary(first, self.count)
        found = numpy.zeros(len(text), "u1"), numpy.zeros(LAST, "u8")
        self.call("version_names", version, first, *found)
        self.checks.equal("the last names", (found[0].tobytes(), found[1]), (text, ends))
        self.call("version_vertex", version, b"v%d" % (self.count - 1), number)
        self.checks.equal("the last name's number", number.value, self.count - 1)
        words = version, b"v%d" % self.count, number
        self.checks.refused("a name that there isn't", Code.NO_VERTEX, self.call, "version_vertex", *words)


class LightHub(Light):
    """A vertex with so many edges of the greatest weight, among more names."""

    def __init__(self, walls: SmallWalls, edges: int) -> None:
        super().__init__(walls, NAMES_OF_HUB, edges // 32 + 2 * STEP)
        self.edges, self.weights, self.times = edges, numpy.full(edges, self.most, "i8"), numpy.arange(edges, dtype="u8")

    def run(self) -> None:
        for first in range(0, self.edges, STEP):
            self.load(first, min(first + STEP, self.edges))
        self.name(self.edges)
        self.ask()
        self.refuse()
        self.change()
        self.ask()
        self.it.free()

    def load(self, first: int, last: int) -> None:
        """Edges to the names from one number to before another, in one batch."""
        (text, ends), count = dictionary(first, last), last - first
        names = b"v0" + text, numpy.concatenate((numpy.array([2], "u8"), ends + numpy.uint64(2)))
        targets = numpy.arange(1, count + 1, dtype="u4")
        told = self.apply(names, numpy.zeros(count, "u4"), targets, self.weights[first:last], self.times[first:last])
        self.checks.equal(f"edges from {first} on", told, (count, 0, 0, 0, 0, 0))
        self.call.collect(self.it.desk)

    def ask(self) -> None:
        version, hold = self.call.hold(self.it.desk)
        self.last_names(version)
        found = [numpy.zeros(self.count, it) for it in ("u4", "u4", "i8")]
        self.call("version_degrees", version, View().given(), *found)
        leaves, enters, sums = (numpy.zeros(self.count, "i8") for _ in range(3))
        leaves[0], sums[0], enters[:self.edges] = self.edges, self.weights.sum(), 1
        self.checks.equal("degrees", found, [leaves, enters, sums])
        self.row(version)
        self.call.release(self.it.desk, (version, hold))

    def row(self, version: Any) -> None:
        found, count = [numpy.zeros(self.edges, it) for it in COLUMNS], c_uint64()
        self.call("version_row", version, View().given(), 0, written_to(words_of(*found)), count)
        del found[1]
        self.checks.equal("edges of the row", count.value, self.edges)
        order = numpy.argsort(found[1])
        places = numpy.arange(self.edges)
        for name, column, wanted in zip(("targets", "weights", "first times", "recent times"), found[1:],
                                        (places, self.weights, places, self.times)):
            self.checks.equal(name, column[order], wanted)

    def change(self) -> None:
        """What is past the limit, or would leave a sum past it, changes nothing; the limit itself is reached from both ends."""
        late, most, it = self.edges + 9, self.most, self.it
        for target, weight in ((1, most + 1), (2, -most - 1), (6, -most)):
            it.insert(b"e", b"v0", b"v%d" % target, weight, late)
        for target, amount in ((3, 1), (4, -most - 1), (5, -most), (5, -most), (5, -1)):
            self.call("batch_add", it.batch, b"e", b"v0", b"v%d" % target, amount, late)
        self.weights[5:7], self.times[5:7] = -most, late
        self.checks.equal("what became of them", it.apply()[1:], (0, 3, 0, 0, 5, 0))


class MostNames(Light):
    """As many names as there may be at all."""

    def __init__(self, walls: SmallWalls) -> None:
        super().__init__(walls, MOST_NAMES, NEW)

    def run(self) -> None:
        self.name(0)
        stat = self.call.stat(self.it.desk)
        self.checks.equal("counts", (stat.vertices, stat.kinds, stat.edges, stat.blocks_used), (self.count, 1, 0, 0))
        self.refuse()
        self.change()
        self.it.free()

    def change(self) -> None:
        """An edge of the greatest weight to the last name."""
        last, found = self.count - 1, interface.Edge()
        self.it.insert(b"e", b"v0", b"v%d" % last, self.most, 7)
        self.checks.equal("what became of it", self.it.apply()[1:], (1, 0, 0, 0, 0, 0))
        version, hold = self.call.hold(self.it.desk)
        self.last_names(version)
        self.call("version_edge", version, 0, 0, last, found)
        self.checks.equal("the edge", (found.weight, found.first, found.recent), (self.most, 7, 7))
        self.call.release(self.it.desk, (version, hold))


class LightWalls(SmallWalls):
    """Limits of weights, and what fits next to them."""

    light_edges = 1 << 22

    def weights(self) -> None:
        """How large weights may be next to so many names and kinds, and that none may be larger."""
        more = (NAMES + 1, 1), (PRODUCT // KINDS + 1, KINDS), (MOST_NAMES, 1), (MOST_NAMES, KINDS)
        for names, kinds in ((0, 0), (NAMES, 1), *more):
            most = greatest_weight(names, kinds)
            it = self.opened(names, kinds, 1, 16, most)
            self.checks.equal(f"{names} names, {kinds} kinds: the limit of weights", self.call.limits(it.desk)[3], most)
            it.free()
            self.checks.refused(f"a weight of {most + 1}", Code.BAD_LIMITS, self.call.opened, names, kinds, 1, 16, most + 1)
        for names, kinds, weight in ((MOST_NAMES + 1, 1, 0), (1, KINDS + 1, 0), (NAMES, 1, (1 << 64) - 1)):
            self.checks.refused(f"{names} {kinds} {weight}", Code.BAD_LIMITS, self.call.opened, names, kinds, 1, 16, weight)
        for blocks in (15, BLOCKS + 1):
            self.checks.refused(f"{blocks} blocks, light", Code.BAD_BLOCKS, self.call.opened, 1, 1, 1, blocks, 1)

    def light(self) -> None:
        LightHub(self, self.light_edges).run()

    def most(self) -> None:
        MostNames(self).run()
