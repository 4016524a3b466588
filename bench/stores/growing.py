"""A desk of the C library as large as a graph of `scale` needs, the shapes of such graphs, and what is asked."""
from __future__ import annotations

from ctypes import c_uint32, c_uint64, sizeof
from typing import Any, Callable, List, Tuple

import numpy

from bench.calls import VIEW, limits, must, written_to
from bench.measuring import watch
from misteluk.engine import interface
from misteluk.engine.interface import Code

# How many edges a vertex has in each shape, and how many are loaded in one call.
SHAPES = {"rmat": 16, "transfers": 3, "ordered": 4}
STEP, SINGLE = 1 << 16, 200


def rmat(scale: int, edges: int, chance: Any) -> Tuple[Any, Any]:
    sources, targets = numpy.zeros(edges, "u4"), numpy.zeros(edges, "u4")
    for _ in range(scale):
        drawn = chance.random(edges)
        sources = sources * 2 + (drawn >= .76)
        targets = targets * 2 + (((drawn >= .57) & (drawn < .76)) | (drawn >= .95))
    return sources.astype("u4"), targets.astype("u4")


def columns_of(shape: str, scale: int, edges: int) -> Tuple[Any, ...]:
    chance = numpy.random.default_rng(7)
    names = 1 << scale
    if shape == "rmat":
        sources, targets = rmat(scale, edges, chance)
    else:
        sources = chance.integers(0, names, edges, "u4")
        targets = chance.integers(0, names, edges, "u4")
    if shape == "ordered":
        sources = numpy.sort(sources)
    return sources, targets, numpy.arange(edges, dtype="i8") % 1_000, numpy.arange(edges, dtype="u8")


def texts(count: int) -> Tuple[bytes, Any]:
    """The names v0, v1, .. as one text, and where each ends."""
    each = [b"v%d" % it for it in range(count)]
    return b"".join(each), numpy.cumsum(numpy.fromiter(map(len, each), "u8", count), dtype="u8")


def at(values: Any) -> int:
    return int(values.ctypes.data)


class Store:
    """A desk that is large enough for the shape, and what is asked of it. An endless one keeps no batches."""

    def __init__(self, library: Any, scale: int, edges: int, endless: bool = False) -> None:
        self.library, self.names, self.vertices = library, 1 << scale, 0
        self.desk, self.version, self.hold = interface.Desk(), interface.Version(), interface.Hold()
        self.counts, self.done, self.number = interface.Counts(), c_uint64(), c_uint32()
        names = self.names + 2 * SINGLE + 16
        # As large as weights may be: with more names than 2^23 less than the most that there is.
        own = limits(names, 1, (1 << 32) - 1 if endless else 1 << 31, min(1 << 40, ((1 << 63) - 1) // (names + 1)))
        must(library.desk_new_within(1, own, min(edges + (1 << 17), 1 << 31), self.desk))

    def load(self, columns: Tuple[Any, ...]) -> List[float]:
        """Seconds of the processor for each step, after which retired blocks are freed."""
        text, ends = texts(self.names)
        spent, count = [], len(columns[0])
        for first in range(0, count, STEP):
            part = [it[first:first + STEP] for it in columns]
            table = [word for it in part for word in (at(it), len(it))]
            since = watch()
            must(self.library.desk_insert_columns(self.desk, b"e", 1, text, len(text), at(ends), len(ends), *table,
                                                  self.counts, self.done))
            must(self.library.desk_collect(self.desk, self.done))
            spent.append(since().processor)
        return spent

    def opening(self, columns: Tuple[Any, ...]) -> Callable[[], None]:
        """What has the desk, which has no vertex, start over with edges of these columns."""
        count, (text, ends), one = len(columns[0]), texts(self.names), numpy.ones(1, "u8")
        table = numpy.zeros(count, "u1"), numpy.zeros(count, "u4"), *columns
        words = [word for it in table for word in (at(it), count)]
        given = interface.Columns(sizeof(interface.Columns), b"e", 1, at(one), 1, text, len(text), at(ends), len(ends), *words)
        given.kept = table, ends, one
        return lambda: must(self.library.desk_open_columns(self.desk, given, self.done))

    def stat(self) -> Any:
        found = interface.Stat()
        must(self.library.desk_stat(self.desk, found))
        return found

    def take(self) -> None:
        must(self.library.desk_hold(self.desk, self.version, self.hold))

    def let_go(self) -> None:
        must(self.library.desk_release(self.desk, self.hold))
        self.library.version_free(self.version)

    def commits(self, source: str, target: str, count: int = SINGLE) -> List[float]:
        """Seconds of the processor for each of some batches of one edge, or of none where there is no name. `%d` in a name is the
        batch's number."""
        batch, spent = interface.Batch(), []
        must(self.library.batch_new(batch))
        for it in range(count):
            if source:
                tail, head = (word.replace("%d", str(it)).encode() for word in (source, target))
                must(self.library.batch_insert(batch, b"e", 1, tail, len(tail), head, len(head), it, it))
            since = watch()
            must(self.library.desk_apply(self.desk, batch, self.counts))
            spent.append(since().processor)
        self.library.batch_free(batch)
        return spent

    def degrees(self) -> None:
        found = [numpy.zeros(self.vertices, it) for it in ("u4", "u4", "i8")]
        must(self.library.version_degrees(self.version, VIEW, *(w for it in found for w in (at(it), len(it)))))

    def table(self, ask: Callable[..., int], *words: int) -> None:
        found = numpy.zeros(self.vertices, "u4")
        must(ask(self.version, VIEW, *words, at(found), len(found)))

    def edges(self) -> None:
        """All edges, 65,536 at a time, or as many as a longer row has."""
        room, source, count = STEP, c_uint32(), c_uint64()
        while source.value < self.vertices:
            found = [numpy.zeros(room, it) for it in ("u4", "u4", "u4", "i8", "u8", "u8")]
            room = self.edges_from(source, [word for it in found for word in (at(it), room)], count)

    def edges_from(self, source: c_uint32, words: List[int], count: c_uint64) -> int:
        """Reads on while rows fit into the columns, and tells how long the next one is."""
        code = Code.OK
        while code == Code.OK and source.value < self.vertices:
            code = self.library.version_edges(self.version, VIEW, source, written_to(words), count)
        if code != Code.BAD_LENGTH:
            must(code)
        return count.value
