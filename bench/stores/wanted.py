"""A graph in columns of numpy: what the store has to hold after insertions, and has to answer."""
from __future__ import annotations

import importlib
from typing import Any, Tuple

import numpy

from bench.stores.caller import EVER
from misteluk.engine.interface import ANY_KIND, NOT_REACHED


class Wanted:
    """Edges by kind, source and target in this order, each once, with the weight and the first and the last time."""

    def __init__(self, names: int, table: Tuple[Any, ...]) -> None:
        self.names, self.table = names, table

    @classmethod
    def of_insertions(cls, names: int, kinds: Any, sources: Any, targets: Any, weights: Any, times: Any) -> "Wanted":
        """What insertions leave, whose times grow: the last weight, and the first and the last time."""
        keys = (kinds.astype("u8") * names + sources) * names + targets
        first = numpy.unique(keys, return_index=True)[1]
        last = len(keys) - 1 - numpy.unique(keys[::-1], return_index=True)[1]
        return cls(names, (kinds[last], sources[last], targets[last], weights[last], times[first], times[last]))

    def __len__(self) -> int:
        return len(self.table[0])

    def seen(self, kind: int = ANY_KIND, window: Tuple[int, int] = EVER) -> "Wanted":
        """The edges of a view."""
        kinds, recents = self.table[0], self.table[5]
        kept = (recents >= numpy.uint64(window[0])) & (recents <= numpy.uint64(window[1]))
        return self.only(kept if kind == ANY_KIND else kept & (kinds == kind))

    def only(self, kept: Any) -> "Wanted":
        return Wanted(self.names, tuple(it[kept] for it in self.table))

    def at(self, kind: int, source: int, target: int) -> int:
        """The place of an edge."""
        kinds, sources, targets = self.table[:3]
        return int(numpy.flatnonzero((kinds == kind) & (sources == source) & (targets == target))[0])

    def beside(self, own: int, vertex: int) -> "Wanted":
        """The edges that have a vertex in its own column, as source or target."""
        return self.only(self.table[own] == vertex)

    def degrees(self) -> Tuple[Any, ...]:
        sources, targets, weights = self.table[1:4]
        sums = numpy.zeros(self.names, "i8")
        numpy.add.at(sums, sources, weights)
        return tuple(numpy.bincount(it, minlength=self.names) for it in (sources, targets)) + (sums,)

    def weights_in(self) -> Any:
        sums = numpy.zeros(self.names, "i8")
        numpy.add.at(sums, self.table[2], self.table[3])
        return sums

    def matrix(self) -> Any:
        sparse = importlib.import_module("scipy.sparse")
        ones = numpy.ones(len(self), "i4")
        return sparse.csr_matrix((ones, (self.table[1].astype("i4"), self.table[2].astype("i4"))), (self.names, self.names))

    def levels(self, source: int) -> Any:
        """By igraph: how many edges lead from a source to each vertex at the least."""
        graph = importlib.import_module("igraph")
        ends = numpy.column_stack(self.table[1:3])
        far = numpy.array(graph.Graph(n=self.names, edges=ends, directed=True).distances(source)[0])
        return numpy.where(numpy.isinf(far), NOT_REACHED, far).astype("u4")

    def labels(self) -> Any:
        """By scipy: for each vertex the least one that it is joined to."""
        count, parts = importlib.import_module("scipy.sparse.csgraph").connected_components(self.matrix(), directed=False)
        least = numpy.full(count, self.names, "u4")
        numpy.minimum.at(least, parts, numpy.arange(self.names, dtype="u4"))
        return least[parts]

    def cores(self) -> Any:
        """By igraph, of the graph without directions, loops, and edges that lie between two vertices more than once."""
        graph = importlib.import_module("igraph")
        low, high = (find(self.table[1], self.table[2]).astype("u8") for find in (numpy.minimum, numpy.maximum))
        pairs = numpy.unique(low[low != high] * numpy.uint64(self.names) + high[low != high])
        ends = numpy.column_stack((pairs // self.names, pairs % self.names)).astype("i8")
        return numpy.array(graph.Graph(n=self.names, edges=ends, directed=False).coreness(), "u4")


def in_order(table: Tuple[Any, ...]) -> Tuple[Any, ...]:
    """A table of edges by kind, source and target."""
    order = numpy.lexsort((table[2], table[1], table[0]))
    return tuple(it[order] for it in table)
