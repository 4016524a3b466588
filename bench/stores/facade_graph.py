"""The graph that bench/rattle/every_call makes, and the numbers that stand there for edges, rows and blocks, in numpy."""
from __future__ import annotations

from typing import Any, Tuple

import numpy

from bench.stores.wanted import Wanted

ODD = numpy.uint64(0x9E37_79B9_7F4A_7C15)


def u8(values: Any) -> Any:
    """Numbers as they are when they wrap; those below nothing from the top."""
    return numpy.asarray(values).astype("i8").view("u8")


def insertions(scale: int, edges: int) -> Tuple[Any, ...]:
    """Kinds, sources, targets, weights and times: a ring, and after it edges whose ends are bits of their places, mixed."""
    places, mask = numpy.arange(edges, dtype="u8"), numpy.uint64((1 << scale) - 1)
    one = places * ODD
    two = (one ^ (one >> numpy.uint64(29))) * numpy.uint64(0xBF58_476D_1CE4_E5B9)
    bits = two ^ (two >> numpy.uint64(32))
    ring = places <= mask
    sources = numpy.where(ring, places, (bits >> numpy.uint64(8)) & mask).astype("u4")
    targets = numpy.where(ring, (places + numpy.uint64(1)) & mask, (bits >> numpy.uint64(36)) & mask).astype("u4")
    return numpy.zeros(edges, "u4"), sources, targets, (places % numpy.uint64(1_999)).astype("i8") - 999, places


def sum_of_edges(graph: Wanted) -> int:
    _, sources, targets, weights, firsts, recents = map(u8, graph.table)
    places = (sources << numpy.uint64(32)) | targets
    times = (firsts * numpy.uint64(3) + recents) | numpy.uint64(1)
    return int(((places * ODD + weights) * times).sum(dtype="u8"))


def sum_of_rows(vertices: Any, values: Any) -> int:
    return int(((u8(vertices) * ODD + numpy.uint64(1)) * (u8(values) * numpy.uint64(2) + numpy.uint64(1))).sum(dtype="u8"))


def blocks_of(graph: Wanted) -> Any:
    """Of each edge, in which block of its row it is: after insertions alone, each 32 new edges of a row have a block."""
    sources, firsts = graph.table[1], graph.table[4]
    order = numpy.lexsort((firsts, sources))
    ranks = numpy.arange(len(order)) - numpy.searchsorted(sources[order], sources[order])
    found = numpy.empty(len(order), "u8")
    found[order] = ranks // 32
    return found
