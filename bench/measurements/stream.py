"""A stream of updates as the papers of Teseo (De Leo, Boncz, VLDB 2021) and Sortledton (Fuchs, Giceva, Margan, VLDB 2022) have
it: edges are inserted and removed in random order, ten operations for each edge that stays in the end, with and without a reader
who scans all edges again and again. By the C library, whose reader holds a version meanwhile, and by plain hash maps in C++
(bench/cpp/stream.cpp), which have no version, so that a batch and a scan wait for each other.

    python3 -m bench run stream                        65,536 edges between 2^16 vertices, R-MAT and uniform, three turns
    python3 -m bench run stream --edges 2000 --scale 9 --turns 1

Each line is of batches of one size: thousands of operations a second, elapsed, alone and beside a reader, and how many scans a
second the reader made, each of which is a table of degrees. At most 5,000 batches are timed, the last ones. Medians; the stores
take turns. It stops where both have other degrees in the end. The library is the proved one, or the one that MISTELUK_LIBRARY
names, and uses two threads, as the maps do.
"""
from __future__ import annotations

import argparse
import functools
import pathlib
from statistics import median
from typing import Any, Callable, Dict, List, Tuple

import numpy

from bench import tables
from bench.measuring import in_turns, stop
from bench.stores.updates import STORES, Log, Spent, log_of

SHAPES, SIZES = ("rmat", "uniform"), (1, 100, 4_096, 65_536)
WHAT = "thousands a second", "with a reader", "its scans a second"
# A store, and whether somebody scans meanwhile.
Way = Tuple[str, bool]


def options(parser: argparse.ArgumentParser) -> None:
    parser.add_argument("--edges", type=int, default=1 << 16, help="how many edges stay in the end (65,536)")
    parser.add_argument("--scale", type=int, default=16, help="2 to this power is the number of vertices (16)")
    parser.add_argument("--sizes", type=int, nargs="+", default=SIZES, help="operations a batch (1 100 4096 65536)")
    parser.add_argument("--turns", type=int, default=3, help="how often each is measured (3)")


def rate(counts: List[float], seconds: List[float]) -> float:
    return median(count / each for count, each in zip(counts, seconds))


def row(log: Log, size: int, turns: int, room: pathlib.Path) -> List[str]:
    """Operations a second of each store alone and beside a reader, and the scans of that one."""
    works: Dict[Way, Callable[[], Spent]] = {
        (name, scans): functools.partial(run, log, size, scans, room) for name, run in STORES.items() for scans in (False, True)}
    found = in_turns(works, turns)
    wanted = next(iter(found.values()))[0].degrees
    for (name, _), some in found.items():
        if not all(numpy.array_equal(it.degrees, wanted) for it in some):
            stop(f"{name} has other edges in the end, in batches of {size}")
    cells: List[Any] = []
    for name in STORES:
        cells += [rate([it.operations for it in found[name, scans]], [it.seconds for it in found[name, scans]]) / 1_000
                  for scans in (False, True)]
        cells.append(rate([it.scans for it in found[name, True]], [it.scanned for it in found[name, True]]))
    return [f"{it:,.0f}" if it >= 100 else f"{it:.3g}" for it in cells]


def measure(words: argparse.Namespace, room: pathlib.Path) -> None:
    logs = {shape: log_of(shape, words.scale, words.edges) for shape in SHAPES}
    tables.show(["operations a batch", *(f"{name}: {what}" for name in STORES for what in WHAT)],
                ([f"{shape}, {size:,}", *row(log, size, words.turns, room)]
                 for shape, log in logs.items() for size in words.sizes))
