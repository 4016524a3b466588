"""How long a store in this process stands still when it renews itself, by its edges: processor time of this process.

A feed of additions makes graphs of 10,000, 100,000 and 1,000,000 edges; a few vertices have most of them. A row shows the median
of five renewals, and that for an edge.
"""
from __future__ import annotations

import argparse
import pathlib
import random
from typing import Any, Iterator, List

from bench import tables
from bench.measuring import spread, watch

BATCH, RENEWALS = 4_096, 5


def options(parser: argparse.ArgumentParser) -> None:
    parser.add_argument("--edges", type=int, nargs="*", default=[10_000, 100_000, 1_000_000])


def feed(store: Any, edges: int) -> None:
    """Feeds a store until it has so many edges."""
    chance = random.Random(1)
    while store.stat().edges < edges:
        for _ in range(BATCH):
            store.add("link", f"v{int(edges / 5 * chance.random() ** 3)}", f"v{chance.randrange(max(edges // 5, 1))}")
        store.commit()


def renewed(store: Any) -> float:
    spent = watch()
    store.compact()
    return spent().processor


def rows(sizes: List[int]) -> Iterator[List[str]]:
    import misteluk
    for edges in sizes:
        with misteluk.Store() as store:
            feed(store, edges)
            renewal = spread([renewed(store) for _ in range(RENEWALS)]).median
            there = store.stat().edges
            yield [tables.count(there), tables.seconds(renewal), f"{1e6 * renewal / there:.2f} µs"]


def measure(words: argparse.Namespace, room: pathlib.Path) -> None:
    tables.show(["edges", "a renewal", "for an edge"], rows(words.edges))
