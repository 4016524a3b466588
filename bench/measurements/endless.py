"""A feed without end: 5,000,000 additions in batches of 4,000, each with an expiry of a window of about 28,000 of them, between
200,000 names in all, of which some hundreds are in use at a time. At ten points every edge, both its times and all degrees are
those of a plain model. Prints the longest commit: in it the store dropped names that have no edge, or began again.
"""
from __future__ import annotations

import argparse
import pathlib
import random
from typing import Any, Dict, Iterator, Set, Tuple

from bench.measuring import stop, watch
from bench.places import BLOCKS
from misteluk import Store

BATCH, WINDOW, NAMES, AT_ONCE, POINTS = 4_000, 28_000, 200_000, 300, 10
Model = Dict[Tuple[str, str], Tuple[int, int, int]]
Degrees = Dict[str, Tuple[int, int, int]]


def options(parser: argparse.ArgumentParser) -> None:
    parser.add_argument("--operations", type=int, default=5_000_000, help="a multiple of 40,000 (5,000,000)")


def rows(operations: int, made: random.Random) -> Iterator[Tuple[str, str, int, int]]:
    """The feed: source, target, amount and time of each operation."""
    for at in range(operations):
        base = at * (NAMES - AT_ONCE) // operations
        yield f"h{base + made.randrange(AT_ONCE)}", f"h{base + made.randrange(AT_ONCE)}", made.randrange(1, 30), at


def degrees_of(model: Model) -> Degrees:
    """What the model says of each name that has an edge: edges out and in, and the weight that goes out."""
    found: Degrees = {}
    for (source, target), (weight, _, _) in model.items():
        for name, out, into, more in ((source, 1, 0, weight), (target, 0, 1, 0)):
            before = found.get(name, (0, 0, 0))
            found[name] = before[0] + out, before[1] + into, before[2] + more
    return found


def compare(store: Any, model: Model) -> None:
    """Stops where the last version isn't what the model is."""
    with store.open() as session:
        found = session.get_edges([("truck", *it) for it in model])
        degrees = {name: (it.out, it.into, it.weight_out) for name, it in session.degrees().items() if it.out or it.into}
    if [tuple(it) for it in found] != list(model.values()):
        stop("the edges differ from the model's")
    if store.stat().edges != len(model) or degrees != degrees_of(model):
        stop("the degrees differ from the model's")


class Feed:
    """The feed so far: the model, all names, and the longest commit."""

    def __init__(self, store: Any) -> None:
        self.store, self.spent, self.longest, self.compared = store, watch(), 0.0, 0.0
        self.model: Model = {}
        self.names: Set[str] = set()

    def add(self, source: str, target: str, amount: int, when: int) -> None:
        self.store.add("truck", source, target, amount, when)
        self.names.update((source, target))
        weight, first, _ = self.model.get((source, target), (0, when, when))
        self.model[source, target] = weight + amount, first, when

    def commit(self, when: int) -> None:
        self.store.expire(max(when - WINDOW, 0))
        spent = watch()
        self.store.commit()
        self.longest = max(self.longest, spent().elapsed)
        self.model = {it: edge for it, edge in self.model.items() if edge[2] >= when - WINDOW}

    def compare(self, at: int) -> None:
        spent = watch()
        compare(self.store, self.model)
        self.compared += spent().elapsed
        stat = self.store.stat()
        print(f"{self.spent().elapsed:.1f} s: {at} operations, {len(self.names)} names in all; equal: version "
              f"{stat.version}, {len(self.model)} edges, {stat.vertices} names there", flush=True)


def measure(words: argparse.Namespace, _: pathlib.Path) -> None:
    operations = words.operations
    if operations < 1 or operations % (BATCH * POINTS):
        stop(f"the operations are a multiple of {BATCH * POINTS}, so that each point comes after a batch")
    with Store(blocks=BLOCKS, endless=True) as store:
        feed = Feed(store)
        for at, row in enumerate(rows(operations, random.Random(5)), 1):
            feed.add(*row)
            if at % BATCH == 0:
                feed.commit(row[3])
            if at % (operations // POINTS) == 0:
                feed.compare(at)
    seconds = feed.spent().elapsed - feed.compared
    print(f"{operations / seconds:.0f} operations a second with the model, without the comparisons")
    print(f"the longest commit took {feed.longest:.2f} s")
