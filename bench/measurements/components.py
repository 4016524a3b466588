"""What components cost that are kept from version to version: over five million edges, R-MAT or between any vertices, batches of
1,000 insertions of the same shape come in, and `LiveComponents` goes on to each version. Processor time of this process.

A row shows the graph; the first look at all edges, and a commit of a batch; the median and the 99th percentile of an update with
the number of components and the labels of ten vertices; and a table of all labels. It stops where the table isn't that of a
session of the same version.
"""
from __future__ import annotations

import argparse
import gc
import pathlib
from typing import Any, Iterator, List

from bench import tables
from bench.measuring import percentile, spread, stop, timed, watch
from bench.stores.growing import columns_of
from misteluk import LiveComponents, Store

SHAPES, BATCH, ASKED = ("rmat", "transfers"), 1_000, 10


def options(parser: argparse.ArgumentParser) -> None:
    parser.add_argument("--edges", type=int, default=5_000_000)
    parser.add_argument("--scale", type=int, default=20, help="a graph has up to 2^SCALE vertices (20)")
    parser.add_argument("--batches", type=int, default=200)


def row(shape: str, words: argparse.Namespace) -> List[str]:
    sources, targets, *_ = columns_of(shape, words.scale, words.edges + words.batches * BATCH)
    with Store() as store:
        store.load({"source": sources[:words.edges], "target": targets[:words.edges]}, by="set", progress=False)
        live, whole = timed(lambda: LiveComponents(store))
        names, commits, updates = [str(it) for it in sources[:ASKED]], [], []
        for at in range(words.edges, len(sources), BATCH):
            for ends in zip(sources[at:at + BATCH].tolist(), targets[at:at + BATCH].tolist()):
                store.insert("edge", *map(str, ends))
            since = watch()
            store.commit()
            commits.append(since().processor)
            since = watch()
            live.update(), live.count, [live[it] for it in names]
            updates.append(since().processor)
        table, spent = timed(live.table)
        with store.open() as session:
            if table != session.components():
                stop(f"the components of {shape} aren't those of a session")
        stat = store.stat()
        marks = whole.processor, spread(commits).median, spread(updates).median, percentile(updates, 99), spent.processor
        return [shape, tables.count(stat.edges), tables.count(stat.vertices), *map(tables.seconds, marks)]


def rows(words: argparse.Namespace) -> Iterator[List[str]]:
    gc.disable()
    for shape in SHAPES:
        yield row(shape, words)


def measure(words: argparse.Namespace, _: pathlib.Path) -> None:
    tables.show(["shape", "edges", "vertices", "first", "a commit", "an update", "99%", "a table"], rows(words))
