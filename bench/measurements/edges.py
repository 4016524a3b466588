"""Single edges asked of a session one after another. Five rounds, each in a store of its own; then medians.
"""
from __future__ import annotations

import argparse
import functools
import pathlib

from bench import tables
from bench.measuring import in_turns, spread, timed
from misteluk import Store

EDGES = [("t", f"a{number * 7 % 5_000}", f"b{number * 13 % 4_999}") for number in range(10_000)]


def options(parser: argparse.ArgumentParser) -> None:
    parser.add_argument("--rounds", type=int, default=5, help="rounds (5)")
    parser.add_argument("--requests", type=int, default=200_000, help="requests a round, a multiple of 10,000 (200,000)")


def round_of(requests: int) -> float:
    """Requests a second in a store of its own, whose every request finds an edge."""
    with Store() as store:
        for number, edge in enumerate(EDGES):
            store.insert(*edge, number, time=number)
        store.commit()
        with store.open() as session:
            last = session.edge(*EDGES[-1])
            assert last is not None and last.weight == len(EDGES) - 1
            _, spent = timed(lambda: [session.edge(*it) for _ in range(requests // len(EDGES)) for it in EDGES])
    return requests / spent.elapsed


def measure(words: argparse.Namespace, _: pathlib.Path) -> None:
    found = spread(in_turns({"edges": functools.partial(round_of, words.requests)}, words.rounds)["edges"])
    tables.show(["edges a second", "least", "most"], [list(map(tables.count, (found.median, found.least, found.most)))])
