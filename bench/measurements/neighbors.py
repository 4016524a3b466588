"""What a session's walks take, next to networkx and SQLite, for one file of a bank's transfers.

    python3 -m bench run neighbors          200,000 transfers between 20,000 accounts, one of which some 2,000 send to
    python3 -m bench run neighbors 20000    so many transfers, between a tenth as many accounts

Elapsed seconds, medians of five runs in turns. Each answer is compared with those of the others, and the measurement stops where
they differ. SQLite is that of Python, in memory.
"""
from __future__ import annotations

import argparse
import functools
import pathlib
from typing import Any, Callable, Dict, List, Tuple

from bench import tables
from bench.measuring import in_turns, spread, stop, timed
from bench.stores.transfers import HOPS, SIDES, chosen, plain, questions, write_transfers

ALL, PATH, NEAR = "all edges, out", "a shortest path", f"what is within {HOPS} hops of a name"
LOAD = ("the load, elapsed", "the load, processor time")
Asked = Dict[str, Callable[[Any], Any]]


def options(parser: argparse.ArgumentParser) -> None:
    parser.add_argument("transfers", type=int, nargs="?", default=200_000, help="2,000 or more (200,000)")
    parser.add_argument("--runs", type=int, default=5, help="turns (5)")


def turn_of(make: Any, path: str, asked: Asked, answers: Dict[str, Any]) -> Dict[str, float]:
    """One side's turn: the seconds of the load and of each question; its answers are kept."""
    begin: Callable[[], Any] = functools.partial(make, path)
    side, spent = timed(begin)
    seconds = dict(zip(LOAD, (spent.elapsed, spent.processor)))
    for what, ask in asked.items():
        question: Callable[[], Any] = functools.partial(ask, side)
        answers[what], spent = timed(question)
        seconds[what] = spent.elapsed
    side.close()
    return seconds


def compare(answers: Dict[str, Dict[str, Any]], asked: Asked) -> int:
    """Stops where the sides' answers differ, and returns how many edges there are."""
    edges = {(source, target) for source, target, *_ in answers["SQLite"][ALL]}
    for what in asked:
        first, *others = (plain(answers[side][what], edges) for side in SIDES)
        for side, other in zip(list(SIDES)[1:], others):
            if first != other:
                stop(f"{what}: the client and {side} answer differently")
    return len(edges)


def walks(path: str, transfers: int, turns: int) -> None:
    """The table of questions."""
    senders, small, source, target = chosen(path)
    asked: Asked = questions(small, source, target)
    answers: Dict[str, Dict[str, Any]] = {side: {} for side in SIDES}
    works = {side: functools.partial(turn_of, make, path, asked, answers[side]) for side, make in SIDES.items()}
    runs: Dict[str, List[Dict[str, float]]] = {side: [] for side in SIDES}
    for _ in range(turns):
        for side, found in in_turns(works, 1).items():
            runs[side] += found
        edges = compare(answers, asked)
    sizes: Tuple[int, int] = (len(answers["SQLite"][PATH]) - 1, len(answers["SQLite"][NEAR]) - 1)
    print(f"{transfers:,} transfers, {edges:,} edges; {senders:,} send to the hub; the path has {sizes[0]} steps; "
          f"{sizes[1]:,} other names are within {HOPS} hops. All answers are equal.\n")
    tables.show(["what", *SIDES], ([what, *(tables.seconds(spread([it[what] for it in runs[side]]).median) for side in SIDES)]
                                   for what in runs["SQLite"][0]))


def measure(words: argparse.Namespace, room: pathlib.Path) -> None:
    if words.transfers < 2_000:
        stop("2,000 transfers or more")
    path = str(room / "transfers.csv")
    write_transfers(path, words.transfers)
    walks(path, words.transfers, words.runs)
