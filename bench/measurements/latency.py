"""How long a commit of the client takes over 500,000 R-MAT edges, by its operations: the median, the 99th percentile, 99.9, and
the longest, elapsed. `held` is a commit beside sessions that hold the last 16 versions, `hub` one whose edges all leave the
vertex with the most. Then how long questions of a held version take by its age: how many commits of 1,000 operations came since.
"""
from __future__ import annotations

import argparse
import collections
import functools
import gc
import pathlib
import random
from typing import Any, Callable, Deque, Dict, Iterator, List, Tuple

from bench import tables
from bench.measuring import percentile, timed, watch
from bench.stores.growing import columns_of
from misteluk import Columns, Store

SHAPE, SCALE, EDGES, HELD = "rmat", 16, 500_000, 16
SIZES = {1: 4_000, 100: 2_000, 1_000: 1_000, 4_000: 250}
AGES, OLDEST = (0, 10, 100, 1_000), 1_000
QUESTIONS: Dict[str, Callable[[Any], Any]] = {
    "degrees": lambda session: session.degrees(), "levels": lambda session: session.levels("0"),
    "components": lambda session: session.components()}


def options(parser: argparse.ArgumentParser) -> None:
    parser.add_argument("--part", type=float, default=1.0, help="which part of all commits is made (1)")


def loaded() -> "Store[Any, Any]":
    sources, targets, weights, times = columns_of(SHAPE, SCALE, EDGES)
    store: "Store[Any, Any]" = Store(blocks=1 << 20, seats=HELD)
    store.load({"source": sources, "target": targets, "weight": weights, "time": times}, by="set",
               columns=Columns(weight="weight", time="time"), progress=False)
    return store


def batches(size: int, count: int, hub: bool) -> Iterator[List[Tuple[str, str]]]:
    """The ends of each batch's edges, which are new or change one."""
    made = random.Random(size)
    for _ in range(count):
        yield [("0" if hub else str(made.randrange(1 << SCALE)), str(made.randrange(1 << SCALE))) for _ in range(size)]


def commits(store: "Store[Any, Any]", size: int, count: int, held: int, hub: bool) -> List[float]:
    """How long each commit takes, without the calls that add its operations."""
    spent: List[float] = []
    sessions: Deque[Any] = collections.deque()
    for batch in batches(size, count, hub):
        for source, target in batch:
            store.insert("edge", source, target, 1, time=EDGES)
        since = watch()
        store.commit()
        spent.append(since().elapsed)
        if len(sessions) == held > 0:
            sessions.popleft().close()
        if held:
            sessions.append(store.open())
    while sessions:
        sessions.pop().close()
    return spent


def of_commits(part: float) -> Iterator[List[str]]:
    for size, count in SIZES.items():
        for what, held, hub in (("", 0, False), ("held", HELD, False), ("hub", 0, True)):
            with loaded() as store:
                spent = commits(store, size, max(10, int(count * part)), held, hub)
            marks = (percentile(spent, 50), percentile(spent, 99), sorted(spent)[len(spent) * 999 // 1_000], max(spent))
            yield [tables.count(size), what, *map(tables.seconds, marks)]


def of_ages(part: float) -> Iterator[List[str]]:
    """Sessions of one version are kept from its beginning on, one for each age, since a session keeps what it was asked."""
    with loaded() as store:
        sessions, age = {it: store.open() for it in AGES}, 0
        for until in (max(1, int(it * part)) if it else 0 for it in AGES):
            commits(store, 1_000, until - age, 0, False)
            age, held = until, sessions.pop(min(sessions))
            with held, store.open() as newest:
                yield [tables.count(age), *(f"{tables.seconds(timed(functools.partial(ask, held))[1].processor)}, "
                                            f"{tables.seconds(timed(functools.partial(ask, newest))[1].processor)}"
                                            for ask in QUESTIONS.values())]


def measure(words: argparse.Namespace, _: pathlib.Path) -> None:
    gc.disable()
    tables.show(["operations", "", "median", "99%", "99.9%", "longest"], of_commits(words.part))
    print()
    tables.show(["commits since", *(f"{it}: held, newest" for it in QUESTIONS)], of_ages(words.part))
