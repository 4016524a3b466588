"""Instructions of `stinger run`, one worker, and of the plain store of hash maps, by callgrind: they don't change with what else
the machine does. A load's are less those of a script without records; a request's are those of a script with four of it, less
those of the script without, by four; those of a batch of one operation and of an empty one are means of 512 and of 65,536.

Of `stinger run` alone are counted names that a stranger chose against the index, next to ordinary ones: a record that adds one,
and one that finds two; and a collection that frees nothing, where no session holds a version, and while one holds 30,000 blocks
that were all replaced since.
"""
from __future__ import annotations

import argparse
import functools
import pathlib
from typing import Dict, Iterator, List

from bench import scripts, tables
from bench.measuring import instructions, side_by_side
from bench.places import stores, takes_store

REQUESTS, REPEATS, BATCHES, NAMES = ["bfs", "comp", "core", "deg"], 4, 512, 60_000
Counts = Dict[str, int]


def options(parser: argparse.ArgumentParser) -> None:
    takes_store(parser)
    parser.add_argument("parts", nargs="*", metavar="PART", choices=[*PARTS, []], help=f"these alone of {', '.join(PARTS)}")


class Counting:
    """The stores, and the files that they read."""

    def __init__(self, words: argparse.Namespace, room: pathlib.Path) -> None:
        self.stores, self.room = stores(words), room

    def counts(self, script: pathlib.Path) -> Counts:
        return side_by_side({name: functools.partial(instructions, words, script) for name, words in self.stores.items()})

    def load(self, name: str, *requests: str) -> Counts:
        return self.counts(scripts.written(self.room, name, *requests, repeats=REPEATS))

    def ours(self, name: str, lines: List[str]) -> int:
        return instructions(self.stores["stinger"], scripts.kept(self.room / name, lines))

    def row(self, what: str, more: Counts, less: Counts, among: int = 1) -> List[str]:
        spent = {name: (more[name] - less[name]) / among for name in self.stores}
        others = ([tables.count(of), tables.ratio(spent["stinger"], of)] for name, of in spent.items() if name != "stinger")
        return [what, tables.count(spent["stinger"]), *(cell for cells in others for cell in cells)]

    def alone(self, what: str, count: float) -> List[str]:
        """A row of `stinger run` alone."""
        return [what, tables.count(count), *[tables.ABSENT] * (2 * len(self.stores) - 2)]


def loads(it: Counting) -> Iterator[List[str]]:
    start = it.load("none")
    for load in ("rmat", "sparse"):
        alone = it.load(load)
        yield it.row(load, alone, start)
        for request in REQUESTS:
            yield it.row(f"{load} {request}", it.load(load, request), alone, REPEATS)
    yield it.row("hub", it.load("hub"), start)
    yield it.row("empty commit", it.load("empty"), start, 65_536)


def singles(it: Counting) -> Iterator[List[str]]:
    lines = scripts.written(it.room, "rmat").read_text().splitlines()
    end = [place for place, line in enumerate(lines) if line == "collect"][15] + 1
    records = [line for line in lines[end:] if line.startswith("i,")][:BATCHES]
    batches = [part for line in records for part in (line, "commit")]
    more, less = (it.counts(scripts.kept(it.room / name, some)) for name, some in
                  (("more", lines[:end] + batches), ("less", lines[:end])))
    yield it.row("one operation", more, less, BATCHES)


def names(it: Counting) -> Iterator[List[str]]:
    for which in ("ordinary", "chosen"):
        path = [line for line in scripts.written(it.room, which).read_text().splitlines() if line != "open,0"]
        none, once, twice = it.ours("none", []), it.ours("once", path), it.ours("twice", path * 2)
        yield it.alone(f"{which} name added", (once - none) / NAMES)
        yield it.alone(f"two {which} names found", (twice - once) / NAMES)


def replaced(rows: int, time: int) -> List[str]:
    return [f"i,link,v{row},w{row % 16},1,{time}" + "\ncommit" * (row % 3_000 == 2_999) for row in range(rows)]


def collections(it: Counting) -> Iterator[List[str]]:
    for when, is_held in (("no blocks held", False), ("30,000 held", True)):
        loaded = [*replaced(30_000, 1), *(["open,0"] if is_held else []), *replaced(30_000, 2), "collect"]
        spent = it.ours("more", loaded + ["collect"] * 1_000) - it.ours("less", loaded)
        yield it.alone(f"collection, {when}", spent / 1_000)


PARTS = {"loads": loads, "singles": singles, "names": names, "collections": collections}


def measure(words: argparse.Namespace, room: pathlib.Path) -> None:
    it = Counting(words, room)
    others = (cell for name in it.stores if name != "stinger" for cell in (name, "ratio"))
    tables.show(["instructions", "stinger run", *others],
                (row for part in words.parts or PARTS for row in PARTS[part](it)))
