"""A hub: one source with a row of 62 to 28,000 full blocks, in as many kinds as that takes. Processor time of `stinger run` for a
batch of one operation on the row's last edges, for each operation of batches of 15 anywhere in it, and for one edge asked at its
end, anywhere, or not there. From each the time of the same script without them is subtracted. One worker, medians of seven runs
in turns. With --count they are instructions by callgrind, of one run.
"""
from __future__ import annotations

import argparse
import functools
import itertools
import pathlib
import random
from typing import Iterator, List, Tuple

from bench import scripts, tables
from bench.measuring import in_turns, instructions, medians, run, side_by_side
from bench.places import stinger_run, takes_program

BATCHES, ASKED = 256, 1_024
WORKS = ("a batch of one", "an operation of 15", "an edge at the end", "anywhere", "not there")


def options(parser: argparse.ArgumentParser) -> None:
    takes_program(parser)
    parser.add_argument("blocks", type=int, nargs="*", default=[62, 500, 2_000, 8_000, 28_000], help="lengths of the row")
    parser.add_argument("--count", action="store_true", help="instructions instead of times")


def tails(keys: List[str], kinds: int) -> Iterator[Tuple[scripts.Lines, int]]:
    """What comes after the load for each of the works, and among how much its time is shared."""
    draws, edges = random.Random(1), len(keys)

    def batch(some: List[str]) -> List[str]:
        return [*(f"a,{key},1,{edges}" for key in some), "commit", "collect"]

    def asked(some: List[str]) -> scripts.Lines:
        return (f"edge,0,{key}" for key in some)

    yield itertools.chain(*(batch([keys[-1 - n % 16]]) for n in range(BATCHES))), BATCHES
    yield itertools.chain(*(batch(draws.sample(keys, 15)) for _ in range(BATCHES // 4))), BATCHES // 4 * 15
    yield asked([keys[-1 - n % 16] for n in range(ASKED)]), ASKED
    yield asked(draws.choices(keys, k=ASKED)), ASKED
    yield asked([f"k{kinds - 1},hub,hub"] * ASKED), ASKED


def row(words: argparse.Namespace, room: pathlib.Path, blocks: int) -> List[str]:
    kinds, edges = -(-blocks // 2_000), blocks * 32 - 16
    each = -(-edges // kinds)
    keys = [f"k{n // each},hub,v{n % each}" for n in range(edges)]
    load = [*scripts.batches(f"i,{key},1,{n}" for n, key in enumerate(keys)), "open,0"]
    works, among = [scripts.kept(room / "load", load)], [1]
    for at, (tail, many) in enumerate(tails(keys, kinds)):
        works.append(scripts.kept(room / f"{at}", itertools.chain(load, tail)))
        among.append(many)
    command = stinger_run(words)
    if words.count:
        found = side_by_side({it: functools.partial(instructions, command, it) for it in works})
        figures = [(found[it] - found[works[0]]) / many for it, many in zip(works, among)]
        return [tables.count(blocks), *map(tables.count, figures[1:])]
    runs = in_turns({it: functools.partial(run, command, it) for it in works}, 7)
    times = [medians(runs[it]).processor for it in works]
    return [tables.count(blocks), *(tables.seconds((time - times[0]) / many) for time, many in zip(times[1:], among[1:]))]


def measure(words: argparse.Namespace, room: pathlib.Path) -> None:
    tables.show(["blocks of the row", *WORKS], (row(words, room, it) for it in words.blocks))
