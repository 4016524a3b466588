"""One `bfs` of `stinger run` with its lines, one worker: of 60,000 vertices, 100 of which it reaches, and all others. The
instructions by callgrind of the first after an opening, and of each one more, of eight; and the processor time of each of many,
on an otherwise idle machine, by medians of seven runs in turns.
"""
from __future__ import annotations

import argparse
import functools
import pathlib
import random
from typing import List, Sequence, Tuple

from bench import scripts, tables
from bench.measuring import in_turns, instructions, medians, run, side_by_side
from bench.places import stinger_run, takes_program

NAMES, FEW, MORE = 60_000, 100, 8


def options(parser: argparse.ArgumentParser) -> None:
    takes_program(parser)
    parser.add_argument("--runs", type=int, default=7, help="turns in which times are taken (7)")


def tree(draws: random.Random, vertices: Sequence[int]) -> List[Tuple[int, int]]:
    """The edges of a tree: to each vertex but the first, from one of those before it, or from the one right before."""
    pairs = enumerate(vertices[1:])
    return [(vertices[at if draws.random() < 0.5 else draws.randrange(at + 1)], vertex) for at, vertex in pairs]


def loaded(names: Sequence[int], draws: random.Random) -> List[str]:
    edges = tree(draws, names[:FEW]) + tree(draws, names[FEW:])
    draws.shuffle(edges)
    lines = []
    for time, (source, target) in enumerate(edges):
        lines.append(f"i,link,v{source},v{target},1,{time}")
        if (time + 1) % scripts.BATCH == 0 or time + 1 == len(edges):
            lines.append("commit")
    return [*lines, "open,0"]


def measure(words: argparse.Namespace, room: pathlib.Path) -> None:
    draws, command = random.Random(5), stinger_run(words)
    names = draws.sample(range(NAMES), NAMES)
    load = loaded(names, draws)

    def script(source: int, times: int) -> pathlib.Path:
        asked = [f"bfs,0,v{source},*,0,{scripts.LAST_TIME}"] * times
        return scripts.kept(room / f"{source}-{times}", load + asked)

    rows = []
    for reached, source, many in ((FEW, names[0], 60_000), (NAMES - FEW, names[FEW], 50)):
        counted = side_by_side({times: functools.partial(instructions, command, script(source, times))
                                for times in (0, 1, 1 + MORE)})
        spent = in_turns({times: functools.partial(run, command, script(source, times)) for times in (0, many)}, words.runs)
        each = (medians(spent[many]) - medians(spent[0])) / many
        rows.append([f"{reached:,} of {NAMES:,}", tables.count(counted[1] - counted[0]),
                     tables.count((counted[1 + MORE] - counted[1]) / MORE), tables.seconds(each.processor)])
    tables.show(["reached", "instructions of the first", "of each one more", "processor time"], rows)
