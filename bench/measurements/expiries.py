"""Expiries over a graph of 30,720 blocks of one edge each: processor time of `stinger run` for 200 batches of one that finds
nothing; for one batch of 1 and of 4,096 that find nothing, every second edge, or every edge; and for one of 4,096 of which each
takes edges. From each the time of the same script without its expiries is subtracted. One worker, nine runs in turns, medians.
"""
from __future__ import annotations

import argparse
import functools
import pathlib
from typing import Dict, List, NamedTuple

from bench import scripts, tables
from bench.measuring import in_turns, instructions, medians, run, side_by_side, stop
from bench.places import stinger_run, takes_program

EDGES = 30_720


class Tail(NamedTuple):
    """What comes after the load: lines, in how many batches, and how many edges expire in all."""

    lines: List[str]
    batches: int
    expired: int


def options(parser: argparse.ArgumentParser) -> None:
    takes_program(parser)
    parser.add_argument("--count", action="store_true", help="instructions by callgrind instead of times")
    parser.add_argument("--runs", type=int, default=9, help="turns (9)")


def expire(time: int, many: int) -> List[str]:
    return [f"x,{time}"] * many + ["commit"]


def tails() -> Dict[str, Tail]:
    found = {"1 batch": Tail(["commit"], 1, 0), "200 batches": Tail(["commit"] * 200, 200, 0),
             "200 batches of one that finds nothing": Tail(expire(4, 1) * 200, 200, 0)}
    for what, time, expired in (("nothing", 4, 0), ("every second edge", 2052, EDGES // 2), ("every edge", 4100, EDGES)):
        for many in (1, 4096):
            found[f"one batch of {many:,} that find {what}"] = Tail(expire(time, many), 1, expired)
    rising = [*(f"x,{time}" for time in range(5, 4101)), "commit"]
    found["one batch of 4,096, of which each takes some, that find every edge"] = Tail(rising, 1, EDGES)
    return found


def load() -> scripts.Lines:
    times = (4 + n % 2 * 2048 + n // 2 % 2048 for n in range(EDGES))
    return scripts.batches(f"i,kind,v{n},v{n},1,{time}" for n, time in enumerate(times))


def has_expired(lines: pathlib.Path, expired: int) -> bool:
    return f"exp={expired}\n" in lines.read_text()


def measure(words: argparse.Namespace, room: pathlib.Path) -> None:
    works, command = tails(), stinger_run(words)
    files = {name: scripts.kept(room / f"{at}.csv", [*load(), *it.lines]) for at, (name, it) in enumerate(works.items())}
    if words.count:
        counted = side_by_side({name: functools.partial(instructions, command, it) for name, it in files.items()})
        found: Dict[str, float] = dict(counted)
    else:
        runs = in_turns({name: functools.partial(run, command, it, it.with_suffix(".lines")) for name, it in files.items()},
                        words.runs)
        found = {name: medians(some).processor for name, some in runs.items()}
    rows = []
    for name, it in works.items():
        if " of " not in name:
            continue
        if not words.count and not has_expired(files[name].with_suffix(".lines"), it.expired):
            stop(f"{name}: {it.expired} edges should expire")
        spent = (found[name] - found["200 batches" if it.batches == 200 else "1 batch"]) / it.batches
        rows.append([name, tables.count(spent) if words.count else tables.seconds(spent)])
    tables.show(["expiries", f"{'instructions' if words.count else 'processor time'} of a batch"], rows)
