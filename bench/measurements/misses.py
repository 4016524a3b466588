"""What a record of the R-MAT load misses, in `stinger run` with one worker and in the plain store of maps, by valgrind's
models of caches: cache lines that a last cache of 1 MB doesn't have, and pages that a TLB with 64 and 1,536 entries doesn't
have, each of which is a page walk. The first 200,000 lines of the script, less a script without records.
"""
from __future__ import annotations

import argparse
import functools
import itertools
import pathlib
from typing import Callable, Dict

from bench import scripts, tables
from bench.measuring import LINES, PAGES, instructions, misses, side_by_side
from bench.places import stores, takes_store


def options(parser: argparse.ArgumentParser) -> None:
    takes_store(parser)
    parser.add_argument("--lines", type=int, default=200_000, help="lines of the script (200,000)")
    parser.add_argument("--load", default="rmat", choices=("rmat", "sparse", "hub", "wide"), help="the load (rmat)")


def first_lines(path: pathlib.Path, to: pathlib.Path, lines: int) -> int:
    """Writes the first lines of a script into another file, and returns how many operations these have."""
    with open(path) as source:
        taken = [line.rstrip("\n") for line in itertools.islice(source, lines)]
    scripts.kept(to, taken)
    return sum(line[:2] in ("i,", "a,", "r,") for line in taken)


def measure(words: argparse.Namespace, room: pathlib.Path) -> None:
    script, none = room / "first.csv", scripts.written(room, "none")
    records = first_lines(scripts.written(room, words.load), script, words.lines)
    counters: Dict[str, Callable[..., int]] = {
        "instructions": instructions, "cache lines missed": functools.partial(misses, model=LINES),
        "page walks": functools.partial(misses, model=PAGES)}
    works = {(name, what, given): functools.partial(count, command, given) for name, command in stores(words).items()
             for what, count in counters.items() for given in (script, none)}
    found = side_by_side(works)
    tables.show([f"of each of {records:,} records", *counters],
                ([name, *(f"{(found[name, what, script] - found[name, what, none]) / records:,.1f}" for what in counters)]
                 for name in stores(words)))
