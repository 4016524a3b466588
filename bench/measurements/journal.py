"""What a store's file costs: commits beside a store in memory and a plain table of SQLite, openings, and single posts.

    python3 -m bench run journal                       all tables, five turns
    python3 -m bench run journal --turns 1 --quick     fewer rows

A commit's figure is microseconds of the processor a row; in brackets it is a multiple of that in memory. `full` and `normal` are
`sync`'s; the table has a row an edge, replaced on conflict, under FULL. An opening replays 240,000 rows in batches of 1,000, or
reads a base of 5 million rows' edges. Questions beside a base of a million rows' edges are for the edges of a vertex, by a thread
of the same process. Posts are of one row each, by 8 threads of this process, to `misteluk serve` over a file; questions to
replicas are by 8 connections in all.
"""
from __future__ import annotations

import argparse
import functools
import os
import pathlib
import sys
import tempfile
from statistics import median
from typing import Dict, Iterator, List, Tuple

from bench import tables
from bench.measuring import Spent, in_turns, medians, percentile
from bench.stores.kept import WHERE, answered, based, committed, posted, replayed, restarted, rows, sync_takes

# How many rows go in by batches of a size.
SIZES: Dict[int, int] = {1: 2_000, 100: 50_000, 1_000: 200_000, 4_096: 204_800}
REPLAYED, RESTARTED, BASED, CLIENTS, SECONDS = 240_000, 5_000_000, 1_000_000, 8, 20.0
# How many replicas there are, and how many edges they have.
REPLICAS, REPLICATED = (1, 4), 100_000


def options(parser: argparse.ArgumentParser) -> None:
    parser.add_argument("--turns", type=int, default=5, help="how often each is measured (5)")
    parser.add_argument("--quick", action="store_true", help="a tenth of the rows")


def commits(sizes: Dict[int, int], turns: int, room: pathlib.Path) -> Iterator[List[str]]:
    given = rows(max(sizes.values()))
    works = {(size, where): functools.partial(committed, where, given[:count], size, room)
             for size, count in sizes.items() for where in WHERE}
    found: Dict[Tuple[int, str], Spent] = {key: medians(some) for key, some in in_turns(works, turns).items()}
    for size, count in sizes.items():
        memory = found[size, "memory"].processor
        cells = [(found[size, it].processor, found[size, it].elapsed) for it in WHERE]
        yield [f"{size:,}", *(f"{spent / count * 1e6:.1f} ({spent / memory:.2f})" for spent, _ in cells),
               tables.count(count / cells[list(WHERE).index("full")][1])]


def openings(turns: int, part: int, room: pathlib.Path) -> Iterator[List[str]]:
    given = rows(REPLAYED // part)
    found = []
    for _ in range(turns):
        with tempfile.TemporaryDirectory(dir=room) as name:
            found.append(replayed(given, pathlib.Path(name)))
    spent = median(it.processor for it, _ in found)
    yield [f"{found[0][1]:,} batches of 1,000 rows", tables.seconds(spent), f"{len(given) / spent:,.0f} rows a second"]
    with tempfile.TemporaryDirectory(dir=room) as name:
        base, opening, edges = restarted(RESTARTED // part, pathlib.Path(name))
    yield [f"a base of {edges:,} edges", tables.seconds(opening.processor), f"made in {tables.seconds(base.processor)}"]


def measure(words: argparse.Namespace, room: pathlib.Path) -> None:
    part = 10 if words.quick else 1
    print(f"Python {sys.version.split()[0]}; load of the machine {os.getloadavg()[0]:.1f}; medians of {words.turns} turns, "
          f"processor time; a sync of the disk takes {tables.seconds(sync_takes(room))}\n")
    tables.show(["rows a batch", *(f"{it}, µs a row" for it in WHERE), "full: rows a second, elapsed"],
                commits({size: count // part for size, count in SIZES.items()}, words.turns, room))
    print()
    tables.show(["an opening of", "processor", ""], openings(words.turns, part, room))
    with tempfile.TemporaryDirectory(dir=room) as name:
        spent, *asked = based(BASED // part, pathlib.Path(name))
    before, meanwhile = (percentile(it, 95) for it in asked)
    print(f"\na base of {BASED // part:,} rows' edges: made in {tables.seconds(spent)} with questions beside it, whose "
          f"95th percentile is {tables.seconds(before)} before and {tables.seconds(meanwhile)} meanwhile")
    rates = [answered(it, REPLICATED // part, CLIENTS, SECONDS / part / 2, room) for it in REPLICAS]
    print("\n" + "; ".join(f"{count} replica{'s' * (count > 1)}: {rate:,.0f} questions a second" for count, rate in
                           zip(REPLICAS, rates)))
    times = posted(CLIENTS, SECONDS / part, room)
    print(f"\n{CLIENTS} clients, posts of one row: {len(times) / SECONDS * part:,.0f} a second, median "
          f"{tables.seconds(median(times))}, 99th percentile {tables.seconds(percentile(times, 99))}")
