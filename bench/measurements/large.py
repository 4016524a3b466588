"""Loads that fill a machine: openings of the library with 16 and 64 million rows, and CSV files by the client next to pandas.

    python3 -m bench run large                         three turns; it takes up to 12 GB
    python3 -m bench run large --turns 1 --quick       a file of 500,000 rows, and an opening of as many

`opening` is as in `columns`. `load_file` is `Store.load` of a CSV file of four columns into an empty store, `read_csv` is pandas'
reading of that file alone, into a frame of two columns of texts and two of numbers. Each figure is of a process of its own, in
turns; medians of processor time. The library is the proved one, or the one that MISTELUK_LIBRARY names.
"""
from __future__ import annotations

import argparse
import functools
import json
import os
import pathlib
import subprocess
import sys
from statistics import median
from typing import Any, Dict, List

from bench import tables
from bench.catalog import is_here
from bench.measurements.columns import Run, loads
from bench.measuring import in_turns
from bench.places import TOP, library
from bench.stores.by_columns import READS, write_file

LARGE: List[Run] = [("rmat", 20, 16_000_000), ("rmat", 22, 64_000_000)]
SMALL: Run = ("rmat", 16, 500_000)


def options(parser: argparse.ArgumentParser) -> None:
    parser.add_argument("--turns", type=int, default=3, help="how often each is measured (3)")
    parser.add_argument("--quick", action="store_true", help="500,000 rows alone")
    parser.add_argument("--read", nargs=2, metavar=("WHAT", "FILE"), help="one figure of a file, here, as JSON")


def read_apart(what: str, path: pathlib.Path) -> Dict[str, float]:
    words = [sys.executable, "-m", "bench", "run", "large", "--read", what, str(path)]
    done = subprocess.run(words, cwd=TOP, stdout=subprocess.PIPE, text=True)
    if done.returncode:
        sys.exit(done.returncode)
    found: Dict[str, float] = json.loads(done.stdout)
    return found


def reads(run: Run, turns: int, room: pathlib.Path) -> List[str]:
    """What a row of a file takes, by whom."""
    path = room / "edges.csv"
    write_file(path, *run)
    works: Dict[str, Any] = {it: functools.partial(read_apart, it, path) for it in READS if it != "read_csv" or is_here("pandas")}
    found = {it: median(one["seconds"] for one in some) for it, some in in_turns(works, turns).items()}
    path.unlink()
    times = [found.get(it) for it in READS]
    return [f"{run[0]} 2^{run[1]}, {run[2]:,}", *(tables.ABSENT if it is None else f"{it / run[2] * 1e6:.2f}" for it in times)]


def measure(words: argparse.Namespace, room: pathlib.Path) -> None:
    if words.read:
        print(json.dumps(READS[words.read[0]](pathlib.Path(words.read[1]))))
        return
    print(f"{library()}; Python {sys.version.split()[0]}; load of the machine {os.getloadavg()[0]:.1f}; medians of {words.turns} "
          "turns, processor time; bytes are resident ones, of each row\n")
    loads(("opening",), [SMALL] if words.quick else LARGE, words.turns)
    print()
    tables.show(["a file of", *(f"{it}: µs a row" for it in READS)],
                (reads(run, words.turns, room) for run in ([SMALL] if words.quick else [SMALL, LARGE[0]])))
