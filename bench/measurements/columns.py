"""Loads and exports by columns, next to igraph, scipy and pandas where they are installed: a first load in C and in Python,
later loads, and what comes out. Each figure is of a process of its own, in turns; medians of processor time.

    python3 -m bench run columns                       all tables, five turns
    python3 -m bench run columns --turns 1 --quick     each shape at 2^14 names

`opening` is misteluk_desk_open_columns, `batches` are misteluk_desk_insert_columns of 65,536 insertions each, both by ctypes
with names as texts in a dictionary; `client` is `Store.load` of NumPy columns into an empty store, `client_again` into one that
has other edges. igraph's graph has names and two attributes; scipy's matrix has weights alone; pandas keeps a frame's last row
of each edge. Shapes are those of `scale`. The library is the proved one, or the one that MISTELUK_LIBRARY names.
"""
from __future__ import annotations

import argparse
import functools
import json
import os
import pathlib
import subprocess
import sys
from statistics import median
from typing import Any, Callable, Dict, List, Sequence, Tuple

from bench import tables
from bench.catalog import is_here
from bench.measuring import in_turns, stop
from bench.places import TOP, library
from bench.stores.by_columns import EXPORTS, LOADS

Figures = Dict[str, float]
Run = Tuple[str, int, int]
FIRST: List[Run] = [("rmat", 16, 500_000), ("transfers", 17, 3 << 17), ("rmat", 20, 8_000_000), ("transfers", 20, 3 << 20),
                    ("rmat", 22, 32_000_000)]
IN_PYTHON: List[Run] = [("rmat", 16, 500_000), ("rmat", 19, 5_000_000), ("rmat", 20, 10_000_000)]
QUICK: List[Run] = [("rmat", 14, 1 << 17), ("transfers", 14, 3 << 14)]
OUT: Run = ("rmat", 16, 500_000)
NAMES: Run = ("transfers", 19, 400_000)
# What is told of a load, by its name among the figures.
FIGURES = {"µs a row": "seconds", "bytes an edge": "bytes", "live blocks": "blocks"}
PACKAGES = ("igraph", "scipy", "pandas")


def options(parser: argparse.ArgumentParser) -> None:
    parser.add_argument("--turns", type=int, default=5, help="how often each is measured (5)")
    parser.add_argument("--quick", action="store_true", help="small graphs alone")
    parser.add_argument("--one", nargs=4, metavar=("WHAT", "SHAPE", "SCALE", "EDGES"), help="one figure, here, as JSON")


def in_own_process(what: str, run: Run) -> Figures:
    words = [sys.executable, "-m", "bench", "run", "columns", "--one", what, *map(str, run)]
    done = subprocess.run(words, cwd=TOP, stdout=subprocess.PIPE, text=True)
    if done.returncode:
        sys.exit(done.returncode)
    found: Figures = json.loads(done.stdout)
    return found


def all_figures(whats: Sequence[str], runs: Sequence[Run], turns: int) -> Dict[Tuple[Run, str], Figures]:
    """The medians of what each of these takes, of those that are here."""
    there = [it for it in whats if it.rpartition(" ")[2] not in PACKAGES or is_here(it.rpartition(" ")[2])]
    works: Dict[Tuple[Run, str], Callable[[], Figures]] = {
        (run, it): functools.partial(in_own_process, it, run) for run in runs for it in there}
    return {key: {name: median(it[name] for it in some) for name in some[0]} for key, some in in_turns(works, turns).items()}


def cell(found: Figures, name: str, rows: int) -> str:
    """Microseconds a row, bytes an edge, or a count."""
    if name not in found:
        return tables.ABSENT
    if name == "seconds":
        return f"{found[name] / rows * 1e6:.2f}"
    return f"{found[name] / found.get('edges', rows):,.0f}" if name == "bytes" else f"{found[name]:,.0f}"


def loads(whats: Sequence[str], runs: Sequence[Run], turns: int) -> None:
    """What a row of the columns takes, and an edge, and how many live blocks there are; who tells how many edges there are has as
    many as the others."""
    figures = all_figures(whats, runs, turns)
    for run in runs:
        edges = {it: found["edges"] for (other, it), found in figures.items() if other == run and "edges" in found}
        if len(set(edges.values())) > 1:
            stop(f"there are other edges: {edges}")
    lines = [(told, name, it) for told, name in FIGURES.items() for it in whats
             if any(name in figures.get((run, it), {}) for run in runs)]
    tables.show(["", *(f"{shape} 2^{scale}, {rows:,}" for shape, scale, rows in runs)],
                ([f"{it}: {told}", *(cell(figures.get((run, it), {}), name, run[2]) for run in runs)]
                 for told, name, it in lines))


def exports(run: Run, turns: int) -> None:
    figures = all_figures([f"exports {it}" for it in EXPORTS], [run], turns)
    tables.show([f"{run[0]} 2^{run[1]}, {run[2]:,}", *EXPORTS],
                ([name, *(tables.seconds(figures.get((run, f"exports {it}"), {}).get(name)) for it in EXPORTS)]
                 for name in figures[run, "exports client"]))


def measure(words: argparse.Namespace, room: pathlib.Path) -> None:
    if words.one:
        what, shape, scale, edges = words.one
        *of_exports, name = what.split()
        run: Tuple[Any, ...] = (shape, int(scale), int(edges))
        print(json.dumps(EXPORTS[name](*run, room) if of_exports else LOADS[name](*run)))
        return
    print(f"{library()}; Python {sys.version.split()[0]}; load of the machine {os.getloadavg()[0]:.1f}; medians of {words.turns} "
          "turns, processor time; bytes are resident ones, of each row\n")
    loads(("opening", "batches", "igraph", "scipy"), QUICK if words.quick else FIRST, words.turns)
    print()
    loads(("client", "client_again", "igraph", "pandas"), QUICK if words.quick else IN_PYTHON, words.turns)
    for run in QUICK if words.quick else (OUT, NAMES):
        print()
        exports(run, words.turns)
