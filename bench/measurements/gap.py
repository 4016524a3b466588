"""Two kernels of the GAP benchmark suite (Beamer, Asanovic, Patterson 2015) over graphs of its sorts: levels from a source (bfs)
and components (cc), by the C library, by GAP's own algorithms in plain C++ for one thread (bench/cpp/gap.cpp), and by igraph,
graph-tool, scipy and networkx where they are there.

    python3 -m bench run gap                       2^18 vertices, three turns
    python3 -m bench run gap --scale 20 --only kron
    python3 -m bench run gap --without networkx

`kron` is Graph500's graph and `urand` a uniform one, of 16 edges a vertex; `grid` is a square grid of which 0.6 of the edges are
left, so that it has few edges and long ways, as roads have. Each edge is there either way, and a vertex without one is left out;
vertices have their numbers in random order for all. Each runs in a process of its own, in turns. Figures are medians: processor
time, of bfs over sources at random; and for an edge one way the bytes that became resident by the load, or of GAP's algorithms
those of their arrays. Each answer is compared, and the measurement stops where one differs. networkx is asked of two sources. The
library is the proved one, or the one that MISTELUK_LIBRARY names.
"""
from __future__ import annotations

import argparse
import functools
import json
import pathlib
import subprocess
import sys
from statistics import median
from typing import Any, Callable, Dict, Iterator, List

import numpy

from bench import tables
from bench.catalog import is_here
from bench.measuring import in_turns, stop
from bench.places import TOP
from bench.stores.kernels import GAP, GRAPHS, PACKAGES, Found, Graph, asked, drawn, plain

# What is told of each graph, by its name among the figures.
FIGURES: Dict[str, Callable[[float], str]] = {
    "bfs": tables.seconds, "cc": tables.seconds, "load": tables.seconds, "bytes an edge": tables.count}


def options(parser: argparse.ArgumentParser) -> None:
    parser.add_argument("--scale", type=int, default=18, help="2 to this power is the number of vertices (18)")
    parser.add_argument("--only", nargs="+", choices=GRAPHS, default=list(GRAPHS), metavar="GRAPH", help="some of the graphs")
    parser.add_argument("--without", nargs="+", choices=PACKAGES, default=[], metavar="PACKAGE", help="leave these out")
    parser.add_argument("--sources", type=int, default=16, help="from so many sources (16)")
    parser.add_argument("--turns", type=int, default=3, help="how often each is measured (3)")
    parser.add_argument("--one", nargs=2, metavar=("PACKAGE", "FILE"), help="one package, here, as JSON")


def sources_of(graph: Graph, count: int) -> List[int]:
    found: List[int] = numpy.random.default_rng(3).integers(0, graph.vertices, count).tolist()
    return found


def in_own_process(name: str, file: pathlib.Path, sources: int) -> Found:
    words = [sys.executable, "-m", "bench", "run", "gap", "--sources", str(sources), "--one", name, str(file)]
    done = subprocess.run(words, cwd=TOP, stdout=subprocess.PIPE, text=True)
    if done.returncode:
        stop(f"{name} ended in status {done.returncode}")
    found: Found = json.loads(done.stdout)
    return found


def compare(graph: str, found: Dict[str, List[Found]]) -> None:
    """Stops where an answer isn't GAP's."""
    wanted = found[GAP][0]
    for name, turns in found.items():
        for it in turns:
            if it["labels"] != wanted["labels"] or it["levels"] != wanted["levels"][:len(it["levels"])]:
                stop(f"{graph}: {name} has other answers than GAP's algorithms")


def rows(name: str, packages: List[str], words: argparse.Namespace, room: pathlib.Path) -> Iterator[List[str]]:
    """A row of each figure of a graph."""
    graph, file = drawn(name, words.scale), room / f"{name}.npz"
    numpy.savez(file, **graph._asdict())
    works: Dict[str, Callable[[], Any]] = {GAP: lambda: plain(graph, sources_of(graph, words.sources), room), **{
        it: functools.partial(in_own_process, it, file, words.sources) for it in packages}}
    print(f"{name}: {graph.vertices:,} vertices, {len(graph.sources):,} edges", file=sys.stderr)
    found = in_turns(works, words.turns)
    compare(name, found)
    for what, show in FIGURES.items():
        yield [f"{name}: {what}", *(show(median([it[what] for it in found[each]])) for each in works)]


def measure(words: argparse.Namespace, room: pathlib.Path) -> None:
    if words.one:
        name, file = words.one
        with numpy.load(file) as kept:
            graph = Graph(kept["sources"], kept["targets"], int(kept["vertices"]))
        print(json.dumps(asked(name, graph, sources_of(graph, words.sources))))
        return
    packages = [it for it in PACKAGES if it not in words.without and (it == "library" or is_here(it))]
    tables.show([f"2^{words.scale} vertices", GAP, *packages],
                (row for name in words.only for row in rows(name, packages, words, room)))
