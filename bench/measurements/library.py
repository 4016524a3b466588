"""What the store takes in a caller's process, by ctypes over libmisteluk.so, next to igraph and networkx over the same edges: a
load from columns, tables, edges, single edges that each make a version, and tables on three threads next to one. Two controls say
what three threads can gain on this machine at all: hashes on threads, and the tables in three processes.

    python3 -m bench run library             500,000 edges between 50,000 vertices, five turns
    python3 -m bench run library 20000 3     so many edges between a tenth as many vertices, and so many turns

They take turns, and medians are printed: elapsed time, and in brackets processor time of all threads. The library writes columns
that lie ready; igraph hands out lists, networkx dicts. The answers are compared, and the measurement stops where they differ.
The library is the proved one, or the one that MISTELUK_LIBRARY names. Elapsed times want a machine with four processors.
"""
from __future__ import annotations

import argparse
import functools
import os
import pathlib
import sys
from typing import Any, Callable, Dict, List, Optional, Tuple

from bench import tables
from bench.calls import loaded
from bench.catalog import is_here
from bench.measuring import Spent, in_turns, medians, stop, timed
from bench.places import library
from bench.stores.columns import ASKED, TABLES, Igraph, Input, Networkx, Store, Table
from bench.stores.controls import Processes, hashes

SINGLE = 20_000
# What is measured, by the name of its call; an aim is a multiple of igraph's time.
ROWS = [("load", "load from columns", None), ("degrees", "degrees", 1.5), ("levels", "levels", 1.5),
        ("components", "components", 1.5), ("cores", "cores", 1.5),
        ("out_neighbors", f"out-neighbors of {ASKED:,} vertices", 2.0), ("all_edges", "all edges", 2.0),
        ("feed", "one edge, each its own version", None)]
OTHERS: List[Any] = [Igraph, Networkx]
Times = Dict[str, Spent]


def options(parser: argparse.ArgumentParser) -> None:
    parser.add_argument("edges", type=int, nargs="?", default=500_000)
    parser.add_argument("turns", type=int, nargs="?", default=5)


class Turns:
    """The turns of one store. What the first one answers in a turn, the others must answer too."""

    wanted: Optional[Table] = None

    def __init__(self, name: str, make: Callable[[], Any]) -> None:
        self.name, self.make = name, make

    def turn(self) -> Times:
        it, times = self.make(), {}
        for what, _, _ in ROWS[:-1]:
            times[what] = timed(getattr(it, what))[1]
            if what == "load":
                it.prepare()
        self.compare(it.answers())
        if isinstance(it, Store):
            for threads in (1, 3):
                times[f"threads {threads}"] = timed(functools.partial(it.on_threads, threads))[1]
        count = SINGLE if isinstance(it, Store) else 50
        if hasattr(it, "feed"):
            times["feed"] = timed(functools.partial(it.feed, count))[1] / count
        it.close()
        return times

    def compare(self, found: Table) -> None:
        if self.name == Store.name:
            Turns.wanted = found
        for what, answer in (Turns.wanted or {}).items():
            if found[what] != answer:
                stop(f"{self.name} has other {what}")


def gains(edges: int, turns: int) -> Dict[str, float]:
    """How much more three of a control do in the same time than one alone."""
    processes = Processes(edges)
    works = {(name, count): functools.partial(timed, functools.partial(work, count))
             for name, work in (("hashes", hashes), ("processes", processes.make)) for count in (1, 3)}
    spent = {key: medians([it for _, it in some]).elapsed for key, some in in_turns(works, turns).items()}
    processes.close()
    return {name: 3 * spent[name, 1] / spent[name, 3] for name in ("hashes", "processes")}


def cell(times: Times, what: str) -> str:
    return f"{tables.seconds(times[what].elapsed)} ({tables.seconds(times[what].processor)})" if what in times else tables.ABSENT


def against_igraph(times: Dict[str, Times], what: str, aim: Optional[float]) -> Tuple[str, str]:
    """The library's time as a multiple of igraph's, elapsed and of the processor, and what it is to be at most."""
    if "igraph" not in times or aim is None:
        return tables.ABSENT, tables.ABSENT
    ours, theirs = times["library"][what], times["igraph"][what]
    return f"{ours.elapsed / theirs.elapsed:.2f} ({ours.processor / theirs.processor:.2f})", f"{aim:g}"


def measure(words: argparse.Namespace, _: pathlib.Path) -> None:
    given, calls = Input(words.edges), loaded()
    turns = [Turns(Store.name, functools.partial(Store, given, calls))]
    turns += [Turns(it.name, functools.partial(it, given)) for it in OTHERS if is_here(it.name)]
    runs: Dict[str, List[Times]] = in_turns({it.name: it.turn for it in turns}, words.turns)
    times = {name: {what: medians([it[what] for it in some]) for what in some[0]} for name, some in runs.items()}
    print(f"{library()}; Python {sys.version.split()[0]}; load of the machine {os.getloadavg()[0]:.1f}; medians of {words.turns} "
          "turns\n")
    tables.show([f"{words.edges:,} edges, {given.vertices:,} vertices", *times, "the library's by igraph's", "aim"],
                ([told, *(cell(it, what) for it in times.values()), *against_igraph(times, what, aim)]
                 for what, told, aim in ROWS))
    ours, controls = times["library"], gains(words.edges, words.turns)
    (one, alone), (three, each) = ((it.elapsed, it.processor) for it in (ours["threads 1"], ours["threads 3"]))
    print(f"\nload: {words.edges / ours['load'].elapsed:,.0f} edges a second (aim: 250,000)")
    print(f"core tables a second: {TABLES / one:.1f} on one thread, {3 * TABLES / three:.1f} on three, which is "
          f"{3 * one / three:.2f} times as many (aim: 2.5 on four processors)\n"
          f"a table on three threads takes {each / alone / 3:.2f} times the processor time; three processes make "
          f"{controls['processes']:.2f} times as many tables as one, three threads {controls['hashes']:.2f} times as many hashes")
