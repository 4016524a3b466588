"""The client in Python next to networkx, igraph, graph-tool, scipy and SQLite over one file: a load, questions, exports, and
single edges. One table, whose cells are microseconds or milliseconds elapsed and, after them, of the processor; and one of what
is aimed at, next to igraph where it is there, and what was found, of processor time.

    python3 -m bench run client              500,000 edges between 60,000 vertices, five turns
    python3 -m bench run client 50000 3      so many edges, and so many turns

Tables and exports are asked of sessions that were asked nothing before, edges at vertices of one that has read all edges. "Once
more" is without what the first such question puts in order.

All take turns, and medians are printed. Each answer is compared with the client's in the first turn, and the measurement stops
where one differs. The library is the proved one, or the one that MISTELUK_LIBRARY names.
"""
from __future__ import annotations

import argparse
import importlib
import importlib.util
import pathlib
from typing import Any, Dict, Iterator, List, Optional

from bench import tables
from bench.measuring import Spent, in_turns, medians, stop, timed
from bench.stores.edge_file import ASKED, Client, Input
from bench.stores.packages import OTHERS

# What is measured: the name of a call, what it does, and whether its answer is compared.
ROWS = [("load", "load the file", False), ("rows", "from rows in memory", False), ("degrees", "degrees out and in", True),
        ("weights", "weight out of each vertex", True), ("weights_in", "weight in of each vertex", True),
        ("levels", "levels from a vertex", True), ("components", "components", True), ("cores", "core numbers", True),
        ("out_of", f"edges out of {ASKED} vertices", True), ("into", f"edges into {ASKED} vertices", True),
        ("into_again", f"edges into {ASKED} vertices, once more", False),
        ("arrays", "all edges", True), ("frame", "all edges as a frame", False), ("gathered", "one edge more, gathered", False),
        ("single", "one edge more, its own version", False)]
# These say how many edges they added.
ADDED = ("gathered", "single")
# At most so many times what igraph takes, for what; and at most so many microseconds an edge.
BESIDE_IGRAPH = {"load": (2.5, "rows"), **{what: (2.0, what) for what in (
    "degrees", "weights", "weights_in", "levels", "components", "cores", "out_of", "into", "into_again")}}
AN_EDGE = {"arrays": 2.0, "frame": 2.0, "gathered": 3.3, "single": 20.0}
Times = Dict[str, Spent]


def options(parser: argparse.ArgumentParser) -> None:
    parser.add_argument("edges", type=int, nargs="?", default=500_000)
    parser.add_argument("turns", type=int, nargs="?", default=5)


class Turns:
    """The turns of one package. Its answers are compared in the first one."""

    wanted: Dict[str, Any] = {}

    def __init__(self, make: Any, given: Input) -> None:
        self.name, self.make, self.given, self.is_first = make.name, make, given, True

    def turn(self) -> Times:
        it, times = self.make(self.given), {}
        for what, _, is_compared in ROWS:
            if not hasattr(it, what):
                continue
            found, spent = timed(getattr(it, what))
            times[what] = spent / found if what in ADDED else spent
            if is_compared and self.is_first:
                self.compare(what, it.told(what, found))
            del found
        it.close()
        self.is_first = False
        return times

    def compare(self, what: str, answer: Any) -> None:
        """The client's own answers are the first ones."""
        if Turns.wanted.setdefault(what, answer) != answer:
            stop(f"{self.name} has other {what}")


def cell(what: str, spent: Optional[Spent]) -> str:
    if spent is None:
        return tables.ABSENT
    scale = 1e6 if what in ADDED else 1e3
    return f"{spent.elapsed * scale:,.1f} / {spent.processor * scale:,.1f}"


def aims(times: Dict[str, Times], edges: int) -> Iterator[List[str]]:
    """What is aimed at, and what was found, by processor time."""
    mine, beside = times[Client.name], times.get("igraph", {})
    for what, told, _ in ROWS:
        if what in BESIDE_IGRAPH and BESIDE_IGRAPH[what][1] in beside:
            aim, other = BESIDE_IGRAPH[what]
            by = "igraph" if other == what else f"igraph's {next(row[1] for row in ROWS if row[0] == other)}"
            yield [told, f"{aim} × {by}", f"{tables.ratio(mine[what].processor, beside[other].processor)} ×"]
        elif what in AN_EDGE and what in mine:
            found = mine[what].processor * 1e6 / (1 if what in ADDED else edges)
            yield [told, f"{AN_EDGE[what]} µs an edge", f"{found:.2f} µs"]


def measure(words: argparse.Namespace, room: pathlib.Path) -> None:
    makes: List[Any] = [Client, *(make for module, make in OTHERS.items() if importlib.util.find_spec(module))]
    for module in filter(importlib.util.find_spec, ("pandas", *OTHERS)):
        importlib.import_module(module)  # (which is none of what is measured)
    given = Input(str(room / "edges.csv"), words.edges)
    runs = in_turns({it.name: it.turn for it in (Turns(make, given) for make in makes)}, words.turns)
    times = {name: {what: medians([it[what] for it in some]) for what in some[0]} for name, some in runs.items()}
    print(f"{words.edges:,} edges, {words.turns} turns; milliseconds, of one edge microseconds: elapsed / of the processor\n")
    tables.show(["what", *times], ([told, *(cell(what, it.get(what)) for it in times.values())] for what, told, _ in ROWS))
    print()
    tables.show(["what", "aim: at most", "found"], aims(times, words.edges))
