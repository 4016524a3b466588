"""`stinger run` next to a plain store of hash maps in Rust (bench/rust/map_store.rs), on the same scripts: a load of 917,504
insertions, the four requests over the graph that it leaves, the same for a tree with 1.5 edges a block, a hub of 60,000 edges,
65,536 empty commits, and memory.

Processor time of whole processes that take turns, five times each, medians. A request's time is that of a script with fifty of
it, less that of the script without, by fifty, and the load's is less that of a script without records: `lost` where none is left.
Lines are compared first, byte by byte; of the lines of `collect`, which report blocks, the first word alone.
"""
from __future__ import annotations

import argparse
import csv
import functools
import math
import pathlib
import subprocess
from typing import Dict, Iterator, List

from bench import scripts, tables
from bench.measuring import Spent, in_turns, medians, peak, run, stop
from bench.places import stinger_run, stores, takes_store

RUNS, REPEATS = 5, 50
REQUESTS = ["bfs", "comp", "core", "deg"]
LOADS = {"mixed": [*REQUESTS, "edge", "window"], "hub": ["comp", "core", "deg", "window"]}
LOADS |= {"rmat": LOADS["mixed"], "sparse": LOADS["mixed"]}
Figures = Dict[str, float]


def options(parser: argparse.ArgumentParser) -> None:
    takes_store(parser)
    parser.add_argument("--figures", type=pathlib.Path, default=pathlib.Path("out/compare.csv"), metavar="FILE",
                        help="where the figures are kept, of which `picture` draws a picture (out/compare.csv)")
    parser.add_argument("--runs", type=int, default=RUNS, help="turns (5)")


class Comparison:
    """The stores that are compared, and the figures so far."""

    def __init__(self, words: argparse.Namespace, room: pathlib.Path) -> None:
        self.stores, self.room, self.runs = stores(words), room, words.runs
        self.rows: List[Dict[str, object]] = []
        self.ratios: Dict[str, List[float]] = {name: [] for name in self.others}

    @property
    def others(self) -> List[str]:
        return [name for name in self.stores if name != "stinger"]

    def script(self, load: str, *requests: str, repeats: int = 1) -> pathlib.Path:
        return scripts.written(self.room, load, *requests, repeats=repeats)

    def have_equal_lines(self, script: pathlib.Path) -> None:
        """Stops where they haven't. The lines stay out of this process."""
        files = {name: self.room / f"{name}.lines" for name in self.stores}
        for name, words in self.stores.items():
            run(words, script, files[name])
            subprocess.run(["sed", "-i", "s/^collect .*/collect/", str(files[name])], check=True)
            if subprocess.run(["cmp", str(files["stinger"]), str(files[name])]).returncode:
                stop(f"the lines of {name} differ on {script.name}")

    def measure(self, script: pathlib.Path) -> Dict[str, Spent]:
        works = {name: functools.partial(run, words, script) for name, words in self.stores.items()}
        return {name: medians(runs) for name, runs in in_turns(works, self.runs).items()}

    def times(self, script: pathlib.Path, without: Dict[str, Spent], among: int = 1) -> Figures:
        return {name: (it.processor - without[name].processor) / among for name, it in self.measure(script).items()}

    def row(self, what: str, figures: Figures, unit: str = "s", is_of_mean: bool = False) -> List[str]:
        """A row of the table, which is kept; ratios are ours by theirs."""
        self.rows.append({"work": what, "unit": unit, **{name: round(it, 6) for name, it in figures.items()}})
        show = tables.seconds if unit == "s" else tables.count
        cells = [what, show(figures["stinger"])]
        for name in self.others:
            cells += [show(figures[name]), tables.ratio(figures["stinger"], figures[name])]
            if is_of_mean and min(figures["stinger"], figures[name]) > 0:
                self.ratios[name].append(figures["stinger"] / figures[name])
        return cells


def requests(it: Comparison, graph: str, word: str, without: Dict[str, Spent], is_of_mean: bool) -> Iterator[List[str]]:
    for request in REQUESTS:
        times = it.times(it.script(graph, request, repeats=REPEATS), without, REPEATS)
        yield it.row(word + request, times, is_of_mean=is_of_mean)


def rows(it: Comparison) -> Iterator[List[str]]:
    start, rmat, tree = (it.measure(it.script(load)) for load in ("none", "rmat", "sparse"))
    yield it.row("start", {name: spent.processor for name, spent in start.items()})
    yield it.row("load", {name: spent.processor - start[name].processor for name, spent in rmat.items()}, is_of_mean=True)
    yield from requests(it, "rmat", "", rmat, True)
    yield it.row("memory", {name: peak(words, it.script("rmat")) / 2**20 for name, words in it.stores.items()}, "MB")
    yield it.row("sparse load", {name: spent.processor - start[name].processor for name, spent in tree.items()})
    yield from requests(it, "sparse", "sparse ", tree, False)
    yield it.row("hub", it.times(it.script("hub"), start))
    yield it.row("empty commits", {name: spent.processor for name, spent in it.measure(it.script("empty")).items()})


def everything(it: Comparison) -> None:
    for load, asked in LOADS.items():
        it.have_equal_lines(it.script(load, *asked))
    print("equal lines on all scripts; processor time, ratios are ours by theirs\n")
    tables.show(["work", "stinger run", *(cell for name in it.others for cell in (name, "ratio"))], rows(it))
    for name, ratios in it.ratios.items():
        mean = f"{math.prod(ratios) ** (1 / len(ratios)):.2f}" if ratios else "lost"
        print(f"geometric mean of {len(ratios)} ratios of the R-MAT graph to {name}: {mean}")


def measure(words: argparse.Namespace, room: pathlib.Path) -> None:
    it = Comparison(words, room)
    everything(it)
    four = [*stinger_run(words, 4)]
    empty = medians(in_turns({"": functools.partial(run, four, it.script("empty"))}, it.runs)[""])
    print(f"65,536 empty commits with four workers: {tables.seconds(empty.processor)}")
    words.figures.parent.mkdir(parents=True, exist_ok=True)
    with open(words.figures, "w", newline="") as file:
        table = csv.DictWriter(file, ["work", "unit", *it.stores], lineterminator="\n")
        table.writeheader()
        table.writerows(it.rows)
    print(f"figures kept in {words.figures}")
