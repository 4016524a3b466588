"""The load of 917,504 R-MAT insertions in batches of 4,096 by 1, 2 and 4 workers, by as many as the program takes by itself, and
by a plain store of maps: seconds elapsed, and of processor time, less those of a script without records. Five runs in turns,
medians.
"""
from __future__ import annotations

import argparse
import functools
import pathlib

from bench import scripts, tables
from bench.measuring import in_turns, medians, run
from bench.places import stinger_run, stores, takes_store


def options(parser: argparse.ArgumentParser) -> None:
    takes_store(parser)
    parser.add_argument("--runs", type=int, default=5, help="turns (5)")


def measure(words: argparse.Namespace, room: pathlib.Path) -> None:
    commands = {f"{count} worker{'s' * (count > 1)}": stinger_run(words, count) for count in (1, 2, 4)}
    commands["default workers"] = stinger_run(words, None)
    commands |= {name: command for name, command in stores(words).items() if name != "stinger"}
    works = {(name, load): functools.partial(run, command, scripts.written(room, load))
             for name, command in commands.items() for load in ("rmat", "none")}
    spent = {work: medians(runs) for work, runs in in_turns(works, words.runs).items()}
    found = {name: spent[name, "rmat"] - spent[name, "none"] for name in commands}
    one, maps = found["1 worker"], found["maps"]
    tables.show(["917,504 R-MAT insertions", "elapsed", "by one worker's", "by the maps'", "processor time", "by the maps'"],
                ([name, tables.seconds(it.elapsed), tables.ratio(it.elapsed, one.elapsed), tables.ratio(it.elapsed, maps.elapsed),
                  tables.seconds(it.processor), tables.ratio(it.processor, maps.processor)] for name, it in found.items()))
