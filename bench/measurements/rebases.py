"""A rebase of a graph of two edges, with 65,536 blocks and with 16: processor time of `stinger run`, one worker. It is that of a
script in which 200 sessions open and rebase, less that of one in which they open and close, by 200; medians of five runs in
turns. With --count it is instructions by callgrind, of one run.
"""
from __future__ import annotations

import argparse
import functools
import pathlib

from bench import scripts, tables
from bench.measuring import in_turns, instructions, medians, run, side_by_side
from bench.places import stinger_run, takes_program

REBASES = 200
LOAD = ["i,knows,ann,bob,5,10", "i,knows,bob,cat,2,11", "commit"]


def options(parser: argparse.ArgumentParser) -> None:
    takes_program(parser)
    parser.add_argument("--count", action="store_true", help="instructions instead of times")


def measure(words: argparse.Namespace, room: pathlib.Path) -> None:
    files = {ends: scripts.kept(room / ends, [*LOAD, *[f"open,0\n{ends},0"] * REBASES]) for ends in ("rebase", "close")}
    rows = []
    for blocks in (65_536, 16):
        command = stinger_run(words, blocks=blocks)
        if words.count:
            counted = side_by_side({ends: functools.partial(instructions, command, it) for ends, it in files.items()})
            rows.append([tables.count(blocks), tables.count((counted["rebase"] - counted["close"]) / REBASES)])
            continue
        runs = in_turns({ends: functools.partial(run, command, it) for ends, it in files.items()}, 5)
        spent = (medians(runs["rebase"]) - medians(runs["close"])) / REBASES
        rows.append([tables.count(blocks), tables.seconds(spent.processor)])
    tables.show(["blocks", f"{'instructions' if words.count else 'processor time'} of a rebase"], rows)
