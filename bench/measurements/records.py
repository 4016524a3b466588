"""Records read a second: `stinger run` next to a plain Rust reader of the same script (bench/rust/script_reader.rs), five times
each in turns, medians of the processor time. The script has 999,999 records: a few edges, one commit, one session, and then
requests for single edges.
"""
from __future__ import annotations

import argparse
import filecmp
import functools
import pathlib

from bench import scripts, tables
from bench.measuring import in_turns, medians, run, stop
from bench.places import compiled, program, takes_program


def options(parser: argparse.ArgumentParser) -> None:
    takes_program(parser)
    parser.add_argument("--records", type=int, default=999_999, help="records of the script (999,999)")


def lines(records: int) -> scripts.Lines:
    for number in range(20):
        yield f"i,knows,v{number},v{(number * 7 + 1) % 20},{number + 1},{number}"
    yield from ("commit", "open,0")
    for number in range(records - 22):
        source = number * 13 % 20
        target = (source * 7 + 1) % 20 if number % 4 else number * 11 % 20
        yield f"edge,0,knows,v{source},v{target}"


def measure(words: argparse.Namespace, room: pathlib.Path) -> None:
    script = scripts.kept(room / "script.csv", lines(words.records))
    commands = {"stinger run": [program(words.program), "run"], "plain reader": [compiled("script_reader")]}
    works = {name: functools.partial(run, command, script, room / name) for name, command in commands.items()}
    spent = {name: medians(runs).processor for name, runs in in_turns(works, 5).items()}
    if not filecmp.cmp(room / "stinger run", room / "plain reader", shallow=False):
        stop("the plain reader's lines differ")
    print("the lines are the same")
    tables.show(["reader", "records a second", "processor time", "by the plain reader's"],
                ([name, tables.count(words.records / it), tables.seconds(it), tables.ratio(it, spent["plain reader"])]
                 for name, it in spent.items()))
