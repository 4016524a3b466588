"""What threads gain. Elapsed, medians of five runs in turns on an otherwise idle machine: the R-MAT load with the default options
on one processor and on two and more (aim 0.75 of one); 24 batches of 4,096 insertions, each from 2,000 sources, by one worker and
by four (aim of their `Desk::apply` 0.7; reading them, the same for both, is in these times).

With --count instead, by callgrind, whatever else the machine does: the instructions of each thread for these batches by four
workers, and of the functions on their way, callees included.
"""
from __future__ import annotations

import argparse
import functools
import os
import pathlib
import re
import subprocess
from typing import List

from bench import scripts, tables
from bench.measuring import in_turns, medians, number_in, run, stop, valgrind
from bench.places import stinger_run, takes_program

# Of each function a part of its name, and what it does; one that the compiler put into its callers isn't there.
PARTS = {"Reader::read_checked": "csv", "rules::edge_fields": "fields to a command", "Server::obey": "obeying",
         "Desk::apply": "applying", "NameBook::add": "names", "shards::shard_for": "shards planned", "shard::work_on": "shards",
         "Rows::replace_row": "rows into pages", "Pool::grant": "blocks granted", "Version::drop": "versions dropped",
         "Desk::collect": "collecting"}


def options(parser: argparse.ArgumentParser) -> None:
    takes_program(parser)
    parser.add_argument("--count", action="store_true", default=bool(os.environ.get("COUNT")), help="instructions of each thread")
    parser.add_argument("--runs", type=int, default=5, help="turns (5)")


def function(name: str) -> str:
    """What a function is called in the table, or nothing where it isn't one of PARTS."""
    found = (f"{does} (`{part}`)" for part, does in PARTS.items() if name.split("::<")[0].endswith(part))
    return next(found, "")


def rows_of(thread: int, counts: pathlib.Path) -> List[List[str]]:
    annotate = ["callgrind_annotate", "--inclusive=yes", "--threshold=100", str(counts)]
    told = subprocess.run(annotate, stdout=subprocess.PIPE, text=True, check=True).stdout
    total = number_in(r"([\d,]+).*PROGRAM TOTALS", told)
    rows = [[str(thread), "all", tables.count(total), "100%"]]
    for number, name in re.findall(r"(?m)^ *([\d,]+) \([ \d.]+%\)  \S*?:(\S+)", told):
        if function(name):
            rows.append([str(thread), function(name), number, f"{int(number.replace(',', '')) / total:.1%}"])
    return rows


def count(words: argparse.Namespace, room: pathlib.Path) -> None:
    out = ("--separate-threads=yes", f"--callgrind-out-file={room}/counts")
    valgrind("callgrind", out, stinger_run(words, 4), scripts.written(room, "wide"))
    rows = [row for thread, it in enumerate(sorted(room.glob("counts-*"))) for row in rows_of(thread, it)]
    tables.show(["thread", "function, with what it calls", "instructions", "of the thread's"], rows)


def measure(words: argparse.Namespace, room: pathlib.Path) -> None:
    if words.count:
        return count(words, room)
    if (os.cpu_count() or 1) < 2:
        stop("two processors are needed")
    default = stinger_run(words, None)
    pairs = {"rmat": (["taskset", "-c", "0", *default], default), "wide": (stinger_run(words, 1), stinger_run(words, 4))}
    rows = []
    for load, (one, more) in pairs.items():
        script = scripts.written(room, load)
        runs = in_turns({it: functools.partial(run, words, script) for it, words in (("one", one), ("more", more))}, words.runs)
        alone, together = (medians(runs[it]).elapsed for it in ("one", "more"))
        rows.append([load, tables.seconds(alone), tables.seconds(together), tables.ratio(together, alone)])
    tables.show(["load", "one processor or worker", "more", "ratio of elapsed times"], rows)
