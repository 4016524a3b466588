"""Processor time of a request over a version that a session holds, in numbers and without lines: alone, and while another thread
feeds batches of 4,096 changes to the same store. The version has 65,536 insertions of an R-MAT graph. Nine runs of five rounds
each, in which the two take turns: medians of all, and the median, least and greatest of the runs' ratios. The program, whose text
is bench/rattle/beside, is compiled first, unproved, as `./stinger` compiles the sources: that takes minutes.
"""
from __future__ import annotations

import argparse
import collections
import pathlib
import subprocess
from typing import Dict, List, Tuple

from bench import rattle, tables
from bench.measuring import spread

# Nanoseconds by request and by when it was asked.
Times = Dict[Tuple[str, str], List[int]]


def options(parser: argparse.ArgumentParser) -> None:
    parser.add_argument("--program", metavar="FILE", help="the program, where it is compiled already")
    parser.add_argument("--runs", type=int, default=9, help="runs of five rounds (9)")


def one_run(program: str) -> Tuple[Times, List[int]]:
    """The times of one run, and how many batches were fed in each round."""
    times: Times = collections.defaultdict(list)
    fed = []
    for line in subprocess.run([program, "5"], stdout=subprocess.PIPE, text=True, check=True).stdout.splitlines():
        when, *rest = line.split()
        if when == "fed":
            fed.append(int(rest[0]))
        elif when in ("alone", "beside"):
            times[rest[0], when].append(int(rest[1]))
    return times, fed


def measure(words: argparse.Namespace, _: pathlib.Path) -> None:
    program = words.program or rattle.compiled("beside")
    runs = [one_run(program) for _ in range(words.runs)]
    rows = []
    for request in dict.fromkeys(name for name, _ in runs[0][0]):
        ratios = spread([spread(times[request, "beside"]).median / spread(times[request, "alone"]).median for times, _ in runs])
        alone, beside = (spread([it for times, _ in runs for it in times[request, when]]).median / 1e9
                         for when in ("alone", "beside"))
        rows.append([request, tables.seconds(alone), tables.seconds(beside), f"{ratios.median:.2f}",
                     f"{ratios.least:.2f} to {ratios.most:.2f}"])
    tables.show(["request", "alone", "while another thread feeds", "ratio", "of single runs"], rows)
    fed = [it for _, some in runs for it in some]
    print(f"\nbatches fed in a round: {min(fed)} to {max(fed)}")
