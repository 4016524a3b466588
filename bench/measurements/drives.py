"""Drives the store 200 times with each number of readers, and reports how many drives had a difference, another last version than
64, or a fault. The program is the one that `./stinger` runs: the proved one, or the compiled sources.
"""
from __future__ import annotations

import argparse
import pathlib
import subprocess

from bench import tables
from bench.measuring import timed
from bench.places import TOP, takes_program


def options(parser: argparse.ArgumentParser) -> None:
    takes_program(parser)
    parser.add_argument("times", type=int, nargs="?", default=200, help="drives with each number of readers (200)")


def has_other_line(program: str, readers: int) -> bool:
    """Drives once. Another line than the right one is printed."""
    wanted = f"drive readers={readers} batches=64 checked={80 * readers} wrong=0 last=64"
    line = subprocess.run([program, "drive", "--readers", str(readers)], stdout=subprocess.PIPE, stderr=subprocess.DEVNULL,
                          text=True).stdout.strip()
    if line != wanted:
        print(f"{line}   (and not {wanted})", flush=True)
    return line != wanted


def measure(words: argparse.Namespace, _: pathlib.Path) -> int:
    program, rows = words.program or str(TOP / "stinger"), []
    for readers in (1, 2, 3, 4):
        others, spent = timed(lambda: sum(has_other_line(program, readers) for _ in range(words.times)))
        rows.append((readers, others, spent.elapsed))
    tables.show(["readers", "drives", "with another line", "elapsed"],
                ([str(readers), str(words.times), str(others), tables.seconds(elapsed)] for readers, others, elapsed in rows))
    return 1 if any(others for _, others, _ in rows) else 0
