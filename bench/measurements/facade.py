"""Each public call of the crate `misteluk` once in a program in Rattle: a store in process under limits of its own, of 2^20 names
and 10,000,000 insertions. What the program prints is compared with numpy, scipy and igraph over the same graph. It fails where a
line differs, or where the program doesn't call a public function. The program, whose text is bench/rattle/every_call, is compiled
first, unproved, as `./stinger` compiles the sources: its first run takes minutes more.

    python3 -m bench run facade
    python3 -m bench run facade --scale 8 --edges 4000                the same over a small store, in a second
    python3 -m bench run facade --scale 8 --edges 4000 --wrong edges  must fail: of these lines others are wanted
"""
from __future__ import annotations

import argparse
import pathlib
import subprocess
import sys

from bench import rattle
from bench.checks import Checks
from bench.measuring import peak_of_children
from bench.stores.facade_lines import Lines


def options(parser: argparse.ArgumentParser) -> None:
    parser.add_argument("--scale", type=int, default=20, help="2 to this power is the number of names (20)")
    parser.add_argument("--edges", type=int, default=10_000_000, help="how many insertions, more than names (10,000,000)")
    parser.add_argument("--workers", type=int, default=4, help="how many threads apply a batch (4)")
    parser.add_argument("--wrong", default="", metavar="WORD", help="what lines begin with of which others are wanted")
    parser.add_argument("--compiled", metavar="FILE", help="the program, where it is compiled already")


def compare(checks: Checks, words: argparse.Namespace, printed: str) -> None:
    """Line by line, so that the first that differs is seen, and how many."""
    wanted = [f"no {it}" if words.wrong and it.startswith(words.wrong) else it for it in Lines(words.scale, words.edges).every()]
    found = printed.splitlines()
    for number, (one, other) in enumerate(zip(found, wanted), 1):
        checks.equal(f"line {number}", one, other)
    checks.equal("lines", len(found), len(wanted))


def measure(words: argparse.Namespace, _: pathlib.Path) -> int:
    checks, text = Checks(), rattle.texts("every_call")
    made = words.compiled or rattle.compiled("every_call")
    calls = list(rattle.public_calls())
    checks.equal("public calls that are read", len(calls) > 100, True)
    checks.equal("public calls that the program lacks", [it for it in calls if not rattle.is_called(text, *it)], [])
    ran = subprocess.run([made, *map(str, (words.scale, words.edges, words.workers))], stdout=subprocess.PIPE, text=True)
    print(f"the program: at most {peak_of_children() / 2**30:.1f} GiB", file=sys.stderr, flush=True)
    checks.equal("the program's status", ran.returncode, 0)
    checks.part("lines", lambda: compare(checks, words, ran.stdout))
    return checks.status()
