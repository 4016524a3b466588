"""A sliding window: 200 batches of 1,000 additions between 65,536 vertices, of which the edges of the last 20 batches stay. Three
feeds keep the same graph: one with an expiry before each batch, one with a removal for each edge that is too old, and the first
with an expiry more that finds nothing. Processor time of `stinger run` a batch, five turns, medians; the degrees at the end must
be equal, and as many edges must expire as are removed.
"""
from __future__ import annotations

import argparse
import functools
import pathlib
import random
import re
from typing import Dict, Iterator, List, Tuple

from bench import scripts, tables
from bench.measuring import in_turns, medians, run, stop
from bench.places import stinger_run, takes_program

SIZE, WINDOW, TURNS = 1_000, 20, 5


def options(parser: argparse.ArgumentParser) -> None:
    takes_program(parser)
    parser.add_argument("--batches", type=int, default=200, help="batches (200)")


def vertex(draws: random.Random) -> int:
    """A number of 16 bits, each of which is 0 three times of four."""
    return sum((draws.random() < 0.25) << bit for bit in range(16))


def feeds(batches: int) -> Iterator[Tuple[int, List[str], List[scripts.Edge]]]:
    """Each batch's time and additions, and the edges that are then older than the window."""
    draws = random.Random(1)
    recent: Dict[scripts.Edge, int] = {}
    for time in range(1, batches + 1):
        old = [edge for edge, last in recent.items() if last < time - WINDOW + 1]
        for edge in old:
            del recent[edge]
        drawn = [(vertex(draws), vertex(draws)) for _ in range(SIZE)]
        recent.update((edge, time) for edge in drawn)
        yield time, [f"a,link,v{source},v{target},1,{time}" for source, target in drawn], old


def written(batches: int) -> Dict[str, List[str]]:
    found: Dict[str, List[str]] = {"expiries": [], "removals": [], "two expiries": []}
    for time, added, old in feeds(batches):
        expiry = f"x,{max(time - WINDOW + 1, 0)}"
        heads = {"expiries": [expiry], "removals": [f"r,link,v{source},v{target}" for source, target in old],
                 "two expiries": [expiry, expiry]}
        for name, lines in found.items():
            lines += [*heads[name], *added, "commit", "collect"]
    for lines in found.values():
        lines += ["open,0", f"deg,0,*,0,{batches}"]
    return found


def counted(word: str, text: str) -> int:
    return sum(map(int, re.findall(rf" {word}=(\d+)", text)))


def measure(words: argparse.Namespace, room: pathlib.Path) -> None:
    files = {name: scripts.kept(room / name, lines) for name, lines in written(words.batches).items()}
    command = stinger_run(words)
    runs = in_turns({name: functools.partial(run, command, it, it.with_suffix(".lines")) for name, it in files.items()}, TURNS)
    told = {name: it.with_suffix(".lines").read_text() for name, it in files.items()}
    expired, removed = counted("exp", told["expiries"]), counted("rem", told["removals"])
    if len({text[text.index("\ndeg "):] for text in told.values()}) != 1 or expired != removed:
        stop(f"the windows differ: {expired:,} edges expired, {removed:,} were removed")
    print(f"same degrees; {expired:,} edges expired, as many were removed")
    tables.show(["feed", "processor time of a batch"],
                ([name, tables.seconds(medians(some).processor / words.batches)] for name, some in runs.items()))
