"""Three tasks of an analyst, next to pandas and networkx: what the client says has to equal what they say. A line for each step
has its processor time.

    python3 -m bench run analyst --rows 50000       smaller ones

1. transfers: 200,000 rows of 20,000 accounts, summed; exports, windows of days, a save and a restore.
2. logistics: a network of 400 places, 100 neighborhoods of it in two held versions.
3. dependencies: 500,000 rows of 50,000 names, `edges().to_pandas()`, `to_networkx`, a save.
"""
from __future__ import annotations

import argparse
import pathlib

from bench import tasks


def options(parser: argparse.ArgumentParser) -> None:
    parser.add_argument("--rows", type=int, default=500_000, help="of the third task; the first has two fifths of them (500,000)")


def measure(words: argparse.Namespace, room: pathlib.Path) -> None:
    print("transfers")
    tasks.transfers(words.rows * 2 // 5, room)
    print("logistics")
    tasks.logistics()
    print("dependencies")
    tasks.dependencies(words.rows, room)
    print("all equal")
