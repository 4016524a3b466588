"""Scripts of records: those that rust/scripts.rs writes (R-MAT graphs, trees, a hub and others), and parts of smaller ones."""
from __future__ import annotations

import itertools
import pathlib
import random
import subprocess
from typing import Iterable, Iterator, Tuple

from bench.places import compiled

BATCH = 4_096
LAST_TIME = 2**63 - 1
Lines = Iterator[str]
Edge = Tuple[int, int]


def written(room: pathlib.Path, load: str, *requests: str, repeats: int = 1) -> pathlib.Path:
    """The file of a script: a load, and then each of these requests so many times. It is written once."""
    path = room / f"{'-'.join((load, str(repeats), *requests))}.csv"
    if not path.exists():
        words = [word for request in requests for word in (request, str(repeats))]
        with open(path, "wb") as out:
            subprocess.run([compiled("scripts"), load, *words], stdout=out, check=True)
    return path


def kept(path: pathlib.Path, lines: Iterable[str]) -> pathlib.Path:
    """The file, with these lines in it."""
    with open(path, "w") as out:
        out.writelines(f"{line}\n" for line in lines)
    return path


def batches(records: Iterable[str], size: int = BATCH) -> Lines:
    """The records in batches of this size, with a collection after each."""
    records = iter(records)
    while batch := list(itertools.islice(records, size)):
        yield from batch
        yield from ("commit", "collect")


def inserted(edges: Iterable[Edge], time: int = 1) -> Lines:
    return (f"i,link,v{source},v{target},1,{time}" for source, target in edges)


def skewed(count: int, vertices: int) -> Iterator[Edge]:
    """Edges of which few vertices have many: of each end the number is a product of two draws."""
    draws = random.Random(7)
    for _ in range(count):
        source, target = (int(vertices * draws.random() * draws.random()) for _ in range(2))
        yield source, target


def tree(count: int) -> Iterator[Edge]:
    draws = random.Random(11)
    return ((draws.randrange(target), target) for target in range(1, count + 1))


def hub(blocks: int) -> Lines:
    return batches(f"i,link,hub,v{place},1,1" for place in range(32 * blocks))


def transfers(count: int, accounts: int, hub_each: int = 0) -> Iterator[Tuple[str, str, int, int]]:
    """A bank's transfers as source, target, amount and time. Any account sends to any other; with `hub_each`, one of so many goes
    to the account `hub`."""
    made = random.Random(11)
    for number in range(count):
        target = "hub" if hub_each and number % hub_each == 0 else f"a{made.randrange(accounts)}"
        yield f"a{made.randrange(accounts)}", target, made.randrange(1, 100_000), number
