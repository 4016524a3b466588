"""How long a server's clients wait for an answer while a feed comes in, and what the feed loses by them.

    python3 -m bench run serve           a feed of 10,000 rows a second, and one at full speed, with 1, 8 and 64 clients
    python3 -m bench run serve --rates 10000        one half of it
    python3 -m bench run serve --clients 0 8 --replicated --eager --seconds 5 --pause 0.005

`misteluk serve -` runs as a process, and its standard input is the feed. Clients are processes of their own; each asks, by a
session of the last version that it opens again each second, an edge, the edges out of a vertex, and a table of degrees in turn,
with a pause between them. A row shows the median and the 99th percentile of each, in milliseconds, the rows a second that came
in, and what part they are of those without clients, if that is the first row of the feed.

With a rate there are two more rows: of 64 clients of a store with a file and of its two replicas, a third of them each, and of
256 clients that ask without a pause. It wants a machine that does nothing else.
"""
from __future__ import annotations

import argparse
import pathlib
from typing import Iterator, List

from bench import tables
from bench.measuring import percentile, spread
from bench.serving import QUESTIONS, Askers, Times, measured


REPLICAS = 2


def options(parser: argparse.ArgumentParser) -> None:
    parser.add_argument("--clients", type=int, nargs="*", default=[0, 1, 8, 64])
    parser.add_argument("--replicated", type=int, nargs="*", default=[64], help="clients of a store's file and two replicas (64)")
    parser.add_argument("--eager", type=int, nargs="*", default=[256], help="clients that ask without a pause (256)")
    parser.add_argument("--rates", type=int, nargs="*", default=[10_000, 0], help="rows a second; 0 is as many as are taken")
    parser.add_argument("--seconds", type=float, default=20.0, help="of each row (20)")
    parser.add_argument("--pause", type=float, default=0.02, help="seconds between a client's questions")


def rows(words: argparse.Namespace, room: pathlib.Path) -> Iterator[List[str]]:
    for rate in words.rates:
        alone = 0.0
        for it in asked(words, rate):
            times, taken = measured(room, rate, it, words.seconds)
            alone = alone if it.number else taken
            yield [*row(rate, it, times), tables.count(taken), f"{taken / alone:.2f}" if alone else tables.ABSENT]


def asked(words: argparse.Namespace, rate: int) -> List[Askers]:
    """Who asks beside a feed of this rate, row by row."""
    more = [*(Askers(it, words.pause, REPLICAS) for it in words.replicated), *(Askers(it, 0.0) for it in words.eager)]
    return [*(Askers(it, words.pause) for it in words.clients), *(more if rate else [])]


def row(rate: int, askers: Askers, times: Times) -> List[str]:
    cells = []
    for name in QUESTIONS:
        found = times[name]
        if found:
            cells += [f"{1000 * spread(found).median:.2f}", f"{1000 * percentile(found, 99):.1f}"]
        else:
            cells += [tables.ABSENT, tables.ABSENT]
    return [f"{rate:,} a second" if rate else "full speed", askers.told, *cells]


def measure(words: argparse.Namespace, room: pathlib.Path) -> None:
    head = ["feed", "clients", "edge, ms", "p99", "out of a vertex, ms", "p99", "degrees, ms", "p99", "rows a second",
            "of those alone"]
    tables.show(head, rows(words, room))
