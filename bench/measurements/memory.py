"""The peak resident memory of a program whose blocks nothing uses yet; of feeds of 10,000, 20,000 and 40,000 batches of
0, 2 and 8 operations on 256 blocks, with sessions that come and go and a collection after every third batch; and of feeds of
20,000, 40,000 and 80,000 such batches of 2 operations, with a rebase after every thousandth, which closes the store before.
"""
from __future__ import annotations

import argparse
import pathlib
from typing import Iterator, List, Optional, Tuple

from bench import scripts, tables
from bench.measuring import peak
from bench.places import stinger_run, takes_program

LENGTHS = (10_000, 20_000, 40_000)


def options(parser: argparse.ArgumentParser) -> None:
    takes_program(parser)
    parser.add_argument("--part", type=int, default=1, help="feeds that are so many times as short (1)")


def session(slot: int, turn: int, last: int) -> List[str]:
    """What a session does in a turn: it opens in the first, and asks and closes in the last."""
    if turn == 0:
        return [f"open,{slot}"]
    return [f"deg,{slot},*,0,99999", f"close,{slot}"] if turn == last else []


def feed(batches: int, operations: int, rebased: int) -> scripts.Lines:
    """Ten rows of one edge each; every batch changes the weights of the next rows in turn. A rebase comes after so many batches,
    or never where it is 0."""
    yield from (f"i,k,v{row},w{row},1,1" for row in range(10))
    yield "commit"
    changed, is_held = 0, [False, False]
    for batch in range(1, batches):
        for _ in range(operations):
            yield f"i,k,v{changed % 10},w{changed % 10},{batch},{batch}"
            changed += 1
        yield "commit"
        for slot, turn, last in ((0, batch % 5, 3), (1, batch % 7, 4)):
            if turn == 0 or is_held[slot]:
                yield from session(slot, turn, last)
                is_held[slot] = turn < last
        if batch % 3 == 0:
            yield "collect"
        if rebased and batch % rebased == 0:
            yield from ([] if is_held[0] else ["open,0"]) + ["rebase,0"]
            is_held = [False, False]


def feeds() -> Iterator[Tuple[str, Tuple[int, ...], int, int]]:
    """What each feed is called, its lengths, the operations of a batch, and after how many batches it has a rebase."""
    for operations in (0, 2, 8):
        yield f"{operations} operations a batch", LENGTHS, operations, 0
    yield "2 operations a batch, and a rebase after each thousandth", tuple(2 * it for it in LENGTHS), 2, 1_000


def rows(words: argparse.Namespace, room: pathlib.Path) -> Iterator[List[str]]:
    for blocks in (16_384, 65_536):
        used = peak(stinger_run(words, None, blocks), scripts.kept(room / "script", ["stat"]))
        yield [f"{blocks:,} blocks, none used", "", tables.megabytes(used), tables.ABSENT]
    for what, lengths, operations, rebased in feeds():
        before: Optional[Tuple[int, int]] = None
        for batches in (it // words.part for it in lengths):
            used = peak(stinger_run(words, None, 256), scripts.kept(room / "script", feed(batches, operations, rebased)))
            more = tables.count((used - before[1]) / (batches - before[0])) if before else tables.ABSENT
            yield [what, tables.count(batches), tables.megabytes(used), more]
            before = batches, used


def measure(words: argparse.Namespace, room: pathlib.Path) -> None:
    tables.show(["feed", "batches", "peak resident memory", "bytes a batch more"], rows(words, room))
