"""A store's file as a script, which `stinger run` takes."""
from __future__ import annotations

import sqlite3
from contextlib import closing
from typing import Iterator, Optional

from .bases import Base, read_base
from .recovery import oldest_kept, rows_of
from .tables import connect, faults_told, place_of, read_head
from ..engine.copies import operations_of
from ..values.texts import Path
from ..engine.operations import records_of
from ..errors import JournalFault
from ..feeds.feed import parts_of
from ..values.records import MOST_OPERATIONS

_COMMIT = b"commit\ncollect\n"


def log(path: Path, since: Optional[int] = None) -> Iterator[bytes]:
    """The batches behind a version as records, each with a `commit` and a `collect`; without a version all of them, where the
    graph of the oldest version that the file has goes before those that came after it.

    A `commit` has at most 4,096 operations, so a larger batch has several. Each batch's sum is checked before it is given. What
    came with batches stands in no record: the texts of ids, producers, and that an endless store dropped names. Raises
    `ValueError` where the file doesn't have the version any more."""
    place = place_of(path)
    with faults_told(), closing(connect(place)) as opened:
        opened.execute("BEGIN")
        head, oldest = read_head(opened), oldest_kept(opened)
        begin = oldest if since is None else since
        if not oldest <= begin <= head.version:
            raise ValueError(f"there is no version {begin}: the file has {oldest} to {head.version}")
        if since is None and oldest:
            yield from _graph(read_base(opened, oldest)[0])
        yield from _batches(opened, begin, head.version)


def _graph(base: Base) -> Iterator[bytes]:
    """What makes an empty store hold a base."""
    rows = operations_of(base.content).rows()
    for part in parts_of(rows, MOST_OPERATIONS):
        yield records_of(part).encode("ascii") + _COMMIT


def _batches(opened: sqlite3.Connection, begin: int, last: int) -> Iterator[bytes]:
    before: Optional[bytes] = None
    for row in rows_of(opened, begin, last):
        if before is not None and row.summed(before).sum != row.sum:
            raise JournalFault(f"the batch of version {row.version} isn't as it was written", row.version - 1)
        before = row.sum
        if row.operations <= MOST_OPERATIONS:
            yield row.records + _COMMIT
            continue
        for part in parts_of(row.records.splitlines(keepends=True), MOST_OPERATIONS):
            yield b"".join(part) + _COMMIT
