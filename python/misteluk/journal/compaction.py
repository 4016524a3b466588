"""Compaction: the last version as a base, and what is older than the history that is kept leaves the file."""
from __future__ import annotations

import time
from datetime import timedelta
from dataclasses import dataclass
from typing import Iterator, List, Optional, Tuple, Union

from .bases import PART, Base, digest_of
from .journal import Journal
from .tables import Statement
from ..errors import StoreError

# How long versions are kept: so many of the last ones, or those of so long ago; `None` is all.
History = Union[int, timedelta, None]
# How many bases there are always, and how many batches one step takes out.
GENERATIONS, AT_ONCE = 2, 100


# For how long it rests between two steps, in seconds, so that those who commit have their turn.
REST = 0.001


class Ended(StoreError):
    """The store was closed meanwhile: what was written of a base is let go by the next opening."""


@dataclass(frozen=True)
class FileCompacted:
    """What a compaction did: which version it made a base of and in how many bytes, and what is left and dropped.

    `oldest` is the oldest version that the file has now, and `dropped` how many batches left it."""

    version: int
    bytes: int
    oldest: int
    dropped: int


def checked(history: History) -> History:
    """Itself. Raises `ValueError` where it is less than nothing, or neither a number of versions nor a length of time."""
    if history is None or isinstance(history, timedelta) and history >= timedelta(0) or type(history) is int and history >= 0:
        return history
    raise ValueError(f"a history is a number of versions or a timedelta, and not {history!r}")


def write_base(journal: Journal, version: int, found: bytes, base: Base) -> int:
    """Writes a version as a base, whose batch has this sum, and gives how many bytes it has. It goes in step by step, so that
    batches are written meanwhile; it counts once all of it is there."""
    columns, at = dict(base.columns()), time.time_ns() // 1_000
    counts = len(base.names), len(base.kinds), base.edges.size
    journal.run(("DELETE FROM columns WHERE version=?", (version,)), ("DELETE FROM bases WHERE version=?", (version,)))
    for name, data in columns.items():
        for part, begin in enumerate(range(0, len(data) or 1, PART)):  # (an empty column has one part too)
            _step(journal, ("INSERT INTO columns(version, name, part, data) VALUES (?, ?, ?, ?)",
                            (version, name, part, data[begin:begin + PART])))
    journal.run(("INSERT INTO bases VALUES (?, ?, ?, ?, ?, ?, ?)",
                 (version, at, *counts, found, digest_of(version, at, counts, found, columns))))
    return sum(map(len, columns.values()))


def drop_old(journal: Journal, history: History) -> Tuple[int, int]:
    """Takes out of the file what no version needs that is kept. Gives the oldest version that can be had, and how many batches
    went."""
    bases: List[int] = [it for it, in journal.rows("SELECT version FROM bases ORDER BY version")]
    oldest = _oldest(journal, bases, history)
    kept = {*bases[-GENERATIONS:], oldest}
    for it in bases:
        if it not in kept:
            _step(journal, ("DELETE FROM bases WHERE version=?", (it,)))
            _drop_columns(journal, it)
    dropped = 0
    for first, last in _steps(journal, oldest):
        _step(journal, ("DELETE FROM batches WHERE version BETWEEN ? AND ?", (first, last)))
        dropped += last - first + 1
    while not journal.is_closed and journal.shrink():
        time.sleep(REST)
    return oldest, dropped


def _oldest(journal: Journal, bases: List[int], history: History) -> int:
    """The version from which on all is kept: 0, or that of a base which isn't newer than the history, nor than the last bases."""
    if history is None or len(bases) < GENERATIONS:
        return first_kept(journal)
    if isinstance(history, int):
        until = journal.head.version - history
    else:
        before = time.time_ns() // 1_000 - history // timedelta(microseconds=1)
        words = "SELECT coalesce(max(version), 0) FROM batches WHERE at<=?"
        until = journal.rows(words, before)[0][0]
    return max((it for it in bases[:-GENERATIONS + 1] if it <= until), default=first_kept(journal))


def first_kept(journal: Journal) -> int:
    """The oldest version that can be had now."""
    if journal.rows("SELECT 1 FROM batches WHERE version=1"):
        return 0
    found: int = journal.rows("SELECT coalesce(min(version), 0) FROM bases")[0][0]
    return found


def _steps(journal: Journal, oldest: int) -> Iterator[Tuple[int, int]]:
    """The batches up to a version, a few at a time, the oldest first: so those that are left lead on from a base."""
    first: Optional[int] = journal.rows("SELECT min(version) FROM batches")[0][0]
    for at in range(oldest + 1 if first is None else first, oldest + 1, AT_ONCE):
        yield at, min(at + AT_ONCE - 1, oldest)


def _drop_columns(journal: Journal, version: int) -> None:
    while True:
        parts: List[int] = [it for it, in journal.rows("SELECT id FROM columns WHERE version=? LIMIT 4", version)]
        if not parts:
            return
        statements: List[Statement] = [("DELETE FROM columns WHERE id=?", (it,)) for it in parts]
        _step(journal, *statements)


def _step(journal: Journal, *statements: Statement) -> None:
    """A step, behind which others have their turn. Raises `Ended` where the file was closed."""
    if journal.is_closed:
        raise Ended("the store was closed while its file was compacted")
    journal.run(*statements)
    time.sleep(REST)
