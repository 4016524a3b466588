"""What a store's file holds: by the newest base that is as it was written, and the batches that came after it."""
from __future__ import annotations

import json
import sqlite3
from contextlib import closing
from dataclasses import dataclass, field
from typing import Dict, Generator, Iterable, Iterator, List, Optional, Sequence, Tuple

from .bases import Base, read_base
from .joining import checked, joined, parted
from .scripts import operations_of
from .sources import Sources
from .tables import NO_SUM, OF_BATCH, Head, Written, read_head
from ..engine.openings import as_batches, may_open, most_blocks
from ..engine.operations import Operations
from ..engine.protocol import Denied
from ..engine.waiting import WaitingEngine
from ..errors import JournalFault
from ..feeds.steps import FeedMark
from ..values.answers import Commit

# How many bytes of records are read at once at most, or those of one batch.
MOST_BYTES = 4 << 20


@dataclass
class State:
    """What a file holds as of a version: the engine that has its graph and its kinds, the sum of its last batch, the texts of
    ids, and who sent what. And how that was found: by the base of which version (0 is none), and how many batches and
    operations."""

    engine: WaitingEngine
    version: int = 0
    whole: Optional[int] = None
    sum: bytes = NO_SUM
    texts: Dict[str, str] = field(default_factory=dict)
    sources: Sources = field(default_factory=Sources)
    kinds: List[str] = field(default_factory=list)
    base: int = 0
    batches: int = 0
    operations: int = 0

    def begin(self, version: int, base: Base, found: bytes) -> None:
        """Takes what the base of this version has, whose batch has this sum."""
        names, kinds = len(base.names), len(base.kinds)
        self.engine.fit(names, kinds, most_blocks(base.edges.size + names + kinds, names, kinds) + names + kinds)
        self.engine.begin_with(base.content, version)
        self.version = self.whole = self.base = version
        self.sum, self.texts, self.sources = found, dict(base.texts), base.sources.copy()

    def replay(self, rows: Iterable[Written]) -> None:
        """Applies the next batches. Raises `JournalFault` where one isn't the next one, or not as it was written, or is refused;
        those before it are in then."""
        for some in joined(checked(rows, self.version, self.sum), may_open(self.engine)):
            for part, is_asked in parted(some):
                self._apply(part, is_asked)

    def replay_behind(self, opened: sqlite3.Connection, last: int) -> None:
        """Applies the file's batches up to a version, as `replay` does."""
        with closing(rows_of(opened, self.version, last)) as rows:  # (else a fault's trace keeps what SQLite reads for it)
            self.replay(rows)

    def _apply(self, rows: Sequence[Written], is_asked: bool) -> None:
        try:
            self._apply_as_one(rows, is_asked)
        except Denied:
            self._apply_alone(rows)

    def _apply_alone(self, rows: Sequence[Written]) -> None:
        """Applies batches one after another, of which one is refused."""
        for row in rows:
            try:
                self._apply_as_one([row], True)
            except Denied as fault:
                raise JournalFault(f"the batch of version {row.version} is refused ({fault.word})") from None

    def _apply_as_one(self, rows: Sequence[Written], is_asked: bool) -> None:
        operations, engine = operations_of([it.records for it in rows]), self.engine
        if rows[0].drops:
            engine.drop_idle_names()
        if may_open(engine) and as_batches(engine, operations.columns):
            names, kinds = len(operations.columns.of_names.numbers), len(operations.columns.of_kinds.numbers)
            engine.fit(names, kinds, most_blocks(operations.size, names, kinds))
            operations.opens = len(rows)
        operations.batches = len(rows)
        commit = engine.fly(engine.flight(operations, True))
        for row in rows:
            self.take(row, commit if is_asked else None)
        self.batches, self.operations = self.batches + len(rows), self.operations + operations.size

    def take(self, row: Written, commit: Optional[Commit]) -> None:
        """Takes what came with a batch, which did this, if that may be asked again."""
        self.sum = row.sum
        self.texts.update(texts_of(row))
        self.sources.take(row, commit)
        self.version = self.whole = row.version  # (last: an interrupt before it has all of this taken again)


def recover(opened: sqlite3.Connection, engine: WaitingEngine, until: Optional[int] = None) -> State:
    """What the file holds now, or as of a version, in an empty engine, which takes what was accepted however much that is.

    Raises `JournalFault` where the file isn't as it was written, with the last version that can be had, and `ValueError` where
    there is no such version.
    """
    state = State(engine)
    opened.execute("BEGIN")  # (all that is read is of one moment)
    try:
        head = read_head(opened)
        last = head.version if until is None else _kept(opened, head, until)
        _take_base(opened, state, last)
        state.replay_behind(opened, last)
        if state.version != last:
            raise JournalFault(f"the versions from {state.version + 1} on are missing, and {last} is the last one")
        must_end(opened, head, state)
        return state
    except JournalFault as fault:
        raise JournalFault(str(fault), state.whole) from None
    except sqlite3.DatabaseError as fault:
        raise JournalFault(f"SQLite: {fault}", state.whole) from fault
    except (OverflowError, UnicodeError, TypeError, KeyError) as fault:
        raise JournalFault(f"a row isn't as it was written ({fault})", state.whole) from fault
    finally:
        opened.execute("ROLLBACK")


def must_end(opened: sqlite3.Connection, head: Head, state: State) -> None:
    """Raises `JournalFault` where a state that came to the head's version isn't the head's, or batches lie behind it."""
    if state.version == head.version and state.sum != head.sum:
        raise JournalFault(f"the head has another sum than the batch of version {head.version}")
    if opened.execute("SELECT 1 FROM batches WHERE version>?", (head.version,)).fetchone():
        raise JournalFault(f"there are batches behind version {head.version}, which the head has as the last one")


def _kept(opened: sqlite3.Connection, head: Head, version: int) -> int:
    """The version. Raises `ValueError` where the file doesn't have it."""
    oldest = oldest_kept(opened)
    if not oldest <= version <= head.version:
        raise ValueError(f"there is no version {version}: the file has {oldest} to {head.version}")
    return version


def oldest_kept(opened: sqlite3.Connection) -> int:
    """The oldest version that can be had: 0 as long as every batch is there, else that of the oldest base."""
    if opened.execute("SELECT 1 FROM batches WHERE version=1").fetchone():
        return 0
    found: Optional[int] = opened.execute("SELECT min(version) FROM bases").fetchone()[0]
    return found or 0


def texts_of(row: Written) -> Dict[str, str]:
    """The texts of ids that came with a batch."""
    found: Dict[str, str] = json.loads(row.texts) if row.texts else {}
    return found


def rows_of(opened: sqlite3.Connection, after: int, last: int) -> Generator[Written, None, None]:
    """The batches behind a version, up to another one."""
    # (so many at the most: a damaged page may have another row behind them)
    words = f"SELECT {OF_BATCH} FROM batches WHERE version>? AND version<=? ORDER BY version LIMIT ?"
    rows = opened.execute(words, (after, last, last - after))
    return (Written(*it) for it in rows)


def last_of_feed(opened: sqlite3.Connection, mark: FeedMark) -> Optional[Tuple[int, Operations]]:
    """The batch that brought a followed feed to this place, with its version; `None` where the file has it no more."""
    words = "SELECT version, feed FROM batches WHERE feed IS NOT NULL AND operations>0 ORDER BY version DESC"
    for version, feed in opened.execute(words):
        found = FeedMark.read(feed)
        if (found.file, found.begin, found.place) == (mark.file, mark.begin, mark.place):
            return version, operations_of([next(rows_of(opened, version - 1, version)).records])
    return None


def some(rows: Iterator[Written]) -> List[Written]:
    """The first rows, which have so many bytes at most, or the first one."""
    found: List[Written] = []
    size = 0
    for it in rows:
        found.append(it)
        size += len(it.records)
        if size >= MOST_BYTES:
            break
    return found


def _take_base(opened: sqlite3.Connection, state: State, last: int) -> None:
    """Begins with the newest base that is as it was written, of those that aren't newer than this version."""
    words = "SELECT version FROM bases WHERE version<=? ORDER BY version DESC"
    versions: List[int] = [it for it, in opened.execute(words, (last,))]
    for version in versions:
        try:
            base, found = read_base(opened, version)
        except JournalFault:
            continue
        return state.begin(version, base, found)
    state.whole = 0
