"""The file of a store that is written: one writer, who appends batches."""
from __future__ import annotations

import json
import os
import sqlite3
import threading
import time
from contextlib import suppress
from typing import Any, Callable, Dict, List, Mapping, NamedTuple, Optional, Sequence, Set, Tuple, TypeVar

from .lock import WritersLock
from .recovery import rows_of, some
from .tables import (OF_BATCH, SYNCS, Head, Settings, Statement, Written, connect, faults_told, make, read_head, read_settings)
from .wal import commits_lost
from ..values.texts import Path
from ..errors import JournalError, JournalFault, Locked, NotWritten
from ..files import keep_folder, place_of

T = TypeVar("T")
_INSERT = f"INSERT INTO batches({OF_BATCH}) VALUES (?, ?, ?, ?, ?, ?, ?, ?, ?, ?, ?)"
# (by its seal: where another writer came in between, the head is another one)
_ADVANCE = "UPDATE head SET version=?, epoch=?, sum=?, seal=? WHERE seal=?"
# A sync that failed, by SQLite's name; a Python before 3.11 has no names for one error of the disk and another.
_SYNCS_FAILED = "SQLITE_IOERR_FSYNC", "SQLITE_IOERR_DIR_FSYNC"
_DISK_FAILED = "disk I/O error"
# How many pages are given back to the disk by one step.
AT_ONCE = 1_000


class Entry(NamedTuple):
    """A batch that is to be written: its records and how many they are, the texts of ids that come with it, whether names and
    kinds without an edge are dropped before it, whose it is, by which number or key, who fed it, and of which feed it is."""

    records: bytes
    operations: int
    texts: Mapping[str, str]
    drops: bool = False
    producer: Optional[str] = None
    sequence: Optional[int] = None
    feeder: Optional[str] = None
    feed: Optional[str] = None


class Journal:
    """A store's file and its writer's lock. What a call wrote is on the disk when it returns, as `sync` has it.

    Raises `Locked` where another process writes the file, and `JournalFault` where it isn't as it was written. A call that raises
    `NotWritten` has written nothing. After one that raises `JournalFault` nothing more is written until the file is opened again.
    An interrupt may leave a call in doubt: the next one finds in the file whether it was made.
    """

    fault: Optional[JournalError] = None
    is_closed = False

    def __init__(self, path: Path, sync: str, settings: Settings) -> None:
        if sync not in SYNCS:
            raise ValueError(f"sync is 'full', 'normal' or 'off', and not {sync!r}")
        self.place, self.sync = place_of(path), sync
        self._alone, self._writers = threading.RLock(), WritersLock(self.place)
        self._is_in_doubt = False
        # The ids whose texts the file has, and when the last batch was written.
        self.written: Set[str] = set()
        self._at = 0
        try:
            must_be_whole(self.place)
            with faults_told():
                self.opened = connect(self.place, "rwc", sync)
        except BaseException:
            self._writers.close(False)
            raise
        try:
            with faults_told():
                self._begin(settings)
        except BaseException:
            self.close()
            raise

    def _begin(self, settings: Settings) -> None:
        """Makes the tables where there are none, and has an epoch of its own, by which the writes of an older writer fail."""
        make(self.opened, settings)
        keep_folder(os.path.dirname(self.place))
        self.settings, self.head = read_settings(self.opened), read_head(self.opened)
        if self.head.version < self._writers.noted:
            raise JournalFault(f"{self.place} had version {self._writers.noted}, and has {self.head.version} now: its -wal was "
                               "cut or removed, or another file is in its place. Without its -lock it is opened as it is")
        self.opened.execute("DELETE FROM columns WHERE version NOT IN (SELECT version FROM bases)")
        self.opened.execute("PRAGMA wal_checkpoint(TRUNCATE)")  # (so that nothing that a crash left lies behind what comes)
        self._write(self.head._replace(epoch=self.head.epoch + 1))
        self._files = self._seen_files()
        found = self.opened.execute("SELECT max(at) FROM (SELECT at FROM batches UNION ALL SELECT at FROM bases)").fetchone()[0]
        self._at = found or 0

    def _seen_files(self) -> List[Tuple[int, int]]:
        seen = (os.stat(it) for it in (self.place, f"{self.place}-wal"))
        return [(it.st_dev, it.st_ino) for it in seen]

    # What is there.

    def settle(self) -> Head:
        """The head, as the file has it."""
        with self._alone:
            if self._is_in_doubt:
                self._roll_back()
                with faults_told():
                    self.head = read_head(self.opened)
                self._is_in_doubt = False
            return self.head

    def behind(self, version: int) -> List[Written]:
        """The batches behind a version, as they are written."""
        return self.read(lambda opened: list(rows_of(opened, version, self.head.version)))

    def some_rows(self, after: int, last: int) -> List[Written]:
        """The batches behind a version, up to another one; those of some megabytes at most."""
        return self.read(lambda opened: some(rows_of(opened, after, last)))

    def read(self, call: Callable[[sqlite3.Connection], T]) -> T:
        """What is read in the file."""
        with self._alone, faults_told():
            return call(self.opened)

    def rows(self, words: str, *values: object) -> List[Any]:
        """What SQLite finds."""
        with self._alone, faults_told():
            return self.opened.execute(words, values).fetchall()

    def must_be_well(self) -> None:
        """Raises the fault that ended this writer, and `NotWritten` where the file isn't in its place any more."""
        if self.fault is not None:
            raise self.fault
        try:
            is_there = self._seen_files() == self._files
        except OSError:
            is_there = False
        if not is_there:
            raise NotWritten(f"{self.place} or its -wal isn't in its place any more, or another file is there: nothing is "
                             "written, and the store is as it was")

    # What is written.

    def append(self, entries: Sequence[Entry], settings: Settings) -> List[Written]:
        """Writes batches as the next versions, all at once, with the settings where they changed."""
        with self._alone:
            self.must_be_well()
            head = self.settle()
            rows: List[Written] = []
            new: Dict[str, str] = {}
            self._at = max(self._at, time.time_ns() // 1_000)
            for entry in entries:
                texts = {it: text for it, text in entry.texts.items() if it not in self.written and it not in new}
                new.update(texts)
                row = Written(head.version + len(rows) + 1, self._at, entry.operations, entry.records,
                              json.dumps(texts) if texts else None, int(entry.drops), *entry[4:])
                rows.append(row.summed(rows[-1].sum if rows else head.sum))
            changed = settings.written() if settings != self.settings else []
            self._write(Head(rows[-1].version, head.epoch, rows[-1].sum), *((_INSERT, it) for it in rows), *changed)
            self._writers.note(rows[-1].version)
            self.settings = settings
            self.written.update(new)
            return rows

    def change(self, settings: Settings) -> None:
        """Writes other settings."""
        with self._alone:
            if settings != self.settings:
                self._write(self.settle(), *settings.written())
                self.settings = settings

    def checkpoint(self) -> None:
        """Has all that is written in the database, and the -wal empty, if that can be: who opens the file after a crash looks at
        all of it."""
        with self._alone, suppress(sqlite3.Error):
            self.opened.execute("PRAGMA wal_checkpoint(TRUNCATE)").fetchall()

    def shrink(self) -> bool:
        """Gives some of the pages that nothing uses back to the disk, and tells whether there are more. (Where that fails, which
        SQLite doesn't always say, they are used for what comes.)"""
        with self._alone, suppress(sqlite3.Error):
            before = self._free()
            self.opened.execute(f"PRAGMA incremental_vacuum({AT_ONCE})").fetchall()
            return 0 < self._free() < before
        return False

    def _free(self) -> int:
        """How many pages nothing uses."""
        found: int = self.opened.execute("PRAGMA freelist_count").fetchone()[0]
        return found

    @property
    def size(self) -> int:
        """How many bytes the file has, with its -wal."""
        found = 0
        for it in (self.place, f"{self.place}-wal"):
            with suppress(OSError):
                found += os.stat(it).st_size
        return found

    def run(self, *statements: Statement) -> None:
        """Runs statements that leave the head as it is, all at once."""
        with self._alone:  # (the head that is written back is the one that is there)
            self.must_be_well()
            self._write(self.settle(), *statements)

    def _write(self, head: Head, *statements: Statement) -> None:
        """Runs statements and puts this head in the place of the one before, all at once. The caller has the lock."""
        self._is_in_doubt = True
        try:
            self.opened.execute("BEGIN IMMEDIATE")
            if self.opened.execute(_ADVANCE, (*head, head.seal, self.head.seal)).rowcount != 1:
                raise self._ended(Locked(f"another process became the writer of {self.place}"))
            for words, values in statements:
                self.opened.execute(words, values)
            self.opened.execute("COMMIT")
        except sqlite3.Error as fault:
            raise self._failed(fault) from fault
        self.head = head
        self._is_in_doubt = False

    # What fails.

    def _failed(self, fault: sqlite3.Error) -> JournalError:
        """What a fault of SQLite means: nothing was written, or whether it was isn't known, and then this writer ends."""
        self._roll_back()
        name, text = getattr(fault, "sqlite_errorname", None), str(fault)
        if name in _SYNCS_FAILED or name is None and _DISK_FAILED in text:
            return self._ended(JournalFault(f"{self.place}: a sync failed, so whether the batch is on the disk isn't known "
                                            f"({text}). Open the store again, and ask it or repeat the batch by its sequence"))
        if isinstance(fault, sqlite3.OperationalError):
            self._is_in_doubt = False
            return NotWritten(f"{self.place}: {text}. Nothing is written, and the store is as it was")
        return self._ended(JournalFault(f"{self.place} isn't as it was written: SQLite: {text}"))

    def _roll_back(self) -> None:
        if self.opened.in_transaction:
            with suppress(sqlite3.Error):
                self.opened.execute("ROLLBACK")

    def end(self, why: str) -> JournalError:
        """Ends this writer: nothing more is written until the file is opened again."""
        return self._ended(JournalFault(f"{self.place}: {why}. Open the store again"))

    def _ended(self, fault: JournalError) -> JournalError:
        self.fault = fault
        return fault

    def close(self) -> None:
        """Ends the writer, and gives the lock back. (SQLite puts what the -wal has into the database, and removes it, if it
        can.)"""
        self.is_closed = True
        with self._alone, suppress(sqlite3.Error):
            self.opened.close()
        self._writers.close(not os.path.exists(f"{self.place}-wal"))


def must_be_whole(place: str) -> None:
    """Raises `JournalFault` where the -wal was damaged."""
    lost = commits_lost(place)
    if lost:
        which = "no commit" if lost < 0 else f"not the last {lost} commits"
        raise JournalFault(f"{place}-wal is damaged, and {which} of it can be had. Nothing is changed. Copy both files; then "
                           f"`sqlite3 {place} 'PRAGMA wal_checkpoint(TRUNCATE)'` takes what is whole, and without its -lock that "
                           "is opened")
