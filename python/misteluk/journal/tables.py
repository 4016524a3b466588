"""The tables of a store's file, their sums, and how SQLite is opened for them."""
from __future__ import annotations

import hashlib
import json
import os
import sqlite3
from contextlib import contextmanager
from typing import Any, Dict, Iterator, List, NamedTuple, Optional, Tuple, get_args
from urllib.parse import quote

from ..values.texts import Path
from ..errors import JournalFault
from ..options import Sync
from ..values.limits import Limits
from ..values.units import Times, Units

# The number of this form: of another one this package knows nothing; and what SQLite has as the file's application.
FORM, APPLICATION = 2, int.from_bytes(b"mstl", "big")
# What a sum before the first batch is.
NO_SUM = bytes(16)
# How many bytes of the -wal stay behind a checkpoint, and how many pages make one.
WAL_BYTES, WAL_PAGES = 16 << 20, 1_000
# For how many seconds another program's lock is waited for.
PATIENCE = 30.0
SYNCS = get_args(Sync)
SCHEMA = """
CREATE TABLE meta(name TEXT PRIMARY KEY, value NOT NULL) WITHOUT ROWID;
CREATE TABLE head(id INTEGER PRIMARY KEY CHECK (id = 0), version INT NOT NULL, epoch INT NOT NULL, sum BLOB NOT NULL,
    seal BLOB NOT NULL);
CREATE TABLE batches(version INTEGER PRIMARY KEY, at INT NOT NULL, operations INT NOT NULL, records BLOB NOT NULL, texts TEXT,
    drops INT NOT NULL, producer TEXT, sequence INT, feeder TEXT, feed TEXT, sum BLOB NOT NULL);
CREATE TABLE bases(version INTEGER PRIMARY KEY, at INT NOT NULL, vertices INT NOT NULL, kinds INT NOT NULL, edges INT NOT NULL,
    sum BLOB NOT NULL, digest BLOB NOT NULL);
CREATE TABLE columns(id INTEGER PRIMARY KEY, version INT NOT NULL, name TEXT NOT NULL, part INT NOT NULL, data BLOB NOT NULL);
CREATE UNIQUE INDEX columns_of ON columns(version, name, part);
"""
OF_BATCH = "version, at, operations, records, texts, drops, producer, sequence, feeder, feed, sum"

# What SQLite is to do, and with which values.
Statement = Tuple[str, Tuple[Any, ...]]


class Written(NamedTuple):
    """A row of `batches`: the version that the batch made and when it was written, in microseconds since 1970; how many
    operations it has, and their records; as JSON the texts of ids that came with it; whether names and kinds without an edge were
    dropped before it; whose it was, by which number, or by a key alone; who fed it; of which followed feed it was, and to which
    place (`feeds.steps.FeedMark`); and its sum."""

    version: int
    at: int
    operations: int
    records: bytes
    texts: Optional[str]
    drops: int
    producer: Optional[str]
    sequence: Optional[int]
    feeder: Optional[str]
    feed: Optional[str]
    sum: bytes = b""

    def summed(self, before: bytes) -> "Written":
        """The row with its sum, behind the batch of that sum. Raises `JournalFault` where the records are no bytes."""
        if not isinstance(self.records, bytes):
            raise JournalFault(f"the records of version {self.version} are no bytes")
        marks = [it for name, it in zip(self._fields, self) if name not in ("records", "sum")]
        return self._replace(sum=digest(before, json.dumps(marks).encode("ascii"), self.records))


class Head(NamedTuple):
    """The row of `head`: the last version, the number of the opening that wrote it, and the sum of the last batch."""

    version: int
    epoch: int
    sum: bytes

    @property
    def seal(self) -> bytes:
        return digest(json.dumps(self[:2]).encode("ascii"), self.sum)


class Settings(NamedTuple):
    """What holds for the whole file: units, `None` as long as nothing says them, the greatest weight, and the last limits."""

    weight_scale: Optional[int] = None
    times: Optional[Times] = None
    weight: Optional[int] = None
    vertices: Optional[int] = None
    kinds: Optional[int] = None
    batches: Optional[int] = None

    @property
    def limits(self) -> Limits:
        return Limits(self.vertices, self.kinds, self.batches, self.weight)

    def with_limits(self, limits: Limits) -> "Settings":
        return self._replace(vertices=limits.vertices, kinds=limits.kinds, batches=limits.batches, weight=limits.weight)

    def with_units(self, units: Units[Any, Any]) -> "Settings":
        return self._replace(weight_scale=units.scale, times=units._settled().times)

    def written(self) -> List[Statement]:
        """What writes them, with their digest."""
        text = json.dumps(self._asdict())
        rows = ("settings", text), ("settings_digest", digest(text.encode("ascii")))
        return [("INSERT OR REPLACE INTO meta VALUES (?, ?)", it) for it in rows]


def digest(*parts: bytes) -> bytes:
    """A digest of 16 bytes (BLAKE2b), to which the borders of the parts count too."""
    found = hashlib.blake2b(digest_size=16)
    for it in parts:
        found.update(len(it).to_bytes(8, "little"))
        found.update(it)
    return found.digest()


@contextmanager
def faults_told() -> Iterator[None]:
    """What SQLite raises for a file that it can't open or read is told as `JournalFault`."""
    try:
        yield
    except sqlite3.DatabaseError as fault:
        raise JournalFault(f"SQLite: {fault}") from fault


def place_of(path: Path) -> str:
    """Where a file stands that is there, behind links. Raises `OSError` where it isn't there, or can't be read."""
    place = os.path.realpath(path)
    with open(place, "rb"):
        return place


def connect(path: Path, mode: str = "ro", sync: str = "full") -> sqlite3.Connection:
    """The database at a path, to be read ("ro"), or to be written ("rw") and made too ("rwc")."""
    name = f"file:{quote(os.fspath(path))}?mode={mode}"
    opened = sqlite3.connect(name, uri=True, isolation_level=None, check_same_thread=False, timeout=PATIENCE)
    try:
        must_be_ours(opened, path)
        if mode != "ro":
            opened.execute("PRAGMA auto_vacuum=INCREMENTAL")
            opened.execute("PRAGMA journal_mode=WAL")
            opened.execute(f"PRAGMA synchronous={sync}")
            opened.execute(f"PRAGMA wal_autocheckpoint={WAL_PAGES}")
            opened.execute(f"PRAGMA journal_size_limit={WAL_BYTES}")
            opened.execute("PRAGMA secure_delete=ON")  # (what is let go isn't in the file any more)
        return opened
    except BaseException:
        opened.close()
        raise


def must_be_ours(opened: sqlite3.Connection, path: Path) -> None:
    """Raises `JournalFault` where something is there that is no store's file: it stays as it is."""
    try:
        is_made = opened.execute("SELECT 1 FROM sqlite_master").fetchone()
    except sqlite3.DatabaseError as fault:
        if str(fault) != "file is not a database":
            raise
        raise JournalFault(f"{os.fspath(path)} is no store's file, or is damaged at its beginning. Rows are loaded by "
                           "Store.load, and what Session.save wrote is restored by Store.restore") from fault
    if is_made and opened.execute("PRAGMA application_id").fetchone() != (APPLICATION,):
        raise JournalFault(f"{os.fspath(path)} is another program's database, and no store's file")


def make(opened: sqlite3.Connection, settings: Settings) -> None:
    """Makes the tables where there are none, all at once."""
    opened.execute("BEGIN IMMEDIATE")
    if not opened.execute("SELECT 1 FROM sqlite_master").fetchone():
        for it in SCHEMA.strip().split(";\n"):
            opened.execute(it)
        opened.execute(f"PRAGMA application_id={APPLICATION}")
        opened.execute("INSERT INTO meta VALUES ('form', ?)", (FORM,))
        for words, values in settings.written():
            opened.execute(words, values)
        head = Head(0, 0, NO_SUM)
        opened.execute("INSERT INTO head VALUES (0, ?, ?, ?, ?)", (*head, head.seal))
    opened.execute("COMMIT")


def read_settings(opened: sqlite3.Connection) -> Settings:
    """The settings. Raises `JournalFault` where the file is none of this form, or they aren't as they were written."""
    found: Dict[str, Any] = dict(opened.execute("SELECT name, value FROM meta").fetchall())
    if found.get("form") != FORM:
        raise JournalFault(f"the file is of form {found.get('form')}, and this package knows form {FORM}")
    text = found.get("settings")
    if not isinstance(text, str) or digest(text.encode("utf-8")) != found.get("settings_digest"):
        raise JournalFault("the settings aren't as they were written")
    return Settings(**json.loads(text))


def read_head(opened: sqlite3.Connection) -> Head:
    """The head. Raises `JournalFault` where it isn't as it was written."""
    row = opened.execute("SELECT version, epoch, sum, seal FROM head").fetchone()
    if row is None or list(map(type, row)) != [int, int, bytes, bytes] or Head(*row[:3]).seal != row[3]:
        raise JournalFault("the head isn't as it was written")
    return Head(*row[:3])
