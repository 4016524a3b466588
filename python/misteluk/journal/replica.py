"""What another process writes into a store's file, read beside it: what a replica begins with, and what is added later."""
from __future__ import annotations

import os
from base64 import b64decode, b64encode
from contextlib import closing, suppress
from typing import Any, Dict, List, Mapping, NamedTuple, Optional, Protocol, Tuple

from .bases import base_of
from .engine import AsOf, Journaled
from .journal import must_be_whole
from .lock import is_written
from .opening import make_engine
from .recovery import State, recover, rows_of, some
from .tables import Settings, Written, connect, faults_told, read_head, read_settings
from ..errors import JournalFault
from ..values.texts import Path

# How many batches are read at once at most.
MOST_BATCHES = 200


class Added(NamedTuple):
    """The batches behind a version, some of them; the last version that is there; and the settings."""

    rows: List[Written]
    newest: int
    settings: Settings


class First(Protocol):
    """What a replica is of. Each call raises a `StoreError` where that can't be read now."""

    name: str

    def begin(self, seats: int) -> "Tuple[State, Settings]":
        """What is there now, in an engine of its own."""

    def added(self, after: int) -> Added:
        """What came behind a version."""

    def close(self) -> None: ...


class FirstFile:
    """A store's file that another process writes. What is read of it is on the disk, whatever that process does about it: it is
    synced here before it is given."""

    def __init__(self, path: Path) -> None:
        self.name = os.fspath(path)
        self._place = os.path.realpath(path)
        # (it stays open: to close any descriptor of the database would drop SQLite's locks)
        self._file = os.open(self._place, os.O_RDONLY | os.O_CLOEXEC)
        if not is_written(self._place):
            must_be_whole(self._place)
        with faults_told():
            self._opened = connect(self._place)

    def _sync(self) -> None:
        """Has on the disk what is in the file and its -wal."""
        with suppress(FileNotFoundError):
            wal = os.open(f"{self._place}-wal", os.O_RDONLY | os.O_CLOEXEC)
            try:
                os.fsync(wal)
            finally:
                os.close(wal)
        os.fsync(self._file)

    def begin(self, seats: int) -> Tuple[State, Settings]:
        with faults_told():
            settings = read_settings(self._opened)
            engine = make_engine(settings.limits, None, seats, False)
            state = recover(self._opened, engine)
            self._sync()
        return state, settings

    def added(self, after: int) -> Added:
        with faults_told():
            self._opened.execute("BEGIN")
            try:
                newest = read_head(self._opened).version
                rows = some(rows_of(self._opened, after, min(newest, after + MOST_BATCHES)))
                settings = read_settings(self._opened)
            finally:
                self._opened.execute("ROLLBACK")
        if rows:
            self._sync()
        return Added(rows, newest, settings)

    def close(self) -> None:
        self._opened.close()


class Copy(AsOf):
    """An engine that has what another store has, as far as it was told of it, and takes nothing from anybody else."""

    told_why = "the store is another one's replica, and is only read"

    def take(self, added: Added) -> None:
        """Applies what was added. Raises `JournalFault` where it isn't what comes next: what came before it is in."""
        if added.newest < self.state.version:
            raise JournalFault(f"the first has version {added.newest} only, and had {self.state.version}: it is another one")
        self.state.replay(added.rows)
        if added.rows:
            self._look_at_kinds()
        self.settings = added.settings

    def lacks(self, added: Added) -> bool:
        """Whether the batch that comes next isn't among those that were added, though there are later ones."""
        following = self.state.version + 1
        return added.newest >= following and [it.version for it in added.rows[:1]] != [following]

    def become(self, state: State, settings: Settings) -> None:
        """Has what the first has now in place of what it had. Versions that are held answer on. Raises `JournalFault` where that
        isn't later."""
        if state.version <= self.state.version:
            state.engine.close()
            raise JournalFault(f"version {self.state.version + 1} is missing, and the first begins with {state.version}")
        state.engine.seats = self.inner.seats
        self.inner, self.state, self.settings = state.engine, state, settings
        self._look_at_kinds()

    def _look_at_kinds(self) -> None:
        with closing(self.state.engine.hold_apart()) as held:
            self.state.kinds = held.kinds()


# What a server tells of its store's file, and what is made of that.

def told_added(engine: Journaled, after: int) -> Dict[str, Any]:
    """What a store's file has behind a version that is on the disk, as JSON."""
    must_be_synced(engine)
    newest = engine.state.version
    rows = engine.some_rows(after, min(newest, after + MOST_BATCHES))
    return {"newest": newest, "settings": engine.settings._asdict(),
            "rows": [[*it[:3], it.records.decode("ascii"), *it[4:10], it.sum.hex()] for it in rows]}


def told_base(engine: Journaled) -> Dict[str, Any]:
    """What a replica begins with, as JSON: the newest base, where there is one."""
    must_be_synced(engine)
    found = engine.newest_base()
    told: Optional[Dict[str, Any]] = None
    if found is not None:
        (version, at, *counts, before, digest), columns = found
        told = {"version": version, "at": at, "counts": counts, "sum": before.hex(), "digest": digest.hex(),
                "columns": {name: b64encode(it).decode("ascii") for name, it in columns.items()}}
    return {"newest": engine.state.version, "settings": engine.settings._asdict(), "base": told}


def must_be_synced(engine: Journaled) -> None:
    """Raises `JournalFault` where what the file has may be lost."""
    if engine.sync != "full":
        raise JournalFault(f"the store's file is written with sync={engine.sync}: a replica could show what a loss of power "
                           "takes back")


def read_added(told: Mapping[str, Any]) -> Added:
    """What `told_added` told."""
    rows = [Written._make([version, at, operations, records.encode("ascii"), *more, bytes.fromhex(found)])
            for version, at, operations, records, *more, found in told["rows"]]
    return Added(rows, told["newest"], Settings(**told["settings"]))


def begun(told: Mapping[str, Any], seats: int) -> Tuple[State, Settings]:
    """What a replica begins with, of what `told_base` told. Raises `JournalFault` where the base isn't as it was written."""
    settings, base = Settings(**told["settings"]), told["base"]
    state = State(make_engine(settings.limits, None, seats, False))
    if base is not None:
        columns = {name: b64decode(it) for name, it in base["columns"].items()}
        row = base["at"], *base["counts"], bytes.fromhex(base["sum"]), bytes.fromhex(base["digest"])
        state.begin(base["version"], *base_of(base["version"], row, columns))
    return state, settings

