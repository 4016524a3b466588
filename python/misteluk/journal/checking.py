"""What of a store's file isn't as it was written, also where no recovery looks: to be asked now and then, beside the writer
too."""
from __future__ import annotations

import sqlite3
from contextlib import closing
from typing import Callable, Dict, Iterator, List, NamedTuple

from .bases import Base, read_base
from .journal import must_be_whole
from .lock import is_written
from .opening import make_engine
from .recovery import State, must_end, oldest_kept
from .tables import connect, faults_told, place_of, read_head, read_settings
from ..values.texts import Path
from ..errors import JournalFault


class Checked(NamedTuple):
    """What a check read: from which version to which, how many batches and bases; and the faults that it found."""

    oldest: int
    newest: int
    batches: int
    bases: int
    faults: List[str]


def check(path: Path) -> Checked:
    """Reads a store's file from its oldest version on: the pages as SQLite checks them, each batch's sum, each base's digest; and
    replays the batches, whose graph has to be that of each base that they lead to. Raises `OSError` where there is no file, and
    `JournalFault` where it is no store's, or so damaged that nothing can be read."""
    place = place_of(path)
    faults: List[str] = []
    if not is_written(place):
        faults += _told(lambda: must_be_whole(place))
    with faults_told(), closing(connect(place)) as opened:
        faults += [f"SQLite: {it}" for it, in opened.execute("PRAGMA integrity_check") if it != "ok"]
        opened.execute("BEGIN")
        head, oldest = read_head(opened), oldest_kept(opened)
        versions: List[int] = [it for it, in opened.execute("SELECT version FROM bases ORDER BY version")]
        bases = {it: found for it in versions for found in _base(opened, it, faults)}
        state = State(make_engine(read_settings(opened).limits, None, 1, False))
        try:
            faults += _told(lambda: _replay(opened, state, bases, oldest, head.version))
            faults += _told(lambda: must_end(opened, head, state))
        finally:
            state.engine.close()
    return Checked(oldest, head.version, state.batches, len(versions), faults)


def _told(call: Callable[[], object]) -> List[str]:
    """The fault that a call raises."""
    try:
        call()
        return []
    except (JournalFault, sqlite3.DatabaseError, ValueError, TypeError, KeyError) as fault:
        return [str(fault)]


def _base(opened: sqlite3.Connection, version: int, faults: List[str]) -> Iterator[Base]:
    try:
        yield read_base(opened, version)[0]
    except JournalFault as fault:
        faults.append(str(fault))


def _replay(opened: sqlite3.Connection, state: State, bases: Dict[int, Base], oldest: int, last: int) -> None:
    """Replays the batches behind the oldest version. Raises `JournalFault` for the first one that isn't as it was written, and
    for a base that isn't the graph that they lead to."""
    if oldest:
        if oldest not in bases:
            raise JournalFault(f"the oldest base, of version {oldest}, can't be read, and nothing leads to the batches behind it")
        state.begin(oldest, *read_base(opened, oldest))
    for until in sorted({*(it for it in bases if oldest < it <= last), last}):
        state.replay_behind(opened, until)
        if state.version in bases and not _is_same(state, bases[state.version]):
            raise JournalFault(f"the base of version {state.version} isn't the graph that the batches before it lead to")
    if state.version != last:
        raise JournalFault(f"the versions from {state.version + 1} on are missing, and {last} is the last one")


def _is_same(state: State, base: Base) -> bool:
    """Whether a state is what a base has. The order of edges may be another one."""
    held = state.engine.hold_apart()
    try:
        found = Base.of(held, state.texts, state.sources)
        edges = sorted(zip(*found.edges)) == sorted(zip(*base.edges))
        return edges and found._replace(edges=base.edges) == base
    finally:
        held.close()
