"""Opening a store's file: to go on with it, or as of a version or a time."""
from __future__ import annotations

import sqlite3
from contextlib import closing
from datetime import date
from typing import TYPE_CHECKING, Any, List, Optional, Tuple, Union

from .compaction import History, checked
from .engine import AsOf, Journaled
from .journal import Journal, must_be_whole
from .lock import is_written
from .recovery import oldest_kept, recover
from .tables import Settings, connect, faults_told, place_of, read_settings
from ..values.texts import Path
from ..engine.waiting import WaitingEngine
from ..errors import OverLimit
from ..values.limits import Limits
from ..values.units import Units

if TYPE_CHECKING:
    from ..ledger import Ledger

# A time in microseconds since 1970, or a date.
When = Union[int, str, date]


def open_journal(path: Path, *, sync: str, blocks: Optional[int], seats: int, endless: bool, limits: Optional[Limits],
                 units: Units[Any, Any], history: History = None) -> Journaled:
    """Makes a store's file, or opens the one that is there and recovers what it holds. What isn't said is as it was at last.

    Raises `OSError` where there can be no such file, `Locked` where another process writes it, `JournalFault` where it isn't as
    it was written, `ValueError` where it has other units or another limit of weights, and `OverLimit` where it has more than the
    limits take."""
    said = Settings(units.weight_scale, units.times).with_limits(limits or Limits())
    journal = Journal(path, sync, said)
    engine: Optional[WaitingEngine] = None
    try:
        settings = _agreed(journal, said, limits)
        engine = make_engine(settings.limits, blocks, seats, endless)
        state = recover(journal.opened, engine)
        _settle_engine(engine, settings.limits, blocks, endless)
        state.kinds, vertices = _names_of(engine)
        _must_be_within(settings.limits, vertices, len(state.kinds))
        journal.change(settings)
        journal.written.update(state.texts)
        return Journaled(journal, state, checked(history))
    except BaseException:
        journal.close()
        if engine is not None:
            engine.close()
        raise


def make_engine(limits: Limits, blocks: Optional[int], seats: int, endless: bool) -> WaitingEngine:
    """An empty engine that takes all that a file has, however many blocks and names that needs."""
    engine = WaitingEngine(blocks, seats, endless, limits._checked())
    engine.grows, engine.endless = True, False
    engine.limits = Limits(batches=limits.batches, weight=limits.weight)
    return engine


def _settle_engine(engine: WaitingEngine, limits: Limits, blocks: Optional[int], endless: bool) -> None:
    engine.grows, engine.endless, engine.limits = blocks is None, endless, limits


def _names_of(engine: WaitingEngine) -> Tuple[List[str], int]:
    """The kinds that an engine has, and how many vertices."""
    with closing(engine.hold(None)) as held:
        return held.kinds(), held.count


def _must_be_within(limits: Limits, vertices: int, kinds: int) -> None:
    over = limits._over(vertices, kinds)
    if over:
        raise OverLimit(f"the file has {'; '.join(over)}: open it with larger limits", {"vertices": vertices, "kinds": kinds})


def _agreed(journal: Journal, said: Settings, limits: Optional[Limits]) -> Settings:
    """The file's settings with what is said now."""
    found = journal.settings
    for name in ("weight_scale", "times"):
        old, new = getattr(found, name), getattr(said, name)
        if None not in (old, new) and old != new:
            raise ValueError(f"{journal.place} has {name}={old!r}, and {new!r} is said")
    if limits is not None and found.weight != limits.weight:
        raise ValueError(f"{journal.place} has weights to {found.weight}, and Limits(weight={limits.weight}) is said: what a "
                         "replay overflows must be what overflowed")
    units = {it: getattr(said, it) for it in ("weight_scale", "times") if getattr(said, it) is not None}
    return (found if limits is None else found.with_limits(limits))._replace(**units)


def units_of(settings: Settings, units: Units[Any, Any]) -> Units[Any, Any]:
    """The units of a file, and as these say how a store shows and takes weights."""
    return Units(settings.weight_scale, settings.times, units.decimals, units.rounding)


def take_over(engine: Union[Journaled, AsOf], ledger: "Ledger") -> None:
    """Gives a store's ledger what the file has beside the graph: the texts of ids, and the kinds."""
    terms = ledger.terms
    terms.names.put(engine.state.texts)
    ledger.kinds.update(dict.fromkeys(map(terms.names.to_user, engine.state.kinds)))
    if isinstance(engine, Journaled):
        engine.attach(terms)


# As of a version.

def open_at(path: Path, version: Optional[int], time: Optional[When], seats: int) -> AsOf:
    """What a file held as of a version, or of a time: the last version that was written by then. Raises `ValueError` where the
    file has no such version, `OSError` where there is no file, and `JournalFault` where it isn't as it was written."""
    if (version is None) == (time is None):
        raise ValueError("a store is as of a version or of a time: one of the two is said")
    place = place_of(path)
    if not is_written(place):  # (whose writer looked at the -wal when it began)
        must_be_whole(place)
    with faults_told(), closing(connect(place)) as opened:
        settings = read_settings(opened)
        engine = make_engine(settings.limits, None, seats, False)
        try:
            state = recover(opened, engine, _version_at(opened, time) if version is None else version)
            state.kinds, _ = _names_of(engine)
        except BaseException:
            engine.close()
            raise
        engine.limits = settings.limits
        return AsOf(state, settings)


def _version_at(opened: sqlite3.Connection, time: Optional[When]) -> int:
    """The last version that was written by a time."""
    until = time if isinstance(time, int) else int(Units(1, "iso")._time_to_program(str(time), is_end=True))
    words = "SELECT max(version) FROM (SELECT version, at FROM batches UNION ALL SELECT version, at FROM bases) WHERE at<=?"
    found: Optional[int] = opened.execute(words, (until,)).fetchone()[0]
    return oldest_kept(opened) if found is None else found
