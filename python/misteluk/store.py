"""A store, and sessions that hold its versions."""
from __future__ import annotations

import sys
import warnings
from contextlib import suppress
from itertools import chain
from types import TracebackType
from typing import (TYPE_CHECKING, Any, Callable, Dict, Generic, Iterator, List, Optional, Sequence, Tuple, Type, TypeVar,
                    overload)

from .engine.guard import Uncopied, noting
from .engine.operations import ADD, EXPIRE, INSERT, REMOVE
from .engine.protocol import Denied, Engine
from .errors import NoSeat, PoolEmpty, Refused, StoreError, Uncommitted
from .feeds.opening import reads
from .hints import Opened
from .ledger import Ledger
from .options import By, ReadOptions, RestoreOptions, StoreOptions, Sync, _named
from .session import Session
from .values import records
from .values.answers import Collected, Commit, Compacted, Stat, T, W, shown_as_html
from .values.limits import Limits, within
from .values.texts import Path
from .values.units import Amount, Moment, Units, units_given

if TYPE_CHECKING:
    from typing_extensions import Unpack

    from .feeds.following import Following
    from .feeds.loading import Loaded
    from .feeds.spans import Span
    from .feeds.surveys import Survey
    from .feeds.touched import Touched
    from .journal.compaction import History
    from .journal.engine import AsOf, Journaled
    from .journal.file import StoreFile
    from .journal.opening import When

R = TypeVar("R")


class Store(Uncopied, Opened, Generic[W, T]):
    """A graph that changes by batches, and whose versions sessions hold.

    >>> from misteluk import *
    >>> store = Store()
    >>> for road in (("road", "kassel", "fulda", 105, 1), ("road", "fulda", "hanau", 98, 2),
    ...              ("road", "hanau", "bonn", 180, 3), ("rail", "kassel", "hanau", 210, 4)):
    ...     store.insert(*road)
    >>> store.commit().inserted
    4
    >>> session = store.open()

    The examples of its methods go on from here. An operation (`insert`, `add`, `remove`, `expire`) is checked at once and is then
    pending; `commit` applies what is pending. If a commit is refused, its operations stay pending. `with Store() as store` closes
    the store at the end.

    The graph ends with the store, which is in this process (`LibraryNotFound`: its library can't be loaded). `Store("graph.db")`
    has a file: it makes the file or goes on with what the file has, units and limits included, and writes each batch before
    anybody sees it (docs/PYTHON.md).

    - `units`: what weights and times are counted in (`Units`); the first load may set them if no operation came before it.
    - `blocks`: how many blocks there are, 16 or more. A block takes 1 KB once it is used, and has room for 32 edges of one kind
      and source. Without it there are 65,536, and more when they are needed.
    - `limits`: how many vertices, kinds and batches there may be, and the greatest weight (`Limits`).
    - `seats`: how many sessions may be open at once, 1 to 16 (2 if it isn't given).
    - `endless`: whether names and kinds without an edge are dropped when there would be too many (see `compact`).
    - `sync`: "full" has each batch on the disk before `commit` returns; with "normal" or "off" a loss of power may cost some.
    - `history`: how many versions the file keeps, or of how long ago (a `timedelta`).

    Any text but the empty one is a name; `*` is no kind. Several threads may use a store. A forked process can't, and a store
    can't be copied. An interrupt is raised after a call of the library, so the next call knows what was applied."""

    _is_closed = True

    @overload
    def __init__(self, path: Optional[Path] = None, *, units: Units[W, T], **options: Unpack[StoreOptions]) -> None: ...

    @overload
    def __init__(self: Store[Any, Any], path: Optional[Path] = None, *, units: None = None,
                 **options: Unpack[StoreOptions]) -> None: ...

    @_named
    def __init__(self, path: Optional[Path] = None, *, units: Optional[Units[Any, Any]] = None, blocks: Optional[int] = None,
                 limits: Optional[Limits] = None, seats: int = records.USUAL_SEATS, endless: bool = False,
                 sync: Sync = "full", history: History = None) -> None:
        given = units_given(units)
        if path is None:
            from .engine.library import LibraryEngine
            self._begin(LibraryEngine(blocks, seats, endless, limits or Limits()), given, given._are_given)
        else:
            from .journal.opening import open_journal
            self._begin_with(open_journal(path, sync=sync, blocks=blocks, seats=seats, endless=endless, limits=limits,
                                          units=given, history=history), given)

    def _begin_with(self, engine: Journaled | AsOf, units: Units[Any, Any]) -> None:
        """Begins with what a file has."""
        from .journal.opening import take_over, units_of
        self._begin(engine, units_of(engine.settings, units), engine.settings.times is not None)
        take_over(engine, self._ledger)

    def _begin(self, engine: Engine, units: Units[Any, Any], units_are_set: bool) -> None:
        """Begins with an engine's empty store, or with that of a server."""
        self._engine, self.seats = engine, engine.seats
        self._ledger = Ledger(engine, units, units_are_set)
        self._compacting: Optional[Session[Any, Any]] = None
        self._is_closed = False

    # Operations.

    def insert(self, kind: str, source: str, target: str, weight: Amount = 1, time: Moment = 0) -> None:
        """Adds an edge, or sets the weight of the edge that is there.

        `weight` and `time` are in the store's units; `time` becomes the edge's recent time. Raises `BadName`, `BadWeight` or
        `BadTime`, and keeps nothing then.

        >>> store.insert("road", "bonn", "kassel", 230, time=5)
        >>> store.commit().inserted
        1
        """
        self._ledger.keep(INSERT, kind, source, target, weight, time)

    def add(self, kind: str, source: str, target: str, weight: Amount = 1, time: Moment = 0) -> None:
        """Adds to the weight of the edge that is there, or adds the edge, as for repeated transfers. Errors are as of `insert`.

        >>> store.add("rail", "kassel", "hanau", 40, time=5)
        >>> store.commit().updated
        1
        """
        self._ledger.keep(ADD, kind, source, target, weight, time)

    def remove(self, kind: str, source: str, target: str) -> None:
        """Removes an edge. If there is none, `commit` counts the operation as `absent`.

        >>> store.remove("rail", "kassel", "hanau")
        >>> store.commit().removed
        1
        """
        self._ledger.keep(REMOVE, kind, source, target, 0, 0)

    def expire(self, time: Moment) -> None:
        """Removes each edge whose recent time is before `time`, in the store's units; `commit` counts them as `expired`.

        Its batch needs as many free blocks more as are used.

        >>> store.expire(3)
        >>> store.commit().expired
        2
        """
        self._ledger.keep(EXPIRE, "", "", "", 0, time)

    @property
    def blocks(self) -> int:
        """The number of blocks. It grows when the store needs more, unless `Store(blocks=)` set it.

        >>> store.blocks
        65536
        """
        return self._engine.blocks

    @property
    def pending(self) -> int:
        """The number of operations that wait for a commit.

        >>> store.expire(3)
        >>> store.pending
        1
        """
        return len(self._ledger.pending)

    def kinds(self) -> List[str]:
        """Returns the kinds that operations and feeds have named, in order, also before a commit.

        >>> store.kinds()
        ['road', 'rail']
        """
        self._ledger.settle()
        return list(self._ledger.kinds)

    @property
    def units(self) -> Units[W, T]:
        """What weights and times are counted in.

        >>> store.units
        Units(weight_scale=1, times='number', decimals='decimal', rounding=None)
        """
        self._ledger.settle()
        return self._ledger.terms.units._settled()

    def discard(self) -> int:
        """Drops the pending operations and returns how many there were. Those of a batch that was sent stay.

        >>> store.expire(3)
        >>> store.discard()
        1
        """
        return self._ledger.discard()

    def commit(self, *, collect: bool = True, batch: int = records.MOST_OPERATIONS, producer: Optional[str] = None,
               sequence: Optional[int] = None) -> Commit:
        """Applies the pending operations, and returns what they did.

        They go in batches of at most `batch` operations, 1 to 4,096. If none is pending, one empty batch makes a version. A
        collection follows each batch, unless `collect=False`. A refused batch changes nothing, and stays pending with those after
        it; the error (`PoolEmpty`, `NamesFull`, `KindsFull`, `BatchLimit`) has as `applied` what the batches before it did. If an
        interrupt ends a commit, the batch that was begun is applied once, and those after it stay pending; the next commit counts
        it too.

        With `producer`, a name, and `sequence`, a number that grows, a store with a file applies what is pending, at most 65,536
        operations, as one batch and once: the same commit again returns the first one's answer, also after a restart.

        >>> store.remove("rail", "kassel", "bonn")
        >>> store.commit()
        Commit(version=2, inserted=0, updated=0, removed=0, absent=1, overflowed=0, batches=1, expired=0)
        """
        try:
            if producer is None and sequence is None:
                done = self._ledger.commit(collect, within("batch", batch, 1, records.MOST_OPERATIONS))
            else:
                done = self._ledger.post(collect, self.file._post(producer, sequence))
        except Refused:
            told = noting(self._ledger.taken.append, self._ledger.telling)
            None in told
            raise
        told = noting(self._ledger.taken.append, self._ledger.telling)
        None in told
        return done

    @reads
    def load(self, data: Any, *, by: By, batch: Optional[int] = None, collect: bool = True, skip_bad: bool = False,
             rejects: Optional[Path] = None, progress: Optional[bool] = None, **read_as: Unpack[ReadOptions]) -> Loaded:
        """Loads a file, graph, sparse matrix, DataFrame, Arrow table, columns by name, rows, or a `Survey`, and commits it.

        >>> store.load([("bonn", "kassel", 230, 5, "road")], by="set").commit.inserted
        1

        A file is its path (`-` is standard input), a graph one of networkx, igraph or graph-tool, a matrix one of scipy, an Arrow
        table what has `__arrow_c_stream__`, such as a polars frame or `Edges`. A row is a dict, or a tuple of source, target and
        then, if there are more, weight, time and kind. `columns` says which columns have kinds, weights and times. A later row of
        the same edge replaces the weight with `by="set"`, and adds to it with `by="add"`.

        Rows are applied in batches of `batch`, 1 to 4,096, each of which makes a version; a collection follows each, unless
        `collect=False`. Without `batch` they have up to 65,536 rows, if blocks are free; an empty store takes all at once.

        Everything is read and checked first. Nothing is applied if rows are bad (`BadRows` has line, field and reason; `skip_bad`
        skips and counts them), if the feed is more than the store takes (`OverLimit`, with counts), or if its units aren't the
        store's (`ValueError`). If a store that holds edges or sessions refuses a batch, `PoolEmpty` or another error says which
        lines are not in, and all lines before them are. A feed that is loaded again adds its rows again.

        `rejects`: a file to which bad rows are appended as they came, with two more columns, `line` and `reason`; the others are
        loaded. Mended rows are loaded from it with the same options. `progress` shows or hides a bar; without it only a terminal
        has one."""
        from .feeds.loading import load
        return load(self, data, by=by, batch=batch, collect=collect, skip_bad=skip_bad, rejects=rejects, progress=progress,
                    **read_as)

    def load_in_steps(self, survey: Survey, *, collect: bool = True, skip_bad: bool = False) -> Iterator[Commit]:
        """Loads a survey by its own batches: an iterator of what each did, which applies the next one only when it goes on.

        Sessions can be opened in between. Options and errors are those of `load`.

        >>> found = survey([("bonn", "kassel", 230), ("kassel", "bonn", 230)], by="set", batch=1)
        >>> [done.version for done in store.load_in_steps(found)]
        [2, 3]
        """
        from .feeds.loading import load_in_steps
        return load_in_steps(self, survey, collect=collect, skip_bad=skip_bad)

    @reads
    def follow(self, feed: Any, *, by: By, every: Span = 1.0, keep: Optional[Span] = None,
               ahead: Optional[Span] = None, batch: int = records.MOST_OPERATIONS, until_end: bool = False,
               skip_bad: bool = False, rejects: Optional[Path] = None, progress: Optional[bool] = None,
               on: Optional[Callable[[Touched], object]] = None, **read_as: Unpack[ReadOptions]) -> Following:
        """Follows a file that grows, standard input (`-`), or an open pipe or socket: each step of the result is a commit.

        >>> session.edges().to_csv("roads.csv")
        4
        >>> columns = Columns(kind="kind", weight="weight", time="recent")
        >>> with store.follow("roads.csv", by="set", columns=columns, until_end=True) as following:
        ...     print(*following)
        version 2: 4 rows to line 5, 4 updated; newest 4

        `by` is "set" or "add", as of `load`. A commit comes when a row has waited for `every` (seconds, or a text as "500ms"), or
        when its batch has `batch` operations, 1 to 4,096. With `keep`, each commit expires the edges whose recent time is before
        the newest of the feed minus `keep`: a length of time, as "14d", if times are dates, and else a whole number. A date more
        than `ahead`, as "1h", ahead of the clock here is a bad row; with `keep` that is "1d" if it isn't given.

        A file is followed beyond its end, unless `until_end`; a pipe ends when its writers do, and `Following.stop` ends the
        steps with everything in that was read. A bad row ends them by `BadRows` when all before it is in, unless `skip_bad` or
        `rejects` (see `load`); a file that is cut short or rewritten ends them by `FeedFault`. If a commit is refused or not
        answered, the error says which rows aren't in; they stay pending, and the next step tries them again. `Uncommitted`:
        operations are pending. `on` is called with each batch (`Touched`) once it is in. If it raises, so does the step, and the
        next one calls it again; a restart with a store's file does so with the feed's last batch: its call may not have ended."""
        from .feeds.following import follow
        return follow(self, feed, by=by, every=every, keep=keep, ahead=ahead, batch=batch, until_end=until_end, skip_bad=skip_bad,
                      rejects=rejects, progress=progress, on=on, **read_as)

    @classmethod
    @_named
    def restore(cls, path: Path, *, units: Optional[Units[Any, Any]] = None, blocks: Optional[int] = None,
                progress: Optional[bool] = None, **options: Unpack[RestoreOptions]) -> Store[Any, Any]:
        """Returns a store with the version that `Session.save` wrote to a file. It answers every request as that version did.

        >>> saved = session.save("roads.csv.gz")
        >>> with Store.restore("roads.csv.gz") as restored:
        ...     print(restored.stat().edges)
        4

        Its own versions count from 0. It has the saved store's units and names, and as many blocks, or more if the copy needs
        them, unless `blocks` is given. The other options are those of `Store`; `progress` shows or hides a bar, as in `load`. No
        store is made if the file is no saved version, or is damaged or cut (`SaveFault`; a digest finds that, but no forger), if
        it has other units (`ValueError`), or if `blocks` are too few (`PoolEmpty`, with those `needed`)."""
        from .saving import restore
        given = units_given(units)

        def make(found: int, saved: Units[Any, Any]) -> Store[Any, Any]:
            both = given._or_those(saved)
            if saved._are_given and not both._same_as(saved):
                raise ValueError(f"{path} has {saved}, and not {both}")
            return cls(units=both, blocks=found, **options)
        return restore(path, make, blocks, progress)

    @classmethod
    @_named
    def at(cls, path: Path, *, version: Optional[int] = None, time: Optional[When] = None,
           units: Optional[Units[Any, Any]] = None, seats: int = records.USUAL_SEATS) -> Store[Any, Any]:
        """Returns what a store's file held at a version or a time, as a store that is only read.

        >>> with Store("roads.db") as kept:
        ...     loaded = kept.load([("kassel", "fulda"), ("fulda", "hanau")], by="set", batch=1)
        >>> with Store.at("roads.db", version=1) as earlier:
        ...     print(earlier.stat().edges)
        1

        Give one of `version` and `time`, a date or microseconds since 1970: the last version that was written by then. Another
        process may write the file meanwhile. `units` may say how weights are shown. `ReadOnly` refuses operations; `ValueError`
        says that the file has no such version, or no longer, and `JournalFault` that it isn't as it was written."""
        from .journal.opening import open_at
        store = cls.__new__(cls)
        store._begin_with(open_at(path, version, time, seats), units_given(units))
        return store

    # Requests.

    def stat(self) -> Stat:
        """Returns the last version's number, vertices and edges, and how many blocks are free, retired and used.

        >>> store.stat()
        Stat(version=1, vertices=4, edges=4, free=65532, retired=0, used=4)
        """
        return self._asked("stat", self._engine.stat)

    def collect(self) -> Collected:
        """Frees each replaced block that no open session's version has.

        >>> store.collect()
        Collected(floor=1, recycled=0, retired=0)
        """
        return self._asked("collect", self._engine.collect)

    def _asked(self, told: str, call: Callable[[], R]) -> R:
        try:
            return call()
        except Denied as fault:
            raise self._ledger.terms.denied(fault, told) from None

    def open(self) -> Session[W, T]:
        """Returns a session that holds the last version. Raises `NoSeat` if all `seats` hold sessions.

        A session that nobody refers to any more is closed by the next `open`, `commit` or `collect`.

        >>> with store.open() as held:
        ...     print(held.version)
        1
        """
        return self._open()

    def _open(self, slot: Optional[int] = None) -> Session[W, T]:
        """A session in the first free slot, or in that one."""
        self._ledger.settle()
        faults = records.faults_of(("open", str(slot)), self.seats) if slot else []
        if faults:
            raise self._ledger.terms.refusal(faults[0])
        try:
            return Session(self, self._engine.hold(slot))
        except NoSeat:
            more = f", or make the store with more (seats=, {records.MOST_SEATS} at most)" * (self.seats < records.MOST_SEATS)
            raise NoSeat(f"all {self.seats} seats hold sessions: close one{more}") from None
        except Denied as fault:
            raise self._ledger.terms.denied(fault, f"open({slot})") from None

    def compact(self, session: Optional[Session[Any, Any]] = None) -> Compacted:
        """Starts the store over with a version's edges alone, and returns what these are.

        >>> done = store.compact()
        >>> done.edges, done.used
        (4, 4)

        Without a session the version is the last one. Versions count on, pending operations stay, and open sessions hold their
        versions. A store does this by itself before it is full of batches, or of blocks that only sessions need. An endless store
        also drops, if a batch would leave too many, the names and kinds without an edge; a request for one of these then raises
        `NoVertex` or `NoKind`.

        With a session of this store its version becomes version 0, from which batches count. What was applied before is dropped,
        with its memory, and all sessions are closed; pending operations stay. There has to be memory for both graphs meanwhile.
        `PoolEmpty` says that a copy of an older version finds too few blocks; nothing is changed then. After an interrupt the
        same call finds what was done, and does it no second time.

        A server's store raises `StoreError`: the server does this by itself. `store.file.compact` makes a file smaller."""
        if session is None:
            self._ledger.settle()
            return self._engine.renew()
        if session.store is not self:
            raise ValueError(f"{session!r} is another store's")
        if self._compacting is not session:
            session._must_be_open()
            self._ledger.settle()
        self._compacting = session
        try:
            done = self._engine.rebase(session._held)
        except Denied as fault:
            self._compacting = None
            if fault.word != "PoolEmpty":
                raise self._ledger.terms.denied(fault, f"compact({session!r})") from None
            text = f"a copy of version {session.version} finds no room in {self.blocks} blocks, and nothing was changed"
            advice = "Save the session, and restore it with more blocks"
            raise PoolEmpty(needed=self.blocks + 1, free=None, text=text, advice=advice) from None
        self._ledger.begin_anew(done.version)
        told = noting(setattr, self, "_compacting", None)
        None in told
        return done

    @property
    def file(self) -> StoreFile:
        """The file of a store that has one, with `compact`, `last_sequence` and `recovered`. Raises `StoreError` if it has none.

        >>> with Store("roads.db") as kept:
        ...     print(kept.file.last_sequence("sensor"))
        None
        """
        from .journal.file import StoreFile
        self._ledger.settle()
        return StoreFile(self._engine)

    # The end.

    def close(self) -> None:
        """Closes the sessions and ends the store. Raises `Uncommitted` if operations are pending: the error has these.

        >>> store.close()
        >>> session.is_open
        False
        """
        fault, told = self._end()
        None in told
        if fault is not None:
            raise fault

    def _told_of_lost(self, lost: Sequence[str]) -> str:
        """What is known of the operations that were pending."""
        return f"{len(lost)} operations were pending and are not applied"

    def _end(self) -> Tuple[Optional[Uncommitted], Iterator[Any]]:
        """Ends the engine. Gives what is lost by that, and notes that it was said. A fork ends nothing."""
        if self._is_closed or self._engine.is_elsewhere:
            return None, iter(())
        self._ledger.end()
        with suppress(StoreError):  # (what was refused is pending still)
            self._ledger.settle()
        self._engine.close()
        lost = self._ledger.told_pending
        told = Uncommitted(f"{self._told_of_lost(lost)} (the error has them): commit or discard first", lost) if lost else None
        return told, noting(setattr, self, "_is_closed", True)

    @property
    def is_closed(self) -> bool:
        """Whether the store was closed.

        >>> store.is_closed
        False
        """
        return self._is_closed

    def __enter__(self) -> Store[W, T]:
        return self

    def __exit__(self, kind: Optional[Type[BaseException]], fault: Optional[BaseException],
                 trace: Optional[TracebackType]) -> None:
        if kind is None:
            return self.close()
        lost, told = self._end()
        if lost is not None:
            told = chain(noting(warnings.warn, self._told_of_lost(lost.operations), None, 2), told)
        self in told  # (it makes both)

    def __del__(self) -> None:
        if not self._is_closed and not sys.is_finalizing() and not self._engine.is_elsewhere:
            warnings.warn("a store was let go without close()", ResourceWarning, stacklevel=2)

    def _repr_html_(self) -> str:
        told: Dict[str, object] = {"engine": self._engine.told(), "state": "closed"}
        if not (self._is_closed or self._engine.is_elsewhere):
            it = self.stat()
            told.update(
                state=f"{self._engine.open_count} of {self.seats} seats open, {self.pending} pending", version=it.version,
                vertices=it.vertices, edges=it.edges, blocks=f"{it.used:,} used of {self.blocks:,}, {it.retired:,} retired")
        return shown_as_html("Store", told)

    def __repr__(self) -> str:
        state = f"{self._engine.open_count} of {self.seats} seats open, {self.pending} pending, by {self._engine.told()}"
        return f"<Store of {self.blocks} blocks: {'closed' if self._is_closed else state}>"
