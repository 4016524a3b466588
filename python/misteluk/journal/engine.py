"""The engine of a store that has a file: the library's, and a journal that has each batch before it.

This has the order of a commit in one place. The library makes a batch ready, and refuses it where it must; then it is written and
synced; then the library accepts it, which can't fail, and whoever opens a session sees it; and then it is answered. Where it
can't be written the library gives it up, and nothing was changed. What an interrupt broke off the file decides: a batch that it
has is in.
"""
from __future__ import annotations

import threading
import time
from typing import Any, Callable, Dict, Iterator, List, Mapping, Optional, Sequence, Tuple

from .bases import Base, columns_of
from .beside import Beside
from .compaction import FileCompacted, History, drop_old, first_kept, write_base
from .journal import Entry, Journal
from .passing import Passing
from .recovery import State, last_of_feed
from .scripts import Writer
from .tables import NO_SUM, Settings, Written
from ..engine.calling import MOST_AT_ONCE, LibraryFlight
from ..engine.guard import Guard, alone
from ..engine.held import LibraryVersion
from ..engine.operations import Numbered, Operations
from ..engine.protocol import Denied, Held
from ..errors import ReadOnly, SequenceTaken, StoreError
from ..values.answers import Collected, Commit, Compacted, Stat
from ..feeds.steps import FeedMark
from ..feeds.terms import Terms


class Journaled(Passing):
    """A library's engine, and the file that has its batches."""

    def __init__(self, journal: Journal, state: State, history: History = None) -> None:
        super().__init__(state.engine)
        self._inner, self._journal, self.state = state.engine, journal, state
        self._guard, self._writer = Guard(), Writer(state.engine.library)
        # The batch that may be on its way.
        self._flying: Optional[LibraryFlight] = None
        self._compacting = threading.Lock()
        since = journal.rows("SELECT coalesce((SELECT max(at) FROM bases), (SELECT min(at) FROM batches))")[0][0]
        self.beside = Beside(self.compact, lambda: self._inner.stat().edges, history,
                             time.time() if since is None else since / 1e6, state.operations)
        # How it began: the version, the base, and the batches and operations behind that.
        self.recovered = state.version, state.base, state.batches, state.operations
        # The store's terms, and how many of its texts the file has.
        self._terms, self._seen = Terms(), 0

    def attach(self, terms: Terms) -> None:
        """Takes the names and units of the store, which are written with its batches."""
        self._terms, self._seen = terms, len(terms.names)

    @property
    def settings(self) -> Settings:
        return self._journal.settings

    @property
    def feeds(self) -> Mapping[str, str]:
        return self.state.sources.feeds

    @property
    def place(self) -> str:
        return self._journal.place

    @property
    def has_ended(self) -> bool:
        return self.inner.has_ended or self._journal.fault is not None

    def told(self) -> str:
        return f"{self.inner.told()}, with the file {self.place}"

    # Batches.

    @alone
    def fly(self, flight: LibraryFlight) -> Commit:
        self._settle()
        batch = flight.batch
        if batch.opens:
            return self._open(flight)
        records = self._writer.records_of(flight)
        if batch.post is not None:
            first = self.state.sources.first_answer(batch.post, batch.feeder, records if batch.size else None)
            if first is not None:
                return first
        self._journal.must_be_well()
        self._flying = flight
        self._inner.begin(flight)
        try:
            rows = self._written(flight, [records])
        except Exception:
            self._inner.cancel()
            raise
        return self._booked(self._inner.finish(flight), rows)

    def _open(self, flight: LibraryFlight) -> Commit:
        """Opens an empty store with a whole load, which the file has as the batches that it counts as: all of them or none."""
        if self._inner.stat().vertices:  # (another thread was first)
            raise Denied("NotEmpty")
        self._journal.must_be_well()
        records = list(self._records_in_parts(flight.batch.columns))
        self._flying = flight
        self._inner.begin(flight)
        try:
            rows = self._written(flight, records)
        except Exception:
            self._inner.cancel()
            raise
        done = self._booked(self._inner.finish(flight), rows)
        self._journal.checkpoint()
        return done

    def _records_in_parts(self, columns: Numbered) -> Iterator[bytes]:
        """The records of operations, by batches. (Each batch is let go before the next one is made.)"""
        for at in range(0, len(columns.codes), MOST_AT_ONCE):
            part = Operations(columns=columns.some(slice(at, at + MOST_AT_ONCE)))
            yield self._writer.records_of(self._inner.flight(part, False))
            self._inner.handles.give_back(self._inner.library)

    def _written(self, flight: LibraryFlight, records: Sequence[bytes]) -> List[Written]:
        """Writes a batch that is ready, with what comes with it; or the batches that a load counts as."""
        batch = flight.batch
        terms = batch.terms or self._terms
        settings = self.settings.with_units(terms.units) if batch.size else self.settings
        texts = terms.names.since(self._seen if terms.names is self._terms.names else 0)
        entries = [_entry(flight, text, {} if at else texts) for at, text in enumerate(records)]
        rows = self._journal.append(entries, settings)
        self._seen += len(texts) if terms.names is self._terms.names else 0
        return rows

    @alone
    def fly_all(self, flights: Sequence[LibraryFlight]) -> List[Commit]:
        """Applies batches in the store's terms as `fly` does each, in their order, with one write and one sync for all; gives
        what each did. None goes in, and nothing is given, where they don't go together: where one would be refused, expires
        edges, was sent before by its number or key, or has an endless store drop names."""
        self._settle()
        self._journal.must_be_well()
        records = [self._writer.records_of(it) for it in flights]
        if self._were_sent(flights, records) or any(it.batch.expires for it in flights) or not self._are_taken(flights):
            return []
        texts = self._terms.names.since(self._seen)
        entries = [_entry(flight, it, {} if at else texts) for at, (flight, it) in enumerate(zip(flights, records))]
        rows = self._journal.append(entries, self.settings.with_units(self._terms.units))
        self._seen += len(texts)
        try:
            return [self._booked(self._inner.fly(flight), [row]) for flight, row in zip(flights, rows)]
        except BaseException as fault:
            raise self._journal.end(f"the file has batches that the store doesn't take ({fault})") from fault

    def _were_sent(self, flights: Sequence[LibraryFlight], records: Sequence[bytes]) -> bool:
        """Whether some batches were sent before by their numbers or keys, or two have the same."""
        sent = [(it.batch, text) for it, text in zip(flights, records) if it.batch.post is not None]
        if len({(batch.feeder, batch.post) for batch, _ in sent}) < len(sent):
            return True
        try:
            return any(self.state.sources.first_answer(batch.post, batch.feeder, text) for batch, text in sent if batch.post)
        except SequenceTaken:
            return True

    def _are_taken(self, flights: Sequence[LibraryFlight]) -> bool:
        """Whether batches are taken one after another, each as it is: so they are where one of all their operations is, which
        needs as many blocks and names or more."""
        joint = self._inner.flight(Operations([row for it in flights for row in it.batch.rows]), False)
        try:
            self._inner.begin(joint)
            return not joint.drops
        except Denied:
            return False
        finally:
            self._inner.cancel()

    def _booked(self, receipt: Commit, rows: Sequence[Written]) -> Commit:
        """Takes what the library did with a batch that the file has, or with those that a load counts as."""
        for row in rows:
            self.state.take(row, receipt)
        self.beside.grew(sum(it.operations for it in rows))
        return receipt

    def _settle(self) -> None:
        """Finds what became of a batch whose call was broken off: it is in where the file has it. After a failed sync nobody
        knows whether that has it for good, and it isn't in."""
        flight = self._flying
        if flight is None:
            return
        if self._journal.fault is None and self._journal.settle().version > self.state.version:
            rows = self._journal.behind(self.state.version)
            self._booked(self._inner.finish(flight), rows)
        else:
            self._inner.cancel()
        self._flying = None

    @alone
    def landed(self, flight: LibraryFlight) -> Optional[Commit]:
        self._settle()
        receipt = self._inner.landed(flight)
        if receipt is None and self._journal.fault is not None:
            raise self._journal.fault
        return receipt

    def stat(self) -> Stat:
        """The last version; it waits for no batch that is being written. What an interrupt broke off is found first: a batch that
        the file has is in."""
        if self._flying is not None and self._guard.holder is None and not self.inner.has_ended:
            self._find()
        return self.inner.stat()

    @alone
    def _find(self) -> None:
        self._settle()

    def last_sequence(self, producer: str) -> Optional[int]:
        """The last number of a producer's batches; `None` where it has sent none."""
        known = self.state.sources.producers.get(producer)
        return None if known is None else known.sequence

    # The whole.

    @alone
    def fit(self, vertices: int, kinds: int, blocks: int) -> None:
        self._settle()
        self._inner.fit(vertices, kinds, blocks)

    @alone
    def collect(self) -> Collected:
        self._settle()
        return self._inner.collect()

    @alone
    def renew(self) -> Compacted:
        self._settle()
        return self._inner.renew()

    @alone
    def rebase(self, version: Any) -> Compacted:
        begun = time.monotonic()
        self._settle()
        number = self.inner.stat().version
        if version.number != number:
            raise StoreError(f"a store with a file doesn't begin anew with an older version ({version.number}, and the last is "
                             f"{number}): `Store.at` reads it, and `save` makes a file of it")
        self.inner.renew()  # (of the last version it is the same, and numbers go on)
        self.inner.close_versions()
        stat = self.inner.stat()
        return Compacted(stat.version, stat.vertices, stat.edges, stat.used, time.monotonic() - begun)

    def compact(self, history: History) -> FileCompacted:
        """Writes the last version as a base, and takes out of the file what is older than the history. Batches go in
        meanwhile."""
        with self._compacting:
            held, base, found = self._frozen()
            try:
                size = write_base(self._journal, held.number, found, base(held))
            finally:
                held.close()
            return FileCompacted(held.number, size, *drop_old(self._journal, history))

    @alone
    def _frozen(self) -> "Tuple[LibraryVersion, Callable[[Held], Base], bytes]":
        """The last version, held, what makes a base of it, and the sum of its batch."""
        self._settle()
        texts, sources = dict(self.state.texts), self.state.sources.copy()
        held = self.inner.hold_apart()
        assert held.number == self.state.version
        return held, lambda held: Base.of(held, texts, sources), self.state.sum

    # What a replica is told.

    @property
    def sync(self) -> str:
        return self._journal.sync

    def some_rows(self, after: int, last: int) -> List[Written]:
        """The batches behind a version, up to another one, or the first ones of them."""
        return self._journal.some_rows(after, last)

    def last_of_feed(self, mark: FeedMark) -> Optional[Tuple[int, Operations]]:
        """The batch that brought a followed feed to this place, with its version; `None` where the file has it no more."""
        return self._journal.read(lambda opened: last_of_feed(opened, mark))

    def sum_of(self, version: int) -> Optional[str]:
        """The sum of the batch that made a version, which tells it from each other one of this number; `None` where the file has
        no such version any more."""
        words = "SELECT sum FROM batches WHERE version=? UNION ALL SELECT sum FROM bases WHERE version=?"
        found = [(NO_SUM,)] if version == 0 else self._journal.rows(words, version, version)
        return found[0][0].hex() if found else None

    def newest_base(self) -> "Optional[Tuple[Sequence[Any], Dict[str, bytes]]]":
        """The newest base as it is written, with its version before its row; `None` where there is none."""
        found = self._journal.rows("SELECT max(version) FROM bases")[0][0]
        if found is None:
            return None
        row, columns = self._journal.read(lambda opened: columns_of(opened, found))
        return (found, *row), columns

    @property
    def size(self) -> int:
        """How many bytes the file has."""
        return self._journal.size

    @property
    def oldest(self) -> int:
        """The oldest version that can be had."""
        return first_kept(self._journal)

    def close(self) -> None:
        self._journal.close()
        self.beside.join()
        self.inner.close()


def _entry(flight: LibraryFlight, records: bytes, texts: Mapping[str, str]) -> Entry:
    """A batch as it is written, with the texts of ids that come with it."""
    batch = flight.batch
    producer, sequence = batch.post or (None, None)
    count = records.count(b"\n") if batch.opens else batch.size
    return Entry(records, count, texts, flight.drops, producer, sequence, batch.feeder, batch.feed)


class AsOf(Passing):
    """An engine that has what a file held as of a version, and takes nothing more."""

    told_why = ""

    def __init__(self, state: State, settings: Settings) -> None:
        super().__init__(state.engine)
        self.state, self.settings = state, settings

    def _refuse(self) -> ReadOnly:
        return ReadOnly(self.told_why or f"the store is as of version {self.state.version}, and is only read")

    def flight(self, batch: Operations, collect: bool) -> Any:
        raise self._refuse()

    def rebase(self, version: Any) -> Compacted:
        raise self._refuse()

    def renew(self) -> Compacted:
        raise self._refuse()
