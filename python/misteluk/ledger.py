"""Operations that wait for a commit, and batches on their way into an engine.

An interrupt may come between any two steps here. So what a batch was and did is kept in single steps (`Books`), and its
operations are taken from those that are pending by the step that notes so: the next call finds out what an interrupted one did.
A caller notes as the last thing it does that it gives what a commit did (`guard.noting`).
"""
from __future__ import annotations

from dataclasses import replace
from typing import Any, Callable, Dict, List, NamedTuple, Optional, Sequence, Tuple

from .engine.calling import MOST_AT_ONCE
from .engine.guard import FORKS, Guard, alone
from .engine.operations import COMMANDS, EXPIRE, REMOVE, Operations, Post, Row
from .engine.protocol import Denied, Engine, Flight
from .errors import Busy, JournalError, PoolEmpty, Refused, SessionClosed, StoreError, TooLarge, refusal
from .values import records
from .values.answers import Commit, Stat, sum_of
from .values.limits import within
from .values.names import must_be_texts
from .feeds.terms import Terms
from .values.texts import text_of
from .values.units import Units


# What says that a batch is not on its way.
NOT_ON_ITS_WAY = Busy, SessionClosed, JournalError
# What a store takes of a feed: its terms and kinds.
Feed = Tuple[Terms, Sequence[str]]


class Books(NamedTuple):
    """What batches did that no commit told yet, and the batch that is on its way; whether that is of pending operations, and the
    terms and kinds of its feed, which the store takes with it."""

    untold: Tuple[Commit, ...] = ()
    flight: Optional[Flight] = None
    of_pending: bool = False
    feed: Optional[Feed] = None



class Ledger:
    """The pending operations of a store, in the engine's terms, and what became of its batches."""

    def __init__(self, engine: Engine, units: Units[Any, Any], units_are_set: bool) -> None:
        self.engine, self.terms, self.units_are_set = engine, Terms(units=units), units_are_set
        self.pending: List[Row] = []
        # The kinds that the store was told of, in order.
        self.kinds: Dict[str, None] = {}
        self.is_closed = False
        # The receipts of the last commit, which are to be told, and those that were told, which the next one lets go.
        self.telling: "Tuple[Commit, ...]" = ()
        self.taken: "List[Tuple[Commit, ...]]" = []
        # What is called with each batch that is in, and the version that it made.
        self.noted: Callable[[int, Operations], object] = lambda version, batch: None
        self._guard = Guard()
        self._books = Books()

    # What is pending.

    def keep(self, code: int, kind: Any, source: Any, target: Any, weight: Any, time: Any) -> None:
        """Keeps an operation. Most are seen to be right as they stand."""
        right = self.terms.right
        if (kind in self.kinds and kind in right and source in right and target in right and self._are_numbers(weight, time)
                and self._guard.forks == len(FORKS) and not self.is_closed):
            self.pending.append((code, kind, source, target, weight, time))
        else:
            self._keep(code, (kind, source, target), weight, time)

    def _are_numbers(self, weight: Any, time: Any) -> bool:
        """Whether a weight and a time are the engine's as they stand."""
        return (type(weight) is int is type(time) and -records.MOST_WEIGHT <= weight <= records.MOST_WEIGHT
                and 0 <= time <= records.MOST_TIME and self.terms.units.are_plain)

    def _numbers(self, weight: Any, time: Any) -> Tuple[Any, Any]:
        """A weight and a time in the engine's terms; `None` for what is none."""
        if self._are_numbers(weight, time):
            return weight, time
        units = self.terms.units
        return units._weights_of([text_of(weight)])[0], units._times_of([text_of(time)])[0]

    def _keep(self, code: int, names: Tuple[Any, Any, Any], weight: Any, time: Any) -> None:
        """Keeps an operation, or raises where a rule is broken."""
        self._guard.check()
        if self.is_closed:
            raise StoreError("the store is closed")
        must_be_texts(names if code != EXPIRE else ())
        both: Tuple[Any, Any] = (None, None)
        if self.terms.are_as_they_are(names):
            both = self._numbers(weight, time)
        if None not in both:
            row: Row = (code, *names, *both)
        else:
            fields = {EXPIRE: (time,), REMOVE: names}.get(code, (*names, weight, time))
            row = self.terms.row([COMMANDS[code], *map(text_of, fields)])
        self.units_are_set = True
        if code != EXPIRE:
            self.kinds.setdefault(names[0])
        self.pending.append(row)

    @property
    def told_pending(self) -> List[str]:
        """The pending operations as records in the user's terms."""
        return [f"{self.terms.told(it)}\n" for it in self.pending]

    @property
    def unanswered(self) -> int:
        """How many of the pending operations, the first ones, are on their way, and may still be answered."""
        books = self._books
        is_awaited = books.flight is not None and books.of_pending and not books.flight.cut and not self.engine.has_ended
        return books.flight.batch.size if books.flight and is_awaited else 0

    @alone
    def discard(self) -> int:
        """Lets the pending operations go, and gives how many they were; those that are on their way, and may still be
        answered, stay."""
        sent = self.unanswered
        count = len(self.pending) - sent
        del self.pending[sent:sent + count]
        return count

    # Terms.

    def terms_for(self, units: Units[Any, Any]) -> Terms:
        """The terms of a feed in these units, and where they aren't given in the store's. Raises `ValueError` where the store has
        others."""
        said = units._or_those(self.terms.units)
        self.must_agree(said)
        return Terms(self.terms.names, said, self.terms.right)

    def must_agree(self, units: Units[Any, Any]) -> None:
        if self.units_are_set and not units._same_as(self.terms.units):
            raise ValueError(f"the store's units are {self.terms.units}, and those of what is to be loaded {units}")

    @alone
    def take_terms(self, terms: Terms) -> None:
        """Takes the names and units of a feed. Raises `ValueError` where the store has other units."""
        self.must_agree(terms.units)
        self._take(terms)

    def _take(self, terms: Terms, kinds: Sequence[str] = ()) -> None:
        self.terms.names.take(terms.names)
        mine = self.terms.units
        self.terms.units = replace(terms.units, decimals=mine.decimals, rounding=mine.rounding)
        self.units_are_set = True
        self.kinds.update(dict.fromkeys(kinds))

    # Batches.

    @alone
    def post(self, collect: bool, post: Post) -> Commit:
        """Applies what is pending now as one batch, once for each number of a producer, and gives what that did. A caller puts
        `telling` into `taken`, as of `commit`."""
        if self.is_closed:
            raise StoreError("the store is closed")
        self._forget_taken()
        self.telling = ()
        self._land()
        within("operations of a numbered commit", len(self.pending), 0, MOST_AT_ONCE)
        done = self._fly(Operations(self.pending[:], post=post), collect, True)
        self.telling = tuple([it for it in self._books.untold if it.version == done.version])
        return done

    @alone
    def commit(self, collect: bool, batch: int, feed: Optional[str] = None) -> Commit:
        """Applies what is pending now, and gives the sum of what was applied and not told yet; where a batch is refused the error
        has it. `feed` says how far a followed feed is in with that. A caller puts `telling`, of which that is the sum, into
        `taken` as the last thing it does: then it was told."""
        if self.is_closed:
            raise StoreError("the store is closed")
        self._forget_taken()
        try:
            if self._books.flight is not None:
                self._land()
            left = len(self.pending)
            while left or not self._books.untold:
                left -= self._fly_first(min(batch, left), collect, feed if left <= batch else None)
        except Refused as fault:
            fault.applied = sum_of(self._books.untold) if self._books.untold else None
            raise
        finally:
            self.telling = self._books.untold
        return sum_of(self.telling)

    def _fly_first(self, count: int, collect: bool, feed: Optional[str]) -> int:
        """Applies so many of the pending operations, or fewer where a server takes none so long; gives how many."""
        while True:
            try:
                batch = Operations(self.pending[:count])
                batch.feed = feed
                self._fly(batch, collect, True)
                return count
            except TooLarge:
                if count < 2:
                    raise
            count //= 2

    def _forget_taken(self) -> None:
        """Lets go what was told. (Where that is broken off, it's found gone the next time.)"""
        count = len(self.taken)
        if count:
            told = {id(it) for receipts in self.taken[:count] for it in receipts}
            self._books = self._books._replace(untold=tuple([it for it in self._books.untold if id(it) not in told]))
            del self.taken[:count]

    @alone
    def apply(self, batch: Operations, collect: bool, feed: Optional[Feed] = None) -> Commit:
        """Applies a batch of its own, as one of a load, whose terms the store takes with it, or not at all."""
        if self.is_closed:
            raise StoreError("the store is closed")
        self._land()
        return self._fly(batch, collect, False, feed)

    def settle(self) -> None:
        """Takes what became of a batch whose call was broken off."""
        if self._books.flight is not None:
            self._settle()

    @alone
    def _settle(self) -> None:
        self._land()

    @alone
    def begin_anew(self, version: int) -> None:
        """Takes in that the store's last version has this number now: so has that of what wasn't told yet."""
        self._forget_taken()
        self._books = self._books._replace(untold=tuple([replace(it, version=version) for it in self._books.untold]))

    @alone
    def end(self) -> None:
        self.is_closed = True

    def _fly(self, batch: Operations, collect: bool, of_pending: bool, feed: Optional[Feed] = None) -> Commit:
        batch.terms = None if feed is None else feed[0]
        flight = self.engine.flight(batch, collect)
        self._books = Books(self._books.untold, flight, of_pending, feed)
        try:
            receipt = self.engine.fly(flight)
        except Denied as fault:
            self._books = self._books._replace(flight=None)
            raise self._refused(fault, batch, of_pending) from None
        except NOT_ON_ITS_WAY:  # (nothing was sent, or nobody answers it any more, as is told)
            self._books = self._books._replace(flight=None)
            raise
        return self._book(flight, receipt)

    def _land(self) -> None:
        """Takes what became of a batch whose call was broken off; one that wasn't begun is not on its way any more."""
        flight = self._books.flight
        if flight is None:
            return
        try:
            receipt = self.engine.landed(flight)
        except Denied as fault:
            self._books = self._books._replace(flight=None)
            raise self._refused(fault, flight.batch, self._books.of_pending) from None
        except NOT_ON_ITS_WAY:  # (as above)
            self._books = self._books._replace(flight=None)
            raise
        if receipt is None and not flight.cut:
            self._books = self._books._replace(flight=None)
        elif receipt is not None:
            self._book(flight, receipt)

    def _book(self, flight: Flight, receipt: Commit) -> Commit:
        """Takes the operations of a batch from those that are pending, once, and keeps what it did."""
        books = self._books
        if books.of_pending and not flight.cut:
            flight.cut.extend(map(self.pending.__delitem__, (slice(flight.batch.size),)))
        if books.feed is not None:
            self._take(*books.feed)
        self.noted(receipt.version, flight.batch)
        self._books = Books((*books.untold, receipt) if books.of_pending else books.untold)
        return receipt

    # What is refused.

    def _refused(self, fault: Denied, batch: Operations, of_pending: bool) -> Refused:
        place = batch.place(0) if batch.place and batch.size else None
        if fault.stat is not None:
            needed = batch.asked(fault.stat.used)
            return PoolEmpty(needed=needed, free=fault.stat.free, place=place,
                             advice=self._room_advice(batch.size, needed, fault.stat))
        left = f"the batch of {batch.size} operations is pending still" if of_pending else ""
        return refusal(fault.word, left, place=place, advice=fault.advice)

    def _room_advice(self, size: int, needed: int, stat: Stat) -> str:
        """What helps where a batch of so many operations needs more blocks than are free, also where the store begins anew."""
        ways = ["make batches smaller"] if size > 1 and stat.free + stat.retired > needed - size else []
        if self.engine.blocks < self.engine.most_blocks:
            ways.append(f"give the store more blocks ({self.engine.most_blocks:,} at most)")
        told = "; or ".join(ways)
        return told[:1].upper() + told[1:]
