"""A feed's batches are applied once it was read whole and checked."""
from __future__ import annotations

import time
from dataclasses import dataclass
from typing import TYPE_CHECKING, Any, Iterator, List, Optional, Tuple

from .limits import check, check_room
from .feed import Path
from .opening import ReadAs
from .parts import Part
from .progress import Progress
from .rejects import Rejected
from .surveys import Survey, surveyed
from ..engine.calling import MOST_AT_ONCE
from ..engine.openings import as_batches, may_open
from ..engine.operations import Operations
from ..engine.protocol import LIBRARY
from ..errors import NoAnswer, Place, PoolEmpty, Refused, Uncommitted, refusal
from ..values import records
from ..values.answers import NOTHING, Commit, shown_as_html, sum_of

if TYPE_CHECKING:
    from ..store import Store


@dataclass(frozen=True, repr=False)
class Loaded:
    """What a load did: `commit` has the sum of its batches' counts (`None` if there was no batch), and `survey` what was counted
    before.

    >>> loaded.commit.inserted, loaded.survey.vertices
    (4, 4)

    `records` is how many records a script would have for it, `seconds` how long it took, and `sending` how long without reading
    and checking."""

    commit: Optional[Commit]
    survey: Survey
    records: int
    seconds: float
    sending: float

    @property
    def bad(self) -> int:
        """The number of rows that were skipped.

        >>> loaded.bad
        0
        """
        return self.survey.bad

    @property
    def last_bad(self) -> Optional[Rejected]:
        """The last row that was skipped, as a `Rejected`, or `None`.

        >>> store.load([("bonn", "kassel", "far")], by="set", skip_bad=True).last_bad.text
        'bonn,kassel,link,far,0'
        """
        return self.survey.last_bad

    def __str__(self) -> str:
        sent = self.records
        done = self.commit or NOTHING
        text = (f"{sent} records in {self.seconds:.1f} s, {sent / max(self.seconds, 1e-6):.0f} a second; {done.inserted} edges "
                f"inserted, {done.updated} updated; version {done.version}")
        if self.survey.bad:
            text += f"; {self.survey.bad} bad rows passed over"
        if done.overflowed:
            text += f"; {done.overflowed} amounts NOT added or set, since weights would leave their limits"
        return text

    def __repr__(self) -> str:
        return f"<Loaded {self}>"

    def _repr_html_(self) -> str:
        done = {} if self.commit is None else vars(self.commit)
        return shown_as_html("Loaded", {"feed": self.survey.feed, "rows": self.survey.rows, "bad rows": self.survey.bad,
                                        "seconds": f"{self.seconds:.1f}", **done})


def load(store: Store[Any, Any], data: Any, *, by: str, batch: Optional[int] = None, collect: bool = True,
         skip_bad: bool = False, rejects: Optional[Path] = None, progress: Optional[bool] = None, **read_as: Any) -> Loaded:
    """Loads a feed into a store. See `Store.load`."""
    if isinstance(data, Survey) and data.by != by:
        raise ValueError(f"the survey was made to {data.by}, and the load is to {by}")
    if isinstance(data, Survey) and rejects is not None:
        raise ValueError("a survey's rows were read already: say rejects= where it is made")
    how = ReadAs(**read_as)
    terms = store._ledger.terms_for(how.units_given)
    found = data if isinstance(data, Survey) else surveyed(data, how, terms, by, batch, progress, rejects)
    skip_bad = skip_bad or rejects is not None
    told = Progress(f"loading {found.feed}", found.rows - found.bad, progress)
    sent = time.monotonic()
    receipts: List[Commit] = []
    try:
        for part, receipt in _steps(store, found, collect, skip_bad, most_joined(store) if found.joins else 1):
            told.step(len(part.lines))
            receipts.append(receipt)
    finally:
        told.end()
    sending = time.monotonic() - sent
    done = sum_of(receipts) if receipts else None
    return Loaded(done, found, found._records(collect, (done or NOTHING).batches), found.seconds + sending, sending)


def most_joined(store: Store[Any, Any]) -> int:
    """Of how many batches of 4,096 one is made at most."""
    return MOST_AT_ONCE // records.MOST_OPERATIONS if store._engine.name == LIBRARY else 1


def load_in_steps(store: Store[Any, Any], found: Survey, *, collect: bool = True, skip_bad: bool = False) -> Iterator[Commit]:
    """Loads a survey in its own batches: what each did is given before the next is applied: sessions can be opened between."""
    return (receipt for _, receipt in _steps(store, found, collect, skip_bad, 1))


def _steps(store: Store[Any, Any], found: Survey, collect: bool, skip_bad: bool, most: int) -> Iterator[Tuple[Part, Commit]]:
    """Applies a survey's batches, up to so many as one, and gives each with what it did."""
    check(found, skip_bad=skip_bad, limits=store._engine.limits, most_blocks=store._engine.most_blocks)
    store._ledger.settle()
    if store.pending and not store.is_closed:  # (a closed store says that it is, as soon as it is asked for its blocks)
        text = f"{store.pending} operations are pending: commit or discard them before a load"
        raise Uncommitted(text, store._ledger.told_pending)
    check_room(store, found, store.stat().used)
    store._ledger.must_agree(found.terms.units)
    if not found.parts:
        store._ledger.take_terms(found.terms)
    opened = _opened(store, found) if most > 1 and collect and found.parts and may_open(store._engine) else None
    if opened is not None:
        yield opened
        return
    at = 0
    while at < len(found.parts):
        count = max(min(most, store.stat().free // records.MOST_OPERATIONS), 1) if most > 1 else 1
        part = found.parts.joined(at, min(at + count, len(found.parts)))
        try:
            receipt = _apply(store, found, part, at, collect)
        except Refused:
            if count == 1:
                raise
            most = 1
            continue
        yield part, receipt
        at += count


def _opened(store: Store[Any, Any], found: Survey) -> Optional[Tuple[Part, Commit]]:
    """Has an empty store open with a whole feed in one step, as far as nobody can tell that from batches, and gives what they
    would have done. Where it doesn't, batches say why."""
    whole = found.parts.whole
    opens = as_batches(store._engine, whole.columns)
    try:
        return (whole, _apply(store, found, whole, 0, True, opens)) if opens else None
    except Refused:
        return None


def _apply(store: Store[Any, Any], found: Survey, part: Part, at: int, collect: bool, opens: int = 0) -> Commit:
    """Applies one batch of a feed, that of this number or one that begins with it, or has a store open with the first ones; a
    refusal says which lines are not in."""
    try:
        batch = Operations(columns=part.columns, place=lambda it: Place(found.feed, part.lines[it]))
        batch.opens = opens
        return store._ledger.apply(batch, collect, (found.terms, found.kinds) if at == 0 else None)
    except NoAnswer as fault:
        raise NoAnswer(f"{fault}; lines {part.lines[0]} to {part.lines[-1]} of {found.feed} were sent, all before them are in, "
                       "and none behind them was sent") from fault
    except Refused as fault:
        done = found.parts.before(at)
        text = (f"the batch of lines {part.lines[0]} to {part.lines[-1]} was refused, and neither it nor what comes behind it is "
                f"in; {done} rows before it are")
        if isinstance(fault, PoolEmpty):
            text += f". It needs {fault.needed} free blocks, and {fault.free} are free"
            raise PoolEmpty(needed=fault.needed, free=fault.free, text=text, advice=fault.advice,
                            place=fault.place) from fault
        raise refusal(fault.word, text, place=fault.place) from fault
