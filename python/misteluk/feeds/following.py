"""A feed that never stops: its rows go in as they come, by time and size, and what wasn't touched for long goes out."""
from __future__ import annotations

import operator
import os
import threading
import time
from collections import deque
from itertools import repeat
from types import TracebackType
from typing import TYPE_CHECKING, Any, Callable, Deque, Iterator, List, Mapping, Optional, Tuple, Type, Union

from ..values import records
from ..errors import BadRows, FeedFault, Refused, StoreError, Uncommitted
from .advice import Reading, advise
from .calls import Calls
from .delimited import DelimitedRows
from .feed import Block, Feed, Path, Rows, SnapRows, part_of, turned
from .growing import MOST_READ, Begin, Growing, Incoming, Opened
from .surveys import Count, must_be_way
from .opening import ReadAs, form_of
from ..engine.calling import MOST_AT_ONCE
from ..engine.guard import noting
from ..engine.operations import EXPIRY, vertices_of
from .progress import Progress
from .rejects import Bin, Keeps, Rejected, Rejects
from .rotation import Standing, mark_of
from .spans import Span, ahead_time, kept_time, seconds_of
from .steps import FeedMark, FeedPlace, Followed, Pace, Recipe, not_in
from .terms import Terms
from .touched import On, Teller

if TYPE_CHECKING:
    from ..store import Store


def _is_interrupted() -> bool:
    """Whether this thread is the one in which Python raises an interrupt."""
    return threading.current_thread() is threading.main_thread()


class Following(Iterator[Followed]):
    """The steps of a feed that is followed: an iterator that `Store.follow` returns, and whose steps are commits (`Followed`).

    >>> count = session.edges().to_csv("roads.csv")
    >>> columns = Columns(kind="kind", weight="weight", time="recent")
    >>> following = store.follow("roads.csv", by="set", columns=columns)

    Close it, or use it in a `with`. A thread of its own reads and commits, so that an interrupt loses no row and applies none
    twice: the next step goes on from there. A step that another thread than the main one takes can't be interrupted, and is made
    there."""

    def __init__(self, store: Store[Any, Any], incoming: Incoming, count: Count, recipe: Recipe,
                 progress: Optional[bool], rejects: Optional[Keeps] = None) -> None:
        self.store, self.name, self._ledger = store, incoming.name, store._ledger
        self._incoming, self._source, self._count, self._pace = incoming, incoming.source, count, recipe.pace
        self.recipe, self.rejects = recipe, rejects
        # What is called where rows were skipped and none is pending, with which this would be told.
        self.on_skipped: Callable[[], None] = lambda: None
        # What is called once another file took the place of this one at the recipe's path, and all is in that this one had then.
        self.on_left: Callable[[], None] = lambda: None
        # Rows that were read, the lines of those that are pending, and since when the first of these is.
        self._blocks: Deque[Block] = deque()
        self._lines: List[int] = []
        self._since = 0.0
        self._in = self._line = self._done = 0
        self._newest, self._has_expiry = -1, False
        # Which file it is, where one is followed, and how far a store's file had it in at first.
        self.mark: Optional[FeedMark] = None
        self.resumed = FeedPlace()
        # Who is told of each batch, and the step that was made and isn't given yet.
        self.teller = Teller(None)
        self._made: Deque[Followed] = deque()
        self._ending: Optional[Exception] = None
        self._is_stopped = self._is_done = False
        self._progress = Progress(f"following {self.name}", None, progress, "rows")
        self._calls = Calls()

    @property
    def _place(self) -> FeedPlace:
        begin, rejects = self._incoming.begin_before(self._done), 0 if self.rejects is None else self.rejects.size
        return FeedPlace(self._in, self._line, self._newest, self._source.place, self._source.mark, self._done, self._count.bad,
                         bool(self._blocks) or self._incoming.is_half, *begin, rejects)

    def _pass_over(self, place: FeedPlace) -> None:
        """Passes over what is in to a place, before the first step."""
        self._in, self._line, self._newest, self._done, self._count.bad = *place[:3], place.done, place.bad
        self._source.was_read(place.read, place.mark)
        self._incoming.go_on(place.done, Begin(place.lines, place.byte))

    def _resume(self, feeds: Mapping[str, str], mark: Optional[FeedMark]) -> None:
        """Goes on where a store's file has the feed in to, which knows these; without a mark of its own as is found there. Raises
        `FeedFault` where the path has another file by now, and the one before isn't in."""
        source = self._source
        if source.begin is None:
            return
        self.mark = mark or mark_of(self.name, source.descriptor, source.begin, feeds)
        self.resumed = self.mark.place
        if self.resumed.done:
            self._pass_over(self.resumed)
            if self.rejects is not None:
                self.rejects.go_on(self.resumed.rejects)
            if self.teller.on is not None:
                self.teller.tell_again(self.store, self.mark)

    @property
    def _reads_again(self) -> bool:
        """Whether what is in is read again, since it isn't known where a row begins."""
        return not self.resumed.byte and self.resumed.read > MOST_READ

    @property
    def _terms(self) -> Terms:
        return self._count.terms

    @property
    def last_bad(self) -> Optional[Rejected]:
        """The last row that was skipped, as a `Rejected`, or `None`.

        >>> print(following.last_bad)
        None
        """
        return self._count.last_bad

    @property
    def _half_line(self) -> bool:
        """Whether there is a last line that isn't whole yet, and so isn't in."""
        return self._incoming.is_half and not self._source.has_unread

    @property
    def _told(self) -> str:
        bad = f"; {self._count.bad} bad rows passed over" if self._count.bad and self._pace.skip_bad else ""
        return f"{self.name}: {self._in} rows to line {self._line} are in{bad}"

    def stop(self) -> None:
        """Ends the steps once everything that was read is in. Any thread may call it, and a signal's handler.

        >>> for step in following:
        ...     following.stop()
        >>> step.rows
        4
        """
        self._is_stopped = True
        self._source.ring()

    def close(self) -> None:
        """Closes the file. Rows that were read and aren't in stay pending in the store.

        >>> following.close()
        >>> list(following)
        []
        """
        self._is_done = True
        self._source.close()
        self._progress.end()

    def _step(self, output: Optional[int] = None) -> Followed:
        """Waits for the next commit. Raises `BrokenPipeError` where the reader of an output that is watched has gone."""
        while not self._made:
            if self._is_done:
                raise StopIteration
            self._progress.step(self._in - self._progress.count)
            if _is_interrupted():
                self._calls.make(self._go_on)
            else:
                self._go_on()
            if not (self._made or self._is_done) and self._source.wait(self._patience(), output):
                raise BrokenPipeError
        made, given = self._made[0], noting(operator.delitem, self._made, 0)
        None in given
        return made

    __next__ = _step

    def _patience(self) -> Optional[float]:
        """How long the next commit may wait for more rows; `None` where there is none to wait."""
        if self._blocks or self._is_ending:
            return 0.0
        return self._since + self._pace.every - time.monotonic() if self._lines else None

    @property
    def _is_ending(self) -> bool:
        """Whether no more is read."""
        return self._is_stopped or self._ending is not None or self._source.is_at_end

    def _is_due(self) -> bool:
        """Whether the rows that are pending are to be committed now."""
        if not self._lines:
            return False
        if len(self._lines) >= self._pace.room or self._is_ending and not self._blocks:
            return True
        return time.monotonic() >= self._since + self._pace.every

    def _go_on(self) -> None:
        """Reads what is there, or commits, where no step waits to be given. Runs in the thread, so that nothing breaks it off."""
        self.teller.tell(self._made)
        if self._made:
            return
        if not self._is_due():
            self._fill() if self._blocks else self._read()
        if self._is_due():
            self._commit()
            self.teller.tell(self._made)
        elif self._is_ending and not self._blocks and not self._lines:
            if self._ending is not None:
                raise self._ending
            self._is_done = True

    def _read(self) -> None:
        """Reads what is there. What is wrong with it is told when all before it is in."""
        if self._is_ending:
            return
        try:
            self._blocks.extend(self._incoming.blocks())
        except (StoreError, ValueError, OSError) as fault:
            self._ending = fault
        if self._source.is_left and not (self._blocks or self._lines or self._ending):
            left, self.on_left = self.on_left, lambda: None
            left()

    def _fill(self) -> None:
        """Makes rows operations that are pending, as many as the batch has room for."""
        block, room = self._blocks.popleft(), self._pace.room - len(self._lines)
        skipped = self._count.bad, self._count.last_bad
        if len(block.lines) > room:
            self._blocks.appendleft(part_of(block, slice(room, None)))
            block = part_of(block, slice(0, room))
        count = self._count
        right = count.written(block)
        self._done = block.lines[-1]
        if count.bad > skipped[0]:
            right = self._kept(right, skipped) if self._pace.skip_bad else self._before_the_first_bad(right)
        if not right.lines:
            if count.bad > skipped[0] and not self._lines:
                self.on_skipped()
            return
        self._since = self._since if self._lines else time.monotonic()
        self._ledger.kinds.update(dict.fromkeys(map(count.terms.names.to_user, dict.fromkeys(right.kinds))))
        rows: Any = zip(repeat(count.code), *right[1:6])
        self._ledger.pending.extend(rows)
        self._lines.extend(right.lines)
        self._newest = max(self._newest, *right.times)

    def _before_the_first_bad(self, right: Block) -> Block:
        """The rows before the first one that is bad; the feed ends there."""
        count = self._count
        advise(count.faults, Reading(self._pace.how.encoding, self._pace.how.decimal, count.terms.units, self._pace.how.dates))
        place = count.faults[0].place
        first = place.line if place else 0
        return self._before(first, right, BadRows(self.name, count.bad, count.rows, count.faults, count.fault_counts,
                                                  stands=f"those before line {first} are in, and none behind it"))

    def _kept(self, right: Block, before: Tuple[int, Optional[Rejected]]) -> Block:
        """Has the rows kept that were skipped. Where they can't be, the feed ends before the first of them, with as many skipped
        as before."""
        lines = None if self._count.bin is None else self._count.bin.emptied()
        if lines is None or self.rejects is None:
            return right
        try:
            self.rejects.append(lines)
        except StoreError as fault:
            self._count.bad, self._count.last_bad = before
            return self._before(lines.first, right, fault)
        return right

    def _before(self, line: int, right: Block, ending: Exception) -> Block:
        """The rows before a line; the feed ends there."""
        self._ending = ending
        self._blocks.clear()
        return part_of(right, slice(0, sum(it < line for it in right.lines)))

    def _commit(self) -> None:
        """Commits what is pending, which is to be told. Where that is refused or not answered all of it is pending still."""
        bound = self._newest - (self._pace.keep or 0)
        if self._pace.keep is not None and bound > 0 and not self._has_expiry:
            self._has_expiry = True  # (a batch that is sent again has its own)
            self._ledger.pending.append((*EXPIRY, bound))
        pending = self.store.pending
        names = [] if self.teller.on is None else vertices_of(self._ledger.pending)
        try:
            # (where a file keeps how far the feed is in they are one batch, a caller's own operations too: so none is in without)
            most = records.MOST_OPERATIONS if self.mark is None else MOST_AT_ONCE
            receipt = self._ledger.commit(True, most, self._told_place())
            self._ledger.taken.append(self._ledger.telling)
        except StoreError as fault:
            raise not_in(fault, self.name, self._lines, self._in, self.store.pending < pending) from fault
        self._take_in()
        newest = self._count.terms.units._time_to_user(self._newest)
        # (without that a bad row ends the feed, which is told then)
        skipped = (self._count.bad, self._count.last_bad) if self._pace.skip_bad else (0, None)
        step = Followed(receipt, self._in, skipped[0], self._line, newest, skipped[1], self._source.behind)
        self.teller.put(receipt.version, map(self._terms.names.to_user, names), step)

    def _told_place(self) -> Optional[str]:
        """How far the feed is in with what is pending, as a store's file has it."""
        if self.mark is None:
            return None
        return self.mark.written(self._place._replace(rows=self._in + len(self._lines), line=self._lines[-1]))

    def _take_in(self) -> None:
        self._in, self._line, self._lines = self._in + len(self._lines), self._lines[-1], []
        self._has_expiry = False

    def __enter__(self) -> Following:
        return self

    def __exit__(self, kind: Optional[Type[BaseException]], fault: Optional[BaseException],
                 trace: Optional[TracebackType]) -> None:
        self.close()

    def __repr__(self) -> str:
        return f"<Following of {self.name}: {self._in} rows in, {len(self._lines)} pending>"


def follow(store: Store[Any, Any], feed: Union[Path, Opened], *, by: str, every: Span = 1.0, keep: Optional[Span] = None,
           ahead: Optional[Span] = None, batch: int = records.MOST_OPERATIONS, until_end: bool = False,
           skip_bad: bool = False, rejects: Optional[Path] = None, progress: Optional[bool] = None, on: On = None,
           **read_as: Any) -> Following:
    """Follows a feed into a store. See `Store.follow`. One row with a time far ahead would remove all that is older, and a late
    row sets its edge's time back. Of a file its first bytes that were read, and the last ones, are looked at again with more of
    it; one that is replaced isn't followed into the new one."""
    must_be_way(by, batch)
    how = ReadAs(**read_as)
    terms = store._ledger.terms_for(how.units_given)
    kept = kept_time(keep, terms.units)
    pace = Pace(seconds_of(every), max(batch - (kept is not None), 1), kept, ahead_time(ahead, kept, terms.units),
                skip_bad or rejects is not None, rejects is not None, how)
    form = how.format or (form_of(feed, how.encoding) if isinstance(feed, (str, os.PathLike)) else "delimited")
    if form not in ("delimited", "snap"):
        raise ValueError(f"format is 'delimited' or 'snap' where a feed is followed, and not {form!r}")
    if store.pending:
        raise Uncommitted(f"{store.pending} operations are pending: commit or discard them before a feed is followed",
                          store._ledger.told_pending)
    turned(Feed("", ()), names=how.names)
    place = feed if isinstance(feed, (str, os.PathLike)) or rejects is None else feed.fileno()
    kept_rows = None if rejects is None else Rejects(rejects, how.encoding, place)
    path, mark = (feed.path, feed.mark) if isinstance(feed, Standing) else (None, None)
    following = following_of(store, feed, Recipe(form, by, batch, until_end, pace, path), terms, progress, kept_rows)
    following.teller.on = on
    try:
        following._resume(store._engine.feeds, mark)
    except FeedFault:
        following.close()
        raise
    return following


def following_of(store: Store[Any, Any], feed: Union[Path, Opened], recipe: Recipe, terms: Terms,
                 progress: Optional[bool], rejects: Optional[Keeps] = None) -> Following:
    """A feed that is followed into a store by a recipe. See `follow`."""
    how = recipe.pace.how
    source = Growing(feed, how.encoding, recipe.until_end, recipe.path)
    rows: Rows = (SnapRows(source.name, how.columns.default_kind, how.third) if recipe.form == "snap" else
                  DelimitedRows(source.name, how.columns, how.delimiter, how.header))
    store._ledger.take_terms(terms)
    count = Count(source.name, recipe.by, recipe.batch, terms, how.decimal)
    count.ahead, count.bin = recipe.pace.ahead, Bin() if recipe.pace.has_rejects else None
    return Following(store, Incoming(source, rows, how.notation, how.names), count, recipe, progress, rejects)
