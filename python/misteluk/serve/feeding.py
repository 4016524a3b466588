"""The one who feeds a server's store: a file that is followed, standard input, or a client that posts rows."""
from __future__ import annotations

import secrets
import threading
import time
from collections import deque
from contextlib import contextmanager
from itertools import chain
from typing import Any, Callable, Deque, Dict, Iterable, Iterator, List, Mapping, Optional, Sequence, Tuple

from . import log
from .board import Board
from .checking import checked_operations, checked_rows, seen_rows
from .limits import ServerLimits, TooLarge
from .log import without_paths
from .people import EVERYONE, Person
from .posts import WaitingPost
from .rate import Rate
from .readers import Others, Readers
from ..engine.calling import MOST_AT_ONCE
from ..engine.operations import Operations, Post, Row, row_of
from ..engine.protocol import Denied
from ..errors import Busy, SessionClosed, StoreError, refusal
from ..feeds.apart import Applied, Apart
from ..feeds.feed import parts_of
from ..feeds.following import Following
from ..journal.engine import Journaled
from ..store import Store
from ..values import records
from ..values.answers import Commit, sum_of
from ..values.names import is_plain

# Of how many clients that fed before it is remembered what their last batch did.
FEEDERS = 100


class Feeder:
    """A client's seat as the one that feeds: the number of its last batch, and what that did."""

    def __init__(self, heard: float, owner: Person) -> None:
        self.name, self.heard, self.number, self.owner = secrets.token_urlsafe(15), heard, 0, owner
        self.receipt: Optional[Commit] = None


class Feeding:
    """Who feeds the store, one at a time; another one is told `Busy`."""

    def __init__(self, board: Board, limits: ServerLimits, clock: Callable[[], float] = time.monotonic) -> None:
        self.board, self.store, self.limits, self._clock = board, board.store, limits, clock
        self.rate = Rate(clock)
        self.state, self.fault, self.reason = "open", "", ""
        self.expired = 0
        self._lock = threading.RLock()
        self._feeder: Optional[Feeder] = None
        self._before: Deque[Feeder] = deque(maxlen=FEEDERS)
        self.readers = Readers(self._took, self._ended, board.precedence.of_feed)
        self._is_over = False
        # Whether a followed file was read to its end once.
        self._is_read = False

    # A feed that is followed.

    def follow(self, following: Following, others: Optional[Others] = None) -> None:
        """Has a feed go in by a thread and a process of their own, until it ends or `close` ends it; and those files too that
        take the place of its own."""
        self.state, self._is_read = "followed", False
        self.readers.begin(following, others)

    def _took(self, step: Applied, rows: int) -> None:
        self.rate.add(rows)
        self.expired += step.commit.expired
        with self.board.precedence.of_feed():
            self.board.advance()

    def _ended(self, following: Apart, fault: Optional[BaseException]) -> None:
        self.state = "ended" if fault is None else "failed"
        if fault is None:
            return
        place = place_of(self.store)
        told = str(fault).replace(place, "the store's file") if place else str(fault)
        self.fault, self.reason = getattr(fault, "word", "") or type(fault).__name__, without_paths(told, following.name)
        is_meant = isinstance(fault, (StoreError, ValueError, OSError))
        log.fault(f"the feed ended: {fault}", None if is_meant else fault, f"the feed ended: {self.reason}")
        self.store.discard()
        self.board.advance()

    # A client that feeds.

    @property
    def _is_followed(self) -> bool:
        return self.state == "followed"

    def claim(self, person: Person = EVERYONE) -> Feeder:
        """The seat. Raises `Busy` where it is taken, but by a client that was silent too long."""
        with self._lock:
            self._must_be_free()
            self._leave()
            self._feeder = Feeder(self._clock(), person)
            return self._feeder

    def _must_be_free(self) -> None:
        """Raises `Busy` where somebody else feeds the store, or nobody may any more."""
        self._must_go_on()
        if self._is_followed:
            raise Busy("this server follows a feed of its own")
        if self._feeder is not None and self._feeder.heard > self._clock() - self.limits.idle:
            raise Busy("another client feeds this store")

    def _must_go_on(self) -> None:
        if self._is_over:
            raise Busy("this server ends, and takes no more rows: ask the next one")

    def _known(self, name: str, person: Person = EVERYONE) -> Feeder:
        if self._feeder is None or self._feeder.name != name:
            raise SessionClosed(f"this client doesn't feed the store any more: it gave its seat back, or was silent for "
                                f"{self.limits.idle:g} s")
        person.must_own(self._feeder.owner, "seat")
        self._feeder.heard = self._clock()
        return self._feeder

    def let_go(self, name: str, person: Person = EVERYONE) -> None:
        with self._lock:
            self._known(name, person)
            self._leave()

    def _leave(self) -> None:
        if self._feeder is not None and self._feeder.number:
            self._before.append(self._feeder)
        self._feeder = None

    def batch(self, name: str, number: int, text: str, texts: Mapping[str, str], collect: bool,
              person: Person = EVERYONE) -> Commit:
        """Applies a batch of records in the engine's terms, once for each number. `texts` has those of ids."""
        with self._lock:
            feeder = self._known(name, person)
            if feeder.number != number:
                self._must_go_on()
                operations = checked_operations(text)
                operations.feeder = None if person == EVERYONE else person.name
                self._take_texts(texts)
                feeder.receipt, feeder.number = self._apply(operations, collect), number
                self.board.advance()
            if feeder.receipt is None:
                raise SessionClosed(f"batch {number} was given up")
            return feeder.receipt

    def landed(self, name: str, number: int, person: Person = EVERYONE) -> Optional[Commit]:
        """What the batch of this number did, also where the client has lost its seat by now; `None` where it didn't come, and
        then it can't any more."""
        with self._lock:
            before = next((it for it in self._before if it.name == name), None)
            if before is not None:
                person.must_own(before.owner, "seat")
                return before.receipt if before.number == number else None
            feeder = self._known(name, person)
            if feeder.number != number:
                feeder.receipt, feeder.number = None, number
            return feeder.receipt

    def publish(self) -> None:
        """Has what was fed become the newest version, but no part of a post."""
        with self._lock:
            self.board.publish()

    def _take_texts(self, texts: Mapping[str, str]) -> None:
        """Takes the texts of ids, which are made of them: no client can tell another text for one."""
        names = self.store._ledger.terms.names
        for name, text in texts.items():
            if is_plain(text) or names.to_program(text, keep=False) != name:
                raise refusal("BadName", f"{name} is no id of {text!r}")
        for text in texts.values():
            names.to_program(text)

    def _apply(self, operations: Operations, collect: bool) -> Commit:
        engine = self.store._engine
        before = engine.stat().version
        with self.board.precedence.of_feed():
            receipt = engine.fly(engine.flight(operations, collect))
        if receipt.version > before:  # (else it was applied before, by its key)
            self._count(operations, receipt)
        return receipt

    def _count(self, operations: Operations, receipt: Commit) -> None:
        self.board.recent.note(receipt.version, operations)
        self.rate.add(operations.size)
        self.expired += receipt.expired

    # Rows in the user's terms.

    def rows(self, posts: Sequence[WaitingPost]) -> None:
        """Applies the rows of posts, each an operation's word and fields, in batches; all of a post are checked before. With a
        key they are one batch, and a repeat gets the first one's answer. Where another feeds the store the answer is `Busy`.
        Posts go in together, by one write and one sync, as far as that can be."""
        with self._lock:
            self._take(posts)

    def _take(self, posts: Sequence[WaitingPost]) -> None:
        together: List[Tuple[WaitingPost, Deque[List[Row]]]] = []
        size = 0
        try:
            for post in posts:
                found = self._checked(post)
                count = sum(map(len, found))
                if size + count > records.MOST_OPERATIONS:
                    self._answer(together)
                    together, size = [], 0
                together, size = together + [(post, found)] * bool(found), size + count
            self._answer(together)
        finally:
            self.board.advance()

    def _checked(self, post: WaitingPost) -> Deque[List[Row]]:
        """The batches of a post; none where it is refused."""
        try:
            if post.name is None:
                self._must_be_free()
                self._leave()
            else:
                self._known(post.name, post.person)
            found = self._records(post.rows)
            if not found:
                raise ValueError("there are no rows")
            if post.key is not None and sum(map(len, found)) > MOST_AT_ONCE:
                raise TooLarge(f"a post with an Idempotency-Key has at most {MOST_AT_ONCE:,} rows: send several")
            return found
        except Exception as fault:
            post.fault = fault
            return deque()

    def _answer(self, posts: "Sequence[Tuple[WaitingPost, Deque[List[Row]]]]") -> None:
        """Applies checked posts, all at once where that can be, and else one after another."""
        if len(posts) > 1 and self._are_in_at_once(posts):
            return
        for post, found in posts:
            try:
                post.answer = (self._in_batches(found, post.person) if post.key is None else
                               self._once(found, post.person, post.key))
            except Exception as fault:
                post.fault = fault

    def _are_in_at_once(self, posts: "Sequence[Tuple[WaitingPost, Deque[List[Row]]]]") -> bool:
        """Whether posts of one batch each went in by one write and one sync, or were refused by that."""
        engine = self.store._engine
        if not isinstance(engine, Journaled):
            return False
        batches = [self._batch(found[0], post.person, post.key) for post, found in posts]
        try:
            with self.board.precedence.of_feed():
                done = engine.fly_all([engine.flight(it, it is batches[-1]) for it in batches])
        except StoreError as fault:
            for post, _ in posts:
                post.fault = fault
            return True
        for (post, _), batch, receipt in zip(posts, batches, done):
            post.answer = receipt
            self._count(batch, receipt)
        return bool(done)

    @staticmethod
    def _batch(rows: Sequence[Row], person: Person, key: Optional[str] = None) -> Operations:
        batch = Operations(rows, post=None if key is None else Post(key, None))
        batch.feeder = None if person == EVERYONE else person.name
        return batch

    def _once(self, found: Deque[List[Row]], person: Person, key: str) -> Commit:
        """Applies rows as one batch, once for each key of a person."""
        try:
            return self._apply(self._batch(list(chain.from_iterable(found)), person, key), True)
        except Denied as fault:
            raise refusal(fault.word, "nothing of this post is in", advice=fault.advice) from None

    def _in_batches(self, found: Deque[List[Row]], person: Person) -> Commit:
        done: List[Commit] = []
        with one_by_one(found):
            while found:
                try:
                    done.append(self._apply(self._batch(found.popleft(), person), True))
                except Denied as fault:
                    first = len(done) * records.MOST_OPERATIONS + 1
                    raise refusal(fault.word, f"the rows before row {first} are in, and none behind it") from None
            return sum_of(done)

    def _records(self, rows: Iterable[Sequence[str]]) -> Deque[List[Row]]:
        """The operations of rows, by batches, which are looked at as they are read. Raises a `Refused` for the first row that is
        none; no name is kept then."""
        terms, ledger = self.store._ledger.terms, self.store._ledger
        parts: "Deque[Tuple[Sequence[Sequence[str]], Optional[List[Row]]]]" = deque()
        found: Deque[List[Row]] = deque()
        count = 0
        with one_by_one(parts):
            for part in parts_of(rows, records.MOST_OPERATIONS):
                self._must_go_on()
                seen = seen_rows(part, terms)
                parts.append((checked_rows(part, count + 1, terms), None) if seen is None else ((), seen))
                count += len(part)
            self._must_go_on()
            while parts:
                asked, seen = parts.popleft()
                operations = [row_of(terms.turned(fields)[0]) for fields in asked] if seen is None else seen
                kinds = [it[1] for it in operations] if seen is not None else [it[1] for it in asked if it[0] != "x"]
                ledger.kinds.update(dict.fromkeys(kinds))
                found.append(operations)
        return found

    # What is told, and the end.

    @property
    def is_reading(self) -> bool:
        """Whether a followed file wasn't read to its end yet, since the server began."""
        following = self.readers.last
        self._is_read = self._is_read or following is None or not self._is_followed or not following.behind
        return not self._is_read

    def told(self) -> Dict[str, Any]:
        """Who feeds the store, and how fast."""
        state, by = self.state, {}
        if self._feeder is not None and self._feeder.heard > self._clock() - self.limits.idle and not self._is_followed:
            state, by = "a client feeds", {"by": self._feeder.owner.name}
        readers, following = self.readers, self.readers.last
        is_half = following is not None and following.ended_half
        is_replaced = following is not None and self._is_followed and following.is_replaced
        return {"state": state, **by, "rows": self.rate.total, "rows_a_second": round(self.rate.a_second(), 1),
                "bad": readers.bad, "expired": self.expired, **_told_of_rows(following),
                **({"half_line": True} if is_half else {}), **({"readers_killed": readers.killed} if readers.killed else {}),
                **({"replaced": True} if is_replaced else {}),
                **({"rotated": readers.rotated, "late": readers.late} if readers.rotated else {}),
                **({"lost": readers.lost} if readers.lost else {}),
                **({"error": self.fault, "reason": self.reason} if self.fault else {})}

    def close(self) -> None:
        """Ends the feed: what was read of one that is followed goes in, and so does what is being applied; nothing does later."""
        self._is_over = True
        self.readers.stop()
        with self._lock:  # (which a batch has as long as it is being applied)
            pass


def place_of(store: "Store[Any, Any]") -> str:
    """Where a store's file is; nothing for a store without."""
    return store._engine.place if isinstance(store._engine, Journaled) else ""


@contextmanager
def one_by_one(parts: Deque[Any]) -> Iterator[None]:
    """Lets go what is left of the parts, each by itself: to let a million rows go is a step too long for those who wait."""
    try:
        yield
    finally:
        while parts:
            parts.popleft()


def _told_of_rows(following: Optional[Apart]) -> Dict[str, Any]:
    """The last row of a feed that was passed over, and how many bytes of it are left to read."""
    if following is None:
        return {}
    last, behind = following.last_bad, following.behind
    told = None if last is None else {"line": last.line, "reason": without_paths(last.reason, following.name)}
    return {**({} if told is None else {"last_bad": told}), **({} if behind is None else {"behind": behind})}
