"""Which vertices a batch touched: those that its rows name. Who follows a feed is told of each batch, once it is in.

A kill may come behind a batch and before the call that tells of it. So where a store's file has the feed, a restart tells of its
last batch again: what it touched the file says.
"""
from __future__ import annotations

from collections import deque
from dataclasses import dataclass
from typing import TYPE_CHECKING, Any, Callable, Deque, Iterable, Optional, Tuple

from .steps import FeedMark, Followed
from ..errors import FeedFault

if TYPE_CHECKING:
    from ..store import Store


@dataclass(frozen=True)
class Touched:
    """A batch of a feed: the version that it made, and the vertices that its rows name, each once, in the order of the rows.

    >>> batches = []
    >>> with store.follow("roads.csv", by="set", columns=columns, until_end=True, on=batches.append) as following:
    ...     steps = list(following)
    >>> batches
    [Touched(version=2, names=('kassel', 'fulda', 'hanau', 'bonn'))]

    The ends of edges that expired (`Commit.expired`) are not among the names."""

    version: int
    names: Tuple[str, ...]


On = Optional[Callable[[Touched], object]]


class Teller:
    """Tells of batches in their order, and has the step of each only then. Where the call fails the same batch is told again."""

    def __init__(self, on: On) -> None:
        self.on = on
        self._waiting: "Deque[Tuple[Touched, Optional[Followed]]]" = deque()

    def put(self, version: int, names: Iterable[str], step: Optional[Followed] = None) -> None:
        self._waiting.append((Touched(version, tuple(names)), step))

    def tell(self, made: "Deque[Followed]") -> None:
        """Tells of the batches that wait; the step of each is made then."""
        while self._waiting:
            touched, step = self._waiting[0]
            if self.on is not None:
                self.on(touched)
            made.extend([] if step is None else [step])
            self._waiting.popleft()

    def tell_again(self, store: "Store[Any, Any]", mark: FeedMark) -> None:
        """Takes the last batch of a feed that a store's file has in to this mark. Raises `FeedFault` where the file doesn't have
        that batch any more."""
        engine: Any = store._engine
        found = engine.last_of_feed(mark)
        if found is None:
            raise FeedFault(f"the last batch of {mark.path} isn't in the store's file any more, so which vertices it touched "
                            "isn't known: look at the last version, and follow without `on` until the next batch is in")
        self.put(found[0], map(store._ledger.terms.names.to_user, found[1].vertices()))
