"""What batches brought, for who keeps something from version to version."""
from __future__ import annotations

from itertools import chain
from typing import TYPE_CHECKING, Dict, List, Optional, Tuple

if TYPE_CHECKING:
    from .calling import LibraryFlight
    from .held import LibraryVersion

# How many operations are kept at most, and how many names a batch may have.
MOST = 1 << 14


class News:
    """The ends of the edges that batches inserted or added to, and how many of these are new, by version, as long as the
    operations are few. Each batch is heard of once it is in, and before its version can be held."""

    def __init__(self) -> None:
        self._heard: Dict[int, Tuple[int, List[Tuple[str, str]]]] = {}
        self._size = 0

    def hear(self, flight: LibraryFlight) -> None:
        """Takes a batch that is in. (An interrupt may have it come again.)"""
        done, batch = flight.receipt, flight.batch
        assert done is not None  # (it is in)
        self._size += batch.size
        if self._size > MOST:
            self._heard.clear()
            self._size = 0
        elif not done.overflowed:  # (an operation that does may leave its ends without an edge)
            ends = batch.ends(MOST)
            if ends is not None:
                self._heard[done.version] = done.inserted, ends

    def since(self, earlier: LibraryVersion, later: LibraryVersion) -> Optional[List[Tuple[str, str]]]:
        """The ends that came from one version to a later one; `None` where an edge was taken away, so that there are fewer more
        than were inserted, or where not all is known. What was heard by then is forgotten."""
        heard = {it: self._heard.pop(it) for it in sorted(self._heard) if it <= later.number}
        new = [heard[it] for it in range(earlier.number + 1, later.number + 1) if it in heard]
        self._size = 0
        if (earlier.is_open and earlier._known is later._known and len(new) == later.number - earlier.number
                and sum(count for count, _ in new) == later._edges - earlier._edges):
            return list(chain.from_iterable(ends for _, ends in new))
        self._heard.clear()  # (of numbers that a store which started over gives again)
        return None
