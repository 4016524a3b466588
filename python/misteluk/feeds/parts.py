"""Batches of a feed that was counted, and how many blocks they need."""
from __future__ import annotations

from array import array
from collections import Counter
from itertools import repeat
from operator import lshift, or_, rshift
from typing import Any, Iterable, Iterator, List, NamedTuple, Sequence, Set, overload

from ..engine.operations import Numbered, Operations
from ..values import records

# More bits than a number of a name has.
BITS = 32


class Part(NamedTuple):
    """A batch of a feed: its operations, and where each came from."""

    columns: Numbered
    lines: "array[int]"

    @property
    def text(self) -> bytes:
        return Operations(columns=self.columns).text

    def some(self, rows: slice) -> "Part":
        return Part(self.columns.some(rows), self.lines[rows])

    def keys(self) -> "Iterator[int]":
        """The edges by number: kind, source and target in one."""
        ends = map(or_, map(lshift, self.columns.sources, repeat(BITS)), self.columns.targets)
        if len(self.columns.of_kinds.numbers) == 1:
            return ends
        return map(or_, map(lshift, self.columns.kinds, repeat(2 * BITS)), ends)

    def __repr__(self) -> str:
        return f"<Part of {len(self.lines)} records>"


class Parts(Sequence[Part]):
    """The batches of a feed: all its operations, and after how many of them each batch ends. One is made when it is asked for."""

    def __init__(self, whole: Part, ends: Sequence[int]) -> None:
        self.whole, self.ends = whole, ends

    @staticmethod
    def of(whole: Part, size: int) -> "Parts":
        """Batches of this size, of which the last one may be smaller."""
        count = len(whole.lines)
        return Parts(whole, [min(at + size, count) for at in range(0, count, size)])

    def __len__(self) -> int:
        return len(self.ends)

    @overload
    def __getitem__(self, at: int) -> Part: ...

    @overload
    def __getitem__(self, at: slice) -> List[Part]: ...

    def __getitem__(self, at: Any) -> Any:
        places = range(len(self))[at]
        return self.joined(places, places + 1) if isinstance(places, int) else [self[it] for it in places]

    def before(self, at: int) -> int:
        """How many operations come before the batch of this number."""
        return self.ends[at - 1] if at else 0

    def joined(self, first: int, end: int) -> Part:
        """The operations of several batches, as one."""
        return self.whole.some(slice(self.before(first), self.ends[end - 1]))

    def cut(self, rows: int) -> "Parts":
        """The same, where a batch ends after so many operations."""
        return Parts(self.whole, sorted({*self.ends, *((rows,) if 0 < rows < len(self.whole.lines) else ())}))

    def __repr__(self) -> str:
        return repr(self[:])


class Need(NamedTuple):
    """What a batch needs: as many free blocks as it has operations, beside those that the feed's edges before it take."""

    before: int
    operations: int

    def beside(self, used: int) -> int:
        """How many blocks the batch needs where so many are used already."""
        return max(self.before, used) + self.operations


class Counted(NamedTuple):
    """How many edges parts have, and the blocks that these take; and what the last two batches need, since none before them needs
    as many blocks: each has as many operations and less before it."""

    edges: int
    blocks: int
    needs: List[Need]


def counted(parts: Parts) -> Counted:
    first = parts.whole.some(slice(parts.before(max(len(parts) - 2, 0))))
    blocks, needs = Blocks(set(first.keys())), []
    for part in parts[-2:]:
        needs.append(Need(blocks.count, len(part.lines)))
        blocks.put(part.keys())
    return Counted(len(blocks.edges), blocks.count, needs)


class Blocks:
    """How many blocks edges take. Those of one kind and source share them."""

    def __init__(self, edges: Set[int]) -> None:
        self.edges = edges
        self._counts = Counter(map(rshift, edges, repeat(BITS)))

    @property
    def count(self) -> int:
        return sum(-(-it // records.BLOCK_EDGES) for it in self._counts.values())

    def put(self, keys: Iterable[int]) -> None:
        new = set(keys).difference(self.edges)
        self._counts.update(map(rshift, new, repeat(BITS)))
        self.edges |= new
