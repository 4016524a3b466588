"""How many blocks the edges of a copy take, operation by operation."""
from __future__ import annotations

from array import array
from itertools import repeat
from operator import add
from typing import Any, Dict, Set, Tuple

from .operations import REMOVE, Numbered
from ..values import records
from ..values.fields import numpy_for

# How many bits a number of a name has, at most.
NAME_BITS = 27


class Room:
    """How many blocks the edges take behind each operation of a copy, in a store that is collected behind each batch."""

    def __init__(self, operations: Numbered) -> None:
        numpy = numpy_for(len(operations.codes))
        self.behind = used_behind(operations) if numpy is None else used_at_once(numpy, operations)

    def needed(self, batch: int) -> int:
        """How many blocks batches of this size need: each as many free ones as it has operations."""
        count = len(self.behind) - 1
        whole = count // batch * batch
        most = max(map(add, self.behind[:whole:batch], repeat(batch)), default=0)
        return max(most, self.behind[whole] + count - whole) if whole < count else most

    def fitting(self) -> int:
        """How many blocks a store needs, the usual number or more; batches are smaller where it would be more than a program has,
        unless even one operation finds none there."""
        needed = max(records.USUAL_BLOCKS, self.needed(records.MOST_OPERATIONS))
        return min(needed, records.MOST_BLOCKS) if self.needed(1) <= records.MOST_BLOCKS else needed

    def batch(self, blocks: int) -> int:
        """The size of batches for which so many blocks are enough, or 0."""
        size = records.MOST_OPERATIONS
        while size and self.needed(size) > blocks:
            size //= 2
        return size


def used_behind(operations: Numbered) -> "array[int]":
    """The blocks that are used before the first operation and behind each, one by one."""
    behind = array("I", [0])
    edges: Set[Tuple[int, ...]] = set()
    degrees: Dict[Tuple[int, ...], int] = {}
    used = 0
    for code, *ends in zip(*operations[:4]):
        edge, source = tuple(ends), tuple(ends[:2])
        degree = degrees.get(source, 0)
        if code == REMOVE:
            edges.remove(edge)
            degrees[source] = degree - 1
            used -= (degree - 1) % records.BLOCK_EDGES == 0
        elif edge not in edges:
            edges.add(edge)
            degrees[source] = degree + 1
            used += degree % records.BLOCK_EDGES == 0
        behind.append(used)
    return behind


def used_at_once(numpy: Any, operations: Numbered) -> "array[int]":
    """The same by whole columns."""
    codes, kinds, sources, targets = (numpy.asarray(it).astype("int64") for it in operations[:4])
    # An edge is there behind an operation on it that is no removal.
    is_there = codes != REMOVE
    order, is_first = _by_key(numpy, (kinds << NAME_BITS | sources) << NAME_BITS | targets)
    was_there = numpy.zeros(len(codes), dtype=bool)
    was_there[order[1:]] = is_there[order[:-1]] & ~is_first[1:]
    more = is_there.astype("int64") - was_there
    # The edges of a kind and source, behind each operation on them.
    order, is_first = _by_key(numpy, kinds << NAME_BITS | sources)
    degrees = numpy.cumsum(more[order])
    begins = numpy.flatnonzero(is_first)
    before = numpy.concatenate([[0], degrees])[begins]
    degrees -= numpy.repeat(before, numpy.diff(numpy.append(begins, len(codes))))
    taken = numpy.empty(len(codes), dtype="int64")
    taken[order] = _blocks(degrees) - _blocks(degrees - more[order])
    return array("I", numpy.concatenate([[0], numpy.cumsum(taken)]).astype("uint32").tobytes())


def _blocks(degrees: Any) -> Any:
    return -(-degrees // records.BLOCK_EDGES)


def _by_key(numpy: Any, keys: Any) -> "Tuple[Any, Any]":
    """The places in order of their keys, and where each key comes first in that order."""
    order = numpy.argsort(keys, kind="stable")
    in_order = keys[order]
    is_first = numpy.ones(len(keys), dtype=bool)
    is_first[1:] = in_order[1:] != in_order[:-1]
    return order, is_first
