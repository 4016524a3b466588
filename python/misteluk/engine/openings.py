"""Which operations an empty store may open with in one step, so that nobody can tell it from one that took them in batches."""
from __future__ import annotations

from .calling import MOST_AT_ONCE
from .operations import ADD, EXPIRE, REMOVE, Numbered
from .protocol import LIBRARY, Engine
from ..values import records
from ..values.fields import numpy_for
from ..values.limits import MOST_WEIGHT

# Among so many sums, a power of two, amounts are counted by their edges; and what parts edges of one target.
SUMS, MIX = 1 << 20, 0x9E37_79B1


def may_open(engine: Engine) -> bool:
    """Whether a store is empty, and in this process."""
    return engine.name == LIBRARY and not engine.stat().vertices


def most_blocks(edges: int, names: int, kinds: int) -> int:
    """How many blocks so many edges take at most, between so many names and of so many kinds."""
    return min(edges, names * kinds) + edges // records.BLOCK_EDGES


def as_batches(engine: Engine, operations: Numbered) -> int:
    """As how many batches operations count with which a store may open. They are as large as can be; a store with so many blocks
    and no more has batches that find room there, and 0 says that it is to have them. So it does where an operation takes an edge
    away, or may overflow: an opening doesn't count these."""
    count, parts = len(operations.codes), -(-len(operations.codes) // records.MOST_OPERATIONS)
    most = MOST_AT_ONCE // records.MOST_OPERATIONS
    names, kinds = len(operations.of_names.encoded[1]), len(operations.of_kinds.encoded[1])
    used = most_blocks(count, names, kinds) if parts > most else 0
    has_room = engine.grows or parts == 1 or engine.stat().free - used >= min(parts, most) * records.MOST_OPERATIONS
    is_plain = not (operations.has(REMOVE) or operations.has(EXPIRE))
    if not has_room or not is_plain or may_overflow(operations, engine.limits.weight or MOST_WEIGHT):
        return 0
    return -(-parts // most)


def may_overflow(operations: Numbered, most: int) -> bool:
    """Whether a weight may be greater in size than this, or what amounts make of one: whether it isn't seen at once that none
    is."""
    adds, numpy = operations.has(ADD), numpy_for(len(operations.codes))
    if numpy is None:
        few = [abs(it) for it in operations.weights]
        return max(few, default=0) > most or adds and sum(few) > most
    sizes = abs(numpy.asarray(operations.weights))
    if sizes.max() > most or not adds:
        return bool(sizes.max() > most)
    if sizes.sum(dtype="float64") <= most:  # (it is exact up to 2^53, and greater than that where it isn't)
        return False
    # The amounts of an edge are summed together, perhaps with those of some others.
    sources, targets = map(numpy.asarray, operations[2:4])
    sums = numpy.bincount((sources * numpy.uint32(MIX) ^ targets) & numpy.uint32(SUMS - 1), sizes)
    return bool(sums.max() > most)
