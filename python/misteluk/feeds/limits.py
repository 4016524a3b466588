"""What a feed can't be loaded for, told before anything is sent, and what to do about it."""
from __future__ import annotations

from typing import TYPE_CHECKING, Any

from ..values import records
from ..errors import BadRows, OverLimit, PoolEmpty
from ..values.limits import MOST_BLOCKS, Limits

if TYPE_CHECKING:
    from .surveys import Survey
    from ..store import Store


def _smaller(found: "Survey", blocks: int, used: int) -> str:
    """Whether smaller batches would fit in so many blocks, of which the edges and what is there take so many at most."""
    room = min(blocks - used, records.MOST_OPERATIONS)
    if room < 1 or -(-(found.rows - found.bad) // room) > records.MOST_BATCHES:
        return "smaller batches don't help: the edges need nearly all blocks, or more than there are"
    return f"a batch needs as many free blocks as it has operations: batches of {room} fit (batch={room}, --batch {room})"


def check(found: "Survey", *, skip_bad: bool = False, limits: Limits = Limits(), most_blocks: int = MOST_BLOCKS) -> None:
    """Raises where rows are bad (unless they are to be passed over), and where the feed is more than an empty store takes that
    has these limits, and at most so many blocks."""
    if found.bad and not skip_bad:
        raise BadRows(found.feed, found.bad, found.rows, found.faults, found.fault_counts)
    over = limits._over(found.vertices, len(found.kinds))
    advice = f"{limits._advice}. " if over else ""
    if not found._surely_fits(most_blocks) and found.needed > most_blocks:
        over.append(f"{found.blocks} blocks for its edges and {found.needed} for its batches, where a store has at most "
                    f"{most_blocks}; {_smaller(found, most_blocks, found.blocks)}")
    if over:
        raise OverLimit(f"{found.feed} has {'; '.join(over)}. {advice}Nothing is loaded", found.counts())


def check_room(store: "Store[Any, Any]", found: "Survey", used: int) -> None:
    """Raises where the store's blocks can't be enough: the edges before a batch take at least those that they need alone, or
    those in use now."""
    store._engine.fit(found.vertices, len(found.kinds), used + found._room)
    needed = 0 if found._surely_fits(store.blocks, used) else found._needed_beside(used)
    if needed > store.blocks:
        text = (f"{found.feed} needs at least {needed} blocks in batches of {found._largest}, and the "
                f"store was made with {store.blocks}; nothing was sent")
        raise PoolEmpty(needed=needed, free=store.blocks - used, text=text, advice=_room_advice(store, found, used))


def _room_advice(store: "Store[Any, Any]", found: "Survey", used: int) -> str:
    """What helps where a store has too few blocks: more of them where there can be, and smaller batches where they fit."""
    needed = found._needed_beside(used)
    more = f"Make the store with blocks={needed} or more" if needed <= store._engine.most_blocks else ""
    fewer = f"{'Make it empty, or free' if used else 'Free'} blocks first" if not more else ""
    smaller = _smaller(found, store.blocks, max(found.blocks, used))
    return "; ".join(it for it in (more or fewer, smaller) if it)
