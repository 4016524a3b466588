"""Batches that a replay applies as one, since nobody asks what each of them did.

Operations that come one after another leave the same, however they are parted into batches. So a replay's batches have more
operations, which costs less for each; and an empty store opens with insertions, which costs least. What a producer's last batch
did is asked again, and what each key's did: these are applied alone.
"""
from __future__ import annotations

from typing import Dict, Iterable, Iterator, List, Sequence, Tuple, Union

from .tables import Written
from ..errors import JournalFault

# How many operations are applied as one at most, and with how many an empty store opens.
MOST_JOINED, MOST_OPENED = 1 << 14, 1 << 20
# What begins the records that no store opens with: removals and expiries.
_NOT_PLAIN = b"r,", b"x,"


def checked(rows: Iterable[Written], version: int, found: bytes) -> Iterator[Written]:
    """The batches behind a version, whose batch has this sum. Raises `JournalFault` for the first one that isn't the next one, or
    not as it was written."""
    for row in rows:
        version += 1
        if row.version != version:
            raise JournalFault(f"version {version} is missing, where {row.version} is there")
        if row.summed(found).sum != row.sum:
            raise JournalFault(f"the batch of version {version} isn't as it was written")
        found = row.sum
        yield row


def joined(rows: Iterable[Written], opens: bool) -> Iterator[List[Written]]:
    """Batches in their order, those together that may go in as one, where the first ones may open a store. What is raised where
    they are read is raised once those before it were given."""
    some: List[Written] = []
    most, size, fault = MOST_OPENED if opens else MOST_JOINED, 0, None
    try:
        for row in rows:
            ends = row.drops or size + row.operations > most
            if opens and (ends or not is_plain(row)):  # (what comes behind them is for a store that has something)
                ends, opens, most = True, False, MOST_JOINED
            if some and ends:
                yield some
                some, size = [], 0
            some.append(row)
            size += row.operations
    except Exception as caught:
        fault = caught
    if some:
        yield some
    if fault is not None:
        raise fault


def is_plain(row: Written) -> bool:
    """Whether a batch has insertions and additions alone."""
    text = row.records
    return not text.startswith(_NOT_PLAIN) and not any(b"\n%b" % it in text for it in _NOT_PLAIN)


def parted(rows: Sequence[Written]) -> Iterator[Tuple[List[Written], bool]]:
    """Batches in their order, some together, and whether what they do is asked again: that is one of its own then."""
    last: Dict[Union[str, Tuple[str, str]], int] = {}
    for row in rows:
        if row.producer is not None:
            last[row.producer if row.sequence is not None else (row.feeder or "", row.producer)] = row.version
    asked = set(last.values())
    some: List[Written] = []
    for row in rows:
        if row.version in asked and some:
            yield some, False
            some = []
        some.append(row)
        if row.version in asked:
            yield some, True
            some = []
    if some:
        yield some, False
