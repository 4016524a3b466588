"""What is known of a feed that is followed: how it is, what each commit did, and how far it is in."""
from __future__ import annotations

import json
import os
from dataclasses import dataclass
from typing import Any, Callable, List, Mapping, NamedTuple, Optional, Sequence, Tuple

from .opening import ReadAs
from .rejects import Rejected
from ..errors import NoAnswer, PoolEmpty, Refused, StoreError, refusal
from ..values.answers import Commit


@dataclass(frozen=True)
class Followed:
    """A commit of a feed that is followed, and how far the feed is in after it.

    >>> step = next(following)
    >>> step.commit.version, step.rows, step.line, step.newest
    (2, 4, 5, 4)

    `rows` counts the rows that are in, and `bad` those that were skipped, of which `last_bad` is the last. `line` is the line of
    the last row, `newest` the newest time of all rows, in the store's units, and `behind` how many bytes of a file aren't read
    yet."""

    commit: Commit
    rows: int
    bad: int
    line: int
    newest: Any
    last_bad: Optional[Rejected] = None
    behind: Optional[int] = None

    def __str__(self) -> str:
        done = self.commit
        counts = [(done.inserted, "inserted"), (done.updated, "updated"), (done.expired, "expired"),
                  (done.overflowed, "amounts NOT added or set, since weights would leave their limits"),
                  (self.bad, "bad rows passed over")]
        told = ", ".join(f"{count} {word}" for count, word in counts if count) or "nothing changed"
        return f"version {done.version}: {self.rows} rows to line {self.line}, {told}; newest {self.newest}"


def not_in(fault: StoreError, name: str, lines: Sequence[int], before: int, applied: bool) -> StoreError:
    """The fault of a commit, with the rows of a feed that aren't in, by their lines, behind so many that are; not all of them are
    where something was applied, as a caller's own batch."""
    rows = f"{len(lines)} rows of {name}, lines {lines[0]} to {lines[-1]},"
    stands = f"{rows} are not {'all ' if applied else ''}in, and pending still; {before} rows before them are in"
    if isinstance(fault, PoolEmpty):
        free = "" if fault.free is None else f", and {fault.free} are free"
        text = f"{stands}. The batch needs {fault.needed} free blocks{free}"
        return PoolEmpty(needed=fault.needed, free=fault.free, text=text, advice=fault.advice)
    if isinstance(fault, Refused):
        return refusal(fault.word, stands, advice=fault.advice)
    if isinstance(fault, NoAnswer):
        return NoAnswer(f"{fault}; {rows} were sent, and the {before} rows before them are in")
    return type(fault)(f"{fault}; {stands}")


class Pace(NamedTuple):
    """When a batch is committed, in seconds and rows; how long an edge is kept, and how far ahead of the clock a row may be, in
    the program's times; what of bad rows, and whether they are written to a file; and how the feed is written, for advice."""

    every: float
    room: int
    keep: Optional[int]
    ahead: Optional[int]
    skip_bad: bool
    has_rejects: bool
    how: ReadAs


class Recipe(NamedTuple):
    """How a feed is followed: its form, how its rows go in and how many at once, whether its end is that of all, and the path at
    which another file may take its place, where that one is followed too."""

    form: str
    by: str
    batch: int
    until_end: bool
    pace: Pace
    path: Optional[str] = None


class FeedPlace(NamedTuple):
    """How far a feed is in: how many rows, to which line, their newest time in the program's times, how many bytes of the file
    were read by then, and a mark of these; to which line rows are in or were skipped, and how many of them were; whether more
    was read than is in; where a row begins that isn't behind that line, as how many lines are before it and its byte; and how
    long the file was by then that has the rows that were skipped."""

    rows: int = 0
    line: int = 0
    newest: int = -1
    read: int = 0
    mark: str = ""
    done: int = 0
    bad: int = 0
    left: bool = False
    lines: int = 0
    byte: int = 0
    rejects: int = 0


class FeedMark(NamedTuple):
    """Which feed is in to a place: the file's path, its device and number there, and where the reading of it began; and the how
    manieth file it is that was followed by this path. A store's file has it with each batch, so that a restart goes on there."""

    path: str
    file: Tuple[int, int]
    begin: int
    place: FeedPlace = FeedPlace()
    turn: int = 0

    @staticmethod
    def of(path: str, found: os.stat_result, begin: int = 0) -> FeedMark:
        return FeedMark(os.path.realpath(path), (found.st_dev, found.st_ino), begin)

    def written(self, place: FeedPlace) -> str:
        """As JSON, with the place to which a batch brings it."""
        return json.dumps(self._replace(place=place))

    @staticmethod
    def read(text: str) -> FeedMark:
        path, (device, number), begin, place, *turn = json.loads(text)
        return FeedMark(path, (device, number), begin, FeedPlace(*place), *turn)

    def known(self, feeds: Mapping[str, str]) -> List["FeedMark"]:
        """What a store's file knows of this path, the last file last; and of this file by other paths, where it was followed by
        those."""
        found = sorted(map(FeedMark.read, feeds.values()), key=lambda it: it.turn)
        return [it for it in found if it.path == self.path or (it.file, it.begin) == (self.file, self.begin)]

    def in_turn(self, known: Sequence[FeedMark], has: Callable[[FeedMark], bool], after: int = 0) -> FeedMark:
        """This file, with how far it is in by what is known: not at all where it is a new one, which comes behind the last one of
        its path, and the one of a turn. One that was followed before that is a new one too where it doesn't have what was read:
        the system gives the number of a file that was removed to another."""
        last = max((it.turn for it in known if it.path == self.path), default=0)
        mine = [it for it in known if (it.file, it.begin) == (self.file, self.begin)]
        mine = [it for it in mine if it.path == self.path and it.turn == last or has(it)]
        found = max(mine, key=lambda it: it.place.done, default=self)
        is_here = bool(mine) and found.path == self.path
        return self._replace(place=found.place, turn=found.turn if is_here else max(last, after) + 1)
