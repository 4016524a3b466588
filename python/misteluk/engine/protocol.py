"""What a store and its sessions need of an engine, in this process or a server's: the running store, and the versions that are
held of it.

All of it is in the engine's terms: names and kinds are 1 to 64 signs from `!` to `~`, weights and times are whole numbers, and a
vertex or a kind has a number in a version. Numbers are given in the order in which names came; they stay as they are from version
to version within an opening.
"""
from __future__ import annotations

import sys
from array import array
from operator import itemgetter
from typing import Any, List, Mapping, NamedTuple, Optional, Protocol, Sequence, Tuple

from .operations import Operations
from ..values import records
from ..values.answers import Collected, Commit, Compacted, Stat
from ..values.fields import numpy_for
from ..values.limits import Limits

# An edge by its kind, source and target.
Ends = Tuple[str, str, str]
# An edge's weight, and its first and recent time.
Marks = Tuple[int, int, int]

# What an engine without a file of its own knows of followed feeds.
NO_FEEDS: Mapping[str, str] = {}


class Scope(NamedTuple):
    """Which edges count: those of a kind, or of any, whose recent time is from `since` to `until`, both within."""

    kind: Optional[str] = None
    since: int = 0
    until: int = records.MOST_TIME


WHOLE = Scope()
# What the engine in this process is called.
LIBRARY, SERVED = "library", "served"


class Arrays(NamedTuple):
    """Edges as columns of one length: the numbers of kinds, sources and targets, and what the edges have."""

    kinds: "array[int]"
    sources: "array[int]"
    targets: "array[int]"
    weights: "array[int]"
    firsts: "array[int]"
    recents: "array[int]"

    @staticmethod
    def none() -> "Arrays":
        return Arrays.of(0)

    @staticmethod
    def of(size: int) -> "Arrays":
        """Room for so many edges."""
        small, large = bytes(4 * size), bytes(8 * size)
        return Arrays(array("I", small), array("I", small), array("I", small), array("q", large), array("Q", large),
                      array("Q", large))

    @property
    def size(self) -> int:
        return len(self.kinds)

    def at(self, places: Sequence[int]) -> "Arrays":
        if len(places) < 2:
            return Arrays(*[array(it.typecode, [it[at] for at in places]) for it in self])
        kinds, sources, targets, weights, firsts, recents = map(itemgetter(*places), self)
        return Arrays(array("I", kinds), array("I", sources), array("I", targets), array("q", weights), array("Q", firsts),
                      array("Q", recents))

    def places(self, kind: Optional[int], scope: Scope, among: Optional[Sequence[int]] = None) -> Sequence[int]:
        """Where the edges are that count, of the kind of this number or of any; of those in some places, where these are said."""
        found: Sequence[int] = range(self.size) if among is None else among
        if kind is not None:
            found = [at for at in found if self.kinds[at] == kind]
        if scope.since > 0 or scope.until < records.MOST_TIME:
            found = [at for at in found if scope.since <= self.recents[at] <= scope.until]
        return found

    def in_order(self, ends: "array[int]") -> "Arrays":
        """The edges in order of their kinds, and those of one kind in order of these numbers."""
        order = sorted(range(self.size), key=ends.__getitem__)
        return self.at(sorted(order, key=self.kinds.__getitem__))

    def by_source(self, count: int) -> "Optional[array[int]]":
        """Where the edges of each source begin, which stand source by source, of so many, and behind them their end; `None` where
        numpy isn't loaded, for which this alone would be no reason: a search takes a microsecond."""
        numpy = numpy_for(self.size) if "numpy" in sys.modules else None
        if numpy is None:
            return None
        begins = numpy.zeros(count + 1, dtype="uint32")
        numpy.cumsum(numpy.bincount(numpy.asarray(self.sources), minlength=count), out=begins[1:])
        return array("I", begins.tobytes())


class Denied(Exception):
    """What was asked can't be: the word for that, of a batch that needs more blocks than are free what the blocks were, and what
    helps, where that isn't the word's advice."""

    def __init__(self, word: str, stat: Optional[Stat] = None, advice: Optional[str] = None) -> None:
        self.word, self.stat, self.advice = word, stat, advice
        super().__init__(word)


class Flight(Protocol):
    """A batch on its way. `cut` notes that its operations are pending no more."""

    batch: Operations
    cut: List[None]


class Differences(NamedTuple):
    """Edges that are gone, new or changed: the state of each, and the edges as they were and as they are. Where an edge wasn't
    there, or isn't, its weight and times are 0."""

    states: "array[int]"
    before: Arrays
    after: Arrays

    def of(self, state: int) -> List[int]:
        """The places of those in a state."""
        return [at for at, it in enumerate(self.states) if it == state]


class Held(Protocol):
    """A version that is held, until it is closed. Each call raises `Denied` (NoKind, NoVertex) for names that it doesn't have,
    and `SessionClosed` once it is closed. It may be asked from several threads."""

    number: int
    slot: int
    count: int

    @property
    def is_open(self) -> bool: ...

    def names(self) -> List[str]:
        """The vertices by number."""

    def kinds(self) -> List[str]:
        """The kinds by number."""

    def degrees(self, scope: Scope) -> "Tuple[array[int], array[int], array[int]]":
        """For each vertex how many edges go out, how many come in, and the weight that goes out."""

    def weights_in(self, scope: Scope) -> "array[int]":
        """For each vertex the weight that comes in."""

    def labels(self, scope: Scope) -> "array[int]":
        """For each vertex the least number of those that walks join it to, direction ignored."""

    def cores(self, scope: Scope) -> "array[int]":
        """For each vertex its core number."""

    def levels(self, scope: Scope, source: str) -> "Tuple[Sequence[int], array[int]]":
        """The vertices that are reached, by number, and how many edges they are away."""

    def within(self, scope: Scope, source: str, steps: int, either: bool) -> "Tuple[array[int], array[int]]":
        """The vertices that are reached in at most so many steps along edges, or along and against them, by number, and in how
        many."""

    def path(self, scope: Scope, source: str, target: str) -> "array[int]":
        """The vertices of a shortest walk along edges, by number, with both ends: from the target on, each is the least that can
        stand there. There are none where no walk leads there."""

    def edge(self, ends: Ends) -> Optional[Marks]:
        """One edge, or `None`."""

    def found(self, ends: Sequence[Ends]) -> "List[Optional[Marks] | Denied]":
        """Many edges, and what was denied in place of an edge."""

    def edges(self, scope: Scope) -> Arrays:
        """All edges."""

    def differences(self, later: "Held", scope: Scope) -> Optional[Differences]:
        """What became of edges from here to a later version; `None` where it is found by the edges of both."""

    def out_of(self, scope: Scope, name: str) -> Arrays:
        """The edges that go out of a vertex, each kind's apart."""

    def into(self, scope: Scope, name: str) -> Arrays:
        """The edges that come into a vertex, each kind's apart."""

    def close(self) -> None:
        """Lets the version go."""


def must_have_kind(held: Held, kind: Optional[str]) -> None:
    """Raises `Denied` for a kind that a version doesn't have."""
    if kind is not None and kind not in held.kinds():
        raise Denied("NoKind")


class Engine(Protocol):
    """A running store. Its calls are made one at a time, and each of them again where an interrupt broke it off."""

    name: str
    seats: int
    # What was said of vertices, kinds and batches; how many blocks there can be; and whether they become more as they are needed.
    limits: Limits
    most_blocks: int
    grows: bool

    @property
    def feeds(self) -> Mapping[str, str]:
        """How far followed feeds are in, by name, where it has a file that knows it."""

    def told(self) -> str:
        """Which engine it is, for a person."""

    @property
    def blocks(self) -> int: ...

    @property
    def open_count(self) -> int:
        """How many seats hold versions."""

    @property
    def has_ended(self) -> bool:
        """Whether nothing is answered any more."""

    @property
    def is_elsewhere(self) -> bool:
        """Whether this process is a fork of the one that has it."""

    @property
    def operations_kept(self) -> Optional[int]:
        """How many operations it keeps that came since it began, or began anew; `None` where that isn't known here."""

    def fit(self, vertices: int, kinds: int, blocks: int) -> None:
        """Has room for so many before they come, where it may have more: nothing that is told or held changes."""

    def flight(self, batch: Operations, collect: bool) -> Any:
        """A batch that can be applied, with a collection behind it or not. Nothing is done yet."""

    def fly(self, flight: Any) -> Commit:
        """Applies a batch, once, however often this is called, and tells what it did. Raises `Denied` where it is refused."""

    def landed(self, flight: Any) -> Optional[Commit]:
        """What a batch did whose call was broken off; `None` where it wasn't begun, and then it isn't."""

    def stat(self) -> Stat: ...

    def collect(self) -> Collected: ...

    def hold(self, slot: Optional[int]) -> Held:
        """Holds the last version. Raises `NoSeat`, or `Denied`."""

    def rebase(self, version: Held) -> Compacted:
        """Begins anew with what the version holds, and closes all versions."""

    def renew(self) -> Compacted:
        """Begins anew with the last version's edges; versions are counted on, and those that are held stay."""

    def close(self) -> None:
        """Ends it."""
