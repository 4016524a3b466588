"""A version that a handle of the library holds, and what it answers."""
from __future__ import annotations

import weakref
from array import array
from bisect import bisect_left
from ctypes import c_uint32, c_uint64, sizeof
from itertools import chain
from typing import Any, Dict, List, NamedTuple, Optional, Protocol, Sequence, Tuple, Union, cast

from . import interface
from .asked import Answers
from .calling import Handles, Known, LibraryFlight, address, check, refusal_of, room, texts_of
from .differences import read_differences
from .guard import Guard, Note, Notes, Owned
from .interface import Code, Library
from .protocol import WHOLE, Arrays, Denied, Differences, Ends, Held, Marks, Scope
from .walked import Walked
from ..errors import NoSeat, SessionClosed
from ..values.answers import Compacted
from ..values.limits import Limits
from ..values.records import MOST_NAME

# What no hold has; how many edges of a vertex are asked for at first; and up to how many names the room for them isn't asked for
# (there are fewer kinds).
NO_HOLD, A_ROW, FEW_NAMES = (1 << 64) - 1, 32, 4_096
ALL_EDGES = interface.View(WHOLE.since, WHOLE.until, interface.ANY_KIND)


class Opening(NamedTuple):
    """What an engine has from one beginning anew to the next: its desk, and the holds that are to be given back there; how many
    versions were made before, and the last one's number; its names; the desk's blocks and limits; how many operations it keeps.
    And what is on its way, a batch or that the desk begins anew: whether it was done the desk's own count of versions says."""

    desk: Owned
    holds: Notes
    before: int
    number: int
    known: Known
    blocks: int
    shape: Limits
    kept: int = 0
    flying: Optional[LibraryFlight] = None
    begins_anew: bool = False
    # The last rebase: its version, what it did, and the versions that it closes.
    rebased: "Optional[Tuple[weakref.ref[LibraryVersion], Compacted, List[weakref.ref[LibraryVersion]]]]" = None


class Holder(Protocol):
    """What a version needs of the engine that holds it."""

    library: Library
    handles: Handles
    guard: Guard
    is_closed: bool

    def release(self, version: Any) -> None: ...

    def pair(self, earlier: Any, later: Any) -> Optional[Owned]: ...


def edge_columns(columns: Arrays, size: int) -> interface.EdgeColumns:
    """Where columns of this length stand, as a call takes them."""
    return interface.EdgeColumns(sizeof(interface.EdgeColumns), *(word for it in columns for word in (address(it), size)))


class Row:
    """Room for the edges of a vertex, so many, which calls use again, and where it is, as the library takes it."""

    __slots__ = ("columns", "into", "count")

    def __init__(self, size: int) -> None:
        self.columns, self.count = Arrays.of(size), c_uint64()
        self.into = edge_columns(self.columns, size)


class Kept:
    """What a version keeps from call to call until it is closed: the handles and rows that nobody uses now, and what was asked of
    all. A call takes it once: where the version is closed meanwhile, it ends with what it took, which goes with it."""

    __slots__ = ("idle", "is_indexed", "rows", "names", "all", "begins", "answers")

    def __init__(self) -> None:
        self.idle: List[Owned] = []
        self.is_indexed = False
        self.rows: List[Row] = []
        self.names: Optional[List[str]] = None
        self.all: Optional[Arrays] = None
        self.begins: "Optional[array[int]]" = None
        self.answers = Answers()


class LibraryVersion(Walked):
    """A version that is held. Each thread that asks takes a handle of its own: a copy of the first one, which is never asked.
    `_other` is the one whose hold it shares."""

    _is_open, _other = False, cast("Optional[LibraryVersion]", None)

    def __init__(self, engine: Holder, opening: Opening, slot: int) -> None:
        self.slot, self._engine, self._library = slot, engine, engine.library
        self._versions, self._known, self._before = engine.handles.versions, opening.known, opening.before
        self.desk, self._holds = opening.desk, opening.holds
        self._first = Owned(interface.Version(), self._versions)
        self._hold = self._holds.know(self, interface.Hold(NO_HOLD, NO_HOLD))
        self.kept = Kept()
        self.number = self.count = 0
        # What a server keeps of answers, as it told them.
        self.told: Dict[str, bytes] = {}

    def begin(self) -> None:
        """Takes hold of the desk's last version, and asks the desk how large that is, which nobody else calls meanwhile: the
        version itself would add up the lengths of all its names. Raises `NoSeat`."""
        code = self._library.desk_hold(self.desk.raw, self._first.raw, self._hold.raw)
        if code == Code.NO_SEAT:
            raise NoSeat()
        check(code)
        stat = interface.Stat()
        check(self._library.desk_stat(self.desk.raw, stat))
        self.number, self.count, self._edges = stat.version + self._before, stat.vertices, stat.edges
        self._kind_count = stat.kinds
        self._is_open = True

    def begin_with(self, other: "LibraryVersion") -> None:
        """Holds what another one holds, together with it, where the desk can't be asked."""
        check(self._library.version_clone(other._first.raw, self._first.raw))
        self._is_open, self._other, self.number, self.count = True, other, other.number, other.count
        self._edges, self._kind_count = other._edges, other._kind_count

    @property
    def hold(self) -> Note:
        """What the desk knows it by: its own hold, or that of the one with which it is held."""
        return self._hold if self._other is None else self._other.hold

    @property
    def is_open(self) -> bool:
        return self._is_open and not self._engine.is_closed

    def close(self) -> None:
        self._engine.release(self)

    def leave_handle(self) -> None:
        """Lets its first handle go. Those who share its hold, and the handles that nobody asks by now, answer on."""
        self._first = Owned(interface.Version(), self._versions)

    def leave_seat(self) -> None:
        """Lets the hold go. It answers on, and its blocks aren't the desk's any more."""
        self._holds.let_go(self._hold)
        self._other = None

    def end(self) -> None:
        """Lets the hold go, and the handles that nobody asks by now; the others go with those who do so."""
        self._is_open = False
        self.leave_seat()
        self.leave_handle()
        self.kept, self.told = Kept(), {}  # (last: who finds no handle there finds no first one either)

    # How it is asked.

    def _ask(self, call: Any, *given: Any) -> int:
        """Asks by a handle that nobody else has."""
        self._must_be_open()
        idle = self.kept.idle
        try:
            handle = idle.pop()
        except IndexError:
            handle = self._clone()
        code: int = call(handle.raw, *given)
        idle.append(handle)
        return code

    def _must_be_open(self) -> None:
        self._engine.guard.check()
        if not self.is_open:
            raise SessionClosed(f"the session of version {self.number} is closed")

    def _clone(self) -> Owned:
        handle = Owned(interface.Version(), self._versions)
        with self._known.lock:
            first = self._first  # (which isn't freed while it is here)
            code = self._library.version_clone(first.raw, handle.raw)
        if code == Code.NO_HANDLE:
            raise SessionClosed(f"the session of version {self.number} is closed")
        check(code)
        return handle

    def _view(self, scope: Scope) -> interface.View:
        if scope == WHOLE:
            return ALL_EDGES
        kind = interface.ANY_KIND if scope.kind is None else self._kind(scope.kind)
        return interface.View(scope.since, scope.until, kind)

    def _number(self, call: Any, name: str, known: Dict[str, int], count: int) -> int:
        """The number of a kind or vertex, of which the version has so many. One that any version of the opening told is that of
        each version that has as many, and isn't asked for again."""
        number = known.get(name, count)
        if number < count:
            self._engine.guard.check()
            return number
        found = c_uint32()
        code = self._ask(call, name.encode("ascii"), len(name), found)
        if code:
            raise refusal_of(code)
        known[name] = found.value
        return found.value

    def _vertex(self, name: str) -> int:
        return self._number(self._library.version_vertex, name, self._known.of_names, self.count)

    def _kind(self, name: str) -> int:
        return self._number(self._library.version_kind, name, self._known.of_kinds, self._kind_count)

    def names(self) -> List[str]:
        kept = self.kept
        if kept.names is None:
            kept.names = self.known_names()[:self.count]
        return kept.names

    def known_names(self) -> List[str]:
        """The vertices by number, and perhaps those of later versions behind them, without a copy."""
        return self._told(self._known.names, self._library.version_names, self.count)

    def kinds(self) -> List[str]:
        return self._told(self._known.kinds, self._library.version_kind_names, self._kind_count)[:self._kind_count]

    def _told(self, known: List[str], call: Any, count: int) -> List[str]:
        """All names that are known, the first of which are these, so many; those that aren't known yet are asked for, with room
        for the longest ones where they are few, and else for as many bytes as all names have, which the version has to add up."""
        self._must_be_open()
        with self._known.lock:
            first = len(known)
            if first < count:
                size = (count - first) * MOST_NAME
                if count - first > FEW_NAMES:
                    sizes = interface.Size()
                    check(self._ask(self._library.version_size, sizes))
                    size = sizes.name_bytes
                text, ends = room("B", size), room("Q", count - first)
                check(self._ask(call, first, address(text), size, address(ends), count - first))
                known[first:] = texts_of(text, ends)
        return known

    # What it answers.

    def _table(self, call: str, codes: str, scope: Scope, *given: Any) -> "Sequence[array[int]]":
        """A table of all vertices, which is asked for once as long as it is kept."""
        answers = self.kept.answers
        found = answers.get((call, scope, given))
        if found is None:
            found = self._new_table(getattr(self._library, f"version_{call}"), codes, self._view(scope), *given)
            answers.put((call, scope, given), found)
        self._engine.guard.check()
        return found

    def _new_table(self, call: Any, codes: str, *given: Any) -> "List[array[int]]":
        columns = [room(it, self.count) for it in codes]
        places = chain.from_iterable((address(it), self.count) for it in columns)
        check(self._ask(call, *given, *places))
        return columns if self.count else [array(it) for it in codes]

    def degrees(self, scope: Scope) -> "Tuple[array[int], array[int], array[int]]":
        out, into, weights = self._table("degrees", "IIq", scope)
        return out, into, weights

    def weights_in(self, scope: Scope) -> "array[int]":
        return self._table("weights_in", "q", scope)[0]

    def labels(self, scope: Scope) -> "array[int]":
        return self._table("labels", "I", scope)[0]

    def cores(self, scope: Scope) -> "array[int]":
        return self._table("cores", "I", scope)[0]

    def levels(self, scope: Scope, source: str) -> "Tuple[Sequence[int], array[int]]":
        self._view(scope)  # (where neither kind nor vertex is there, the kind is told)
        found = self._table("levels", "I", scope, self._vertex(source))[0]
        reached = [at for at, it in enumerate(found) if it != interface.NOT_REACHED]
        return reached, found if len(reached) == len(found) else array("I", map(found.__getitem__, reached))

    def edge(self, ends: Ends) -> Optional[Marks]:
        kind, source, target = ends
        marks = interface.Edge()
        numbers = self._kind(kind), self._vertex(source), self._vertex(target)
        code = self._ask(self._library.version_edge, *numbers, marks)
        if code == Code.NO_EDGE:
            return None
        check(code)
        return marks.weight, marks.first, marks.recent

    def found(self, ends: Sequence[Ends]) -> "List[Union[Marks, Denied, None]]":
        return [self._edge_or_not(it) for it in ends]

    def _edge_or_not(self, ends: Ends) -> "Union[Marks, Denied, None]":
        try:
            return self.edge(ends)
        except Denied as fault:
            return fault

    def edges(self, scope: Scope) -> Arrays:
        view, kept = self._view(scope), self.kept
        self._engine.guard.check()
        all_ = kept.all
        if all_ is not None:
            return all_ if scope == WHOLE else all_.at(all_.places(None if scope.kind is None else view.kind, scope))
        found = self._read(view)
        if scope == WHOLE:
            kept.all, kept.begins = found, found.by_source(self.count)
        return found

    def _read(self, view: interface.View) -> Arrays:
        """All edges of a view, in one call: none is longer than the version."""
        if not self._edges:
            return Arrays.none()
        found, count, source = Arrays.of(self._edges), c_uint64(), c_uint32()
        check(self._ask(self._library.version_edges, view, source, edge_columns(found, self._edges), count))
        for it in found:
            del it[count.value:]
        return found

    def differences(self, later: Held, scope: Scope) -> Optional[Differences]:
        """What became of edges from here to a later version, where one desk holds both, else `None`."""
        self._must_be_open()
        if not isinstance(later, LibraryVersion) or later.desk is not self.desk:
            return None
        view = later._view(scope)
        pair = self._engine.pair(self, later)
        return None if pair is None else read_differences(self._library, pair, view, later.count)

    def out_of(self, scope: Scope, name: str) -> Arrays:
        kept = self.kept
        all_ = kept.all
        if all_ is None:
            found = self.few_out_of(scope, name, None)
            assert found is not None  # (there is no bound)
            return self._apart(found)
        view, source = self._view(scope), self._vertex(name)
        begins = kept.begins
        if begins is None:  # (edges stand source by source)
            begin = bisect_left(all_.sources, source)
            end = bisect_left(all_.sources, source + 1, begin)
        else:
            begin, end = begins[source], begins[source + 1]
        if scope is not WHOLE:
            return self._apart(all_.at(all_.places(None if scope.kind is None else view.kind, scope, range(begin, end))))
        kinds, sources, targets, weights, firsts, recents = all_
        return self._apart(Arrays(kinds[begin:end], sources[begin:end], targets[begin:end], weights[begin:end],
                                  firsts[begin:end], recents[begin:end]))

    def few_out_of(self, scope: Scope, name: str, most: Optional[int]) -> Optional[Arrays]:
        """The edges that go out of a vertex as its row has them, where they are so many at most, else `None`: what takes longer
        the caller may have done by another thread."""
        view, source, rows = self._view(scope), self._vertex(name), self.kept.rows
        row = self._row(self._library.version_row, rows, view, source, most)
        if row is None:
            return None
        count = row.count.value
        kinds, _, targets, weights, firsts, recents = row.columns
        found = Arrays(kinds[:count], array("I", (source,)) * count, targets[:count], weights[:count], firsts[:count],
                       recents[:count])
        rows.append(row)
        return found

    def into(self, scope: Scope, name: str) -> Arrays:
        view, target, rows = self._view(scope), self._vertex(name), self.kept.rows
        self._index()
        row = self._row(self._library.version_in_edges, rows, view, target, None)
        assert row is not None  # (there is no bound)
        count = row.count.value
        kinds, sources, _, weights, firsts, recents = row.columns
        found = Arrays(kinds[:count], sources[:count], array("I", (target,)) * count, weights[:count], firsts[:count],
                       recents[:count])
        rows.append(row)
        return self._apart(found)

    def _row(self, call: Any, rows: List[Row], view: interface.View, vertex: int, most: Optional[int]) -> Optional[Row]:
        """The edges that go out of a vertex, or come into it, as a call asks for them, as they stand, in one of the rows; `None`
        where they are more than so many."""
        try:
            row = rows.pop()
        except IndexError:
            row = Row(A_ROW)
        code: int = self._ask(call, view, vertex, row.into, row.count)
        if code == Code.BAD_LENGTH:
            if most is not None and row.count.value > most:
                rows.append(row)
                return None
            row = Row(row.count.value)
            code = self._ask(call, view, vertex, row.into, row.count)
        if code:
            raise refusal_of(code)
        return row

    def _apart(self, found: Arrays) -> Arrays:
        """The edges of a vertex, each kind's apart, and those of one kind as they stand."""
        if self._kind_count < 2:
            return found
        kinds = found.kinds.tolist()
        return found if kinds == sorted(kinds) else found.at(sorted(range(len(kinds)), key=kinds.__getitem__))
