"""An exact copy of a version, as operations that make an empty store hold what it holds.

A copy answers each request as the version does. It has the names in their order, the kinds in theirs, and both times of each
edge: an insertion at the first one, and another at the recent one where that differs. A name whose first edge doesn't come in its
order gets a loop edge, which is inserted and removed.
"""
from __future__ import annotations

from array import array
from typing import Any, Dict, Iterator, List, NamedTuple, Tuple

from .operations import INSERT, REMOVE, Listed, Numbered
from .protocol import WHOLE, Arrays, Held
from ..values.fields import numpy_for

# Which operations are no removals, by their numbers, and which are.
_ARE_KEPT = bytes(it != REMOVE for it in range(256))
_ARE_REMOVED = bytes(it == REMOVE for it in range(256))


class Content(NamedTuple):
    """What a version holds, in the engine's terms: the kinds and names in order, and the edges by their numbers there."""

    kinds: List[str]
    names: List[str]
    edges: Arrays

    def without_idle_names(self) -> "Content":
        """The same without names and kinds that have no edge."""
        edges, names = self.edges, {*self.edges.sources, *self.edges.targets}
        kinds = set(edges.kinds)
        of_kinds, of_names = ({old: new for new, old in enumerate(sorted(it))} for it in (kinds, names))
        columns = (array("I", map(numbers.__getitem__, it)) for numbers, it in zip((of_kinds, of_names, of_names), edges[:3]))
        found = Arrays._make([*columns, *edges[3:]])
        return Content([self.kinds[it] for it in of_kinds], [self.names[it] for it in of_names], found)


def content_of(version: Held) -> Content:
    return Content(version.kinds(), version.names(), version.edges(WHOLE))


def operations_of(content: Content) -> Numbered:
    """The operations that make an empty store hold the content, in order."""
    found = _no_operations(content)
    if not content.names:
        return found
    is_begun = len(content.kinds) > 1
    for kind in range(len(content.kinds)) if is_begun else ():
        _put_loop(found, kind, 0)
    numpy = numpy_for(content.edges.size)
    if numpy is None:
        _put(found, content.edges, _items(content, is_begun))
    else:
        _put_at_once(numpy, found, content.edges, _items_at_once(numpy, content, is_begun))
    return found


def opening_of(content: Content) -> Tuple[Numbered, Numbered]:
    """The insertions that make an empty store hold the content, with loop edges that only have a name or a kind known in its
    order; and behind all of them the removals of these loops. (One that is an edge of the content is inserted as that.)"""
    found = operations_of(content)
    if not found.has(REMOVE):
        return found, found.some(slice(0))
    codes = found.codes.tobytes()
    insertions, removals = found.only(codes.translate(_ARE_KEPT)), found.only(codes.translate(_ARE_REMOVED))
    own = _loops_of_first(content.edges) if removals.codes else {}
    for kind, at in own.items():  # (of each kind the first insertion is the loop of the first name, if there are two kinds)
        insertions.weights[kind], insertions.times[kind] = content.edges.weights[at], content.edges.firsts[at]
    are_loops = zip(removals.sources, removals.targets, removals.kinds)
    return insertions, removals.only(bytes(bool(source or target) or kind not in own for source, target, kind in are_loops))


def _loops_of_first(edges: Arrays) -> Dict[int, int]:
    """The places of edges from the first name to itself, by their kinds."""
    numpy = numpy_for(edges.size)
    if numpy is None:
        places = [at for at, ends in enumerate(zip(edges.sources, edges.targets)) if ends == (0, 0)]
    else:
        places = numpy.flatnonzero(numpy.asarray(edges.sources) | numpy.asarray(edges.targets) == 0).tolist()
    return {edges.kinds[it]: it for it in places}


def _no_operations(content: Content) -> Numbered:
    columns: Any = map(array, "BIIIqQ")
    return Numbered._make([*columns, Listed(content.kinds), Listed(content.names)])


def _items(content: Content, is_begun: bool) -> Iterator[int]:
    """In order the places of edges, and below 0 the numbers of names that need a loop, -1 for the first one. At first comes for
    each name the first edge of which it is the later end, which makes it known; then all other edges, as they stand."""
    sources, targets, count = content.edges.sources, content.edges.targets, len(content.names)
    first: Dict[int, int] = {}
    for at, ends in enumerate(zip(sources, targets)):
        first.setdefault(max(ends), at)
    is_idle = [name not in first and not (is_begun and not name) for name in range(count)]
    # An edge from such a name to the next one, where there is one, makes both known in their order.
    both: Dict[int, int] = {}
    for at, (source, target) in enumerate(zip(sources, targets)):
        if target == source + 1 and is_idle[source]:
            both.setdefault(source, at)
    first.update((source + 1, at) for source, at in both.items())
    chosen = [first.get(name, ~name) for name in range(count) if (name in first or is_idle[name]) and name not in both]
    yield from chosen
    yield from sorted({*range(content.edges.size)} - {*chosen})


def _items_at_once(numpy: Any, content: Content, is_begun: bool) -> Any:
    """The same by whole columns."""
    sources, targets = (numpy.asarray(it).astype("int64") for it in content.edges[1:3])
    places, names = numpy.arange(len(sources)), numpy.arange(len(content.names))
    first = ~names
    first[numpy.maximum(sources, targets)[::-1]] = places[::-1]  # (of several places the last one stays)
    is_idle, is_chosen = first < 0, numpy.ones(len(names), dtype=bool)
    is_chosen[:1] = not (is_begun and is_idle[0])
    is_idle &= is_chosen
    both = numpy.flatnonzero((targets == sources + 1) & is_idle[sources])
    both = both[numpy.unique(sources[both], return_index=True)[1]]
    first[sources[both] + 1] = both
    is_chosen[sources[both]] = False
    chosen, is_left = first[is_chosen], numpy.ones(len(places), dtype=bool)
    is_left[chosen[chosen >= 0]] = False
    return numpy.concatenate([chosen, places[is_left]])


def _put_loop(found: Numbered, kind: int, name: int) -> None:
    """Puts a loop edge that is inserted and removed, which makes its name and kind known."""
    for code in (INSERT, REMOVE):
        for column, value in zip(found[:6], (code, kind, name, name, 0, 0)):
            column.append(value)


def _put(found: Numbered, edges: Arrays, items: Iterator[int]) -> None:
    for it in items:
        if it < 0:
            _put_loop(found, 0, ~it)
            continue
        kind, source, target, weight, first, recent = [column[it] for column in edges]
        for time in (first,) if first == recent else (first, recent):
            for column, value in zip(found[:6], (INSERT, kind, source, target, weight, time)):
                column.append(value)


def _put_at_once(numpy: Any, found: Numbered, edges: Arrays, items: Any) -> None:
    is_loop = items < 0
    places = numpy.where(is_loop, 0, items)
    kinds, sources, targets, weights, firsts, recents = (numpy.asarray(it)[places] for it in edges)
    counts = 1 + (is_loop | (firsts != recents))
    columns = numpy.full(len(items), INSERT), kinds, sources, targets, weights, firsts
    if len(items) < counts.sum():
        at = numpy.repeat(numpy.arange(len(items)), counts)
        is_second = numpy.zeros(len(at), dtype=bool)
        is_second[1:] = at[1:] == at[:-1]
        is_loop, names = is_loop[at], ~items[at]
        columns = (numpy.where(is_loop & is_second, REMOVE, INSERT), numpy.where(is_loop, 0, kinds[at]),
                   numpy.where(is_loop, names, sources[at]), numpy.where(is_loop, names, targets[at]),
                   numpy.where(is_loop, 0, weights[at]), numpy.where(is_loop, 0, numpy.where(is_second, recents[at], firsts[at])))
    for column, values, form in zip(found[:6], columns, ("u1", "u4", "u4", "u4", "i8", "u8")):
        column.frombytes(values.astype(form).tobytes())
