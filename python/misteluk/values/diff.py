"""What became of edges from one version to another."""
from __future__ import annotations

from dataclasses import dataclass
from typing import TYPE_CHECKING, Any, Dict, Generic, List, NamedTuple, Optional, Sequence, Tuple

from .answers import ROWS_SHOWN, Edge, T, W, rows_as_html
from .edges import HEADER, Edges
from .fields import numpy_for
from ..errors import needed

if TYPE_CHECKING:
    import pandas

MOMENTS = ("before", "after")
DIFF_HEADER = ["state", *HEADER[:3], *(f"{it}_{when}" for when in MOMENTS for it in Edge._fields)]
# How many bits of a key a kind and a name have: two versions have at most twice 64 kinds and twice 67,108,863 names.
KIND_BITS, NAME_BITS = 7, 27


@dataclass(frozen=True)
class Changed(Generic[W, T]):
    """An edge with another weight or time than before, as it was (`before`) and as it is (`after`).

    >>> store.add("rail", "kassel", "hanau", 40, time=5)
    >>> done = store.commit()
    >>> session.diff(store.open()).changed[0].after
    Edge(weight=250, first=4, recent=5)
    """

    kind: str
    source: str
    target: str
    before: Edge[W, T]
    after: Edge[W, T]


class Places(NamedTuple):
    """Where edges stand that are gone, in the earlier version, new, in the later one, and changed, in both."""

    gone: Sequence[int]
    new: Sequence[int]
    before: Sequence[int]
    after: Sequence[int]


class Diff(Generic[W, T]):
    """What became of the edges from one version to another: as `Edges` those `gone`, those `new`, and those that changed.

    >>> store.add("rail", "kassel", "hanau", 40, time=5)
    >>> done = store.commit()
    >>> diff = session.diff(store.open())
    >>> len(diff.gone), len(diff.new), diff.before[0][3].weight, diff.after[0][3].weight
    (0, 0, 210, 250)

    `before` has the changed edges as they were, and `after` the same ones as they are, in the same order. A `Diff` is true if
    there is any difference."""

    def __init__(self, earlier: Edges[W, T], later: Edges[W, T]) -> None:
        numpy = numpy_for(len(earlier) + len(later))
        found = places_of(earlier, later) if numpy is None else places_at_once(numpy, earlier, later)
        self.gone, self.new = earlier.take(found.gone), later.take(found.new)
        self.before, self.after = earlier.take(found.before), later.take(found.after)

    @classmethod
    def _of(cls, gone: Edges[W, T], new: Edges[W, T], before: Edges[W, T], after: Edges[W, T]) -> Diff[W, T]:
        """What was found already."""
        found = cls.__new__(cls)
        found.gone, found.new, found.before, found.after = gone, new, before, after
        return found

    @property
    def changed(self) -> List[Changed[W, T]]:
        """The changed edges as a list of `Changed`.

        >>> diff.changed[0].before.weight
        210
        """
        return [Changed(kind, source, target, before, after)
                for (kind, source, target, before), after in zip(self.before, self.after._marks())]

    def counts(self) -> Dict[str, int]:
        """Returns how many edges are gone, new and changed.

        >>> diff.counts()
        {'gone': 0, 'new': 0, 'changed': 1}
        """
        return {"gone": len(self.gone), "new": len(self.new), "changed": len(self.after)}

    def to_pandas(self) -> pandas.DataFrame:
        """Returns all of them as a pandas DataFrame, with what became of each edge in the column `state` (gone, new or changed).

        The other columns are kind, source and target, and weight and times before and after (`weight_before`, `weight_after` and
        so on), empty where the edge wasn't there.

        >>> diff.to_pandas()["weight_after"].tolist()  # needs pandas
        [250]
        """
        numpy, pandas = needed("numpy", "a frame"), needed("pandas", "a frame")
        counts, ends = list(self.counts().values()), (self.gone, self.new, self.before)
        found: Dict[str, Any] = {"state": numpy.array([*self.counts()], dtype=object).repeat(counts)}
        found.update((name, numpy.concatenate([it._named(name) for it in ends])) for name in HEADER[:3])
        for when, parts in zip(MOMENTS, ((self.gone, None, self.before), (None, self.new, self.after))):
            is_there = numpy.repeat([it is not None for it in parts], counts)
            for name in Edge._fields:
                numbers = [numpy.zeros(count, dtype="int64") if it is None else numpy.asarray(it.columns[name]).astype("int64")
                           for it, count in zip(parts, counts)]
                found[f"{name}_{when}"] = self.after._of_frame(name, numpy.concatenate(numbers), is_there)
        return pandas.DataFrame(found)

    def _rows(self, some: slice, nothing: Any) -> List[Any]:
        """Rows of a table, of each state those in these places."""
        rows: List[Any] = [("gone", *ends, *edge, *(nothing,) * 3) for *ends, edge in self.gone[some]]
        rows += [("new", *ends, *(nothing,) * 3, *edge) for *ends, edge in self.new[some]]
        return rows + [("changed", *ends, *edge, *after) for (*ends, edge), after in zip(
            self.before[some], self.after[some]._marks())]

    def __bool__(self) -> bool:
        """Whether there is any difference."""
        return any(self.counts().values())

    @property
    def _size(self) -> str:
        return ", ".join(f"{count:,} {state}" for state, count in self.counts().items())

    def _repr_html_(self) -> str:
        """What a notebook shows: the first rows of each, and how many there are."""
        return rows_as_html(DIFF_HEADER, self._rows(slice(ROWS_SHOWN), ""), self._size)

    def __repr__(self) -> str:
        return f"<Diff: {self._size}>"


def _numbers(earlier: Sequence[str], later: Sequence[str]) -> Optional[List[int]]:
    """The numbers that the later names have among the earlier ones, and behind these; `None` where each keeps its own."""
    count = min(len(earlier), len(later))
    if earlier[:count] == later[:count]:
        return None
    known = {name: at for at, name in enumerate(earlier)}
    return [known.setdefault(it, len(known)) for it in later]


def places_of(earlier: Edges[Any, Any], later: Edges[Any, Any]) -> Places:
    """The places of edges, edge by edge."""
    kinds, names = (it or range(len(mine)) for it, mine in ((_numbers(earlier.kinds, later.kinds), later.kinds),
                                                             (_numbers(earlier.names, later.names), later.names)))
    left = {key: at for at, key in enumerate(zip(earlier.kind, earlier.source, earlier.target))}
    keys = zip(map(kinds.__getitem__, later.kind), map(names.__getitem__, later.source), map(names.__getitem__, later.target))
    pairs = [(left.pop(key, -1), at) for at, key in enumerate(keys)]
    before, after = (list(zip(it.weight, it.first, it.recent)) for it in (earlier, later))
    changed = [(old, at) for old, at in pairs if old >= 0 and before[old] != after[at]]
    return Places(sorted(left.values()), [at for old, at in pairs if old < 0], [old for old, _ in changed],
                  [at for _, at in changed])


def places_at_once(numpy: Any, earlier: Edges[Any, Any], later: Edges[Any, Any]) -> Places:
    """The same by whole columns: an edge's kind and ends are one number."""
    old, new = _keys(numpy, earlier, None, None), _keys(numpy, later, _numbers(earlier.kinds, later.kinds),
                                                        _numbers(earlier.names, later.names))
    at, is_there = _matched(numpy, old, new)
    is_gone = numpy.ones(len(old), dtype=bool)
    is_gone[at[is_there]] = False
    after = numpy.flatnonzero(is_there)
    before = at[after]
    is_changed = numpy.zeros(len(after), dtype=bool)
    for one, other in zip(*((it.weight, it.first, it.recent) for it in (earlier, later))):
        is_changed |= numpy.asarray(one)[before] != numpy.asarray(other)[after]
    return Places(numpy.flatnonzero(is_gone), numpy.flatnonzero(~is_there), before[is_changed], after[is_changed])


def _matched(numpy: Any, old: Any, new: Any) -> Tuple[Any, Any]:
    """For each of the new keys its place among the old ones, and whether it is there."""
    if len(old) == 0 or len(old) == len(new) and (old == new).all():
        return numpy.arange(len(new)), numpy.full(len(new), len(old) > 0)
    order = numpy.argsort(old, kind="stable")  # (edges stand source by source, so nearly all is in order)
    in_order = old[order]
    at = numpy.searchsorted(in_order, new)
    at[at == len(old)] = 0
    return order[at], in_order[at] == new


def _keys(numpy: Any, edges: Edges[Any, Any], kinds: Optional[List[int]], names: Optional[List[int]]) -> Any:
    """One number for each edge, of its source, target and kind."""
    columns = []
    for column, numbers in ((edges.source, names), (edges.target, names), (edges.kind, kinds)):
        found = numpy.asarray(column)
        columns.append((found if numbers is None else numpy.array([*numbers, 0])[found]).astype("uint64"))
    sources, targets, of_kinds = columns
    return (sources << numpy.uint64(NAME_BITS) | targets) << numpy.uint64(KIND_BITS) | of_kinds
