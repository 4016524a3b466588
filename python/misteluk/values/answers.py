"""What the store answers: small frozen classes, and tables by name."""
from __future__ import annotations

import heapq
import operator
from array import array
from collections import Counter
from dataclasses import dataclass, fields, is_dataclass
from types import MappingProxyType
from typing import (TYPE_CHECKING, Any, Callable, Dict, Generic, ItemsView, Iterable, Iterator, KeysView, List, Mapping,
                    NamedTuple, Optional, Sequence, Tuple, TypeVar, ValuesView)

from .arrays import ReadOnlyArray, cut
from .streamed import Streamed, StreamedColumn
from ..errors import needed

if TYPE_CHECKING:
    import numpy
    import pandas

V = TypeVar("V")
# What weights and times are, by the units of a store.
W = TypeVar("W")
T = TypeVar("T")
# How many rows of a table a notebook shows.
ROWS_SHOWN = 10


@dataclass(frozen=True)
class Commit:
    """What a commit did: the last version's number, and counts of operations, batches and expired edges.

    An operation `inserted` an edge, `updated` or `removed` one, was `absent` if it found none to remove, or `overflowed` and
    changed nothing, since a weight would have left its limits. `batches` is how many batches they went in.

    >>> store.insert("road", "bonn", "kassel", 230, time=5)
    >>> store.commit()
    Commit(version=2, inserted=1, updated=0, removed=0, absent=0, overflowed=0, batches=1, expired=0)
    """

    version: int
    inserted: int
    updated: int
    removed: int
    absent: int
    overflowed: int
    batches: int = 1
    expired: int = 0


# What no batch did.
NOTHING = Commit(0, 0, 0, 0, 0, 0, 0)
COUNTS = ("inserted", "updated", "removed", "absent", "overflowed", "batches", "expired")


def sum_of(receipts: Sequence[Commit]) -> Commit:
    """What several batches did, as one: the last one's version, and the sums of the counts."""
    if len(receipts) == 1:
        return receipts[0]
    return Commit(receipts[-1].version, **{name: sum(getattr(it, name) for it in receipts) for name in COUNTS})


@dataclass(frozen=True)
class Collected:
    """What a collection did: the oldest version that is held, how many blocks it freed, and how many wait until sessions close.

    >>> store.collect().recycled
    0
    """

    floor: int
    recycled: int
    retired: int


@dataclass(frozen=True)
class Stat:
    """The last version's number, vertices and edges, and how many blocks are free, retired (kept for sessions) and used.

    >>> stat = store.stat()
    >>> stat.free + stat.retired + stat.used == store.blocks
    True
    """

    version: int
    vertices: int
    edges: int
    free: int
    retired: int
    used: int

    def _repr_html_(self) -> str:
        """What a notebook shows."""
        return shown_as_html("Stat", vars(self))


@dataclass(frozen=True)
class Compacted:
    """What a store started over with: a version's number, vertices and edges, their blocks, and the seconds that it took.

    >>> store.compact().used
    4
    """

    version: int
    vertices: int
    edges: int
    used: int
    seconds: float

    def __str__(self) -> str:
        return (f"began again at version {self.version}: {self.edges} edges and {self.vertices} vertices, in {self.used} blocks "
                f"and {self.seconds:.1f} s")


@dataclass(frozen=True)
class Degree(Generic[W]):
    """A vertex's edges: how many go out, how many come in, and the sum of the weights that go out, in the store's units.

    >>> session.degrees()["hanau"]
    Degree(out=1, into=2, weight_out=180)
    """

    out: int
    into: int
    weight_out: W


@dataclass(frozen=True)
class Flow(Generic[W]):
    """What became of a vertex's edges from one version to another: how many are gone, new or changed of those that go out of it
    (`out`) and of those that come in (`into`), and by how much the weight grew that goes out and comes in, in the store's units.

    >>> store.add("road", "kassel", "fulda", 45, time=5)
    >>> done = store.commit()
    >>> store.open().flows(session)["kassel"]
    Flow(out=1, into=0, weight_out=45, weight_in=0)
    """

    out: int
    into: int
    weight_out: W
    weight_in: W


# Before Python 3.11 a named tuple has no parameters where it runs: those of an edge are for a type checker, which is told of them
# in the same words.
if TYPE_CHECKING:
    class Edge(NamedTuple, Generic[W, T]):
        weight: W
        first: T
        recent: T
else:
    class Edge(NamedTuple):
        """An edge's weight, the time of the operation that added it (`first`), and of the last operation on it (`recent`).

        They are whole numbers, or what the store's `Units` make of them: the weight a `Decimal` or a float, a time a `datetime`
        in UTC. Type checkers know an `Edge[W, T]`, of weights W and times T.

        >>> weight, first, recent = session.edge("rail", "kassel", "hanau")
        >>> weight, first, recent
        (210, 4, 4)
        """

        weight: Any
        first: Any
        recent: Any

    Edge.weight.__doc__ = "The weight, in the store's units."
    Edge.first.__doc__ = "The time of the operation that added the edge."
    Edge.recent.__doc__ = "The time of the last operation on the edge."


@dataclass(frozen=True)
class Neighbor(Generic[W, T]):
    """A vertex's edge to a neighbor (`out`), and the edge from it (`into`); `None` if there is none.

    >>> session.neighbors("bonn")["hanau"].into.weight
    180
    """

    out: Optional[Edge[W, T]]
    into: Optional[Edge[W, T]]


# Arrow's formats of an array's numbers.
FORMATS = {"I": "I", "q": "l", "Q": "L"}
# The columns of degrees and of flows, and what a row of these is.
OF_DEGREES, OF_FLOWS = (tuple(it.name for it in fields(kind)) for kind in (Degree, Flow))
ROWS: Dict[Tuple[str, ...], Any] = {OF_DEGREES: Degree, OF_FLOWS: Flow}


class Values(NamedTuple):
    """The values of a table's column: as arrays have them, how a user is told them, where that is something else, and how many
    parts of a weight make 1."""

    values: Sequence[int]
    told: Optional[Callable[[Sequence[int]], Sequence[Any]]] = None
    scale: int = 1

    @classmethod
    def of_weights(cls, weights: Sequence[int], units: Any) -> Values:
        """Weights in these units."""
        return cls(weights, None if units.scale == 1 else units._all_weights_to_user, units.scale)

    def all_told(self, at: slice = slice(None)) -> Sequence[Any]:
        """The values in these places, as a user is told them."""
        values = self.values if at == slice(None) else self.values[at]
        return values if self.told is None else self.told(values)

    def _as_array(self) -> array[int]:
        """The values where they are. Raises `TypeError` where they are no whole numbers any more."""
        values = self.values
        return values._numbers if isinstance(values, ReadOnlyArray) else array("q", map(operator.index, values))

    def read_only(self) -> Values:
        """The same, which nobody can change."""
        values = self.values
        return self._replace(values=ReadOnlyArray(values) if isinstance(values, array) else
                             values if isinstance(values, ReadOnlyArray) else tuple(values))


class Answer(Streamed, Mapping[str, V], Generic[V]):
    """A table of a version by name: a mapping from each name to its value, in the version's order, which nobody can change.

    >>> levels = session.levels("kassel", kind="road")
    >>> levels["bonn"], len(levels)
    (3, 4)

    It equals a dict of the same rows, and makes one only if somebody asks by name. `names` are the names of the rows, `version`
    the number of the version, `request` what was asked, and `value` what the values are called."""

    def __init__(self, *given: Any, version: int = 0, request: str = "", value: str = "value", **named: Any) -> None:
        self.version, self.request, self.value = version, request, value
        self._rows: Optional[Dict[str, V]] = dict(*given, **named)
        self.names: Tuple[str, ...] = tuple(self._rows)
        self.columns: Mapping[str, Values] = MappingProxyType({})

    @classmethod
    def _of(cls, names: Iterable[str], columns: Mapping[str, Values], version: int, request: str, value: str) -> Any:
        """The answer that has these columns; of degrees there are several."""
        answer = cls(version=version, request=request, value=value)
        answer.names, answer._rows = tuple(names), None
        answer.columns = MappingProxyType({name: it.read_only() for name, it in columns.items()})
        return answer

    def to_dict(self) -> Dict[str, V]:
        """Returns the rows as a dict of your own.

        >>> levels.to_dict()
        {'kassel': 0, 'fulda': 1, 'hanau': 2, 'bonn': 3}
        """
        return self._made().copy()

    def _made(self) -> Dict[str, V]:
        """The rows as a dict, which is made once."""
        if self._rows is None:
            self._rows = dict(zip(self.names, self._values()))
        return self._rows

    def _values(self, at: slice = slice(None)) -> Iterator[Any]:
        """The values of rows in these places, which has columns."""
        columns = [it.all_told(at) for it in self.columns.values()]
        return map(ROWS[tuple(self.columns)], *columns) if len(columns) > 1 else iter(columns[0])

    def _rows_from(self, first: int, end: int) -> List[Tuple[str, V]]:
        """The rows from one place to another; no dict is made for them."""
        at = slice(first, end)
        if not self.columns:
            return list(self._made().items())[at]
        return list(zip(self.names[at], self._values(at)))

    def __getitem__(self, name: str) -> V:
        return self._made()[name]

    def __iter__(self) -> Iterator[str]:
        return iter(self.names)

    def __len__(self) -> int:
        return len(self.names)

    def __contains__(self, name: object) -> bool:
        return name in self._made()

    def keys(self) -> KeysView[str]:
        """Returns the names in the order of the rows.

        >>> list(levels.keys())
        ['kassel', 'fulda', 'hanau', 'bonn']
        """
        return self._made().keys()

    def values(self) -> ValuesView[V]:
        """Returns the values in the order of the rows.

        >>> sum(levels.values())
        6
        """
        return self._made().values()

    def items(self) -> ItemsView[str, V]:
        """Returns each name with its value, in the order of the rows.

        >>> [name for name, level in levels.items() if level > 1]
        ['hanau', 'bonn']
        """
        return self._made().items()

    def __eq__(self, other: object) -> bool:
        return self._made() == (other._made() if isinstance(other, Answer) else other)

    __hash__ = None  # type: ignore[assignment]  # (as a dict's)

    def __repr__(self) -> str:
        """As a dict; of many rows the first and the last ones, and how many there are."""
        shown, count = cut(len(self), lambda *at: [f"{name!r}: {it!r}" for name, it in self._rows_from(*at)], "names")
        return f"{{{shown}}}{count}"

    def __reduce__(self) -> Any:
        """What pickles it: its columns, with the values as a user is told them."""
        told = {name: Values(it.all_told()) for name, it in self.columns.items()}
        if not told:
            return _with_rows, (type(self), self._rows, self.version, self.request, self.value)
        return type(self)._of, (self.names, told, self.version, self.request, self.value)

    def _streamed(self) -> List[StreamedColumn]:
        if not self.columns:
            raise TypeError("a table that was made of rows has no columns for a stream: a session's answers have them")
        found = [StreamedColumn("name", "U", None, self.names)]
        for name, it in self.columns.items():
            try:
                numbers = it._as_array()
            except TypeError:
                raise TypeError(f"the column {name!r} of a table that was pickled has no numbers for a stream") from None
            is_label = self.value == "label"
            found.append(StreamedColumn(name, "i" if is_label else FORMATS[numbers.typecode], numbers,
                                        self.names if is_label else None, it.scale))
        return found

    def to_numpy(self) -> Dict[str, numpy.ndarray[Any, Any]]:
        """Returns the columns by name as numpy arrays of your own, with each value in the place of its name in `names`.

        Numbers are whole, and weights in the parts that the store counts: cents with `Units(weight_scale=100)`. Labels are names.

        >>> levels.to_numpy()["level"].tolist()  # needs numpy
        [0, 1, 2, 3]
        """
        numpy = needed("numpy", "an array")
        if not self.columns:
            return {self.value: numpy.array(list(self.values()))}
        return {name: numpy.array(it.all_told() if self.value == "label" else it.values) for name, it in self.columns.items()}

    def to_pandas(self) -> pandas.DataFrame:
        """Returns the table as a pandas DataFrame, whose index has the names. Weights are in the store's units.

        >>> levels.to_pandas()["level"].to_dict()["bonn"]  # needs pandas
        3
        """
        pandas = needed("pandas", "a frame")
        index = pandas.Index(list(self.names), name="name", dtype=object)
        if not self.columns:
            rows = list(map(_cells, self.values()))
            return pandas.DataFrame(rows, index=index, columns=self._fields())
        return pandas.DataFrame({name: list(it.all_told()) for name, it in self.columns.items()}, index=index)

    def _fields(self) -> List[str]:
        """What a row's values are called."""
        if self.columns:
            return list(self.columns)
        first = next(iter(self.values()), None)
        if is_dataclass(first):
            return [it.name for it in fields(first)]
        return list(getattr(first, "_fields", [self.value]))

    def _repr_html_(self) -> str:
        """What a notebook shows: the first rows, and how many there are."""
        rows = [[name, *_cells(it)] for name, it in self._rows_from(0, ROWS_SHOWN)]
        told = f"{len(self)} {'name' if len(self) == 1 else 'names'} of version {self.version}: {self.request}"
        return rows_as_html(["name", *self._fields()], rows, told)

    def top(self, count: int = 10, by: Optional[str] = None) -> List[Tuple[str, V]]:
        """Returns the `count` rows with the greatest values, greatest first; equal ones in the order of the table.

        `by` is a column: of degrees and flows "out" (as without it), "into", "weight_out" or of flows "weight_in"; other tables
        have one.

        >>> levels.top(1)
        [('bonn', 3)]
        >>> session.degrees().top(1, by="into")
        [('hanau', Degree(out=1, into=2, weight_out=180))]
        """
        names = self._fields()
        field = by or names[0]
        if self.names and field not in names:
            raise ValueError(f"by is a column, {' or '.join(map(repr, names))}, and not {by!r}")
        values: Any = list(self._values() if self.columns else self.values())
        order = [getattr(it, field) for it in values] if len(names) > 1 else values
        places = heapq.nlargest(count, range(len(order)), key=order.__getitem__)
        return [(self.names[at], values[at]) for at in places]


class Components(Answer[str]):
    """A table with each vertex's component, given by the label that its vertices share, which is the name of one of them.

    >>> components = session.components("rail")
    >>> components["hanau"], components["bonn"]
    ('kassel', 'bonn')
    >>> groups = components.to_pandas().groupby("label").groups  # needs pandas
    >>> groups["kassel"].tolist()
    ['kassel', 'hanau']
    """

    def sizes(self) -> Dict[str, int]:
        """Returns how many vertices each component has, by its label, in the order of the table.

        >>> components.sizes()
        {'kassel': 2, 'fulda': 1, 'bonn': 1}
        """
        return dict(Counter(self.values()))

    def top(self, count: int = 10, by: Optional[str] = None) -> List[Tuple[str, Any]]:
        """Returns the `count` largest components, largest first: their labels and how many vertices they have.

        `by` is for degrees, and raises `ValueError` here.

        >>> components.top(1)
        [('kassel', 2)]
        """
        if by is not None:
            raise ValueError(f"by is for degrees: components are told by their sizes, and not by {by!r}")
        return Counter(self.values()).most_common(count)


def _cells(value: Any) -> Sequence[Any]:
    """The values of a row's value, which may be several."""
    if is_dataclass(value):
        return list(vars(value).values())
    return value if isinstance(value, tuple) else [value]


def rows_as_html(head: Sequence[str], rows: Iterable[Sequence[object]], told: str) -> str:
    """What a notebook shows of rows: a table with this head, and what is told of them."""
    from html import escape
    cells = ("".join(f"<td>{escape(str(it))}</td>" for it in row) for row in [head, *rows])
    return f"<table>{''.join(f'<tr>{it}</tr>' for it in cells)}</table><p>{escape(told)}</p>"


def shown_as_html(title: str, told: Mapping[str, object]) -> str:
    """What a notebook shows of something: a table of what is told of it."""
    from html import escape
    rows = "".join(f"<tr><th>{escape(name)}</th><td>{escape(str(it))}</td></tr>" for name, it in told.items())
    return f"<table><caption>{escape(title)}</caption>{rows}</table>"


def degrees(out: Sequence[int], into: Sequence[int], weights: Sequence[int], units: Any) -> Dict[str, Values]:
    """The columns of a table of degrees."""
    return dict(zip(OF_DEGREES, (Values(out), Values(into), Values.of_weights(weights, units))))


def _with_rows(kind: Any, rows: Any, version: int, request: str, value: str) -> Answer[Any]:
    made: Answer[Any] = kind(rows, version=version, request=request, value=value)
    return made
