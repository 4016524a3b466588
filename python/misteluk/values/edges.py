"""Edges as arrays with names."""
from __future__ import annotations

import heapq
from array import array
from functools import cached_property
from typing import TYPE_CHECKING, Any, Dict, Generic, Iterator, List, Literal, Sequence, Tuple, overload

from .adjacency import filled
from .answers import ROWS_SHOWN, Edge, T, W, rows_as_html
from .arrays import ReadOnlyArray, cut
from .fields import fields_of_csv, numpy_for
from .streamed import Streamed, StreamedColumn
from .units import Units
from .texts import Path
from ..errors import needed
from ..files import whole_text

if TYPE_CHECKING:
    import graph_tool
    import igraph
    import networkx
    import numpy
    import pandas
    import scipy.sparse

HEADER = ("kind", "source", "target", *Edge._fields)
# How many edges are written at once.
WRITTEN_AT_ONCE = 65_536
# An edge as a user is told it.
if TYPE_CHECKING:
    Told = Tuple[str, str, str, Edge[W, T]]
else:
    Told = Tuple[str, str, str, Any]


class Edges(Streamed, Sequence["Told[W, T]"], Generic[W, T]):
    """Edges as columns of one length, and as a sequence of (kind, source, target, `Edge`).

    >>> edges = session.edges(kind="road")
    >>> len(edges), edges.kinds, edges.names
    (3, ('road', 'rail'), ('kassel', 'fulda', 'hanau', 'bonn'))

    `kind`, `source` and `target` have numbers, which are places in `kinds` and `names`, as in Arrow's dictionary arrays. Names
    keep their numbers from version to version, unless the store starts over. `weight`, `first` and `recent` have whole numbers:
    weights in the parts that the store counts (`units.weight_scale` make 1), dates in microseconds since 1970. Nobody can change
    the arrays, which may be the session's own; a DataFrame is a copy.

    Edges are an Arrow stream too (`__arrow_c_stream__`), as tables are: polars, pyarrow, duckdb and `load` take them as they are.

    >>> copy = Store()
    >>> copy.load(edges, by="set", columns=Columns(kind="kind", weight="weight", time="recent")).commit.inserted
    3
    """

    def __init__(self, kinds: Sequence[str], names: Sequence[str], units: Units[W, T], columns: Sequence[array[int]]) -> None:
        self.kinds, self.names, self.units, self._columns = kinds, names, units, columns

    def __reduce__(self) -> Any:
        return Edges, (self.kinds, self.names, self.units, [it[:] for it in self._columns])

    # Columns, each made when somebody asks for it: most edges of a vertex are gone through without.

    @cached_property
    def kind(self) -> ReadOnlyArray:
        """The kind of each edge: its place in `kinds`.

        >>> list(edges.kind)
        [0, 0, 0]
        """
        return ReadOnlyArray(self._columns[0])

    @cached_property
    def source(self) -> ReadOnlyArray:
        """The source of each edge: its place in `names`.

        >>> list(edges.source)
        [0, 1, 2]
        """
        return ReadOnlyArray(self._columns[1])

    @cached_property
    def target(self) -> ReadOnlyArray:
        """The target of each edge: its place in `names`.

        >>> list(edges.target)
        [1, 2, 3]
        """
        return ReadOnlyArray(self._columns[2])

    @cached_property
    def weight(self) -> ReadOnlyArray:
        """The weight of each edge, in the parts that the store counts.

        >>> max(edges.weight)
        180
        """
        return ReadOnlyArray(self._columns[3])

    @cached_property
    def first(self) -> ReadOnlyArray:
        """The time of the operation that added each edge: a whole number, of a date microseconds since 1970.

        >>> list(edges.first)
        [1, 2, 3]
        """
        return ReadOnlyArray(self._columns[4])

    @cached_property
    def recent(self) -> ReadOnlyArray:
        """The time of the last operation on each edge, as `first`.

        >>> list(edges.recent)
        [1, 2, 3]
        """
        return ReadOnlyArray(self._columns[5])

    @property
    def columns(self) -> Dict[str, ReadOnlyArray]:
        """The six arrays by name: kind, source, target, weight, first and recent.

        >>> list(edges.columns["weight"])
        [105, 98, 180]
        """
        return {it: getattr(self, it) for it in HEADER}

    def __len__(self) -> int:
        return len(self._columns[0])

    @overload
    def __getitem__(self, at: int) -> Told[W, T]: ...

    @overload
    def __getitem__(self, at: slice) -> Edges[W, T]: ...

    def __getitem__(self, at: Any) -> Any:
        if isinstance(at, slice):
            return Edges(self.kinds, self.names, self.units, [it[at] for it in self._columns])
        kind, source, target, *marks = [it[at] for it in self._columns]
        return self.kinds[kind], self.names[source], self.names[target], self.units._edge_to_user(*marks)

    def __iter__(self) -> Iterator[Told[W, T]]:
        kinds, names = self.kinds.__getitem__, self.names.__getitem__
        kind, source, target, *_ = self._columns
        return zip(map(kinds, kind), map(names, source), map(names, target), self._marks())

    def _marks(self) -> Iterator[Edge[W, T]]:
        """Each edge's weight and times, in the store's units."""
        return map(Edge, *self._told())

    def where(self, mask: Sequence[Any]) -> Edges[W, T]:
        """Returns the edges for which `mask` is true: an array or sequence with a truth for each. `ValueError`: it has another
        length.

        >>> len(edges.where([weight > 100 for weight in edges.weight]))
        2
        """
        if len(mask) != len(self):
            raise ValueError(f"a mask has a truth for each of {len(self)} edges, and this has {len(mask)}")
        return self.take([at for at, it in enumerate(mask) if it])

    def take(self, places: Sequence[int]) -> Edges[W, T]:
        """Returns the edges in these places, which count from 0.

        >>> edges.take([2])[0]
        ('road', 'hanau', 'bonn', Edge(weight=180, first=3, recent=3))
        """
        numpy = numpy_for(len(places))
        if numpy is None:
            columns = [array(it.typecode, map(it.__getitem__, places)) for it in self._columns]
        else:
            columns = [array(it.typecode, numpy.asarray(it)[places].tobytes()) for it in self._columns]
        return Edges(self.kinds, self.names, self.units, columns)

    def _told(self) -> List[Sequence[Any]]:
        """The weights and both times in the store's units, by column."""
        return [self.units._all_weights_to_user(self.weight), self.units._all_times_to_user(self.first),
                self.units._all_times_to_user(self.recent)]

    def _streamed(self) -> List[StreamedColumn]:
        names = {"kind": self.kinds, "source": self.names, "target": self.names}
        time = "tsu:UTC" if self.units.has_dates else "l"
        formats, scales = {"weight": "l", "first": time, "recent": time}, {"weight": self.units.scale}
        return [StreamedColumn(name, formats.get(name, "i"), numbers, names.get(name), scales.get(name, 1))
                for name, numbers in zip(HEADER, self._columns)]

    def to_numpy(self) -> Dict[str, numpy.ndarray[Any, Any]]:
        """Returns the columns by name as numpy arrays, which are read-only views of these: to change one, take its `.copy()`.

        Weights are in the parts that the store counts, and dates in microseconds since 1970; the other three are places.

        >>> int(edges.to_numpy()["weight"].sum())  # needs numpy
        383
        """
        numpy = needed("numpy", "an array")
        return {name: numpy.asarray(it) for name, it in self.columns.items()}

    def to_pandas(self) -> pandas.DataFrame:
        """Returns the edges as a pandas DataFrame of your own: the columns are kind, source, target, weight, first and recent.

        Weights and times are as in an `Edge`. Decimal weights are objects, of which pandas takes sums but neither `nlargest` nor
        `quantile`; they are numbers if the store has `Units(decimals="float")`.

        >>> edges.to_pandas()["target"].tolist()  # needs pandas
        ['fulda', 'hanau', 'bonn']
        """
        numpy, pandas = needed("numpy", "a frame"), needed("pandas", "a frame")
        found = {name: self._named(name) for name in HEADER[:3]}
        for name in Edge._fields:
            found[name] = self._of_frame(name, numpy.asarray(self.columns[name]).astype("int64"))
        return pandas.DataFrame(found)  # (without `columns`, which has pandas make objects of the dates)

    def _named(self, name: str) -> Any:
        """The names of a column, kind, source or target, as an array of numpy."""
        numpy = needed("numpy", "an array")
        names = numpy.array([*(self.kinds if name == "kind" else self.names), None], dtype=object)
        return names[numpy.asarray(self.columns[name])]

    def _of_frame(self, name: str, numbers: Any, is_there: Any = None) -> Any:
        """A frame's column of weights or times, which are whole numbers here; empty where one isn't there. A date that pandas
        doesn't have as a number makes all of them objects."""
        if is_there is not None and not is_there.any():
            return needed("numpy", "a frame").full(len(numbers), None, dtype=object)
        has_gaps = is_there is not None and not is_there.all()
        if name != "weight" and self.units.has_dates:
            return self._dates_of_frame(numbers, is_there if has_gaps else None)
        if name == "weight" and self.units.scale != 1:
            told: Any = self.units._all_weights_to_user(numbers.tolist())
            return list(told) if not has_gaps else [it if there else None for it, there in zip(told, is_there.tolist())]
        if has_gaps:
            numbers = numbers.astype("float64")
            numbers[~is_there] = float("nan")
        return numbers

    def _dates_of_frame(self, times: Any, is_there: Any) -> Any:
        pandas = needed("pandas", "a frame")
        try:
            dates = pandas.to_datetime(times, unit="us", utc=True)
            return dates if is_there is None else dates.where(is_there)
        except pandas.errors.OutOfBoundsDatetime:
            told = self.units._all_times_to_user(times.tolist())
            return list(told) if is_there is None else [it if there else None for it, there in zip(told, is_there.tolist())]

    def to_networkx(self, **about: Any) -> networkx.MultiDiGraph:
        """Returns the edges as a networkx graph. `about` are attributes of the graph, as `version=session.version`.

        Each name of the version is a node, in order. An edge's key is its kind, and its attributes are `kind`, `weight`, `first`
        and `recent`.

        >>> session.edges().to_networkx().edges["kassel", "hanau", "rail"]["weight"]  # needs networkx
        210
        """
        networkx = needed("networkx", "a graph")
        return filled(networkx.MultiDiGraph(**about), self, by_kind=True)

    def to_igraph(self, **about: Any) -> igraph.Graph:
        """Returns the edges as a directed igraph graph. `about` are attributes of the graph.

        Vertices are numbered as in the version, and have `name`. Edges have the attributes `kind`, `weight`, `first` and
        `recent`. A GraphML file that it writes has texts and floats: it leaves dates out, unless they are made texts before,
        as by `graph.es["recent"] = list(map(str, graph.es["recent"]))`.

        >>> graph = session.edges().to_igraph()  # needs igraph
        >>> graph.es["kind"].count("road")
        3
        >>> graph.write_graphml("roads.graphml")
        """
        igraph = needed("igraph", "a graph")
        graph = igraph.Graph(len(self.names), list(zip(self.source, self.target)), directed=True)
        for name, value in about.items():
            graph[name] = value
        graph.vs["name"] = list(self.names)
        graph.es["kind"] = list(map(self.kinds.__getitem__, self.kind))
        for name, values in zip(Edge._fields, self._told()):
            graph.es[name] = list(values)
        return graph

    def to_graph_tool(self) -> graph_tool.Graph:
        """Returns the edges as a directed graph of graph-tool.

        Vertices are numbered as in the version, and have the property `name`. Edges have the properties `kind`, `weight`, `first`
        and `recent`: decimal weights are floats, and dates texts, so that a file of the graph has them.

        >>> graph = session.edges().to_graph_tool()  # needs graph_tool
        >>> graph.num_edges(), [graph.vp["name"][it] for it in graph.get_out_neighbors(0)]
        (4, ['fulda', 'hanau'])
        """
        graph_tool, numpy = needed("graph_tool", "a graph"), needed("numpy", "a graph")
        graph = graph_tool.Graph(directed=True)
        graph.add_vertex(len(self.names))
        graph.add_edge_list(numpy.column_stack((self.source, self.target)))
        graph.vp["name"] = graph.new_vp("string", vals=self.names)
        graph.ep["kind"] = graph.new_ep("string", vals=list(map(self.kinds.__getitem__, self.kind)))
        for name, values in zip(Edge._fields, self._told()):
            is_date = name != "weight" and self.units.has_dates
            sort = "string" if is_date else "double" if name == "weight" and self.units.scale != 1 else "long"
            graph.ep[name] = graph.new_ep(sort, vals=list(map(str if is_date else float if sort == "double" else int, values)))
        return graph

    def to_scipy(self) -> scipy.sparse.csr_matrix:
        """Returns the weights as a sparse matrix: row and column are the numbers of source and target, by `names`.

        Weights of several kinds are summed, in the parts that the store counts (see `Units.weight_scale`).

        >>> session.edges().to_scipy().shape  # needs scipy
        (4, 4)
        """
        numpy, sparse = needed("numpy", "a sparse matrix"), needed("scipy.sparse", "a sparse matrix")
        ends = numpy.asarray(self.source).astype("int64"), numpy.asarray(self.target).astype("int64")
        size = len(self.names)
        return sparse.csr_matrix((numpy.asarray(self.weight).astype("int64"), ends), shape=(size, size))

    def to_csv(self, path: Path) -> int:
        """Writes the edges as CSV in UTF-8 with a header, and returns how many there are.

        The columns are kind, source, target, weight, first and recent. The file is written under another name and renamed when it
        is whole: an error or an interrupt leaves what was there.

        >>> session.edges().to_csv("roads.csv")
        4
        """
        kinds, names = fields_of_csv(self.kinds), fields_of_csv(self.names)
        with whole_text(path) as file:
            file.write(",".join(HEADER) + "\n")
            for at in range(0, len(self), WRITTEN_AT_ONCE):
                kind, source, target, weight, first, recent = (it[at:at + WRITTEN_AT_ONCE] for it in self._columns)
                columns = (map(kinds.__getitem__, kind), map(names.__getitem__, source), map(names.__getitem__, target),
                           self.units._weights_as_text(weight), *map(self.units._times_as_text, (first, recent)))
                file.write("\n".join([*map(",".join, zip(*columns)), ""]))
        return len(self)

    def top(self, count: int = 10, by: Literal["weight", "first", "recent"] = "weight") -> List[Told[W, T]]:
        """Returns the `count` edges with the greatest "weight", "first" or "recent" (`by`), greatest first.

        >>> edges.top(1)
        [('road', 'hanau', 'bonn', Edge(weight=180, first=3, recent=3))]
        """
        if by not in Edge._fields:
            raise ValueError(f"by is 'weight', 'first' or 'recent' for edges, and not {by!r}")
        places = heapq.nlargest(count, range(len(self)), key=self._columns[HEADER.index(by)].__getitem__)
        return [self[at] for at in places]

    @property
    def _size(self) -> str:
        counted = (f"{count:,} {what}{'s' * (count != 1)}" for count, what in (
            (len(self), "edge"), (len(self.kinds), "kind"), (len(self.names), "name")))
        return "{} of {} and {}".format(*counted)

    def _repr_html_(self) -> str:
        """What a notebook shows: the first rows, and how many there are."""
        return rows_as_html(HEADER, [(*ends, *edge) for *ends, edge in self[:ROWS_SHOWN]], self._size)

    def __repr__(self) -> str:
        """How many there are, and the edges; of many the first and the last ones."""
        shown = cut(len(self), lambda first, end: list(map(repr, self[first:end])), "edges")[0]
        return f"<{self._size}: {shown}>" if shown else f"<{self._size}>"
