"""Graphs of networkx, igraph and graph-tool, sparse matrices, pandas frames, columns and rows of Python as feeds."""
from __future__ import annotations

import reprlib
import warnings
from dataclasses import replace
from itertools import chain
from typing import AbstractSet, Any, Callable, Dict, Iterable, Iterator, List, Mapping, Sequence, Tuple

from . import feed as feeds
from .delimited import Picked, warn_of_unread
from ..errors import FeedFault, LeftOut
from .feed import USUAL_KIND, Block, Columns, Feed, Row, Table, parts_of
from ..values import texts
from ..values.given import given

# How many rows of whole columns are taken at once; and what holds bytes, which are no text.
GIVEN_AT_ONCE = 1 << 16
BYTES = (bytes, bytearray, memoryview)


def is_missing(value: Any) -> bool:
    """Whether a value of a frame or graph stands for none: `None`, not a number, not a time, pandas' `NA`, or what is masked."""
    try:
        return value is None or bool(value != value) or type(value).__name__ == "MaskedConstant"
    except (TypeError, ArithmeticError):  # (pandas' NA is neither equal to itself nor unequal)
        return True
    except ValueError:  # (an array has many values)
        return False


def text_of(value: Any) -> str:
    """The value as a feed's text; of a missing value an empty one, which no field takes."""
    if type(value) is float:  # (these are the most, and are looked at by less)
        return texts.text_of(value) if value == value else ""
    return "" if not isinstance(value, str) and is_missing(value) else texts.text_of(value)


def texts_of(values: Sequence[Any], feed: str, begin: int) -> Sequence[str]:
    """Many values as a feed's texts; the first is of the row of this number. Raises `FeedFault` where one of them is no value."""
    kinds = set(map(type, values))
    if kinds <= {str, int}:
        return values if kinds <= {str} else list(map(str, values))
    for kind in filter(_reason_against, kinds):
        at, value = next((at, it) for at, it in enumerate(values, begin) if type(it) is kind)
        raise FeedFault(f"{feed}:{at}: {reprlib.repr(value)}: {_reason_against(kind)}")
    return [text_of(it) for it in values]


def _reason_against(kind: type) -> str:
    """Why values of a type stand for no text; nothing where they do."""
    if issubclass(kind, BYTES):
        return ("bytes are no text: decode them, as value.decode('utf-8'), numpy.char.decode(array, 'utf-8') or "
                "frame[column].str.decode('utf-8')")
    is_array = hasattr(kind, "ndim") and hasattr(kind, "__len__") and not issubclass(kind, str)
    if is_array and kind.__name__ != "MaskedConstant":
        return "an array where one value stands: give each column by itself, as array[:, 0]"
    return ""


def _column(name: str, values: Any) -> Any:
    """The values of a column, as an array or a list. Raises `FeedFault` where it isn't one value after another."""
    told = f"columns: the column {name!r} is"
    if isinstance(values, (str, *BYTES, Mapping, AbstractSet)) or not isinstance(values, Iterable):
        raise FeedFault(f"{told} {type(values).__name__}, {reprlib.repr(values)}: give a list or array, which has a value for "
                        "each row")
    must_not_be_masked(values, told)
    dimensions = getattr(values, "ndim", 1)
    if dimensions != 1:
        raise FeedFault(f"{told} an array of {dimensions} dimensions: give each column by itself, as array[:, 0]")
    return values if hasattr(values, "dtype") or isinstance(values, list) else list(values)


def must_not_be_masked(values: Any, told: str) -> None:
    """Raises `FeedFault` for an array of numpy that is masked: what stands behind the mask is no value."""
    if hasattr(values, "mask") and hasattr(values, "filled"):
        raise FeedFault(f"{told} a masked array: leave its masked rows out, as array[~array.mask] of each column, or fill them "
                        "(.filled(value))")


def values_of(column: Any) -> List[Any]:
    """The values of a column, of an array or frame those of Python where they are told the same: floats of less than 64 bits are
    not, since 0.1 of 32 bits is 0.10000000149011612 of 64."""
    dtype: Any = getattr(column, "dtype", None)
    if type(dtype).__module__.partition(".")[0] != "numpy":
        return list(column)
    values = column if not hasattr(column, "to_numpy") else column.to_numpy() if dtype.kind == "f" else column
    is_same = dtype.kind in "iuU" or dtype == "float64"
    return list(values.tolist() if is_same else values)


def from_networkx(graph: Any, *, kind: str = USUAL_KIND, weight: str = "weight", time: str = "time", kind_of: str = "kind",
                  both_ways: bool = True) -> Feed:
    """A networkx graph. An edge's weight, time and kind are its attributes of these names, or else 1, 0 and `kind`; the time of
    one that has none, but both times that `to_networkx` writes, is its `recent`. An edge of an undirected graph is one either
    way, or with `both_ways=False` one way alone. Nodes are named by `str`; those without an edge are left out, which a warning
    tells (`LeftOut`). An edge of which a node or an attribute is missing (`None`, not a number) is a bad row."""
    name = f"graph {graph.name}".strip()
    for it in graph:
        if _reason_against(type(it)):
            raise FeedFault(f"{name}: node {it!r}: {_reason_against(type(it))}")
    names: Dict[Any, str] = {it: "" if is_missing(it) else str(it) for it in graph}
    known = [it for it in names.values() if it]
    if len(set(known)) < len(known):
        raise FeedFault("two nodes of the graph have one name: rename them (networkx.relabel_nodes)")
    _warn_of_idle([str(it) for it, degree in graph.degree() if not degree])
    edges = ((names[source], names[target], told) for source, target, told in graph.edges(data=True))
    return Feed(name, _rows_of_graph(name, edges, both_ways and not graph.is_directed(), kind, (kind_of, weight, time)))


def _rows_of_graph(feed: str, edges: Iterable[Tuple[str, str, Mapping[str, Any]]], both_ways: bool, kind: str,
                   wanted: Tuple[str, str, str]) -> Iterator[Row]:
    """The rows of a graph's edges, of which each has its ends and attributes: those that are wanted are its kind, weight and
    time."""
    kind_of, weight, time = wanted
    for at, (source, target, told) in enumerate(edges, 1):
        usual = told["recent"] if time == "time" and "first" in told and "recent" in told else 0
        of_kind, *rest = texts_of((told.get(kind_of, kind), told.get(weight, 1), told.get(time, usual)), feed, at)
        yield (at, of_kind, source, target, rest[0], rest[1])
        if both_ways and source != target:
            yield (at, of_kind, target, source, rest[0], rest[1])


def from_igraph(graph: Any, *, kind: str = USUAL_KIND, weight: str = "weight", time: str = "time", kind_of: str = "kind",
                both_ways: bool = True) -> Feed:
    """An igraph graph, as `from_networkx` takes one of networkx. A vertex's name is its attribute `name`, or its number where
    vertices have none."""
    name = f"graph {graph['name'] if 'name' in graph.attributes() else ''}".strip()
    given = graph.vs["name"] if "name" in graph.vs.attributes() else range(graph.vcount())
    names = _different(name, list(given), "graph.vs['name']")
    _warn_of_idle([it for it, degree in zip(names, graph.degree()) if not degree])
    edges = ((names[it.source], names[it.target], it.attributes()) for it in graph.es)
    return Feed(name, _rows_of_graph(name, edges, both_ways and not graph.is_directed(), kind, (kind_of, weight, time)))


def from_graph_tool(graph: Any, *, kind: str = USUAL_KIND, weight: str = "weight", time: str = "time", kind_of: str = "kind",
                    both_ways: bool = True) -> Feed:
    """A graph of graph-tool, also a view of some of its vertices and edges, as `from_igraph` takes one of igraph: a vertex's name
    is its property `name`, or its number, and an edge's attributes are its properties."""
    name, numbers = "graph", graph.get_vertices().tolist()
    given = [graph.vp["name"][it] for it in numbers] if "name" in graph.vp else numbers
    names = dict(zip(numbers, _different(name, given, "graph.vp['name']")))
    _warn_of_idle([names[it] for it, degree in zip(numbers, graph.get_total_degrees(numbers).tolist()) if not degree])
    wanted = [it for it in (kind_of, weight, time, "first", "recent") if it in graph.ep]
    edges = ((names[source], names[target], dict(zip(wanted, told)))
             for source, target, *told in graph.iter_edges([graph.ep[it] for it in wanted]))
    return Feed(name, _rows_of_graph(name, edges, both_ways and not graph.is_directed(), kind, (kind_of, weight, time)))


def _different(feed: str, given: List[Any], where: str) -> Sequence[str]:
    """The texts of vertices' names. Raises `FeedFault` where two are the same."""
    names = texts_of(given, feed, 0)
    known = [it for it in names if it]
    if len(set(known)) < len(known):
        raise FeedFault(f"{feed}: two vertices have one name: give them others ({where})")
    return names


def from_matrix(matrix: Any, columns: Columns = Columns()) -> Feed:
    """A sparse matrix of scipy: an entry in row i and column j is an edge from i to j, as numbers from 0. Entries in one place
    are summed, as scipy does."""
    height, width = matrix.shape
    if height != width:
        raise FeedFault(f"matrix: it has {height} rows and {width} columns, which aren't the same vertices: give its entries as "
                        "columns, {'source': .., 'target': .., 'weight': ..}, with names")
    if not columns._are_unsaid:
        raise ValueError("a matrix has no columns with names: of Columns it takes default_kind and default_time alone")
    rows = matrix.tocsr(copy=True)
    rows.sum_duplicates()
    entries = rows.tocoo()
    weights = entries.data.astype("int64") if entries.data.dtype == bool else entries.data
    table = {"source": entries.row, "target": entries.col, "weight": weights}
    return from_columns(table, replace(columns, weight="weight"))._replace(name="matrix")


def _warn_of_idle(names: Sequence[str]) -> None:
    if names:
        what = f"1 node of the graph, {names[0]!r}, has" if len(names) == 1 else f"{len(names)} nodes of the graph, as " \
                                                                                 f"{names[0]!r}, have"
        warnings.warn(LeftOut(f"{what} no edge: a store has the names of edges alone, and these aren't loaded"), stacklevel=3)


def from_pandas(frame: Any, columns: Columns = Columns()) -> Feed:
    """A pandas frame. A row with a missing value (`None`, NaN, NaT, NA) in one of the columns is a bad row."""
    names = [str(it) for it in frame.columns]
    return Feed("frame", Table(lambda: column_blocks("frame", columns, names, lambda at: frame.iloc[:, at], len(frame))))


def from_columns(table: Mapping[str, Iterable[Any]], columns: Columns = Columns()) -> Feed:
    """Columns by name, as a dict of lists or arrays, each as long as the others. Missing values are as in `from_pandas`."""
    found = {str(name): _column(str(name), values) for name, values in table.items()}
    if len(set(map(len, found.values()))) > 1:
        raise FeedFault(f"the columns aren't equally long: {', '.join(f'{name} has {len(it)}' for name, it in found.items())}")
    values = list(found.values())
    size = len([*values, []][0])
    return Feed("columns", Table(lambda: column_blocks("columns", columns, list(found), values.__getitem__, size)))


def column_blocks(feed: str, columns: Columns, names: List[str], column: Callable[[int], Any], size: int) -> Iterator[Block]:
    """The rows of columns that have so many values each; `column` gives them by place."""
    picked = Picked(feed, columns, names)
    if size and len(names) < picked.least:
        raise FeedFault(f"{feed}:1: {len(names)} fields, where the columns need {picked.least}")
    places = [place for place in picked.places if place is not None] if size else []
    wholes = {place: given(column(place), lambda some, begin: texts_of(values_of(some), feed, begin)) for place in places}
    if None not in wholes.values():
        for at in range(0, size, GIVEN_AT_ONCE):
            rows = slice(at, min(at + GIVEN_AT_ONCE, size))
            yield picked.of_columns(range(at + 1, rows.stop + 1), {place: it[rows] for place, it in wholes.items() if it})
        return
    taken = {place: values_of(column(place)) for place in places}
    for at in range(0, size, feeds.ROWS_AT_ONCE):
        end = min(at + feeds.ROWS_AT_ONCE, size)
        yield picked.of_columns(range(at + 1, end + 1), {place: texts_of(it[at:end], feed, at + 1)
                                                                 for place, it in taken.items()})


def from_rows(rows: Iterable[Any], columns: Columns = Columns()) -> Feed:
    """Rows, as tuples or dicts. A tuple has the source, the target, and then, where there are more, the weight, the time and the
    kind, unless `columns` says other numbers; each has as many as the first. Of a dict `columns` says the names. Missing values
    are as in `from_pandas`, and so is a name that a dict doesn't have."""
    must_not_be_masked(rows, "rows: this is")

    def blocks() -> Iterator[Block]:
        given = iter(rows)
        first = next(given, None)
        if first is None:
            return
        names, picked = _form_of_rows(first, columns)
        end, width = 0, len(first)
        for part in parts_of(chain([first], given), feeds.ROWS_AT_ONCE):
            begin, end = end + 1, end + len(part)
            if names or not set(map(type, part)) <= {tuple, list} or set(map(len, part)) != {width}:
                part = list(_even(part, begin, names, width))
            if set(map(len, part)) == {len(part[0])} and len(part[0]) >= picked.least:
                yield picked.of_columns(range(begin, end + 1), [texts_of(it, "rows", begin) for it in zip(*part)])
            else:
                yield from picked.of_rows([(texts_of(row, "rows", at), at) for at, row in enumerate(part, begin)])
    return Feed("rows", Table(blocks))


def _form_of_rows(first: Any, columns: Columns) -> Tuple[List[str], Picked]:
    """The names of rows that are dicts, and the columns to take, by a first row."""
    if isinstance(first, (str, bytes)) or not hasattr(first, "__len__"):
        raise FeedFault(f"rows:1: a row is a tuple or a dict, and not {type(first).__name__}")
    if isinstance(first, Mapping):
        wanted = [str(it) for it in columns._wanted if it is not None]
        warn_of_unread("rows", columns, list(first))
        return wanted, Picked("rows", columns, [it for it in wanted if it in first])
    if columns._are_unsaid:
        if len(first) > 5:
            raise FeedFault(f"rows:1: {len(first)} fields, where an edge has source, target, weight, time and kind: say which to "
                            "take by numbers from 1, Columns(1, 2, ..)")
        weight, time, kind = (it if it <= len(first) else None for it in (3, 4, 5))
        columns = replace(columns, source=1, target=2, kind=kind, weight=weight, time=time)
    return [], Picked("rows", columns, [])


def _even(rows: Iterable[Any], begin: int, names: List[str], width: int) -> Iterator[Sequence[Any]]:
    """Each row's fields, of a dict those of the names. A row that is longer than the first tells what can't be known. The first
    of these has the number `begin`."""
    for at, row in enumerate(rows, begin):
        if isinstance(row, Mapping) != bool(names) or isinstance(row, (str, bytes)):
            raise FeedFault(f"rows:{at}: {type(row).__name__}, where the first row is {'a dict' if names else 'a tuple'}")
        if not names and len(row) > width:
            raise FeedFault(f"rows:{at}: {len(row)} fields, where the first row has {width}")
        yield [row.get(it) for it in names] if names else row
