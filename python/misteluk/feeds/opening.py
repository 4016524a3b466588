"""Which feed something is: by what it is, by a file's name, and by what is said."""
from __future__ import annotations

import os
from collections.abc import Iterable, Mapping
from dataclasses import dataclass, fields, replace
from inspect import Parameter, cleandoc, signature
from typing import Any, Callable, Optional, TypeVar

from .advice import Reading
from .feed import STANDARD_INPUT, Columns, Feed, Path, matrix_market, open_text, snap
from .notations import Notation
from ..options import _named
from ..values.units import ISO, Units, units_given

F = TypeVar("F", bound=Callable[..., Any])
FORMATS = ("delimited", "snap", "matrix")


@dataclass(frozen=True)
class ReadAs:
    """How a feed is read:

    - `columns`: the columns of a delimited file, of a frame or of rows, or a graph's attributes of edges (`misteluk.Columns`).
    - `format`: "delimited", "snap" (an edge list) or "matrix" (Matrix Market). Without it the file's name decides: .mtx is a
      matrix, .txt an edge list if it begins with #, and anything else delimited.
    - `delimiter`: what separates fields. Without it that of comma, tab, semicolon and bar of which the first line has most.
    - `header`: whether the first line names the columns. Without it a file has a header if `columns` have names.
    - `third`: whether the third field of an edge list is the "weight" or the "time".
    - `both_ways`: whether an edge of an undirected graph makes an edge in each direction, or one alone.
    - `encoding`: the file's encoding, by Python's name.
    - `decimal`: "." if a file has amounts as 12.50 or 1,234.50; then 1,234 alone is a bad amount, since it may be either. "," for
      12,50 or 1.234,50; then 1.234 is the bad one. No form is guessed.
    - `dates`: "dd.mm.yyyy", "dd/mm/yyyy" or "mm/dd/yyyy" if times are such dates, which a time of day may follow; "seconds",
      "milliseconds" or "microseconds" if they are numbers of these since 1970. They are read as with `Units(times="iso")`.
    - `names`: "escape" writes names with escapes, %20 for a space.
    - `units`: the units of a store that has none yet (`misteluk.Units`); those of another store must be the same. Without it the
      feed is in the store's. Their `rounding` is for this feed alone."""

    columns: Columns = Columns()
    format: Optional[str] = None
    delimiter: Optional[str] = None
    header: Optional[bool] = None
    third: Optional[str] = None
    both_ways: bool = True
    encoding: str = "utf-8"
    decimal: str = "."
    dates: Optional[str] = None
    names: str = "plain"
    units: Optional[Units[Any, Any]] = None

    def __post_init__(self) -> None:
        if not isinstance(self.columns, Columns):
            raise TypeError(f"columns are said as Columns(weight='amount'), and not by {type(self.columns).__name__}")
        units_given(self.units)

    @property
    def notation(self) -> Notation:
        """How numbers and dates are written. Raises `ValueError` where they can't be written so."""
        return Notation(self.decimal, self.dates).checked()

    @property
    def units_given(self) -> Units[Any, Any]:
        units = units_given(self.units)
        return replace(units, times=ISO) if self.dates else units

    def reading(self, data: Any, units: Units[Any, Any]) -> Reading:
        """What advice on bad rows goes by. Data that is no file has no encoding."""
        is_file = isinstance(data, (str, os.PathLike))
        is_headless = is_file and self.header is None and not any(isinstance(it, str) for it in self.columns._wanted)
        return Reading(self.encoding if is_file else None, self.decimal if is_file else None, units, self.dates, is_headless)

    def feed(self, data: Any) -> Feed:
        """The feed of a file's path (`-` is standard input), a graph, a sparse matrix, a frame, columns by name, rows, or a feed.

        Raises `ValueError` for options that there aren't, `FeedFault` where a file or graph is of another form, and `OSError`."""
        notation = self.notation
        if isinstance(data, Feed):
            return notation.turned(data)
        if isinstance(data, (str, os.PathLike)):
            form = self.format or form_of(data, self.encoding)
            if form not in FORMATS:
                raise ValueError(f"format is 'delimited', 'snap' or 'matrix', and not {form!r}")
            return notation.turned(self._of_file(data, form))
        if self.decimal != ".":
            raise ValueError("decimal is for files: numbers of a frame, graph or row have none that is written")
        return notation.turned(_of_object(data, self.columns, self.both_ways))

    def _of_file(self, path: Path, form: str) -> Feed:
        if form == "snap":
            return snap(path, kind=self.columns.default_kind, third=self.third, encoding=self.encoding)
        if form == "matrix":
            return matrix_market(path, kind=self.columns.default_kind, encoding=self.encoding)
        from .delimited import delimited
        return delimited(path, self.columns, delimiter=self.delimiter, header=self.header, encoding=self.encoding)


def reads(call: F) -> F:
    """A call whose further options are those of `ReadAs`, which its help and signature have too: a prompt completes them."""
    own = signature(call)
    named = [it for it in own.parameters.values() if it.kind != Parameter.VAR_KEYWORD]
    options = [Parameter(it.name, Parameter.KEYWORD_ONLY, default=it.default, annotation=it.type) for it in fields(ReadAs)]
    call.__doc__ = f"{cleandoc(call.__doc__ or '')}\n\n{cleandoc(ReadAs.__doc__ or '')}"
    call.__signature__ = own.replace(parameters=[*named, *options])  # type: ignore[attr-defined]
    return _named(call)


def _of_object(data: Any, columns: Columns, both_ways: bool) -> Feed:
    from .objects import from_columns, from_graph_tool, from_igraph, from_matrix, from_networkx, from_pandas, from_rows
    if hasattr(data, "is_directed"):
        is_graph_tool = hasattr(data, "edge_properties")
        from_graph = from_graph_tool if is_graph_tool else from_networkx if hasattr(data, "edges") else from_igraph
        return from_graph(data, kind=columns.default_kind, both_ways=both_ways, weight=str(columns.weight or "weight"),
                          time=str(columns.time or "time"), kind_of=str(columns.kind or "kind"))
    if hasattr(data, "tocoo"):
        return from_matrix(data, columns)
    if hasattr(data, "itertuples"):
        return from_pandas(data, columns)
    if hasattr(data, "__arrow_c_stream__"):
        from .streams import from_arrow
        return from_arrow(data, columns)
    if isinstance(data, Mapping):
        return from_columns(data, columns)
    if isinstance(data, Iterable) and not isinstance(data, (bytes, bytearray)):
        return from_rows(data, columns)
    raise TypeError("a feed is a file's path, a graph, a sparse matrix, a frame, a table, columns by name or rows, and not "
                    f"{type(data).__name__}")


def form_of(path: Path, encoding: str) -> str:
    """The format that a file's name says, and of one that ends in .txt its first sign."""
    if path == STANDARD_INPUT:
        return "delimited"
    name = os.fspath(path)
    suffix = os.path.splitext(name[:-3] if name.endswith(".gz") else name)[1]
    if suffix == ".mtx":
        return "matrix"
    if suffix == ".txt":
        with open_text(path, encoding) as file:
            return "snap" if file.read(1) == "#" else "delimited"
    return "delimited"
