"""Data in, as rows of texts: what a feed is, and two forms of files, SNAP edge lists and Matrix Market."""
from __future__ import annotations

import codecs
import io
import os
from itertools import chain, islice
from dataclasses import dataclass
from typing import (IO, Any, Callable, Iterable, Iterator, List, NamedTuple, Optional, Sequence, Tuple, TypeVar, Union, cast,
                    overload)

from ..errors import FeedFault
from ..values.columns import FieldColumn
from ..values.units import each_once

# Where a row stands (a line of a file, or a row's number from 1), and its kind, source, target, weight and time as texts.
Row = Tuple[int, str, str, str, str, str]
Column = Union[str, int]
Path = Union[str, "os.PathLike[str]"]
USUAL_KIND = "link"
# The file that is standard input, and what it is called where a row is refused.
STANDARD_INPUT, ITS_NAME = "-", "standard input"
# How many rows are read at once: few enough that a processor's nearer memory has them until they are counted.
ROWS_AT_ONCE = 1_024
# How many characters of a file are read at once.
AT_ONCE = 1 << 22
T = TypeVar("T")


class TableForm(NamedTuple):
    """How a table's rows are written: below a header, or none; the sign between fields; how many fields a row has at least."""

    names: Sequence[str]
    sign: str
    width: int


# That of rows whose feed is no table of text.
OF_ROWS = TableForm(("source", "target", "kind", "weight", "time"), ",", 5)


class Came(Sequence[Sequence[str]]):
    """Rows with all their fields, as they came; a row is made once somebody asks for it, as where it can't be taken."""

    def __init__(self, form: TableForm, fields: Callable[[int], Sequence[str]], places: range) -> None:
        self.form, self._fields, self._places = form, fields, places

    def __len__(self) -> int:
        return len(self._places)

    @overload
    def __getitem__(self, at: int) -> Sequence[str]: ...

    @overload
    def __getitem__(self, at: slice) -> Came: ...

    def __getitem__(self, at: Any) -> Any:
        if isinstance(at, slice):
            return Came(self.form, self._fields, self._places[at])
        found = list(self._fields(self._places[at]))
        return found + [""] * (self.form.width - len(found))  # (a row may have too few)


class Block(NamedTuple):
    """Rows that follow one another, by column: a call turns, checks or writes thousands of fields at once. Weights and times are
    texts, and in the engine's terms numbers."""

    lines: Sequence[int]
    kinds: Sequence[str]
    sources: Sequence[str]
    targets: Sequence[str]
    weights: Sequence[Any]
    times: Sequence[Any]
    # The rows as they came; none where they came as they are here.
    came: Sequence[Sequence[str]] = ()

    def plain(self) -> Block:
        """The same with a text for each field."""
        return Block._make(it.texts if isinstance(it, FieldColumn) else it for it in self)


def rows_of(block: Block) -> Iterator[Row]:
    return cast("Iterator[Row]", zip(*block[:6]))


def came_of(block: Block) -> Came:
    if isinstance(block.came, Came):
        return block.came
    columns = [block[2], block[3], block[1], *block[4:6]]
    return Came(OF_ROWS, lambda at: [it[at] for it in columns], range(len(block.lines)))


def part_of(block: Block, rows: slice) -> Block:
    return Block(*(it[rows] for it in block))


class Table:
    """Rows that come in blocks, and can be gone through one by one too."""

    def __init__(self, blocks: Callable[[], Iterator[Block]]) -> None:
        self.blocks = blocks

    def __iter__(self) -> Iterator[Row]:
        return chain.from_iterable(map(rows_of, self.blocks()))


class Feed(NamedTuple):
    """Rows, and what they are called where one of them is refused."""

    name: str
    rows: Iterable[Row]

    def blocks(self) -> Iterator[Block]:
        if isinstance(self.rows, Table):
            return self.rows.blocks()
        return (Block(*zip(*rows)) for rows in parts_of(self.rows, ROWS_AT_ONCE))


@dataclass(frozen=True)
class Columns:
    """The columns of a table in which edges are: each by its name, or by its number from 1.

    >>> table = {"from": ["bonn"], "to": ["kassel"], "km": [230]}
    >>> store.load(table, by="set", columns=Columns("from", "to", weight="km")).commit.inserted
    1

    If a column is `None`, `default_kind`, a weight of 1 and `default_time` stand for it."""

    source: Column = "source"
    target: Column = "target"
    kind: Optional[Column] = None
    weight: Optional[Column] = None
    time: Optional[Column] = None
    default_kind: str = USUAL_KIND
    default_time: str = "0"

    @property
    def _wanted(self) -> Tuple[Optional[Column], ...]:
        """The columns themselves: of the source, the target, the kind, the weight and the time."""
        return self.source, self.target, self.kind, self.weight, self.time

    @property
    def _are_unsaid(self) -> bool:
        """Whether no column was said."""
        return self._wanted == Columns()._wanted


def parts_of(items: Iterable[T], size: int) -> Iterator[List[T]]:
    """The items in lists of so many."""
    left = iter(items)
    return iter(lambda: list(islice(left, size)), [])


def escaped(name: str) -> str:
    """The name with escapes (%20 for a space) for what no name has, and for % itself; `urllib.parse.unquote` undoes it."""
    from urllib.parse import quote
    return quote(name, errors="surrogateescape", safe="!\"#$&'()*+,-./:;<=>?@[\\]^_`{|}~")


def turned(feed: Feed, *, names: str = "plain") -> Feed:
    """The feed with names that have escapes (`names="escape"`), as they stand well in a script; a client needs none."""
    if names not in ("plain", "escape"):
        raise ValueError(f"names is 'plain' or 'escape', and not {names!r}")
    if names == "plain":
        return feed

    def blocks() -> Iterator[Block]:
        for it in feed.blocks():
            kinds, sources, targets = (each_once(escaped, column) for column in it[1:4])
            yield Block(it.lines, kinds, sources, targets, it.weights, it.times, came=came_of(it))
    return Feed(feed.name, Table(blocks))


def feed_name(path: Path) -> str:
    return ITS_NAME if path == STANDARD_INPUT else os.fspath(path)


def codec_of(encoding: str) -> str:
    """Python's name of an encoding; that of UTF-8 passes over a mark of the order of bytes. `ValueError` where there is none."""
    try:
        name = codecs.lookup(encoding).name
    except LookupError:
        raise ValueError(f"there is no encoding {encoding!r}: utf-8, cp1252, latin-1 and utf-16 are some") from None
    return "utf-8-sig" if name == "utf-8" else name


# What files begin with that are no text, and what reads them.
NO_TEXTS = {b"PAR1\x15": ("a Parquet file", "pandas.read_parquet"), b"ARROW1\0\0": ("a Feather file", "pandas.read_feather"),
            b"PK\3\4": ("an Excel file or another archive", "pandas.read_excel")}


def open_text(path: Path, encoding: str = "utf-8") -> IO[str]:
    """The file as text, unpacked where its name ends in .gz; `-` is standard input. Bytes that aren't of the encoding are
    kept, so that the names they stand in are refused. Raises `FeedFault` for a table that is no text."""
    codec = codec_of(encoding)
    raw: Any
    if path == STANDARD_INPUT:
        raw = open(0, "rb", closefd=False)
    else:
        import gzip
        raw = gzip.open(path, "rb") if os.fspath(path).endswith(".gz") else open(path, "rb")
    text = io.TextIOWrapper(raw, encoding=codec, errors="surrogateescape", newline="")
    try:
        _must_be_text(feed_name(path), raw.peek(1))
    except BaseException:
        text.close()
        raise
    return text


def _must_be_text(name: str, begin: bytes) -> None:
    for it, (what, reader) in NO_TEXTS.items():
        if begin.startswith(it):
            raise FeedFault(f"{name}: this is {what}, and no text: read it with {reader}, and load the frame")


class Rows:
    """The rows of a feed's text, as it comes. Those to the line `passed` are in from before, and so passed over. It has begun
    once it knows what the columns are; `kept` is of a row that isn't whole yet."""

    line = passed = 0
    is_begun = True
    kept = ""

    def take(self, text: str, is_end: bool) -> Iterator[Block]:
        """The rows that are whole with this text, of whole lines; at the end the last one is."""
        raise NotImplementedError

    def _behind(self, text: str) -> str:
        """The text behind the lines that are passed over."""
        if self.passed <= self.line:
            return text
        lines = io.StringIO(text, newline="")
        self.line += sum(1 for _ in islice(lines, self.passed - self.line))
        return lines.read()


def blocks_of_file(path: Path, rows: Rows, encoding: str) -> Iterator[Block]:
    with open_text(path, encoding) as file:
        for text in iter(lambda: file.read(AT_ONCE) + file.readline(), ""):
            yield from rows.take(text, False)
        yield from rows.take("", True)


class SnapRows(Rows):
    """The rows of an edge list as the Stanford Network Analysis Project has them: comments behind #, and source and target parted
    by white space; `third` says what a third field is, "weight" or "time"."""

    def __init__(self, feed: str, kind: str, third: Optional[str]) -> None:
        if third not in (None, "weight", "time"):
            raise ValueError(f"third is 'weight' or 'time', and not {third!r}")
        self.feed, self.kind, self.third, self.wanted = feed, kind, third, 2 if third is None else 3

    def take(self, text: str, is_end: bool) -> Iterator[Block]:
        lines, first = list(io.StringIO(self._behind(text), newline="")), self.line + 1
        self.line += len(lines)
        for part in parts_of(self._rows(enumerate(lines, first)), ROWS_AT_ONCE):
            yield Block(*zip(*part))

    def _rows(self, lines: Iterable[Tuple[int, str]]) -> Iterator[Row]:
        for line, text in lines:
            fields = text.split()
            if not fields or text.startswith("#"):
                continue
            if len(fields) < self.wanted or len(fields) > 3:
                raise FeedFault(f"{self.feed}:{line}: {len(fields)} fields, where an edge list has {self.wanted}")
            weight = fields[2] if self.third == "weight" else "1"
            yield line, self.kind, fields[0], fields[1], weight, fields[2] if self.third == "time" else "0"


def snap(path: Path, *, kind: str = USUAL_KIND, third: Optional[str] = None, encoding: str = "utf-8") -> Feed:
    """An edge list; see `SnapRows`."""
    name = feed_name(path)
    SnapRows(name, kind, third)  # (raises now, and not once it is read)
    return Feed(name, Table(lambda: blocks_of_file(path, SnapRows(name, kind, third), encoding)))


def matrix_market(path: Path, *, kind: str = USUAL_KIND, encoding: str = "utf-8") -> Feed:
    """A Matrix Market file of coordinates: an entry of row i and column j is an edge from i to j. Of a symmetric matrix each
    entry off the diagonal is an edge either way."""
    return Feed(feed_name(path), _matrix_rows(path, kind, encoding))


def _matrix_rows(path: Path, kind: str, encoding: str) -> Iterator[Row]:
    with open_text(path, encoding) as file:
        head = file.readline().lower().split()
        if len(head) != 5 or head[0] != "%%matrixmarket" or head[1] != "matrix" or head[2] != "coordinate":
            raise FeedFault(f"{feed_name(path)}:1: no line `%%MatrixMarket matrix coordinate ..`: only matrices of coordinates "
                            "are edges")
        field, form = head[3:]
        if field not in ("integer", "real", "pattern") or form not in ("general", "symmetric", "skew-symmetric"):
            raise FeedFault(f"{feed_name(path)}:1: a matrix that is {field} and {form} has no edges with whole weights")
        lines = ((line, text.split()) for line, text in enumerate(file, 2) if not text.startswith("%") and text.strip())
        none: Tuple[int, List[str]] = (2, [])
        size = next(lines, none)[1]
        if len(size) != 3:
            raise FeedFault(f"{feed_name(path)}: no line of its sizes")
        entries, wanted = 0, 2 if field == "pattern" else 3
        for line, fields in lines:
            if len(fields) != wanted:
                raise FeedFault(f"{feed_name(path)}:{line}: {len(fields)} fields, where an entry has {wanted}")
            entries += 1
            weight = fields[2] if wanted == 3 else "1"
            weight = weight[:-2] if weight.endswith(".0") else weight
            yield line, kind, fields[0], fields[1], weight, "0"
            if form != "general" and fields[0] != fields[1]:
                other = weight if form == "symmetric" else weight[1:] if weight.startswith("-") else f"-{weight}"
                yield line, kind, fields[1], fields[0], other, "0"
        if str(entries) != size[2]:
            raise FeedFault(f"{feed_name(path)}: {entries} entries, where its sizes say {size[2]}")
