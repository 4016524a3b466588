"""Delimited files as feeds, and the columns of a table that are wanted."""
from __future__ import annotations

import csv
import io
import warnings
from itertools import chain
from typing import Iterable, Iterator, List, Mapping, Optional, Sequence, Tuple, Union, cast

from . import feed as feeds
from ..errors import FeedFault, LeftOut
from .feed import Block, Came, Column, Columns, Feed, Path, Rows, Table, TableForm, blocks_of_file, feed_name, parts_of
from ..values.columns import Same
from ..values.fields import fields_of

# Columns that are read only where they are named, and the commands' options for that.
OPTIONS = {"kind": "--kind", "weight": "--weight", "time": "--time"}


def delimited(path: Path, columns: Columns = Columns(), *, delimiter: Optional[str] = None, header: Optional[bool] = None,
              encoding: str = "utf-8") -> Feed:
    """A delimited file; see `DelimitedRows`."""
    must_be_sign(delimiter)

    def blocks() -> Iterator[Block]:
        rows = DelimitedRows(feed_name(path), columns, delimiter, header)
        yield from blocks_of_file(path, rows, encoding)
        if rows.is_named and not rows.is_begun:
            raise FeedFault(f"{rows.feed}: columns are named, and there is no header: the file is empty")
    return Feed(feed_name(path), Table(blocks))


def must_be_sign(delimiter: Optional[str]) -> None:
    """Raises `ValueError` where a delimiter is said that can't part fields."""
    if delimiter and (len(delimiter) > 1 or delimiter in '"\r\n'):
        raise ValueError(f"delimiter is one sign, as ; or a tab (in a shell $'\\t'), and not {delimiter!r}")


def even_columns(text: str, sign: str) -> Sequence[Sequence[str]]:
    """The columns of whole lines that have as many fields each, and plain ones within quotes: nearly all files are such, and are
    split at once. Of other lines none."""
    text = text.replace("\r\n", "\n") if "\r" in text else text
    text = text if text.endswith("\n") else f"{text}\n"
    if not sign.isascii() or "\r" in text:
        return []
    found = fields_of(text, sign)
    width = text[:text.index("\n")].count(sign) + 1
    if found is not None or width == 1 or '"' in text:
        return found or []
    others = bytes(set(range(256)) - {ord(sign), ord("\n")})
    ends = text.encode("utf-8", "surrogateescape").translate(None, others)
    if ends != (sign * (width - 1) + "\n").encode("ascii") * text.count("\n"):
        return []
    fields = text.replace("\n", sign).split(sign)
    return [fields[at:-1:width] for at in range(width)]


class DelimitedRows(Rows):
    """The rows of a delimited file. Where a column is named it has a header; `header` says so else. Without `delimiter` it is the
    comma, tab, semicolon or bar of which the first line has most. A row that goes on in the next line is kept."""

    def __init__(self, feed: str, columns: Columns, delimiter: Optional[str], header: Optional[bool]) -> None:
        must_be_sign(delimiter)
        self.feed, self.columns, self.sign = feed, columns, delimiter or ""
        self.is_named = any(isinstance(it, str) for it in columns._wanted)
        self.has_header = self.is_named if header is None else header
        self.picked: Optional[Picked] = None

    @property
    def is_begun(self) -> bool:  # type: ignore[override]
        return self.picked is not None

    def take(self, text: str, is_end: bool) -> Iterator[Block]:
        text, self.kept = self.kept + text, ""
        if self.picked is None and text:
            text = self._begin(text, is_end)
        if self.picked is not None:
            text = self._behind(text)
            even = self._even(self.picked, text)
            yield from self._parts(self.picked, text, is_end) if even is None else (even,)

    def _begin(self, text: str, is_end: bool) -> str:
        """Takes the header, where there is one, and gives the text behind it; keeps all where it isn't whole yet."""
        lines, names = io.StringIO(text, newline=""), cast("Sequence[str]", ())
        self.sign = self.sign or max(",\t;|", key=lines.readline().count)
        lines.seek(0)
        if self.has_header:
            header = next(self._rows(lines, is_end), None)
            if header is None:
                self.kept = text
                return ""
            names, self.line = header
        if self.is_named and not names:
            raise FeedFault(f"{self.feed}: columns are named, and there is no header: name them by number (from 1)")
        self.picked = Picked(self.feed, self.columns, names, self.sign)
        self.picked.is_first = self.passed <= self.line
        return lines.read()

    def _even(self, picked: "Picked", text: str) -> Optional[Block]:
        """The block of lines that have as many fields each, and plain ones within quotes; `None` of others."""
        even = even_columns(text, self.sign) if text else ()
        if len(even) < picked.least:
            return None
        first, self.line = self.line + 1, self.line + len(even[0])
        return picked.of_lines(range(first, self.line + 1), even)

    def _parts(self, picked: "Picked", text: str, is_end: bool) -> Iterator[Block]:
        """The rows of lines of which some aren't even, a few at a time."""
        for part in parts_of(io.StringIO(text, newline=""), feeds.ROWS_AT_ONCE):
            text, self.kept = self.kept + "".join(part), ""
            even = self._even(picked, text)
            yield from self._uneven(picked, text, False) if even is None else (even,)
        if is_end and self.kept:
            yield from self._uneven(picked, self.kept, True)

    def _uneven(self, picked: "Picked", text: str, is_end: bool) -> Iterator[Block]:
        lines, before = list(io.StringIO(text, newline="")), self.line
        rows = list(self._rows(lines, is_end))
        self.line = rows[-1][1] if rows else before
        self.kept = "".join(lines[self.line - before:])
        yield from picked.of_rows([it for it in rows if it[0]])  # (a blank line is no row)

    def _rows(self, lines: Iterable[str], is_end: bool) -> Iterator[Tuple[Sequence[str], int]]:
        """The rows of the next lines, each with the line that it ends on, without a last one that goes on behind them, unless
        nothing comes there any more."""
        ended: List[bool] = []
        noted: Iterator[str] = filter(None, map(ended.append, (True,)))  # (it gives no line)
        reader, before = csv.reader(chain(lines, noted), delimiter=self.sign), self.line
        try:
            for row in reader:
                if ended and not is_end:
                    return
                yield row, before + reader.line_num
        except csv.Error as fault:
            raise FeedFault(f"{self.feed}:{before + reader.line_num}: {fault}") from fault


class Picked:
    """The columns of a table that are wanted."""

    def __init__(self, feed: str, columns: Columns, names: Sequence[str], sign: str = "") -> None:
        source, target, kind, weight, time = (_place(feed, it, names) for it in columns._wanted)
        warn_of_unread(feed, columns, names)
        self.feed = feed
        self.places = (kind, source, target, weight, time)
        self.usual = (columns.default_kind, "", "", "1", columns.default_time)
        self.least = max(it for it in self.places if it is not None) + 1
        self.form = TableForm(names, sign, max(len(names), self.least))
        self.is_first = True

    def of_lines(self, lines: range, columns: Sequence[Sequence[str]]) -> Block:
        came = Came(self.form, lambda at: [it[at] for it in columns], range(len(lines)))
        return self.of_columns(lines, columns)._replace(came=came)

    def of_columns(self, lines: Sequence[int], columns: Union[Sequence[Sequence[str]], Mapping[int, Sequence[str]]]) -> Block:
        self.is_first = False
        return Block(lines, *(Same(usual, len(lines)) if place is None else columns[place]
                              for place, usual in zip(self.places, self.usual)))

    def of_rows(self, rows: Sequence[Tuple[Sequence[str], int]]) -> Iterator[Block]:
        """The block of rows with their lines, none where there are none. A first row that is too short tells of another form;
        a later one is a bad row, whose missing fields are empty, which none may be."""
        if not rows:
            return
        fields, lines = zip(*rows)
        if self.is_first and len(fields[0]) < self.least:
            raise FeedFault(f"{self.feed}:{lines[0]}: {len(fields[0])} fields, where the columns need {self.least}")
        found = self.of_columns(lines, list(zip(*([*it, *[""] * (self.least - len(it))] for it in fields))))
        yield found._replace(came=Came(self.form, fields.__getitem__, range(len(lines)))) if self.form.sign else found


def warn_of_unread(feed: str, columns: Columns, names: Sequence[str]) -> None:
    """Tells of columns that are called as what they may hold, and aren't read since no column was said."""
    unread = [it for it in OPTIONS if it in names]
    if unread and columns._are_unsaid:
        told = ", ".join(f"{it}={it!r}" for it in unread)
        options = " ".join(f"{OPTIONS[it]} {it}" for it in unread)
        warnings.warn(LeftOut(f"{feed}: only the columns source and target are read. Name the others to have them read, too: "
                              f"Columns({told}), or {options}"), stacklevel=3)


def _place(feed: str, column: Optional[Column], names: Sequence[str]) -> Optional[int]:
    if column is None or isinstance(column, int):
        if column is not None and column < 1:
            raise ValueError(f"columns are numbered from 1, and there is no column {column}")
        return None if column is None else column - 1
    if column not in names:
        advice = ("What Session.save wrote is restored by Store.restore" if list(names[:2]) == ["open", "0"] else
                  "Say which columns to take: --source, --target, --weight, --time, or Columns(..)")
        raise FeedFault(f"{feed}: no column {column!r}; the header has {', '.join(map(repr, names))}. {advice}")
    return names.index(column)
