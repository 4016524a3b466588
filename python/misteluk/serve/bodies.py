"""Bodies of requests, read in slices: no step keeps Python's lock for long, so that others are answered while a long one is read.

A call of C keeps the lock to its end, and one for a whole body takes long: `json.loads` of 8 MB 0.5 s where these are rows,
and 1.9 s where they are empty arrays. So a text of JSON is read value by value, each within a window, by steps of 1 ms at most,
and one of CSV line by line.
"""
from __future__ import annotations

import csv
import io
import json
import re
from json import JSONDecodeError, decoder
from typing import Any, Iterator, List, Sequence, Tuple

from .limits import LITTLE, MOST_ROWS, MOST_VALUES, TooLarge
from ..values.texts import text_of

# How many signs of a text are looked at by one step, at how many one looks first, since most values are shorter, and how many
# a row, or another value within an array, may have.
WINDOW, SHORT, LONGEST = 1 << 14, 1 << 9, 1 << 18
# How many arrays and objects those may have that aren't a post's rows, for each value. (Python's looks for cycles go through
# all of them.)
NESTED = 4
ROWS = 'rows are {"rows": [["add", KIND, SOURCE, TARGET, AMOUNT, TIME], ..]}'
_SPACE = re.compile(r"[ \t\n\r]*")
_decoded = json.JSONDecoder().raw_decode
_scanned: Any = getattr(decoder, "scanstring")
# Signs of a text, and escapes that are whole: of two that stand for one sign the first isn't taken without the second.
_SIGNS = re.compile(r'[^"\\]*(?:\\(?:[^u]|u(?![dD][89abAB]).{4}|u.{4}(?=.{6}))[^"\\]*)*', re.S)
# A row as texts.
Row = Tuple[str, ...]


# JSON.

class Reader:
    """A text of JSON that is read from its beginning, value by value. Its faults are those of `json`."""

    def __init__(self, text: str) -> None:
        self._text, self._at = text, 0
        # How many arrays and objects were begun, at most.
        self._nested = 0

    def sign(self) -> str:
        """The next sign that is no space; none at the end."""
        found: Any = _SPACE.match(self._text, self._at)
        self._at = found.end()
        return self._text[self._at:self._at + 1]

    def take(self, sign: str, told: str) -> None:
        if self.sign() != sign:
            raise JSONDecodeError(told, "", self._at)
        self._at += len(sign)

    def value(self) -> Any:
        """The value that stands here. Raises `TooLarge` where it is longer than a row may be."""
        self.sign()
        for size in (SHORT, LONGEST):
            window = self._text[self._at:self._at + size]
            try:
                found, end = _decoded(window)
            except JSONDecodeError as fault:
                if len(window) < size or size == LONGEST and not _is_cut(fault, size):
                    raise JSONDecodeError(fault.msg, "", self._at + fault.pos) from None
                continue
            if end < size:  # (else it may be cut)
                self._at += end
                return found
        raise TooLarge(f"a row, or another value within an array, has at most {LONGEST:,} signs")

    def values(self) -> Iterator[Any]:
        """The values of the array that stands here."""
        self.take("[", "Expecting value")
        is_more = self.sign() != "]"
        while is_more:
            yield self.value()
            is_more = self.sign() == ","
            if is_more:
                self._at += 1
        self.take("]", "Expecting ',' delimiter")

    def names(self) -> Iterator[str]:
        """The names of the object that stands here; whoever has one reads its value."""
        self.take("{", "Expecting value")
        is_more = self.sign() != "}"
        while is_more:
            if self.sign() != '"':
                raise JSONDecodeError("Expecting property name enclosed in double quotes", "", self._at)
            name = self.text()
            self.take(":", "Expecting ':' delimiter")
            yield name
            is_more = self.sign() == ","
            if is_more:
                self._at += 1
        self.take("}", "Expecting ',' delimiter")

    def text(self) -> str:
        """The text that stands here, however long it is."""
        parts: List[str] = []
        begin = self._at
        self._at += 1
        while True:
            window = self._text[self._at:self._at + (WINDOW if parts else SHORT)]
            end = _signs_of(window)
            try:
                told, size = _scanned(f'{window[:end]}"' if end else window, 0, True)
            except JSONDecodeError as fault:
                is_open = fault.msg.startswith("Unterminated")
                raise JSONDecodeError(fault.msg, "", begin if is_open else self._at + fault.pos) from None
            parts.append(told)
            self._at += end or size
            if not end or window[end:end + 1] == '"':
                self._at += 1 if end else 0
                return "".join(parts)

    def whole(self) -> Any:
        """The value that stands here, in which texts, arrays and objects may be of any length."""
        sign, begin = self.sign(), self._at
        if sign == "{":
            self._must_be_little(1, begin)
            return {name: self.whole() for name in self.names()}
        if sign == "[":
            found: List[Any] = []
            for it in self.values():
                found.append(it)
                self._must_be_little(len(found), begin)
                begin = self._at
            return found
        return self.text() if sign == '"' else self.value()

    def _must_be_little(self, count: int, begin: int) -> None:
        self._nested += sum(self._text.count(it, begin, self._at + 1) for it in "[{")
        if count > MOST_VALUES or self._nested > NESTED * MOST_VALUES:
            raise TooLarge(f"an array has at most {MOST_VALUES:,} values: ask several times")

    def end(self) -> None:
        if self.sign():
            raise JSONDecodeError("Extra data", "", self._at)


def _signs_of(window: str) -> int:
    """How many signs of a text are read by one step, of those from here on."""
    found: Any = _SIGNS.match(window)
    end: int = found.end()
    return end


def _is_cut(fault: JSONDecodeError, size: int) -> bool:
    """Whether a text of this size may have a fault only because it is cut."""
    return fault.msg.startswith("Unterminated") or fault.pos > size - len("-Infinity")


class told_as_json:
    """Tells what is wrong with a body that isn't JSON."""

    def __enter__(self) -> None:
        pass

    def __exit__(self, kind: object, fault: object, trace: object) -> None:
        if isinstance(fault, RecursionError):
            raise ValueError("the body is no JSON that has an end") from None
        if isinstance(fault, UnicodeDecodeError):
            raise ValueError(f"the body is no JSON in UTF-8: byte {fault.object[fault.start]:#04x}") from None
        if isinstance(fault, JSONDecodeError):
            raise ValueError(f"the body is no JSON: {fault.msg}: sign {fault.pos + 1:,}") from None


def loaded(body: bytes) -> Any:
    """What a body has that is JSON. Raises `ValueError`."""
    with told_as_json():
        if len(body) <= LITTLE:
            return json.loads(body)
        reader = Reader(_text_of(body))
        found = reader.whole()
        reader.end()
        return found


def _text_of(body: bytes) -> str:
    return body.decode(json.detect_encoding(body), "surrogatepass")


def rows_of_json(body: bytes) -> Iterator[Row]:
    """The rows of a post. Raises `ValueError` as far as they were read, and `TooLarge`."""
    with told_as_json():
        reader = Reader(_text_of(body))
        if reader.sign() != "{":
            if reader.sign() != "[":
                reader.value()  # (of what is no JSON that is told)
            raise ValueError(ROWS)
        count = None
        for name in reader.names():
            if name != "rows":
                reader.whole()
                continue
            if count is not None or reader.sign() != "[":
                raise ValueError(ROWS)
            count = 0
            for it in reader.values():
                count += 1
                _must_be_few(count)
                yield _row_of(it)
        reader.end()
        if count is None:
            raise ValueError(ROWS)


def _row_of(found: Any) -> Row:
    if not isinstance(found, list):
        raise ValueError(ROWS)
    return tuple([_field(at, it) for at, it in enumerate(found)])


def _field(at: int, value: Any) -> str:
    """A field's text; numbers stand for weights and times alone."""
    if isinstance(value, str) or type(value) in (int, float) and (at > 3 or at == 1):
        return text_of(value)
    raise ValueError("a row has texts, and numbers as weight or time")


def _must_be_few(count: int) -> None:
    if count > MOST_ROWS:
        raise TooLarge(f"a post has at most {MOST_ROWS:,} rows: send several")


# CSV.

def rows_of_csv(body: bytes) -> Iterator[Row]:
    """The rows of a post. Raises `ValueError` as far as they were read, and `TooLarge`."""
    try:
        text = body.decode("utf-8")
    except UnicodeDecodeError as fault:
        row = sum(1 for _ in _rows_of(body[:fault.start].decode("utf-8") + "?", False))
        raise ValueError(f"row {row}: byte {body[fault.start]:#04x} is no UTF-8") from None
    count = 0
    for found in _rows_of(text, True):
        count += 1
        _must_be_few(count)
        yield found


def _rows_of(text: str, is_strict: bool) -> Iterator[Row]:
    lines = _Lines(text)
    try:
        for row in csv.reader(lines, strict=is_strict):
            lines.size = 0
            if row:
                yield tuple(row)  # (of which Python needs no look for cycles)
    except csv.Error as fault:
        raise ValueError(f"this is no CSV: {fault}") from None


class _Lines:
    """The lines of a text, of which those of one row aren't too long. (A row is read by one step.)"""

    def __init__(self, text: str) -> None:
        self._lines, self.size = io.StringIO(text, newline=""), 0

    def __iter__(self) -> "_Lines":
        return self

    def __next__(self) -> str:
        found = next(self._lines)
        self.size += len(found)
        if self.size > LONGEST:
            raise TooLarge(f"a row has at most {LONGEST:,} signs")
        return found


__all__: Sequence[str] = ["loaded", "rows_of_csv", "rows_of_json"]
