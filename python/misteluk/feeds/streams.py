"""Tables of pyarrow, polars, duckdb and whatever else gives an Arrow stream as feeds, by the Arrow C data interface.

A stream is read once, batch by batch, and the columns that are wanted become lists of Python; a dictionary stays codes. The
structs and formats are those of Arrow's specification, "The Arrow C data interface".
"""
from __future__ import annotations

import struct
import sys
from array import array
from ctypes import (CFUNCTYPE, POINTER, PYFUNCTYPE, Structure, byref, c_char_p, c_int, c_int64, c_void_p, py_object, pythonapi,
                    string_at)
from datetime import datetime, timedelta, timezone
from decimal import Context, Decimal
from functools import partial
from typing import Any, Dict, Iterator, List, Optional, Sequence, Tuple

from .feed import Columns, Feed, Table
from .objects import column_blocks
from ..errors import FeedFault
from ..values.given import Dictionary
from ..values.streamed import SCALE
from ..values.units import Units, each_once

NAME = "table"
# The types of numbers, as arrays have them; how many nanoseconds a unit of a moment has, and what has the numbers.
NUMBERS = {"c": "b", "C": "B", "s": "h", "S": "H", "i": "i", "I": "I", "l": "q", "L": "Q", "f": "f", "g": "d"}
MOMENTS = {"tdD": ("i", 86_400 * 10 ** 9), "tdm": ("q", 10 ** 6), "tss": ("q", 10 ** 9), "tsm": ("q", 10 ** 6),
           "tsu": ("q", 10 ** 3), "tsn": ("q", 1)}
TEXTS = {"u": "i", "U": "q"}
EPOCH = datetime(1970, 1, 1)
# Bytes that are no text are none of a name either, which a bad row tells.
CODEC = ("utf-8", "surrogateescape")
# What has all digits of a decimal number of 256 bits.
_EXACT = Context(prec=90)
_pointer = PYFUNCTYPE(c_void_p, py_object, c_char_p)(("PyCapsule_GetPointer", pythonapi))


class Schema(Structure):
    """An `ArrowSchema`."""


class Array(Structure):
    """An `ArrowArray`."""


class Stream(Structure):
    """An `ArrowArrayStream`."""

    _fields_ = [(it, c_void_p) for it in ("get_schema", "get_next", "get_last_error", "release", "private_data")]


Schema._fields_ = [("format", c_char_p), ("name", c_char_p), ("metadata", c_void_p), ("flags", c_int64), ("n_children", c_int64),
                   ("children", POINTER(POINTER(Schema))), ("dictionary", POINTER(Schema)), ("release", c_void_p),
                   ("private_data", c_void_p)]
Array._fields_ = [("length", c_int64), ("null_count", c_int64), ("offset", c_int64), ("n_buffers", c_int64),
                  ("n_children", c_int64), ("buffers", POINTER(c_void_p)), ("children", POINTER(POINTER(Array))),
                  ("dictionary", POINTER(Array)), ("release", c_void_p), ("private_data", c_void_p)]
RELEASE, GET, TELL = CFUNCTYPE(None, c_void_p), CFUNCTYPE(c_int, c_void_p, c_void_p), CFUNCTYPE(c_char_p, c_void_p)


def from_arrow(table: Any, columns: Columns = Columns()) -> Feed:
    """A table with `__arrow_c_stream__`. A missing value makes a bad row, as in a frame."""
    names, values, size = read(table, columns)
    return Feed(NAME, Table(lambda: column_blocks(NAME, columns, names, values.__getitem__, size)))


def read(table: Any, columns: Columns) -> Tuple[List[str], Dict[int, Any], int]:
    """The names of all columns, the values of those that are wanted by place, and how many rows there are."""
    capsule, schema = table.__arrow_c_stream__(), Schema()
    try:
        stream = Stream.from_address(_pointer(capsule, b"arrow_array_stream"))
    except ValueError as fault:
        raise FeedFault(f"{NAME}: {type(table).__name__}.__arrow_c_stream__ gives no stream: {fault}") from None
    if not stream.release:
        raise FeedFault(f"{NAME}: the stream was read already")
    try:
        _ask(stream, stream.get_schema, schema)
        if schema.format != b"+s":
            raise FeedFault(f"{NAME}: a stream of Arrow's type {schema.format.decode()!r}, where a table has columns")
        of = [schema.children[at].contents for at in range(schema.n_children)]
        names = [(it.name or b"").decode() for it in of]
        wanted = [at for at, name in enumerate(names) if name in columns._wanted or at + 1 in columns._wanted]
        found: Dict[int, Any] = {at: Dictionary() if of[at].dictionary else [] for at in wanted}
        size = 0
        for batch in _batches(stream):
            for at in wanted:
                _put(found[at], names[at], of[at], batch.children[at].contents, batch.offset, batch.length)
            size += batch.length
        return names, found, size
    finally:
        for it in (schema, stream):
            _release(it)


def _ask(stream: Stream, call: int, into: Structure) -> None:
    code = GET(call)(byref(stream), byref(into))
    if code:
        told = TELL(stream.get_last_error)(byref(stream))
        reason = told.decode("utf-8", "replace") if told else "no reason is given"
        raise FeedFault(f"{NAME}: the stream fails by {code}: {reason}")


def _release(it: Any) -> None:
    if it.release:
        RELEASE(it.release)(byref(it))


def _batches(stream: Stream) -> Iterator[Array]:
    """The batches, each of which is there until the next one is asked for."""
    while True:
        batch = Array()
        try:
            _ask(stream, stream.get_next, batch)
            if not batch.release:
                return
            if None in _with_gaps(batch, range(batch.length), batch.offset):
                raise FeedFault(f"{NAME}: the stream has rows that aren't there, and no values of theirs")
            yield batch
        finally:
            _release(batch)


def _put(column: Any, name: str, schema: Schema, it: Array, first: int, count: int) -> None:
    """Puts some rows of a batch's column behind those that came before."""
    first += it.offset
    if not isinstance(column, Dictionary):
        column.extend(_values(name, schema, it, first, count))
    elif count:
        own = it.dictionary.contents
        values, known = _values(name, schema.dictionary.contents, own, own.offset, own.length), column.categories
        if values != known[-len(values):]:  # (batches may share it, or not)
            known.extend(values)
        begin = len(known) - len(values)
        codes = _with_gaps(it, _numbers(it.buffers[1], NUMBERS[schema.format.decode()], first, count), first)
        column.codes.extend(-1 if at is None else begin + at for at in codes)


def _values(name: str, schema: Schema, it: Array, first: int, count: int) -> List[Any]:
    """A column's values from a place on, `None` for each that is missing."""
    form = schema.format.decode()
    kind, _, rest = form.partition(":")
    if form == "n" or not count:
        return [None] * count
    if form == "vu":
        return [at if at is None else _viewed(it, at) for at in _with_gaps(it, range(first, first + count), first)]
    if form in NUMBERS:
        found: Sequence[Any] = _numbers(it.buffers[1], NUMBERS[form], first, count)
        found = each_once(_shortest, found) if form == "f" else found
        scale = _metadata(schema.metadata).get(SCALE)
        found = found if scale is None else Units(int(scale))._all_weights_to_user(found)
    elif kind in MOMENTS:
        code, unit = MOMENTS[kind]
        turn = partial(_moment, unit, timezone.utc if rest else None, form == "tdD")
        found = each_once(turn, _numbers(it.buffers[1], code, first, count))
    elif form in TEXTS:
        found = _texts(it, TEXTS[form], first, count)
    elif kind == "d":
        found = _decimals(it, rest, first, count)
    else:
        raise FeedFault(f"{NAME}: the column {name!r} is of Arrow's type {form!r}: cast it to texts, numbers or timestamps")
    return list(_with_gaps(it, found, first))


def _with_gaps(it: Array, values: Sequence[Any], first: int) -> Sequence[Any]:
    """The values from a place on, with `None` for each that is missing."""
    if not it.null_count or not it.buffers[0]:
        return values
    bits = string_at(it.buffers[0], (first + len(values) + 7) // 8)
    return [value if bits[at >> 3] >> (at & 7) & 1 else None for at, value in enumerate(values, first)]


def _numbers(place: int, code: str, first: int, count: int) -> "array[Any]":
    found = array(code)
    found.frombytes(string_at(place + first * found.itemsize, count * found.itemsize))
    return found


def _shortest(value: float) -> float:
    """The number with the fewest digits that is this float of 32 bits: 0.1, and not 0.10000000149011612."""
    numbers = (float(f"{value:.{digits}g}") for digits in range(6, 9))
    return next((it for it in numbers if struct.pack("f", it) == struct.pack("f", value)), value)


def _moment(unit: int, zone: Optional[timezone], is_day: bool, value: int) -> Any:
    """A moment, so many units of nanoseconds after 1970; a text that no date is where Python has none such, and one with all its
    digits where it is finer than microseconds."""
    seconds, rest = divmod(value * unit, 10 ** 9)
    try:
        found = EPOCH + timedelta(seconds=seconds)
    except OverflowError:
        return f"{seconds} seconds since 1970"
    if rest % 1_000:
        return f"{found}.{rest:09}"
    return found.date() if is_day else found.replace(microsecond=rest // 1_000, tzinfo=zone)


def _texts(it: Array, code: str, first: int, count: int) -> List[str]:
    ends = _numbers(it.buffers[1], code, first, count + 1)
    begin, size = ends[0], ends[-1] - ends[0]
    data = string_at(it.buffers[2] + begin, size) if size else b""
    text = data.decode(*CODEC)
    if len(text) == size:  # (a sign is a byte)
        return [text[at - begin:end - begin] for at, end in zip(ends, ends[1:])]
    return [data[at - begin:end - begin].decode(*CODEC) for at, end in zip(ends, ends[1:])]


def _viewed(it: Array, at: int) -> str:
    """A text of 16 bytes, which have up to 12 of its own, or say where they are in one of several buffers."""
    view = string_at(it.buffers[1] + 16 * at, 16)
    size, _, which, begin = struct.unpack("=4i", view)
    data = view[4:4 + size] if size <= 12 else string_at(it.buffers[2 + which] + begin, size)
    return data.decode(*CODEC)


def _decimals(it: Array, form: str, first: int, count: int) -> List[Decimal]:
    """Numbers of so many bits, 128 if none are said, of which each has so many decimal places."""
    _, places, *bits = map(int, form.split(","))
    size = bits[0] // 8 if bits else 16
    data = string_at(it.buffers[1] + first * size, count * size)
    parts = (int.from_bytes(data[at:at + size], sys.byteorder, signed=True) for at in range(0, len(data), size))
    return [_EXACT.scaleb(Decimal(part), -places) for part in parts]


def _metadata(place: Optional[int]) -> Dict[str, str]:
    """A column's metadata: how many pairs there are, and of each key and value the length and the bytes."""
    found: List[str] = []
    if place is None:
        return {}
    for _ in range(2 * _numbers(place, "i", 0, 1)[0]):
        place += 4
        size = _numbers(place, "i", 0, 1)[0]
        found.append(string_at(place + 4, size).decode(*CODEC))
        place += int(size)
    return dict(zip(found[::2], found[1::2]))
