"""Tables that give Arrow streams, made by hand from Arrow's specification ("The Arrow C data interface"): what is tested takes no
part in it. And who takes one: arrow_consumer.c, and GDAL, where they can be had."""
from __future__ import annotations

import ctypes
import pathlib
import shutil
import struct
import subprocess
import sys
from ctypes import CFUNCTYPE, c_char_p, c_int, c_int64, c_void_p
from decimal import Context
from typing import Any, Callable, Dict, List, NamedTuple, Optional, Sequence

HERE = pathlib.Path(__file__).resolve().parent
STREAM, SCHEMA = b"arrow_array_stream", b"arrow_schema"
pointer_of = ctypes.PYFUNCTYPE(c_void_p, ctypes.py_object, c_char_p)(("PyCapsule_GetPointer", ctypes.pythonapi))
capsule_of = ctypes.PYFUNCTYPE(ctypes.py_object, c_void_p, c_char_p, c_void_p)(("PyCapsule_New", ctypes.pythonapi))
RELEASE, GET, TELL = CFUNCTYPE(None, c_void_p), CFUNCTYPE(c_int, c_void_p, c_void_p), CFUNCTYPE(c_void_p, c_void_p)
EXACT = Context(prec=99)
# How `struct` writes the numbers of each format.
CODES = {"c": "b", "C": "B", "s": "h", "S": "H", "i": "i", "I": "I", "l": "q", "L": "Q", "f": "f", "g": "d", "tdD": "i"}


class Sums(ctypes.Structure):
    """What a consumer took, as arrow_consumer.c has it."""

    _fields_ = [("rows", c_int64), ("faults", c_int64), ("numbers", c_int64 * 16), ("bytes", c_int64 * 16)]


def compiled(made: pathlib.Path, *words: object) -> "Optional[str]":
    """What a compiler makes of C, or nothing where there is none."""
    compiler = shutil.which("cc")
    if compiler is None:
        return None
    how = "-O1 -g -std=gnu11 -Wall -Wextra -Werror -pthread".split()
    subprocess.run([compiler, *how, "-o", made, *map(str, words)], stderr=subprocess.PIPE, check=True)
    return str(made)


def consumer_in(room: pathlib.Path) -> Any:
    """The consumer, or nothing where no compiler is here."""
    made = compiled(room / "consumer.so", "-fPIC", "-shared", HERE / "arrow_consumer.c")
    if made is None:
        return None
    found = ctypes.CDLL(made)
    found.consume.argtypes, found.consume.restype = (c_void_p, c_int, c_void_p), c_int64
    found.hold.argtypes, found.held_sum.restype, found.held_place.restype = (c_void_p,), c_int64, c_void_p
    return found


class Part(NamedTuple):
    """Values as a format has them: the buffers, how many values are missing, and those of a dictionary with their number."""

    buffers: Sequence[Optional[bytes]]
    missing: int = 0
    dictionary: "Optional[Part]" = None
    length: int = 0


class Column(NamedTuple):
    """A column: its format, and its dictionary's where it has one; what makes a part of values, and the values; metadata."""

    format: str
    part: Callable[[Sequence[Any]], Part]
    values: Sequence[Any]
    of_dictionary: str = ""
    metadata: Optional[bytes] = None


def bits(values: Sequence[Any]) -> Optional[bytes]:
    """Which values are there, a bit for each, where one isn't."""
    if None not in values:
        return None
    whole = sum(1 << at for at, it in enumerate(values) if it is not None)
    return whole.to_bytes(len(values) // 8 + 1, "little")


def part(values: Sequence[Any], *buffers: bytes) -> Part:
    return Part([bits(values), *buffers], sum(it is None for it in values))


def numbers(form: str, values: Sequence[Any], metadata: Optional[bytes] = None) -> Column:
    code = CODES.get(form, "q")
    return Column(form, lambda some: part(some, struct.pack(f"={len(some)}{code}", *(it or 0 for it in some))), values,
                  metadata=metadata)


def text_part(form: str, some: Sequence[Optional[str]]) -> Part:
    texts = [(it or "").encode("utf-8", "surrogateescape") for it in some]
    ends = [sum(map(len, texts[:at])) for at in range(len(texts) + 1)]
    return part(some, struct.pack(f"={len(ends)}{'i' if form == 'u' else 'q'}", *ends), b"".join(texts))


def texts(form: str, values: Sequence[Optional[str]]) -> Column:
    return Column(form, lambda some: text_part(form, some), values)


def views(values: Sequence[Optional[str]]) -> Column:
    """Texts by views of 16 bytes, in two buffers in turns; that of a missing one leads nowhere."""
    def made(some: Sequence[Optional[str]]) -> Part:
        found, rest = b"", [b"", b""]
        for at, it in enumerate(some):
            text = (it or "").encode()
            if it is None:
                found += struct.pack("=4i", 1 << 30, 1 << 30, 77, 1 << 30)
            elif len(text) <= 12:
                found += struct.pack("=i12s", len(text), text)
            else:
                found += struct.pack("=i4sii", len(text), text[:4], at % 2, len(rest[at % 2]))
                rest[at % 2] += text
        return part(some, found, *rest, struct.pack("=2q", *map(len, rest)))
    return Column("vu", made, values)


def decimals(digits: int, places: int, size: int, values: Sequence[Any]) -> Column:
    """Decimal numbers of so many bits."""
    def made(some: Sequence[Any]) -> Part:
        parts = [0 if it is None else int(EXACT.scaleb(it, places)) for it in some]
        return part(some, b"".join(it.to_bytes(size // 8, sys.byteorder, signed=True) for it in parts))
    return Column(f"d:{digits},{places}" + (f",{size}" if size != 128 else ""), made, values)


def dictionary(form: str, values: Sequence[Optional[str]], has_gaps: bool = False) -> Column:
    """Texts by codes, each part with a dictionary of its own; a value is missing by its code, or by what that stands for."""
    def made(some: Sequence[Optional[str]]) -> Part:
        known = sorted({it for it in some if it is not None}, reverse=True) + [None] * has_gaps  # type: ignore[list-item]
        codes = [None if it is None and not has_gaps else known.index(it) for it in some]  # type: ignore[arg-type]
        found = part(codes, struct.pack(f"={len(codes)}{CODES[form]}", *(99 if it is None else it for it in codes)))
        return found._replace(dictionary=text_part("U", known), length=len(known))
    return Column(form, made, values, "U")


class Made:
    """A table with `__arrow_c_stream__`: in batches of so many rows, of which each has `before` others in front, which don't
    count, the last of them of the batch itself. `fails` is the batch in whose place the stream tells of a fault; `gaps` makes
    rows of the last batch that aren't there. All that it made was released when `left` is 0."""

    def __init__(self, columns: Dict[str, Column], batch: int = 3, before: int = 0, fails: int = -1, gaps: bool = False,
                 form: str = "+s", name: bytes = STREAM) -> None:
        self.columns, self.batch, self.before, self.fails, self.gaps = columns, batch, before, fails, gaps
        self.form, self.name, self.left, self._kept = form, name, 0, []  # type: ignore[var-annotated]
        self.size = max((len(it.values) for it in columns.values()), default=0)

    def __arrow_c_stream__(self, requested_schema: object = None) -> object:
        self._at = 0
        calls = [GET(self._get_schema), GET(self._get_next), TELL(lambda _: ctypes.cast(b"the disk is full", c_void_p).value),
                 RELEASE(lambda at: self._end(at, 3))]
        return capsule_of(self._words(*calls, None), self.name, None)

    def _words(self, *words: Any) -> int:
        """A struct of so many words of 64 bits; numbers, addresses, callbacks, and bytes, which are kept."""
        found = (c_void_p * len(words))(*(ctypes.cast(it, c_void_p) if isinstance(it, (bytes, ctypes._CFuncPtr)) else it
                                          for it in words))
        self._kept.append((found, words))
        if any(isinstance(it, ctypes._CFuncPtr) for it in words):
            self.left += 1
        return ctypes.addressof(found)

    def _end(self, at: int, place: int) -> None:
        """Releases a struct, whose release is its word of this number: all that is below it must be released before."""
        self.left -= 1
        (c_void_p * (place + 1)).from_address(at)[place] = None

    def _put(self, at: int, made: int, count: int) -> int:
        ctypes.memmove(at, made, 8 * count)
        return 0

    def _schema(self, form: str, name: str, children: Sequence[int], of_dictionary: str, metadata: Optional[bytes]) -> int:
        below = [*children]
        if of_dictionary:
            below.append(self._schema(of_dictionary, "", (), "", None))
        places = self._words(*children) if children else None
        end = RELEASE(lambda at: self._end_all(at, below, 7))
        return self._words(form.encode(), name.encode(), metadata, 2, len(children), places, below[-1] if of_dictionary else None,
                           end, None)

    def _end_all(self, at: int, below: List[int], place: int) -> None:
        for it in below:
            release = (c_void_p * (place + 1)).from_address(it)[place]
            if release:
                RELEASE(release)(it)
        self._end(at, place)

    def _get_schema(self, _: int, at: int) -> int:
        children = [self._schema(it.format, name, (), it.of_dictionary, it.metadata) for name, it in self.columns.items()]
        return self._put(at, self._schema(self.form, "", children, "", None), 9)

    def _array(self, length: int, missing: int, offset: int, buffers: Sequence[Optional[bytes]], children: Sequence[int],
               of_dictionary: Optional[int]) -> int:
        below = [*children, *([of_dictionary] if of_dictionary else [])]
        places = self._words(*children) if children else None
        end = RELEASE(lambda at: self._end_all(at, below, 8))
        return self._words(length, missing, offset, len(buffers), len(children), self._words(*buffers), places, of_dictionary,
                           end, None)

    def _get_next(self, _: int, at: int) -> int:
        first, self._at = self._at, self._at + self.batch
        (c_void_p * 9).from_address(at)[8] = None
        if first // self.batch == self.fails:
            return 28
        if first >= self.size:
            return 0
        length, children = min(self.batch, self.size - first), []
        own = min(self.before, 1)  # (of the rows in front one is the batch's, and the others are the columns')
        for it in self.columns.values():
            values = [it.values[0]] * self.before + list(it.values[first:first + length])
            found = it.part(values)
            below = None
            if found.dictionary is not None:
                below = self._array(found.length, found.dictionary.missing, 0, found.dictionary.buffers, (), None)
            missing = -1 if found.missing and self.before else found.missing  # (as nobody counted them)
            buffers = [] if it.format == "n" else found.buffers
            children.append(self._array(length + own, missing, self.before - own, buffers, (), below))
        gaps = bits([None] * (own + 1) + [1] * length) if self.gaps and self._at >= self.size else None
        return self._put(at, self._array(length, 1 if gaps else 0, own, [gaps], children, None), 10)
