"""Columns as Arrow streams, by the library's part in plain C (misteluk_arrow.h).

A stream's numbers are those of Python's arrays. The library has a reference to these, which is dropped at a later call here or of
a store, once whoever took the stream has released all of it. A release itself touches nothing of Python: so it may come from any
thread, and after Python's end. What is released then is never freed.
"""
from __future__ import annotations

import sys
from array import array
from collections import deque
from ctypes import (CDLL, PYFUNCTYPE, Structure, c_char_p, c_int64, c_size_t, c_void_p, cast, py_object, pythonapi)
from functools import lru_cache
from itertools import accumulate
from typing import Any, Dict, List, Sequence, Sized, Tuple

from .calling import LENDERS, address, opened
from .finding import find_library, next_step
from ..errors import LibraryNotFound, NoMemory
from ..values.streamed import SCALE, StreamedColumn

# What capsules are called.
STREAM, SCHEMA = b"arrow_array_stream", b"arrow_schema"
NO_MEMORY = "there is no memory for a stream of Arrow"
# (functions of our own: others may have declared Python's in another way)
_keep = PYFUNCTYPE(None, py_object)(("Py_IncRef", pythonapi))
_drop = PYFUNCTYPE(None, c_void_p)(("Py_DecRef", pythonapi))
_DROP = cast(pythonapi.Py_DecRef, c_void_p)
_capsule = PYFUNCTYPE(py_object, c_void_p, c_char_p, c_void_p)(("PyCapsule_New", pythonapi))
_pointer = PYFUNCTYPE(c_void_p, py_object, c_char_p)(("PyCapsule_GetPointer", pythonapi))


class Column(Structure):
    """A `misteluk_arrow_column`."""

    _fields_ = [("name", c_char_p), ("format", c_char_p), ("metadata", c_char_p), ("values", c_void_p), ("texts", c_char_p),
                ("ends", c_void_p), ("texts_length", c_int64)]


FUNCTIONS: Dict[str, Tuple[Any, List[Any]]] = {
    "lender_new": (c_void_p, []), "stream": (c_void_p, [c_void_p, c_void_p, c_void_p, c_size_t, c_int64]),
    "schema": (c_void_p, [c_void_p]), "python": (None, [c_void_p]), "give_back": (None, []), "end_stream": (None, []),
    "end_schema": (None, [])}


class Lender:
    """A library that lends columns out. Raises `LibraryNotFound` where it can't."""

    def __init__(self, path: str) -> None:
        opened(path)  # (which raises where it is none of this interface)
        self.library = CDLL(path)
        for name, (result, arguments) in FUNCTIONS.items():
            function = getattr(self.library, f"misteluk_arrow_{name}", None)
            if function is None:
                raise LibraryNotFound(f"{path} has no function misteluk_arrow_{name}, which this package needs: it is of an "
                                      f"earlier release. {next_step()}")
            function.restype, function.argtypes = result, arguments
        self.ends = [cast(getattr(self.library, f"misteluk_arrow_end_{it}"), c_void_p) for it in ("stream", "schema")]
        # (with the interpreter's lock, since it drops references: no interrupt comes between one that comes back and its drop)
        self._give_back = PYFUNCTYPE(None, c_void_p, c_void_p)(("misteluk_arrow_give_back", self.library))
        self.lender = self.library.misteluk_arrow_lender_new()
        if not self.lender:
            raise NoMemory(NO_MEMORY)
        self.library.misteluk_arrow_python(cast(pythonapi.PyCapsule_GetPointer, c_void_p))
        deque(map(_keep, (STREAM, SCHEMA)), 0)  # (a capsule may be there longer than this module)

    def stream(self, columns: Sequence[StreamedColumn]) -> object:
        """A capsule with a stream of columns, which all have as many rows."""
        self.give_back()
        encoded = {id(it.texts): encoded_of(it.texts) for it in columns if it.texts is not None}
        made = [_column(it, encoded) for it in columns]
        views = [memoryview(it.numbers) for it in columns if it.numbers is not None]  # (an array with a view keeps its place)
        owner = made, encoded, views
        _keep(owner)
        places, rows = (Column * len(made))(*made), len(_rows(columns[-1]))
        found = self.library.misteluk_arrow_stream(self.lender, id(owner), places, len(made), rows)
        if not found:
            _drop(id(owner))
            raise NoMemory(NO_MEMORY)
        return _capsule(found, STREAM, self.ends[0])

    def schema(self, columns: Sequence[StreamedColumn]) -> object:
        """A capsule with the schema of these columns."""
        stream = self.stream(columns)
        found = self.library.misteluk_arrow_schema(_pointer(stream, STREAM))
        if not found:
            raise NoMemory(NO_MEMORY)
        return _capsule(found, SCHEMA, self.ends[1])

    def give_back(self) -> None:
        """Drops the owners of what was released."""
        self._give_back(self.lender, _DROP)


@lru_cache(maxsize=None)
def lender_of(path: str) -> Lender:
    """The lender of a library, of which stores too ask what is to be given back."""
    found = Lender(path)
    LENDERS.append(found.give_back)
    return found


def stream_of(columns: Sequence[StreamedColumn]) -> object:
    """A capsule with a stream of columns."""
    return lender_of(find_library()).stream(columns)


def schema_of(columns: Sequence[StreamedColumn]) -> object:
    """A capsule with their schema."""
    return lender_of(find_library()).schema(columns)


def encoded_of(texts: Sequence[str]) -> "Tuple[bytes, array[int]]":
    """Texts as Arrow has them: one after another, and where the first one begins and each ends."""
    whole = "".join(texts)
    sizes = map(len, texts) if whole.isascii() else (len(it.encode()) for it in texts)
    return whole.encode(), array("q", accumulate(sizes, initial=0))


def _rows(column: StreamedColumn) -> Sequence[Any]:
    return column.texts or () if column.numbers is None else column.numbers


def _column(it: StreamedColumn, encoded: "Dict[int, Tuple[bytes, array[int]]]") -> Column:
    metadata = None if it.scale == 1 else _metadata({SCALE: str(it.scale)})
    found = Column(it.name.encode(), it.format.encode(), metadata)
    if it.numbers:
        found.values = address(it.numbers)
    if it.texts is not None:
        text, ends = encoded[id(it.texts)]
        found.texts, found.ends, found.texts_length = text, address(ends), len(it.texts)
    return found


def _metadata(pairs: Dict[str, str]) -> bytes:
    """Arrow's metadata: how many pairs there are, and the length and bytes of each key and value."""
    parts = [it.encode() for pair in pairs.items() for it in pair]
    return b"".join([_size(pairs), *(_size(it) + it for it in parts)])


def _size(it: Sized) -> bytes:
    return len(it).to_bytes(4, sys.byteorder)
