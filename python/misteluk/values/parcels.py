"""Columns with a head, as one process sends them to another: over a pipe, and as a server's answer.

A line of JSON has the head, with each column's type and length. Behind it the columns stand as they are in memory, but that the
least byte of a number comes first, whatever machine writes.
"""
from __future__ import annotations

import json
import sys
from array import array
from typing import Any, Dict, Iterator, List, NamedTuple, Sequence, Union

# How many bytes of a column are written at once.
AT_ONCE = 1 << 18


class Parcel(NamedTuple):
    """A head, and the columns that came with it; texts are columns of bytes."""

    head: Dict[str, Any]
    columns: List[array[int]]


def packed(columns: Sequence[Union[bytes, array[int]]], **head: Any) -> Iterator[bytes]:
    """A parcel as bytes, part by part."""
    found = [array("B", it) if isinstance(it, bytes) else it for it in columns]
    yield json.dumps({**head, "columns": [[it.typecode, len(it)] for it in found]}).encode("ascii") + b"\n"
    for it in found:
        step = AT_ONCE // it.itemsize
        for at in range(0, len(it), step):
            yield _least_first(it[at:at + step]).tobytes()


def unpacked(data: Union[bytes, bytearray]) -> Parcel:
    """The parcel of such bytes. Raises `ValueError` where they aren't whole."""
    begin = data.index(b"\n") + 1
    head, found = json.loads(data[:begin]), []
    for code, count in head["columns"]:
        column = array(code)
        end = begin + count * column.itemsize
        column.frombytes(memoryview(data)[begin:end])
        found.append(_least_first(column))
        begin = end
    if begin != len(data):
        raise ValueError("a parcel's columns aren't whole")
    return Parcel(head, found)


def _least_first(column: array[int]) -> array[int]:
    if sys.byteorder == "big":
        column.byteswap()
    return column
