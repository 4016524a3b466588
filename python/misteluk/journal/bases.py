"""Bases: a version as columns, in parts of a megabyte, with a digest.

    kind_text, vertex_text     the names one after another, in their order
    kind_ends, vertex_ends     where each ends, as 8 bytes
    kinds, sources, targets    each edge's, by number, as 4 bytes
    weights, firsts, recents   each edge's, as 8 bytes; weights have a sign
    texts                      JSON: the texts of ids
    senders                    JSON: what each producer and each of the last keys sent, and how far followed feeds are in

Numbers are little-endian.
"""
from __future__ import annotations

import json
import sqlite3
import sys
from array import array
from itertools import accumulate
from typing import Any, Dict, Iterator, List, Mapping, NamedTuple, Sequence, Tuple

from .sources import Sources
from .tables import digest
from ..engine.calling import texts_of
from ..engine.copies import Content
from ..engine.protocol import WHOLE, Arrays, Held
from ..errors import JournalFault

PART = 1 << 20
ENDS = "Q"
OF_EDGES = dict(zip(("kinds", "sources", "targets", "weights", "firsts", "recents"), "IIIqQQ"))


class Base(NamedTuple):
    """A version: its kinds and vertices by number, its edges as columns, the texts of ids, and who sent what."""

    kinds: List[str]
    names: List[str]
    edges: Arrays
    texts: Mapping[str, str]
    sources: Sources

    @staticmethod
    def of(held: Held, texts: Mapping[str, str], sources: Sources) -> "Base":
        """A version that is held."""
        return Base(held.kinds(), held.names(), held.edges(WHOLE), texts, sources)

    @property
    def content(self) -> Content:
        return Content(self.kinds, self.names, self.edges)

    def columns(self) -> Iterator[Tuple[str, bytes]]:
        """The columns by name, as they are written."""
        for name, names in (("kind", self.kinds), ("vertex", self.names)):
            yield f"{name}_text", "".join(names).encode("ascii")
            yield f"{name}_ends", _written(array(ENDS, accumulate(map(len, names))))
        yield from ((name, _written(it)) for name, it in zip(OF_EDGES, self.edges))
        yield from (("texts", json.dumps(dict(self.texts)).encode("ascii")), ("senders", self.sources.written()))


def _written(column: "array[int]") -> bytes:
    if sys.byteorder == "big":
        column = array(column.typecode, column)
        column.byteswap()
    return column.tobytes()


def _numbers(code: str, data: bytes) -> "array[int]":
    found = array(code, data)
    if sys.byteorder == "big":
        found.byteswap()
    return found


def digest_of(version: int, at: int, counts: Sequence[int], before: bytes, columns: Mapping[str, bytes]) -> bytes:
    """The digest of a base, with the sum of its version's batch."""
    head = json.dumps((version, at, *counts)).encode("ascii")
    return digest(head, before, *(part for name, it in sorted(columns.items()) for part in (name.encode("ascii"), it)))


def read_base(opened: sqlite3.Connection, version: int) -> Tuple[Base, bytes]:
    """The base of a version, and the sum of its batch. Raises `JournalFault` where it isn't as it was written."""
    row, columns = columns_of(opened, version)
    return base_of(version, row, columns)


def columns_of(opened: sqlite3.Connection, version: int) -> Tuple[Sequence[Any], Dict[str, bytes]]:
    """A base as it is written: its row behind the version, and its columns."""
    row = opened.execute("SELECT at, vertices, kinds, edges, sum, digest FROM bases WHERE version=?", (version,)).fetchone()
    parts: Dict[str, List[bytes]] = {}
    for name, data in opened.execute("SELECT name, data FROM columns WHERE version=? ORDER BY name, part", (version,)):
        parts.setdefault(name, []).append(data)
    try:
        return row, {name: b"".join(it) for name, it in parts.items()}
    except TypeError:  # (a damaged page may have anything in its place)
        return row, {}


def base_of(version: int, row: Sequence[Any], columns: Mapping[str, bytes]) -> Tuple[Base, bytes]:
    """The base of a version by its row and columns, and the sum of its batch. Raises `JournalFault` where it isn't as it was
    written."""
    try:
        at, *counts, before, told = row
        is_whole = digest_of(version, at, counts, before, columns) == told
    except (TypeError, UnicodeError):  # (as above)
        is_whole = False
    if not is_whole:
        raise JournalFault(f"the base of version {version} isn't as it was written")
    kinds, names = (_names(columns[f"{it}_text"], columns[f"{it}_ends"]) for it in ("kind", "vertex"))
    edges = Arrays(*(_numbers(code, columns[name]) for name, code in OF_EDGES.items()))
    return Base(kinds, names, edges, json.loads(columns["texts"]), Sources.read(columns["senders"])), before


def _names(text: bytes, ends: bytes) -> List[str]:
    return texts_of(array("B", text), _numbers(ENDS, ends))

