"""What became of edges between two versions that a desk holds, as tests ask for it."""
from __future__ import annotations

import array
import itertools
from ctypes import c_uint32, c_uint64, sizeof
from typing import List, Sequence, Tuple

from calls import Code, Desk, Version, at, column, interface, must


def diff_columns(table: "Sequence[array.array[int]]", count: int) -> interface.DiffColumns:
    """Columns for what became of edges, of which so many places count, as a call takes them."""
    words = [it for each in table for it in (at(each), count)]
    return interface.DiffColumns(sizeof(interface.DiffColumns), *words)


def differences(desk: Desk, earlier: Version, later: Version, seen: interface.View, room: int) -> List[Tuple[int, ...]]:
    """What became of edges from one held version to another, by as many calls as columns of so many places take: longer ones
    where a source's don't fit."""
    assert earlier.hold is not None and later.hold is not None
    pair, source, count = interface.Diff(), c_uint32(), c_uint64()
    must(desk.library.desk_diff(desk.handle, earlier.hold, later.hold, pair))
    found: List[Tuple[int, ...]] = []
    try:
        while source.value < later.size.vertices:
            table = [column(it, room) for it in "BIIIqQQqQQ"]
            code = desk.library.diff_edges(pair, seen, source, diff_columns(table, room), count)
            if code == Code.BAD_LENGTH:
                assert count.value > room and not any(map(any, table))
                room = count.value
                continue
            must(code)
            found += itertools.islice(zip(*table), count.value)
    finally:
        desk.library.diff_free(pair)
    return found
