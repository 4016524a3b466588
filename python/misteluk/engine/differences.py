"""What became of edges from one version to a later one, as the library tells it."""
from __future__ import annotations

from array import array
from ctypes import c_uint32, c_uint64, sizeof

from . import interface
from .calling import address, check, room
from .guard import Owned
from .interface import Code, Library
from .protocol import Arrays, Differences

# For how many edges there is room at first, how many times as many in the next call, and at the most.
FIRST_ROOM, MORE_ROOM, MOST_ROOM = 1_024, 4, 262_144


def read_differences(library: Library, pair: Owned, view: interface.View, vertices: int) -> Differences:
    """What became of the edges of all sources, of which there are so many."""
    found = [array(it) for it in "BIIIqQQqQQ"]
    source, count, size = c_uint32(), c_uint64(), FIRST_ROOM
    while source.value < vertices:
        columns = [room(it.typecode, size) for it in found]
        into = interface.DiffColumns(sizeof(interface.DiffColumns), *(word for it in columns for word in (address(it), size)))
        code = library.diff_edges(pair.raw, view, source, into, count)
        if code == Code.BAD_LENGTH:
            size = count.value
            continue
        check(code)
        for told, it in zip(found, columns):
            told.extend(it[:count.value])
        size = max(size, min(size * MORE_ROOM, MOST_ROOM))
    states, *ends = found[:4]
    return Differences(states, Arrays(*ends, *found[4:7]), Arrays(*ends, *found[7:]))
