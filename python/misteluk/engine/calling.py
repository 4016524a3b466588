"""How the library is called: its codes as exceptions, arrays for what it writes, and handles, freed once nobody has them."""
from __future__ import annotations

import os
import struct
import threading
from array import array
from ctypes import c_uint64, sizeof
from itertools import chain
from typing import Any, Callable, Dict, List, NamedTuple, Optional, Tuple

from . import interface
from .finding import next_step
from .guard import Notes, Owned
from .interface import Code, Library
from .operations import INSERT, REMOVE, Numbered, Operations
from .protocol import Denied
from ..errors import LibraryNotFound, NoMemory, StoreError
from ..values.answers import Commit
from ..values.fields import numpy_for

# The words of codes that the client's users know.
WORDS = {Code.BATCHES_FULL: "BatchLimit", Code.NAMES_FULL: "NamesFull", Code.KINDS_FULL: "KindsFull",
         Code.BLOCKS_FULL: "PoolEmpty", Code.NO_VERTEX: "NoVertex", Code.NO_KIND: "NoKind"}
# Up to so many operations each have a call of their own, and so many go into one batch at the most.
FEW, MOST_AT_ONCE = 6, 65_536
# How the counts of a batch stand in memory.
_COUNTS = struct.Struct("=7Q")
_OPENED: "Dict[Tuple[str, int], Tuple[Library, Handles]]" = {}
# What else gives something back, once it is used (`engine.lending`).
LENDERS: "List[Callable[[], None]]" = []


def opened(path: str) -> "Tuple[Library, Handles]":
    """The library, which a process loads once. Raises `LibraryNotFound` where it isn't one of this package."""
    key = path, os.getpid()  # (a fork frees nothing of what its parent has)
    if key not in _OPENED:
        try:
            _OPENED[key] = Library(path), Handles(Notes(), Notes(), Notes(), Notes())
        except OSError as fault:
            # (the C library says of a file of another machine that it isn't there)
            is_other = "No such file" in str(fault) and os.path.isfile(path)
            why = f" (it is there, of another machine than {os.uname().machine}, or needs what isn't here)" if is_other else ""
            raise LibraryNotFound(f"no library can be loaded: {fault}{why}. {next_step()}") from fault
    return _OPENED[key]


def refusal_of(code: int) -> Exception:
    """What is raised where a call was refused."""
    if code == Code.MEMORY:
        return NoMemory("the library ran out of memory for this call, and left all as it was")
    if code in WORDS:
        return Denied(WORDS[Code(code)])
    return StoreError(f"the library refused a call by {Code(code).name}, for which this package knows no reason")


def check(code: int) -> None:
    """Raises where a call was refused."""
    if code:
        raise refusal_of(code)


def room(code: str, count: int) -> "array[int]":
    """An array of so many items, zeros; of none it has a place nevertheless, since it has to have an address."""
    return array(code, bytes(max(count, 1) * array(code).itemsize))


def address(column: "array[int]") -> int:
    return column.buffer_info()[0]


def texts_of(text: "array[int]", ends: "array[int]") -> List[str]:
    """Names that stand one after another. Behind the last one may be room that was not used."""
    count, numpy = len(ends), numpy_for(len(ends))
    if numpy is None:
        told = text.tobytes().decode("ascii")
        return list(map(told.__getitem__, map(slice, chain((0,), ends), ends)))
    text = text[:ends[-1]]
    is_text = numpy.ones(len(text) + count, dtype=bool)
    is_text[numpy.asarray(ends).astype("int64") + numpy.arange(count)] = False
    spread = numpy.full(len(is_text), ord(" "), dtype="uint8")  # (a space, which no name has, stands behind each)
    spread[is_text] = text
    names: List[str] = spread.tobytes().decode("ascii").split()
    return names


class Handles(NamedTuple):
    """The handles of this process that are to be freed, by what they are."""

    versions: Notes
    batches: Notes
    desks: Notes
    diffs: Notes

    def give_back(self, library: Library) -> None:
        versions, batches, desks, diffs = self
        if versions.gone or versions.left:
            versions.give_back(library.version_free)
        if batches.gone or batches.left:
            batches.give_back(library.batch_free)
        if desks.gone or desks.left:
            desks.give_back(library.desk_free)
        if diffs.gone or diffs.left:
            diffs.give_back(library.diff_free)
        for it in LENDERS:
            it()


class Known(NamedTuple):
    """The names and kinds of an opening by number, as far as they were asked for, and the numbers of those that were asked about.
    What is known stays as it is."""

    names: List[str]
    kinds: List[str]
    lock: Any
    of_names: Dict[str, int]
    of_kinds: Dict[str, int]

    @staticmethod
    def nothing() -> "Known":
        return Known([], [], threading.RLock(), {}, {})


class LibraryFlight:
    """A batch on its way: in a handle of C, which is emptied as it is applied; whether it is only made ready for now, and whether
    names and kinds without an edge are dropped before it; and what it did, once that is known."""

    __slots__ = ("batch", "collect", "cut", "owned", "counts", "waits", "drops", "receipt")

    def __init__(self, batch: Operations, collect: bool, owned: Owned) -> None:
        self.batch, self.collect, self.owned = batch, collect, owned
        self.cut: List[None] = []
        self.counts = interface.Counts()
        self.waits = self.drops = False
        self.receipt: Optional[Commit] = None

    def take(self, before: int) -> None:
        """Takes what it did, by its counts, where so many versions were made before the desk began."""
        version, inserted, updated, removed, absent, overflowed, expired = _COUNTS.unpack(self.counts)
        self.receipt = Commit(version + before, inserted, updated, removed, absent, overflowed, self.batch.opens or 1, expired)


def fill(library: Library, raw: interface.Batch, batch: Operations) -> None:
    """Puts operations into a batch: few of them one by one, since columns are made for each call."""
    if batch.size > FEW:
        _fill_at_once(library, raw, batch.columns)
        return
    for code, kind, source, target, weight, time in batch.rows:  # (signs of names are ASCII, so they are as many as their bytes)
        if code < REMOVE:
            put = library.batch_insert if code == INSERT else library.batch_add
            done = put(raw, kind.encode(), len(kind), source.encode(), len(source), target.encode(), len(target), weight, time)
        elif code == REMOVE:
            done = library.batch_remove(raw, kind.encode(), len(kind), source.encode(), len(source), target.encode(), len(target))
        else:
            done = library.batch_expire(raw, time)
        if done:
            raise refusal_of(done)


def _fill_at_once(library: Library, raw: interface.Batch, columns: Numbered) -> None:
    """The same by a call for all, which have room in the batch."""
    check(library.batch_columns(raw, columns_of(columns), MOST_AT_ONCE, c_uint64()))


def columns_of(operations: Numbered) -> interface.Columns:
    """Where the columns of operations stand, as a call takes them, which have to be there as long as that."""
    dictionaries = [(text, len(text), address(ends), len(ends)) for text, ends in (operations.of_kinds.encoded,
                                                                                    operations.of_names.encoded)]
    words = chain.from_iterable([*dictionaries, *((address(it), len(it)) for it in operations[:6])])
    return interface.Columns(sizeof(interface.Columns), *words)
