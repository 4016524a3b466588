"""Calls of the C library by their names, with arrays of numpy and with bytes in place of addresses and lengths."""
from __future__ import annotations

from ctypes import byref, c_uint32, c_uint64, create_string_buffer, sizeof
from typing import Any, List, NamedTuple, Optional, Set, Tuple

import numpy

from bench.calls import Refused, limits, written_to
from misteluk.engine import interface
from misteluk.engine.interface import ANY_KIND, Code

EVER = (0, (1 << 64) - 1)
COLUMNS = ("u4", "u4", "u4", "i8", "u8", "u8")
STEP = 1 << 20


class View(NamedTuple):
    """Which edges count: of one kind, or of any, whose recent time is in a window."""

    kind: int = ANY_KIND
    window: Tuple[int, int] = EVER

    def given(self) -> Any:
        return interface.View(*self.window, self.kind)


def fields(told: Any) -> Tuple[int, ...]:
    """What a struct of numbers has."""
    return tuple(getattr(told, name) for name, _ in told._fields_)


def words_of(*given: Any) -> List[Any]:
    """What a call is given in place of arrays and bytes: where they stand, and their lengths."""
    words: List[Any] = []
    for it in given:
        is_array = isinstance(it, numpy.ndarray)
        words += [it.ctypes.data, len(it)] if is_array else [it, len(it)] if isinstance(it, bytes) else [it]
    return words


def operations(*given: Any) -> interface.Columns:
    """Operations in columns: both dictionaries, and a column of each sort of number. They live as long as this."""
    found = interface.Columns(sizeof(interface.Columns), *words_of(*given))
    found.kept = given
    return found


class Caller:
    """Calls the library, and keeps which functions it called. A code that isn't OK raises `Refused`. The one that is called
    `wrong` isn't called, and answers OK: a run in which that makes no difference compares nothing of that function."""

    def __init__(self, library: Any, wrong: str = "") -> None:
        self.library, self.wrong = library, wrong
        self.called: Set[str] = set()

    def __call__(self, name: str, *given: Any) -> None:
        words = words_of(*given)
        self.called.add(name)
        if name == self.wrong:
            return
        code = getattr(self.library, name)(*words)
        if code:
            raise Refused(Code(code))

    def number(self, name: str) -> int:
        """A number of the library itself: of its interface or release."""
        self.called.add(name)
        return int(getattr(self.library, name)()) if self.wrong != name else 0

    def text(self, code: Code) -> bytes:
        """What a code says."""
        found = create_string_buffer(interface.TEXT_BYTES)
        self("code_text", code, found, interface.TEXT_BYTES)
        return found.value

    def stat(self, desk: Any) -> Any:
        found = interface.Stat()
        self("desk_stat", desk, found)
        return found

    def size(self, version: Any) -> Any:
        found = interface.Size()
        self("version_size", version, found)
        return found

    def hold(self, desk: Any) -> Tuple[Any, Any]:
        version, hold = interface.Version(), interface.Hold()
        self("desk_hold", desk, version, hold)
        return version, hold

    def release(self, desk: Any, held: Tuple[Any, Any]) -> None:
        self("desk_release", desk, held[1])
        self("version_free", held[0])

    def opened(self, names: int, kinds: int, batches: int, blocks: int, weight: Optional[int] = None) -> Any:
        """A desk under limits, on weights the greatest where none is said."""
        desk = interface.Desk()
        self("desk_new_within", 1, limits(names, kinds, batches, 1 << 40 if weight is None else weight), blocks, desk)
        return desk

    def limits(self, desk: Any) -> Tuple[int, ...]:
        """How many vertices, kinds and batches a desk may have, and how large weights may be."""
        found = limits(0, 0, 0, 0)
        self("desk_limits", desk, found)
        return fields(found)[1:]

    def collect(self, desk: Any) -> int:
        freed = c_uint64()
        self("desk_collect", desk, freed)
        return freed.value

    def apply(self, desk: Any, batch: Any) -> Tuple[int, ...]:
        counts = interface.Counts()
        self("desk_apply", desk, batch, counts)
        return fields(counts)

    def apply_in_steps(self, desk: Any, batch: Any) -> Tuple[int, ...]:
        """The same in two steps, the first of which is given up once. The batch stays."""
        counts = interface.Counts()
        self("desk_begin", desk, batch)
        self("desk_cancel", desk)
        self("desk_begin", desk, batch)
        self("desk_finish", desk, counts)
        return fields(counts)

    def length(self, batch: Any) -> int:
        length = c_uint64()
        self("batch_length", batch, length)
        return length.value

    def edges(self, version: Any, seen: View, room: int) -> Tuple[Any, ...]:
        """All edges of a view, as the library has them: kinds, sources, targets, weights, first and recent times."""
        found = [numpy.zeros(max(room, 1), it) for it in COLUMNS]
        source, count = c_uint32(), c_uint64()
        self("version_edges", version, seen.given(), source, written_to(words_of(*found)), count)
        return tuple(it[:count.value] for it in found)

    def load(self, desk: Any, kind: bytes, names: "Names", *columns: Any) -> Tuple[int, int]:
        """Inserts all edges of a kind, with a collection after each 2^20. Returns how many were new, and how many changed."""
        new = changed = 0
        counts, done = interface.Counts(), c_uint64()
        for at in range(0, len(columns[0]), STEP):
            part = [it[at:at + STEP] for it in columns]
            self("desk_insert_columns", desk, kind, *names.words, *part, counts, done)
            new, changed = new + counts.inserted, changed + counts.updated
            self.collect(desk)
        return new, changed


class Names:
    """The names v0, v1, .. as a call takes a dictionary: their bytes, and where each ends."""

    def __init__(self, count: int) -> None:
        parts = (b"".join([b"v%d" % it for it in range(at, min(at + STEP, count))]) for at in range(0, count, STEP))
        self.text = b"".join(parts)
        numbers = numpy.arange(count, dtype="u8")
        digits = sum((numbers >= 10 ** it).astype("u8") for it in range(1, 10))
        self.ends = numpy.cumsum(digits + numpy.uint64(2), dtype="u8")
        self.words = (self.text, self.ends)


def one_name(name: bytes) -> Tuple[Any, ...]:
    """A dictionary of one name."""
    return name, byref(c_uint64(len(name))), 1
