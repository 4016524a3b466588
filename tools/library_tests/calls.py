"""The C interface as tests take it: a code that isn't OK raises `Refused`, and what a call writes is handed back as lists."""
from __future__ import annotations

import array
import itertools
import pathlib
import sys
from ctypes import Array, addressof, c_uint32, c_uint64, create_string_buffer, sizeof
from typing import Any, Dict, Iterator, List, Optional, Sequence, Tuple

TOP = pathlib.Path(__file__).resolve().parent.parent.parent
sys.dont_write_bytecode = True
sys.path.insert(0, str(TOP / "python"))
from misteluk.engine import interface  # noqa: E402
from misteluk.engine.interface import ANY_KIND, NOT_REACHED, Code, Library  # noqa: E402

__all__ = ["ANY_KIND", "EVER", "NOT_REACHED", "TOP", "Batch", "Code", "Desk", "Library", "Owner", "Refused", "Version", "at",
           "column", "columns", "edge_columns", "fields", "given", "interface", "limits", "must", "view", "whole", "written_to"]
EVER = (0, (1 << 64) - 1)
# A row of a table of edges: kind, source, target, weight, first and recent time.
Row = Tuple[int, int, int, int, int, int]
# An operation in columns: its sort, the places of its kind, source and target among names, its weight and its time.
Operation = Tuple[int, int, int, int, int, int]


class Refused(Exception):
    def __init__(self, code: Code) -> None:
        super().__init__(code.name)
        self.code = code


def must(code: int) -> None:
    if code != Code.OK:
        raise Refused(Code(code))


def column(kind: str, count: int) -> "array.array[int]":
    """An array of so many numbers. Where there are none it has a place that nobody may write to, since none is at NULL."""
    return array.array(kind, bytes(array.array(kind).itemsize * max(count, 1)))


def at(values: "array.array[int]") -> int:
    return values.buffer_info()[0]


def view(kind: Optional[int] = None, window: Tuple[int, int] = EVER) -> interface.View:
    return interface.View(*window, ANY_KIND if kind is None else kind)


def limits(names: int, kinds: int, batches: int, weight: int = 1 << 40) -> interface.Limits:
    return interface.Limits(sizeof(interface.Limits), names, kinds, batches, weight)


def columns(kinds: Sequence[bytes], names: Sequence[bytes], table: "Sequence[array.array[int]]", count: int) -> interface.Columns:
    """Operations in columns, of which so many places count, as a call takes them."""
    words = [it for each in table for it in (at(each), count)]
    return given([*dictionary(kinds), *dictionary(names), *words])


def given(words: Sequence[Any]) -> interface.Columns:
    """The struct of these columns, each with its length; arrays of ctypes are taken by their place."""
    places = [addressof(it) if isinstance(it, Array) else it for it in words]
    found = interface.Columns(sizeof(interface.Columns), *places)
    found.kept = words  # (what it leads to lives as long)
    return found


def edge_columns(table: "Sequence[array.array[int]]", count: int) -> interface.EdgeColumns:
    """Columns for edges, of which so many places count, as a call takes them."""
    return written_to([it for each in table for it in (at(each), count)])


def written_to(words: Sequence[int]) -> interface.EdgeColumns:
    return interface.EdgeColumns(sizeof(interface.EdgeColumns), *words)


class Owner:
    """What has a handle, and ends what it holds."""

    def __init__(self, library: Library) -> None:
        self.library = library
        # (a list of columns is given as so many words, which a checker of types can't count)
        self.calls: Any = library

    def free(self) -> None:
        raise NotImplementedError


class Batch(Owner):
    def __init__(self, library: Library) -> None:
        super().__init__(library)
        self.handle = interface.Batch()
        must(library.batch_new(self.handle))

    def insert(self, kind: bytes, source: bytes, target: bytes, weight: int, time: int) -> None:
        names = (kind, len(kind), source, len(source), target, len(target))
        must(self.library.batch_insert(self.handle, *names, weight, time))

    def add(self, kind: bytes, source: bytes, target: bytes, amount: int, time: int) -> None:
        must(self.library.batch_add(self.handle, kind, len(kind), source, len(source), target, len(target), amount, time))

    def remove(self, kind: bytes, source: bytes, target: bytes) -> None:
        must(self.library.batch_remove(self.handle, kind, len(kind), source, len(source), target, len(target)))

    def expire(self, time: int) -> None:
        must(self.library.batch_expire(self.handle, time))

    def append(self, kinds: Sequence[bytes], names: Sequence[bytes], operations: Sequence[Operation], done: int = 0,
               limit: int = interface.OPERATIONS) -> Tuple[Code, int]:
        """Appends operations in columns from a place on, up to the batch's limit. Hands back the code and the place that the call
        tells."""
        # (a column is never empty here: none may be at NULL)
        table = [array.array(it, [op[place] for op in operations] or [0]) for place, it in enumerate("BIIIqQ")]
        return self.append_columns(kinds, names, table, len(operations), done, limit)

    def append_columns(self, kinds: Sequence[bytes], names: Sequence[bytes], table: "Sequence[array.array[int]]", count: int,
                       done: int = 0, limit: int = interface.OPERATIONS) -> Tuple[Code, int]:
        """The same of columns that stand ready, of which so many places count."""
        told = c_uint64(done)
        code = self.library.batch_columns(self.handle, columns(kinds, names, table, count), limit, told)
        return Code(code), told.value

    def __len__(self) -> int:
        out = c_uint64()
        must(self.library.batch_length(self.handle, out))
        return out.value

    def records(self) -> bytes:
        """The operations as records, in a text that has just the room for them."""
        length, text = c_uint64(), create_string_buffer(1)
        code = self.library.batch_records(self.handle, text, 0, length)
        if code == Code.BAD_LENGTH:
            text = create_string_buffer(length.value)
            code = self.library.batch_records(self.handle, text, length.value, length)
        must(code)
        return text.raw[:length.value]

    def free(self) -> None:
        self.library.batch_free(self.handle)


class Version(Owner):
    """A version that is held. Where it came of a hold, `hold` is for its release."""

    def __init__(self, library: Library, handle: interface.Version, hold: Optional[interface.Hold] = None) -> None:
        super().__init__(library)
        self.handle, self.hold = handle, hold
        self.size = interface.Size()
        must(library.version_size(handle, self.size))

    def clone(self) -> "Version":
        out = interface.Version()
        must(self.library.version_clone(self.handle, out))
        return Version(self.library, out)

    def free(self) -> None:
        self.library.version_free(self.handle)

    def vertex(self, name: bytes) -> int:
        out = c_uint32()
        must(self.library.version_vertex(self.handle, name, len(name), out))
        return out.value

    def kind(self, name: bytes) -> int:
        out = c_uint32()
        must(self.library.version_kind(self.handle, name, len(name), out))
        return out.value

    def names(self) -> List[bytes]:
        text, ends = create_string_buffer(self.size.name_bytes + 1), column("Q", self.size.vertices)
        must(self.library.version_names(self.handle, 0, text, self.size.name_bytes, at(ends), self.size.vertices))
        return parted(text.raw, ends[:self.size.vertices])

    def kind_names(self) -> List[bytes]:
        text, ends = create_string_buffer(self.size.kind_bytes + 1), column("Q", self.size.kinds)
        must(self.library.version_kind_names(self.handle, 0, text, self.size.kind_bytes, at(ends), self.size.kinds))
        return parted(text.raw, ends[:self.size.kinds])

    def edge(self, kind: int, source: int, target: int) -> Tuple[int, int, int]:
        out = interface.Edge()
        must(self.library.version_edge(self.handle, kind, source, target, out))
        return out.weight, out.first, out.recent

    def degrees(self, seen: interface.View) -> List[Tuple[int, int, int]]:
        count = self.size.vertices
        outgoing, incoming, weight = column("I", count), column("I", count), column("q", count)
        must(self.library.version_degrees(self.handle, seen, at(outgoing), count, at(incoming), count, at(weight), count))
        return list(zip(outgoing, incoming, weight))[:count]

    def levels(self, seen: interface.View, source: int) -> Dict[int, int]:
        """The level of each vertex that is reached."""
        out = column("I", self.size.vertices)
        must(self.library.version_levels(self.handle, seen, source, at(out), self.size.vertices))
        return {vertex: level for vertex, level in enumerate(out) if level != NOT_REACHED}

    def labels(self, seen: interface.View) -> List[int]:
        out = column("I", self.size.vertices)
        must(self.library.version_labels(self.handle, seen, at(out), self.size.vertices))
        return list(out)[:self.size.vertices]

    def cores(self, seen: interface.View) -> List[int]:
        out = column("I", self.size.vertices)
        must(self.library.version_cores(self.handle, seen, at(out), self.size.vertices))
        return list(out)[:self.size.vertices]

    def index(self) -> None:
        must(self.library.version_index(self.handle))

    def within(self, seen: interface.View, direction: int, sources: Sequence[int], steps: int) -> List[Tuple[int, int]]:
        """The vertices that walks reach from the sources, with their levels, in columns that are as long as they have to be: the
        length is asked for with none."""
        begin, count, size = array.array("I", sources or [0]), c_uint64(), 0
        code, table = Code.BAD_LENGTH, [column("I", 0), column("I", 0)]
        while code == Code.BAD_LENGTH:
            words = [it for each in table for it in (at(each), size)]
            code = Code(self.calls.version_within(self.handle, seen, direction, at(begin), len(sources), steps, *words, count))
            if code == Code.BAD_LENGTH:
                assert count.value > size and not any(map(any, table))
                size = count.value
                table = [column("I", size), column("I", size)]
        must(code)
        vertices, levels = table
        return list(zip(vertices, levels))[:count.value]

    def path(self, seen: interface.View, source: int, target: int) -> List[int]:
        """The vertices of a shortest walk, in a column that is as long as it has to be; none where there is no walk."""
        count, size, code, found = c_uint64(), 0, Code.BAD_LENGTH, column("I", 0)
        while code == Code.BAD_LENGTH:
            code = Code(self.library.version_path(self.handle, seen, source, target, at(found), size, count))
            if code == Code.BAD_LENGTH:
                assert count.value > size and not any(found)
                size = count.value
                found = column("I", size)
        must(code)
        return list(found)[:count.value]

    def row(self, seen: interface.View, source: int) -> List[Row]:
        return self._beside(self.calls.version_row, seen, source, 1)

    def in_edges(self, seen: interface.View, target: int) -> List[Row]:
        return self._beside(self.calls.version_in_edges, seen, target, 2)

    def _beside(self, call: Any, seen: interface.View, vertex: int, own: int) -> List[Row]:
        """One vertex's edges, in columns that are as long as they have to be: the length is asked for with none."""
        none, count = [column("Q", 0)] * 6, c_uint64()
        code = call(self.handle, seen, vertex, edge_columns(none, 0), count)
        if code != Code.BAD_LENGTH:
            must(code)
        table = [column(it, count.value) for it in "IIIqQQ"]
        must(call(self.handle, seen, vertex, edge_columns(table, count.value), count))
        if any(table[own]):
            raise AssertionError("the vertex itself is written nowhere")
        table[own] = array.array("I", [vertex]) * count.value
        rows: Iterator[Row] = zip(*table)  # type: ignore[assignment]
        return list(itertools.islice(rows, count.value))

    def weights_in(self, seen: interface.View) -> List[int]:
        out = column("q", self.size.vertices)
        must(self.library.version_weights_in(self.handle, seen, at(out), self.size.vertices))
        return list(out)[:self.size.vertices]

    def names_like(self, text: bytes, room: int) -> List[int]:
        """The numbers of all names that have a text, by as many calls as a column of so many places takes."""
        found: List[int] = []
        begin, count, numbers = c_uint32(), c_uint64(), column("I", room)
        while begin.value < self.size.vertices:
            before = begin.value
            must(self.library.version_names_like(self.handle, text, len(text), begin, at(numbers), room, count))
            assert begin.value > before
            found += numbers[:count.value]
        return found

    def edges(self, seen: interface.View, room: int) -> List[Row]:
        """All edges, by as many calls as columns of so many places take."""
        found: List[Row] = []
        source, count = c_uint32(), c_uint64()
        table = [column(it, room) for it in "IIIqQQ"]
        while source.value < self.size.vertices:
            must(self.library.version_edges(self.handle, seen, source, edge_columns(table, room), count))
            rows: Iterator[Row] = zip(*table)  # type: ignore[assignment]
            found += itertools.islice(rows, count.value)
        return found


# The numbers of desks, of which each has its own.
NUMBERS = itertools.count(1)


class Desk(Owner):
    """A desk, under limits of its own where some are given: how many names, kinds and batches, and how large a weight."""

    def __init__(self, library: Library, blocks: int, own: Optional[Tuple[int, int, int]] = None, weight: int = 1 << 40) -> None:
        super().__init__(library)
        self.handle, number = interface.Desk(), next(NUMBERS)
        if own is None:
            must(library.desk_new(number, blocks, self.handle))
        else:
            must(library.desk_new_within(number, limits(*own, weight), blocks, self.handle))

    def limits(self) -> Tuple[int, ...]:
        """How many names, kinds and batches it has at most, and how large its weights are."""
        out = limits(0, 0, 0, 0)
        must(self.library.desk_limits(self.handle, out))
        return fields(out)[1:]

    def free(self) -> None:
        self.library.desk_free(self.handle)

    def apply(self, batch: Batch) -> interface.Counts:
        counts = interface.Counts()
        must(self.library.desk_apply(self.handle, batch.handle, counts))
        return counts

    def begin(self, batch: Batch) -> None:
        """Makes a batch ready, which stays in its handle."""
        must(self.library.desk_begin(self.handle, batch.handle))

    def finish(self) -> interface.Counts:
        counts = interface.Counts()
        must(self.library.desk_finish(self.handle, counts))
        return counts

    def cancel(self) -> None:
        must(self.library.desk_cancel(self.handle))

    def insert_columns(self, kind: bytes, names: Sequence[bytes],
                       edges: Sequence[Tuple[int, int, int, int]]) -> Tuple[Code, int, interface.Counts]:
        """Inserts edges, each with the places of two names, a weight and a time. Hands back the code, how many are in, and what
        became of them."""
        none = column("Q", 0)
        columns = [array.array(it, [edge[place] for edge in edges]) for place, it in enumerate("IIqQ")]
        counts, done = interface.Counts(), c_uint64()
        told = [it for each in columns for it in (at(each if each else none), len(edges))]
        code = self.calls.desk_insert_columns(self.handle, kind, len(kind), *dictionary(names), *told, counts, done)
        return Code(code), done.value, counts

    def open_columns(self, kinds: Sequence[bytes], names: Sequence[bytes],
                     operations: Sequence[Operation]) -> Tuple[Code, int]:
        """Starts over with what operations make, each with the places of its kind, source and target among names. Hands back the
        code and the place that the call writes."""
        table = [array.array(it, [op[place] for op in operations] or [0]) for place, it in enumerate("BIIIqQ")]
        done = c_uint64()
        code = self.library.desk_open_columns(self.handle, columns(kinds, names, table, len(operations)), done)
        return Code(code), done.value

    def collect(self) -> int:
        out = c_uint64()
        must(self.library.desk_collect(self.handle, out))
        return out.value

    def stat(self) -> interface.Stat:
        out = interface.Stat()
        must(self.library.desk_stat(self.handle, out))
        return out

    def hold(self) -> Version:
        handle, hold = interface.Version(), interface.Hold()
        must(self.library.desk_hold(self.handle, handle, hold))
        return Version(self.library, handle, hold)

    def release(self, version: Version) -> None:
        """Takes the hold back, and lets the version go."""
        assert version.hold is not None
        must(self.library.desk_release(self.handle, version.hold))
        version.free()

    def rebase(self) -> None:
        must(self.library.desk_rebase(self.handle))


def dictionary(names: Sequence[bytes]) -> Tuple[bytes, int, "Array[c_uint64]", int]:
    """Names as a call takes them: their bytes one after another, and where each ends, with their lengths."""
    text, ends = b"".join(names), itertools.accumulate(map(len, names))
    return text, len(text), (c_uint64 * max(len(names), 1))(*ends), len(names)


def parted(text: bytes, ends: Sequence[int]) -> List[bytes]:
    return [text[start:end] for start, end in zip([0, *ends], ends)]


def fields(told: "interface.Counts | interface.Stat | interface.Size | interface.Hold | interface.Limits") -> Tuple[int, ...]:
    """What a struct of numbers has."""
    return tuple(getattr(told, name) for name, _ in told._fields_)


def whole(version: Version) -> Tuple[object, ...]:
    """All that can be read of a version, to compare it."""
    every = view()
    return (fields(version.size), tuple(version.names()), tuple(version.kind_names()), tuple(version.edges(every, 4096)),
            tuple(version.labels(every)), tuple(version.cores(every)), tuple(version.degrees(every)))
