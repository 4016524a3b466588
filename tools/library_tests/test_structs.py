"""Structs that begin with their size, as programs give them that were compiled with an older header or a later one: a size that
the interface has had is taken, and nothing past it is read or written; any other is refused. And what ends a handle ends it
once."""
import ctypes
import mmap
import os
import unittest
from typing import Any, Tuple

from calls import Batch, Code, Desk, columns, edge_columns, column, fields, interface, limits, view
from differing import diff_columns
from places import library

PAGE, WITHOUT_WEIGHT, MOST_WEIGHT = mmap.PAGESIZE, 24, 1 << 40
LIBC = ctypes.CDLL(None, use_errno=True)


class AtTheEnd:
    """A struct's first bytes at the end of a page; the one after it can't be touched."""

    def __init__(self, told: ctypes.Structure, size: int) -> None:
        self.room = mmap.mmap(-1, 2 * PAGE)
        begin = ctypes.addressof(ctypes.c_char.from_buffer(self.room))
        if LIBC.mprotect(ctypes.c_void_p(begin + PAGE), ctypes.c_size_t(PAGE), 0):
            raise OSError(ctypes.get_errno(), "mprotect")
        self.at = begin + PAGE - size
        ctypes.memmove(self.at, ctypes.byref(told), size)

    def bytes(self, size: int) -> bytes:
        return ctypes.string_at(self.at, size)


def told_with(it: Any, size: int) -> Any:
    it.size = size
    return it


class Structs(unittest.TestCase):
    def setUp(self) -> None:
        # (a struct is given by its place)
        self.library: Any = ctypes.CDLL(os.environ["MISTELUK_LIBRARY"])
        self.desk, self.batch = Desk(library(), 32), Batch(library())
        self.batch.insert(b"k", b"a", b"b", 1, 5)
        self.desk.apply(self.batch)
        self.held = self.desk.hold()
        for it in (self.desk, self.batch, self.held):
            self.addCleanup(it.free)

    def opened(self, own: AtTheEnd) -> Tuple[int, interface.Desk]:
        desk = interface.Desk()
        code = self.library.misteluk_desk_new_within(ctypes.c_uint64(7), ctypes.c_void_p(own.at), 16, ctypes.byref(desk))
        self.addCleanup(library().desk_free, desk)
        return code, desk

    def test_limits_of_a_program_that_knows_no_weight(self) -> None:
        """What an older program gives ends before the weight, at the end of its memory."""
        older = AtTheEnd(told_with(limits(3, 2, 9, 1), WITHOUT_WEIGHT), WITHOUT_WEIGHT)
        code, desk = self.opened(older)
        self.assertEqual(code, Code.OK)
        told = limits(0, 0, 0, 77)
        self.assertEqual(library().desk_limits(desk, told), Code.OK)
        self.assertEqual(fields(told), (32, 3, 2, 9, MOST_WEIGHT))
        room = AtTheEnd(told_with(limits(0, 0, 0), WITHOUT_WEIGHT), WITHOUT_WEIGHT)
        self.assertEqual(self.library.misteluk_desk_limits(ctypes.byref(desk), ctypes.c_void_p(room.at)), Code.OK)
        self.assertEqual(interface.Limits.from_buffer_copy(room.bytes(WITHOUT_WEIGHT) + bytes(8)).batches, 9)

    def test_limits_with_a_weight(self) -> None:
        code, desk = self.opened(AtTheEnd(limits(3, 2, 9, 10), 32))
        self.assertEqual(code, Code.OK)
        told = limits(0, 0, 0, 0)
        self.assertEqual(library().desk_limits(desk, told), Code.OK)
        self.assertEqual(fields(told), (32, 3, 2, 9, 10))

    def test_sizes_that_no_struct_has(self) -> None:
        """Also where all else would be refused: the size says what there is to be read."""
        it, done, source, count = library(), ctypes.c_uint64(5), ctypes.c_uint32(6), ctypes.c_uint64(7)
        for size in (0, 1, 8, 16, 23, 25, 31, 33, 40, 1 << 32, (1 << 64) - 1):
            desk, own = interface.Desk(), told_with(limits(0, 0, 0, 0), size)
            self.assertEqual(it.desk_new_within(7, own, 0, desk), Code.BAD_SIZE)
            self.assertIsNone(desk.at)
            self.assertEqual(it.desk_limits(self.desk.handle, own), Code.BAD_SIZE)
            self.assertEqual(fields(own), (size, 0, 0, 0, 0))
        table, rows = [column(kind, 1) for kind in "BIIIqQ"], [column(kind, 1) for kind in "IIIqQQ"]
        for size in (0, 8, 104, 105, 160, 167, 169, 176, 1 << 63):
            own = told_with(columns([b"k"], [b"a"], table, 1), size)
            self.assertEqual(it.batch_columns(self.batch.handle, own, 0, done), Code.BAD_SIZE)
            self.assertEqual(it.desk_open_columns(interface.Desk(), own, done), Code.BAD_SIZE)
            if size != 104:
                into = told_with(edge_columns(rows, 1), size)
                self.assertEqual(it.version_row(interface.Version(), view(9), 9, into, count), Code.BAD_SIZE)
                self.assertEqual(it.version_in_edges(interface.Version(), view(9), 9, into, count), Code.BAD_SIZE)
                self.assertEqual(it.version_edges(interface.Version(), view(9), source, into, count), Code.BAD_SIZE)
        differences = [column(kind, 1) for kind in "BIIIqQQqQQ"]
        for size in (0, 8, 104, 167, 169, 1 << 63):
            told = told_with(diff_columns(differences, 1), size)
            self.assertEqual(it.diff_edges(interface.Diff(), view(9), source, told, count), Code.BAD_SIZE)
        self.assertEqual((len(self.batch), done.value, source.value, count.value), (0, 5, 6, 7))
        self.assertEqual([any(it) for it in rows], [False] * 6)

    def test_a_struct_that_is_too_small_is_not_read_on(self) -> None:
        """A size that stands alone, with nothing readable after it, is refused and nothing else is touched."""
        alone, desk = AtTheEnd(told_with(limits(1, 1, 1), 8), 8), interface.Desk()
        call, it, held = self.library, ctypes.c_void_p(alone.at), ctypes.byref(self.held.handle)
        seen, number = ctypes.byref(view()), ctypes.byref(ctypes.c_uint64())
        codes = [call.misteluk_desk_new_within(ctypes.c_uint64(7), it, 16, ctypes.byref(desk)),
                 call.misteluk_desk_limits(ctypes.byref(self.desk.handle), it),
                 call.misteluk_batch_columns(ctypes.byref(self.batch.handle), it, 1, number),
                 call.misteluk_desk_open_columns(ctypes.byref(self.desk.handle), it, number),
                 call.misteluk_version_row(held, seen, 0, it, number),
                 call.misteluk_version_in_edges(held, seen, 0, it, number),
                 call.misteluk_version_edges(held, seen, number, it, number),
                 call.misteluk_diff_edges(ctypes.byref(interface.Diff()), seen, number, it, number)]
        self.assertEqual(codes, [Code.BAD_SIZE] * 8)

    def test_what_ends_a_handle_ends_it_once(self) -> None:
        desk, batch = Desk(library(), 16), Batch(library())
        held = desk.hold()
        ends: Any = ((library().version_free, held.handle), (library().desk_free, desk.handle),
                     (library().batch_free, batch.handle))
        for end, handle in ends:
            self.assertIsNotNone(handle.at)
            for _ in range(2):
                end(handle)
                self.assertIsNone(handle.at)

    def test_codes_in_words(self) -> None:
        text, told = ctypes.create_string_buffer(interface.TEXT_BYTES), set()
        for code in Code:
            self.assertEqual(library().code_text(code, text, interface.TEXT_BYTES), Code.OK)
            told.add(text.value)
        self.assertEqual(len(told), len(Code))
        self.assertEqual(library().code_text(Code.NO_VERTEX, text, len(text)), Code.OK)
        self.assertEqual(text.value, b"there is no such vertex")
        for unknown in (max(Code) + 1, 1000, (1 << 32) - 1):
            self.assertEqual(library().code_text(unknown, text, len(text)), Code.OK)
            self.assertEqual(text.value, b"this library has no such code")
        short = ctypes.create_string_buffer(b"?" * 8)
        self.assertEqual(library().code_text(Code.OK, short, 4), Code.BAD_LENGTH)
        self.assertEqual(short.raw, b"?" * 8 + b"\0")
        self.assertEqual(library().code_text(Code.OK, short, 5), Code.OK)
        self.assertEqual(short.raw, b"done\0???\0")

    def test_numbers(self) -> None:
        self.assertEqual((library().interface(), library().library_version()), (interface.INTERFACE, interface.VERSION))


if __name__ == "__main__":
    unittest.main()
