"""Each function with what no caller should give it, and that it says so and leaves all as it was: a handle that holds nothing or
something already, arrays that are too short or differ, texts that are no names, numbers that name nothing, ends that fall."""
import array
import inspect
import unittest
from ctypes import c_uint32, c_uint64
from typing import Any, Dict, List, Sequence, Tuple

from calls import ANY_KIND, EVER, Batch, Code, Desk, at, column, fields, given, interface, limits, view, whole, written_to
from differing import diff_columns
from places import library

GUARD = 0x5A
FULL = (1 << 64) - 1
NO_NAMES = [b"", b"z" * 65, b"a b", b"a\n", b"\x7f", b"\0", b"a\0", b"\xff\xfe", "é".encode(), b"\xed\xa0\x80", b"\xc0\xaf"]


class Guarded:
    """An array with a guard before and behind it, which a call must leave alone."""

    def __init__(self, kind: str, count: int) -> None:
        self.size, self.count = array.array(kind).itemsize, count
        self.bytes = array.array("B", [GUARD] * (16 + self.size * count + 16))
        self.at = at(self.bytes) + 16

    def is_left_alone(self) -> bool:
        return all(it == GUARD for it in (*self.bytes[:16], *self.bytes[16 + self.size * self.count:]))


def table(kinds: str, counts: Sequence[int]) -> Tuple[List[Guarded], List[int]]:
    """Guarded arrays, and the words of a call that gives them."""
    arrays = [Guarded(kind, count) for kind, count in zip(kinds, counts)]
    return arrays, [it for each in arrays for it in (each.at, each.count)]


class Hostile(unittest.TestCase):
    def setUp(self) -> None:
        # (these calls are judged by the library alone)
        self.library: Any = library()
        self.desk, self.batch = Desk(library(), 32), Batch(library())
        for it in ((b"k", b"a", b"b", 1, 5), (b"k", b"a", b"c", 2, 6), (b"m", b"b", b"c", 3, 7)):
            self.batch.insert(*it)
        self.desk.apply(self.batch)
        self.batch.insert(b"k", b"a", b"d", 4, 8)
        self.held = self.desk.hold()
        self.before = self.read()

    def tearDown(self) -> None:
        self.assertEqual(self.read(), self.before)
        for it in (self.held, self.batch, self.desk):
            it.free()

    def read(self) -> Tuple[object, ...]:
        last = self.desk.hold()
        told = whole(self.held), whole(last), fields(self.desk.stat()), len(self.batch)
        self.desk.release(last)
        return told

    def refuses(self, wanted: Code, code: int) -> None:
        self.assertEqual(Code(code), wanted)

    def test_handles_that_hold_nothing(self) -> None:
        it, desk, batch, none = self.library, interface.Desk(), interface.Batch(), interface.Version()
        held, counts, number, name, one = self.held.handle, interface.Counts(), c_uint64(), (b"k", 1), column("Q", 9)
        where, few, hold, diff = at(one), c_uint32(), interface.Hold(), interface.Diff()
        table, into = given([*name, where, 1, *name, where, 1, *[where, 1] * 6]), written_to([where, 1] * 6)
        edge = (*name, *name, *name)
        codes = [
            it.batch_length(batch, number), it.batch_insert(batch, *edge, 1, 1), it.batch_add(batch, *edge, 1, 1),
            it.batch_remove(batch, *edge), it.batch_expire(batch, 1), it.batch_columns(batch, table, 1, number),
            it.batch_records(batch, where, 1, number), it.desk_apply(desk, self.batch.handle, counts),
            it.desk_apply(self.desk.handle, batch, counts), it.desk_apply(desk, batch, counts),
            it.desk_begin(desk, self.batch.handle), it.desk_begin(self.desk.handle, batch), it.desk_begin(desk, batch),
            it.desk_finish(desk, counts), it.desk_finish(self.desk.handle, counts), it.desk_cancel(desk),
            it.desk_cancel(self.desk.handle), it.desk_collect(desk, number), it.desk_stat(desk, interface.Stat()),
            it.desk_limits(desk, limits(1, 1, 1)), it.desk_open_columns(desk, table, number),
            it.desk_insert_columns(desk, *name, *name, *[where, 1] * 5, counts, number),
            it.desk_hold(desk, none, hold), it.desk_release(desk, hold), it.desk_diff(desk, hold, hold, diff),
            it.desk_rebase(desk), it.diff_edges(diff, view(), few, diff_columns([one] * 10, 1), number),
            it.version_clone(none, interface.Version()), it.version_size(none, interface.Size()),
            it.version_vertex(none, *name, few), it.version_kind(none, *name, few),
            it.version_names(none, 0, where, 1, where, 1), it.version_kind_names(none, 0, where, 1, where, 1),
            it.version_edge(none, 0, 0, 0, interface.Edge()), it.version_path(none, view(), 0, 0, where, 1, number),
            it.version_degrees(none, view(), *[where, 1] * 3), it.version_levels(none, view(), 0, where, 1),
            it.version_labels(none, view(), where, 1), it.version_cores(none, view(), where, 1), it.version_index(none),
            it.version_within(none, view(), 2, where, 1, 1, *[where, 1] * 2, number),
            it.version_row(none, view(), 0, into, number), it.version_edges(none, view(), few, into, number),
            it.version_in_edges(none, view(), 0, into, number), it.version_weights_in(none, view(), where, 1),
            it.version_names_like(none, *name, few, where, 1, number),
        ]
        told = [desk.at, batch.at, none.at, diff.at, number.value, few.value, *one, *fields(counts)]
        self.assertEqual((codes, told), ([Code.NO_HANDLE] * len(codes), [None] * 4 + [0] * 18))
        it.batch_free(batch), it.desk_free(desk), it.version_free(none), it.diff_free(diff)
        # A handle that is to be made holds something already, and holds it still.
        copy = self.held.clone()
        kept = [self.batch.handle.at, self.desk.handle.at, held.at, copy.handle.at]
        codes = [it.batch_new(self.batch.handle), it.desk_new(9, 16, self.desk.handle),
                 it.desk_new_within(9, limits(3, 2, 2), 16, self.desk.handle),
                 it.desk_hold(self.desk.handle, held, interface.Hold()), it.version_clone(held, copy.handle)]
        self.assertEqual(codes, [Code.HELD_ALREADY] * len(codes))
        self.assertEqual([self.batch.handle.at, self.desk.handle.at, held.at, copy.handle.at], kept)
        copy.free()

    def test_no_function_is_forgotten(self) -> None:
        text = inspect.getsource(Hostile.test_handles_that_hold_nothing)
        self.assertEqual({name for name in interface.FUNCTIONS if f"it.{name}(" not in text},
                         {"interface", "library_version", "code_text"})

    def test_numbers_of_blocks(self) -> None:
        for blocks in (0, 15, 65_537, (1 << 32) - 1):
            desk = interface.Desk()
            self.refuses(Code.BAD_BLOCKS, self.library.desk_new(9, blocks, desk))
            self.assertIsNone(desk.at)
        for blocks in (16, 65_536):
            Desk(library(), blocks).free()

    def test_limits_past_their_walls(self) -> None:
        desk, most = interface.Desk(), (1 << 32) - 1
        for own in ((1 << 26, 1, 1), (most, 1, 1), (1, 65, 1), (1, most, 1), (131_073, 64, 1), (8_388_607, 1, 1),
                       (1 << 25, 1 << 7, 1), (most, most, most), (0, 1, 1), (1, 0, 1), (1, 1, 0), (0, 0, 0), (most >> 6, 0, 1)):
            for blocks in (0, 16):
                self.refuses(Code.BAD_LIMITS, self.library.desk_new_within(9, limits(*own), blocks, desk))
        for blocks in (0, 15, 4_293_918_720, most):
            self.refuses(Code.BAD_BLOCKS, self.library.desk_new_within(9, limits(1, 1, 1), blocks, desk))
        self.assertIsNone(desk.at)
        for own in ((8_388_606, 1, most), (131_071, 64, 1), (1, 1, 1)):
            opened = Desk(library(), 65_537, own)
            self.assertEqual(opened.limits(), (*own, 1 << 40))
            opened.free()

    def test_limits_of_weights(self) -> None:
        """What a sum of weights has room for: one for each vertex of each kind, and one more."""
        desk, most = interface.Desk(), 1 << 40
        for own, weight in (((1, 1, 1), most + 1), ((8_388_607, 1, 1), most), ((67_108_863, 1, 1), 1 << 37),
                               ((67_108_863, 64, 1), 2_147_483_680), ((67_108_864, 1, 1), 1), ((1, 65, 1), 1), ((1, 1, 1), 0),
                               ((0, 1, 1), 1), ((1, 0, 1), 1), ((1, 1, 0), 1)):
            self.refuses(Code.BAD_LIMITS, self.library.desk_new_within(9, limits(*own, weight), 16, desk))
        self.refuses(Code.BAD_BLOCKS, self.library.desk_new_within(9, limits(1, 1, 1, 1), 15, desk))
        self.assertIsNone(desk.at)
        for own, weight in (((1, 1, 1), 1), ((8_388_606, 1, 1), most), ((67_108_863, 1, 1), (1 << 37) - 1),
                               ((67_108_863, 64, 1), 2_147_483_679)):
            opened = Desk(library(), 16, own, weight)
            self.assertEqual(opened.limits(), (*own, weight))
            opened.free()

    def test_a_small_limit_of_weights(self) -> None:
        """A weight, an amount or a sum past it changes nothing but that its names are there."""
        desk, batch = Desk(library(), 16, (9, 2, 9), 10), Batch(library())
        for insert, target, weight in ((True, b"b", 10), (True, b"c", 11), (True, b"b", -11), (False, b"b", 1),
                                       (False, b"b", -20), (False, b"d", -11), (False, b"b", -3), (True, b"d", -10)):
            (batch.insert if insert else batch.add)(b"k", b"a", target, weight, 1)
        counts = desk.apply(batch)
        self.assertEqual((counts.inserted, counts.updated, counts.overflowed), (2, 1, 5))
        held = desk.hold()
        self.assertEqual(held.names(), [b"a", b"b", b"c", b"d"])
        for it in (held, batch, desk):
            it.free()

    def test_texts_that_are_no_names(self) -> None:
        for bad in NO_NAMES:
            for place in range(3):
                names = [b"k", b"a", b"b"]
                names[place] = bad
                told = [it for name in names for it in (name, len(name))]
                self.refuses(Code.BAD_NAME, self.library.batch_insert(self.batch.handle, *told, 1, 1))
                self.refuses(Code.BAD_NAME, self.library.batch_add(self.batch.handle, *told, 1, 1))
                self.refuses(Code.BAD_NAME, self.library.batch_remove(self.batch.handle, *told))
            number = c_uint32(77)
            self.refuses(Code.NO_VERTEX, self.library.version_vertex(self.held.handle, bad, len(bad), number))
            self.refuses(Code.NO_KIND, self.library.version_kind(self.held.handle, bad, len(bad), number))
            code, done, _ = self.desk.insert_columns(b"k", [b"a", bad], [(0, 1, 1, 1)])
            self.assertEqual((code, done), (Code.BAD_NAME, 0))
            self.assertEqual(self.desk.insert_columns(bad, [b"a", b"b"], [(0, 1, 1, 1)])[:2], (Code.BAD_NAME, 0))
        star = (b"*", 1, b"a", 1, b"b", 1)
        self.refuses(Code.BAD_NAME, self.library.batch_insert(self.batch.handle, *star, 1, 1))
        self.refuses(Code.BAD_NAME, self.library.batch_add(self.batch.handle, *star, 1, 1))
        self.refuses(Code.BAD_NAME, self.library.batch_remove(self.batch.handle, *star))
        self.assertEqual(self.desk.insert_columns(b"*", [b"a", b"b"], [(0, 1, 1, 1)])[:2], (Code.BAD_NAME, 0))

    def test_weights_and_times(self) -> None:
        edge = (b"k", 1, b"a", 1, b"b", 1)
        for weight in ((1 << 40) + 1, -(1 << 40) - 1, (1 << 63) - 1, -(1 << 63)):
            for call in (self.library.batch_insert, self.library.batch_add):
                self.refuses(Code.BAD_WEIGHT, call(self.batch.handle, *edge, weight, 1 << 63))
            self.assertEqual(self.desk.insert_columns(b"k", [b"a", b"b"], [(0, 1, weight, 0)])[:2], (Code.BAD_WEIGHT, 0))
        for time in (1 << 63, FULL):
            for call in (self.library.batch_insert, self.library.batch_add):
                self.refuses(Code.BAD_TIME, call(self.batch.handle, *edge, 1, time))
            self.refuses(Code.BAD_TIME, self.library.batch_expire(self.batch.handle, time))
            self.assertEqual(self.desk.insert_columns(b"k", [b"a", b"b"], [(0, 1, 0, time)])[:2], (Code.BAD_TIME, 0))

    def columns(self, text: bytes, ends: List[int], sources: List[int], targets: List[int], weights: List[int],
                times: List[int]) -> Tuple[Code, int]:
        told = [array.array(kind, it) for kind, it in zip("QIIqQ", (ends, sources, targets, weights, times))]
        counts, done, none = interface.Counts(), c_uint64(99), column("Q", 0)
        words = [it for each in told for it in (at(each if each else none), len(each))]
        code = self.library.desk_insert_columns(self.desk.handle, b"k", 1, text, len(text), *words, counts, done)
        return Code(code), done.value

    def test_columns_that_differ_and_numbers_past_a_dictionary(self) -> None:
        names, pair = (b"ab", [1, 2]), ([0], [1], [1], [1])
        for place in range(4):
            for other in (range(0), range(2)):
                columns: List[List[int]] = [*pair]
                columns[place] = [*other]
                self.assertEqual(self.columns(*names, *columns), (Code.BAD_LENGTH, 0))
        for source, target in ((2, 0), (0, 2), ((1 << 32) - 1, 0), (0, (1 << 32) - 1)):
            self.assertEqual(self.columns(*names, [source], [target], [1], [1]), (Code.BAD_NUMBER, 0))
        self.assertEqual(self.columns(b"", [], *pair), (Code.BAD_NUMBER, 0))
        self.assertEqual(self.columns(*names, [], [], [], []), (Code.OK, 0))

    def test_ends_that_fall_or_leave_the_text(self) -> None:
        for ends in ([2, 1], [1, 3], [3, 3], [FULL, FULL], [1, FULL], [FULL, 1], [1 << 63, (1 << 63) + 1]):
            self.assertEqual(self.columns(b"ab", ends, [0], [1], [1], [1]), (Code.BAD_NUMBER, 0))
            self.assertEqual(self.columns(b"ab", ends, [1], [0], [1], [1]), (Code.BAD_NUMBER, 0))

    def test_what_is_asked_of_no_kind_or_vertex(self) -> None:
        it, held, out = self.library, self.held.handle, interface.Edge()
        for kind in (2, 64, 255, 256, 1 << 31, ANY_KIND - 1):
            seen, room = interface.View(*EVER, kind), at(column("Q", 9))
            self.refuses(Code.NO_KIND, it.version_degrees(held, seen, *[room, 3] * 3))
            self.refuses(Code.NO_KIND, it.version_levels(held, seen, 9, room, 0))
            self.refuses(Code.NO_KIND, it.version_labels(held, seen, room, 3))
            self.refuses(Code.NO_KIND, it.version_cores(held, seen, room, 3))
            self.refuses(Code.NO_KIND, it.version_row(held, seen, 9, written_to([room, 1] * 6), c_uint64()))
            self.refuses(Code.NO_KIND, it.version_in_edges(held, seen, 9, written_to([room, 1] * 6), c_uint64()))
            self.refuses(Code.NO_KIND, it.version_weights_in(held, seen, room, 3))
            self.refuses(Code.NO_KIND, it.version_edges(held, seen, c_uint32(), written_to([room, 1] * 6), c_uint64()))
            self.refuses(Code.NO_KIND, it.version_edge(held, kind, 0, 1, out))
        self.refuses(Code.NO_KIND, it.version_edge(held, ANY_KIND, 0, 1, out))
        for vertex in (3, 65_535, 65_536, (1 << 32) - 1):
            self.refuses(Code.NO_VERTEX, it.version_edge(held, 0, vertex, 0, out))
            self.refuses(Code.NO_VERTEX, it.version_edge(held, 0, 0, vertex, out))
            self.refuses(Code.NO_VERTEX, it.version_levels(held, view(), vertex, at(column("I", 3)), 3))
            into = written_to([at(column("Q", 1)), 1] * 6)
            for call in (it.version_row, it.version_in_edges):
                self.refuses(Code.NO_VERTEX, call(held, view(), vertex, into, c_uint64()))
        self.refuses(Code.NO_EDGE, it.version_edge(held, 1, 0, 1, out))

    def test_windows_that_end_before_they_begin(self) -> None:
        seen = view(None, (7, 6))
        self.assertEqual(self.held.degrees(seen), [(0, 0, 0)] * 3)
        self.assertEqual((self.held.levels(seen, 1), self.held.labels(seen), self.held.cores(seen)), ({1: 0}, [0, 1, 2], [0] * 3))
        self.assertEqual((self.held.row(seen, 0), self.held.in_edges(seen, 2), self.held.edges(seen, 1)), ([], [], []))
        self.assertEqual(self.held.weights_in(seen), [0, 0, 0])

    def test_tables_that_are_too_short(self) -> None:
        it, held = self.library, self.held.handle
        for short in (0, 2):
            for place in range(3):
                counts = [3, 3, 3]
                counts[place] = short
                arrays, words = table("IIq", counts)
                self.refuses(Code.BAD_LENGTH, it.version_degrees(held, view(), *words))
                self.assertTrue(all(it.is_left_alone() for it in arrays))
            for call in (it.version_labels, it.version_cores):
                arrays, words = table("I", [short])
                self.refuses(Code.BAD_LENGTH, call(held, view(), *words))
                self.assertTrue(arrays[0].is_left_alone())
            arrays, words = table("I", [short])
            self.refuses(Code.BAD_LENGTH, it.version_levels(held, view(), 0, *words))
            self.assertTrue(arrays[0].is_left_alone())
        for other in (0, 2, 4):
            arrays, words = table("q", [other])
            self.refuses(Code.BAD_LENGTH, it.version_weights_in(held, view(), *words))
            self.assertEqual(set(arrays[0].bytes), {GUARD})

    def test_columns_of_edges_that_are_too_short(self) -> None:
        it, held, count = self.library, self.held.handle, c_uint64()
        for room in (0, 1):
            for call, vertex in ((it.version_row, 0), (it.version_in_edges, 2)):
                arrays, words = table("IIIqQQ", [room] * 6)
                self.refuses(Code.BAD_LENGTH, call(held, view(), vertex, written_to(words), count))
                self.assertEqual(count.value, 2)
                self.assertTrue(all(set(it.bytes) == {GUARD} for it in arrays))
            arrays, words = table("IIIqQQ", [room] * 6)
            source = c_uint32()
            self.refuses(Code.BAD_LENGTH, it.version_edges(held, view(), source, written_to(words), count))
            self.assertEqual((count.value, source.value), (2, 0))
            self.assertTrue(all(it.is_left_alone() for it in arrays))
        # (a row has no sources, and edges that come in no targets)
        for call, before, own in ((it.version_row, 0, 1), (it.version_in_edges, 2, 2), (it.version_edges, c_uint32(), None)):
            for place in range(6):
                for other in (2, 4):
                    counts = [3] * 6
                    counts[place] = other
                    arrays, words = table("IIIqQQ", counts)
                    wanted = Code.OK if place == own else Code.BAD_LENGTH
                    self.refuses(wanted, call(held, view(), before, written_to(words), count))
                    self.assertTrue(all(it.is_left_alone() for it in arrays))

    def test_edges_are_written_by_whole_rows(self) -> None:
        it, held, count, source = self.library, self.held.handle, c_uint64(), c_uint32()
        arrays, words = table("IIIqQQ", [2] * 6)
        told = []
        for _ in range(3):
            self.refuses(Code.OK, it.version_edges(held, view(), source, written_to(words), count))
            told.append((count.value, source.value))
        self.assertEqual(told, [(2, 1), (1, 3), (0, 3)])
        source.value = 4_000_000_000
        self.refuses(Code.OK, it.version_edges(held, view(), source, written_to(words), count))
        self.assertEqual((count.value, source.value), (0, 4_000_000_000))
        self.assertTrue(all(it.is_left_alone() for it in arrays))

    def test_names_past_the_last_and_texts_that_are_too_short(self) -> None:
        calls: Dict[Code, Tuple[Any, int]] = {Code.NO_VERTEX: (self.library.version_names, 3),
                                              Code.NO_KIND: (self.library.version_kind_names, 2)}
        for missing, (call, count) in calls.items():
            for first, places in ((0, count + 1), (1, count), (count, 1), (count + 1, 0), ((1 << 32) - 1, 0), ((1 << 32) - 1, 1)):
                arrays, words = table("BQ", [9, places])
                self.refuses(missing, call(self.held.handle, first, *words))
                self.assertTrue(all(it.is_left_alone() for it in arrays))
            for room in range(count):
                arrays, words = table("BQ", [room, count])
                self.refuses(Code.BAD_LENGTH, call(self.held.handle, 0, *words))
                self.assertTrue(all(it.is_left_alone() for it in arrays))
            arrays, words = table("BQ", [0, 0])
            self.refuses(Code.OK, call(self.held.handle, count, *words))

    def test_holds_that_nobody_has(self) -> None:
        hold = self.held.hold
        assert hold is not None
        for opening, number in ((0, 0), (0, 2), (0, FULL), (1, 1), (FULL, 1)):
            other = interface.Hold(hold.desk, opening, number)
            self.refuses(Code.NO_SEAT, self.library.desk_release(self.desk.handle, other))
        for desk in (0, hold.desk ^ 1, hold.desk ^ 1 << 63, FULL - hold.desk):
            other = interface.Hold(desk, hold.opening, hold.number)
            self.refuses(Code.NO_SEAT, self.library.desk_release(self.desk.handle, other))

    def test_holds_of_other_desks(self) -> None:
        """A hold is its own desk's alone: of one that is open, one that began anew, one that ended, where another lies now."""
        replaced, others = (b"k", b"a", b"b", 9, 9), [Desk(library(), 32) for _ in range(3)]
        for it in others:
            self.batch.free()
            self.batch = Batch(library())
            self.batch.insert(*replaced)
            it.apply(self.batch)
        held = [it.hold() for it in others]
        others[1].rebase()
        others[2].free()
        mine = Desk(library(), 32)
        for weight in (1, 2):
            self.batch.insert(b"k", b"a", b"b", weight, 9)
            if weight == 2:
                kept = mine.hold()
            mine.apply(self.batch)
        for version in held:
            assert version.hold is not None and kept.hold is not None
            self.assertEqual(fields(version.hold)[1:], fields(kept.hold)[1:])
            self.refuses(Code.NO_SEAT, self.library.desk_release(mine.handle, version.hold))
        self.assertEqual(mine.collect(), 0)
        self.refuses(Code.OK, self.library.desk_release(others[0].handle, held[0].hold))
        self.refuses(Code.OK, self.library.desk_release(others[1].handle, held[1].hold))
        mine.release(kept)
        self.assertEqual(mine.collect(), 1)
        self.batch.insert(b"k", b"a", b"d", 4, 8)
        for owner in (*held, mine, *others[:2]):
            owner.free()


if __name__ == "__main__":
    unittest.main()
