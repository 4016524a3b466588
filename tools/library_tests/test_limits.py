"""Desks under limits of their own: tiny ones, each of which refuses what is past it and leaves all as it was, and large ones."""
import random
import unittest
from typing import Callable, List, Tuple

from calls import Batch, Code, Desk, Operation, Refused, Version, fields, interface, view, whole
from places import library

INSERT, ADD, REMOVE = interface.INSERT, interface.ADD, interface.REMOVE
# Three names, two kinds and two batches.
TINY = (3, 2, 2)


class Limits(unittest.TestCase):
    def open(self, blocks: int, limits: Tuple[int, int, int], weight: int = 1 << 40) -> Desk:
        desk, self.batch = Desk(library(), blocks, limits, weight), Batch(library())
        self.addCleanup(desk.free)
        self.addCleanup(self.batch.free)
        return desk

    def hold(self, desk: Desk) -> Version:
        version = desk.hold()
        self.addCleanup(version.free)
        return version

    def refuse(self, desk: Desk, code: Code, call: Callable[[], object]) -> None:
        """A call that is refused with a code, and leaves the desk and the batch."""
        length, before, version = len(self.batch), fields(desk.stat()), desk.hold()
        with self.assertRaises(Refused) as caught:
            call()
        self.assertEqual(caught.exception.code, code)
        after = desk.hold()
        self.assertEqual((len(self.batch), fields(desk.stat()), whole(after)), (length, before, whole(version)))
        desk.release(after)
        desk.release(version)

    def test_a_fourth_name_a_third_kind_and_a_third_batch(self) -> None:
        desk = self.open(16, TINY)
        self.assertEqual(desk.limits(), (*TINY, 1 << 40))
        self.batch.insert(b"k", b"a", b"b", 1, 1)
        self.batch.insert(b"m", b"b", b"c", 2, 2)
        self.assertEqual(fields(desk.apply(self.batch)), (1, 2, 0, 0, 0, 0, 0))
        self.batch.insert(b"k", b"a", b"d", 3, 3)
        self.refuse(desk, Code.NAMES_FULL, lambda: desk.apply(self.batch))
        self.batch.free()
        self.batch = Batch(library())
        self.batch.insert(b"n", b"a", b"b", 3, 3)
        self.refuse(desk, Code.KINDS_FULL, lambda: desk.apply(self.batch))
        # A fourth name comes before a third kind; a removal makes no name.
        self.batch.insert(b"n", b"a", b"d", 3, 3)
        self.refuse(desk, Code.NAMES_FULL, lambda: desk.apply(self.batch))
        self.batch.free()
        self.batch = Batch(library())
        self.batch.remove(b"n", b"d", b"e")
        self.batch.insert(b"m", b"c", b"a", 4, 4)
        self.assertEqual(fields(desk.apply(self.batch)), (2, 1, 0, 0, 1, 0, 0))
        # Behind two batches even an empty one is refused, until the desk begins anew; its limits stay.
        self.refuse(desk, Code.BATCHES_FULL, lambda: desk.apply(self.batch))
        desk.rebase()
        self.assertEqual(desk.limits(), (*TINY, 1 << 40))
        version = self.hold(desk)
        self.assertEqual((version.names(), version.kind_names()), ([b"a", b"b", b"c"], [b"k", b"m"]))
        self.assertEqual([it[:4] for it in version.edges(view(), 8)], [(0, 0, 1, 1), (1, 1, 2, 2), (1, 2, 0, 4)])
        self.batch.insert(b"k", b"a", b"d", 3, 3)
        self.refuse(desk, Code.NAMES_FULL, lambda: desk.apply(self.batch))

    def test_columns_meet_the_same_limits(self) -> None:
        desk, names = self.open(64, TINY), [b"a", b"b", b"c", b"d"]
        rows: List[Operation] = [(INSERT, 0, 0, 1, 1, 1), (INSERT, 1, 1, 2, 2, 2), (REMOVE, 2, 3, 3, 0, 0)]
        self.assertEqual(self.batch.append([b"k", b"m", b"n"], names, rows), (Code.OK, 3))
        self.assertEqual(fields(desk.apply(self.batch)), (1, 2, 0, 0, 1, 0, 0))
        code, done, counts = desk.insert_columns(b"k", names, [(0, 1, 7, 7), (0, 3, 8, 8)])
        self.assertEqual((code, done, fields(counts)), (Code.NAMES_FULL, 0, (1, 0, 0, 0, 0, 0, 0)))
        code, done, counts = desk.insert_columns(b"n", names, [(0, 1, 7, 7)])
        self.assertEqual((code, done, fields(counts)), (Code.KINDS_FULL, 0, (1, 0, 0, 0, 0, 0, 0)))
        self.assertEqual(desk.insert_columns(b"k", names, [(0, 1, 7, 7)])[:2], (Code.OK, 1))
        self.assertEqual(desk.insert_columns(b"k", names, [(0, 1, 7, 7)])[:2], (Code.BATCHES_FULL, 0))

    def test_a_limit_of_weights_stays(self) -> None:
        """What is past it overflows, by columns too, also when the desk has begun anew; names become known."""
        desk, names = self.open(64, (4, 2, 9), 10), [b"a", b"b", b"c", b"d"]
        code, done, counts = desk.insert_columns(b"k", names, [(0, 1, 10, 1), (0, 2, 11, 2), (1, 2, -10, 3)])
        self.assertEqual((code, done, fields(counts)), (Code.OK, 3, (1, 2, 0, 0, 0, 1, 0)))
        past: List[Operation] = [(ADD, 0, 0, 1, 1, 4), (ADD, 0, 1, 2, -1, 4), (INSERT, 0, 3, 3, -11, 4)]
        for number in (2, 1):
            self.assertEqual(self.batch.append([b"k"], names, past), (Code.OK, 3))
            self.assertEqual(fields(desk.apply(self.batch)), (number, 0, 0, 0, 0, 3, 0))
            desk.rebase()
            self.assertEqual(desk.limits(), (4, 2, 9, 10))
        version = self.hold(desk)
        self.assertEqual(version.names(), names)
        self.assertEqual([it[:4] for it in version.edges(view(), 8)], [(0, 0, 1, 10), (0, 1, 2, -10)])

    def test_one_of_each_is_allowed(self) -> None:
        desk = self.open(16, (1, 1, 1), 1)
        self.batch.insert(b"k", b"a", b"b", 1, 1)
        self.refuse(desk, Code.NAMES_FULL, lambda: desk.apply(self.batch))
        self.batch.free()
        self.batch = Batch(library())
        self.batch.insert(b"k", b"a", b"a", 1, 1)
        self.batch.insert(b"m", b"a", b"a", 1, 1)
        self.refuse(desk, Code.KINDS_FULL, lambda: desk.apply(self.batch))
        self.batch.free()
        self.batch = Batch(library())
        self.batch.insert(b"k", b"a", b"a", 1, 1)
        self.batch.insert(b"k", b"a", b"a", 2, 1)
        self.assertEqual(fields(desk.apply(self.batch)), (1, 1, 0, 0, 0, 1, 0))
        self.refuse(desk, Code.BATCHES_FULL, lambda: desk.apply(self.batch))

    def test_the_standard_limits_are_those_of_no_limits(self) -> None:
        self.assertEqual(Desk(library(), 16).limits(), (65_536, 64, 65_536, 1 << 40))
        told: List[object] = []
        for desk in (Desk(library(), 4096), Desk(library(), 4096, (65_536, 64, 65_536))):
            chance = random.Random(7)
            batch = Batch(library())
            for _ in range(40):
                for _ in range(50):
                    ends = (b"k%d" % chance.randrange(66), b"n%d" % chance.randrange(30), b"n%d" % chance.randrange(30))
                    chance.choice([batch.insert, batch.add])(*ends, chance.randrange(99), chance.randrange(99))
                try:
                    told.append(fields(desk.apply(batch)))
                except Refused as refused:
                    told.append((refused.code,))
                    batch.free()
                    batch = Batch(library())
                desk.collect()
            version = desk.hold()
            told.append((fields(desk.stat()), whole(version)))
            for it in (version, batch, desk):
                it.free()
        self.assertEqual(told[:len(told) // 2], told[len(told) // 2:])

    def test_past_the_standard_limits(self) -> None:
        """100,000 names in 110,000 blocks: each name but the last has an edge to the next one."""
        count = 100_000
        desk, names = self.open(110_000, (count, 2, 100)), [b"n%d" % it for it in range(count)]
        rows = [(it, it + 1, it, it) for it in range(count - 1)]
        code, done, counts = desk.insert_columns(b"k", names, rows)
        self.assertEqual((code, done, counts.inserted, counts.version), (Code.OK, count - 1, count - 1, 2))
        version = self.hold(desk)
        self.assertEqual((version.size.vertices, version.size.edges), (count, count - 1))
        self.assertEqual(version.vertex(b"n99999"), count - 1)
        self.assertEqual(version.edge(0, 70_000, 70_001), (70_000, 70_000, 70_000))
        self.assertEqual(version.levels(view(), 65_530)[count - 1], count - 1 - 65_530)
        self.batch.insert(b"k", b"n0", b"another", 1, 1)
        self.refuse(desk, Code.NAMES_FULL, lambda: desk.apply(self.batch))


if __name__ == "__main__":
    unittest.main()
