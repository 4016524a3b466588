"""A batch in two steps: made ready, and then accepted or given up."""
import random
import unittest
from ctypes import c_uint64
from typing import Callable, List, Optional, Tuple

from calls import Batch, Code, Desk, Refused, Version, fields, interface, limits, view, whole
from places import library

FIRST = ((b"k", b"a", b"b", 1, 5), (b"m", b"b", b"c", 2, 6))


class Phases(unittest.TestCase):
    def setUp(self) -> None:
        self.desk, self.batch = self.open(32)
        for it in FIRST:
            self.batch.insert(*it)
        self.desk.apply(self.batch)
        self.held = self.hold()
        self.batch.add(b"k", b"a", b"b", 10, 9)
        self.batch.insert(b"k", b"d", b"a", 3, 8)

    def open(self, blocks: int, own: "Optional[Tuple[int, int, int]]" = None) -> "Tuple[Desk, Batch]":
        desk, batch = Desk(library(), blocks, own), Batch(library())
        self.addCleanup(desk.free)
        self.addCleanup(batch.free)
        return desk, batch

    def hold(self) -> Version:
        version = self.desk.hold()
        self.addCleanup(version.free)
        return version

    def calls_of_the_desk(self) -> "List[Callable[[], int]]":
        it, desk, number, none = library(), self.desk.handle, c_uint64(), interface.Version()
        assert self.held.hold is not None
        hold = self.held.hold
        return [
            lambda: it.desk_apply(desk, self.batch.handle, interface.Counts()), lambda: it.desk_begin(desk, self.batch.handle),
            lambda: it.desk_collect(desk, number), lambda: it.desk_stat(desk, interface.Stat()),
            lambda: it.desk_limits(desk, limits(1, 1, 1)),
            lambda: it.desk_hold(desk, none, interface.Hold()), lambda: it.desk_release(desk, hold),
            lambda: it.desk_rebase(desk), lambda: self.desk.insert_columns(b"k", [b"a"], [(0, 0, 1, 1)])[0],
            lambda: self.desk.open_columns([b"k"], [b"a"], [(0, 0, 0, 0, 1, 1)])[0],
        ]

    def test_a_batch_that_is_finished(self) -> None:
        self.desk.begin(self.batch)
        self.assertEqual(len(self.batch), 2)
        self.assertEqual(fields(self.desk.finish()), (2, 1, 1, 0, 0, 0, 0))
        self.assertEqual(fields(self.desk.stat()), (2, 4, 2, 3, 32 - 3 - 1, 1, 3))
        self.assertEqual(self.hold().edges(view(), 8), [(0, 0, 1, 11, 5, 9), (1, 1, 2, 2, 6, 6), (0, 3, 0, 3, 8, 8)])
        self.assertEqual(self.held.edges(view(), 8), [(0, 0, 1, 1, 5, 5), (1, 1, 2, 2, 6, 6)])
        # The batch stayed in its handle, and goes in once more.
        self.assertEqual(fields(self.desk.apply(self.batch)), (3, 0, 2, 0, 0, 0, 0))
        self.assertEqual(len(self.batch), 0)

    def test_a_batch_that_is_given_up(self) -> None:
        before = fields(self.desk.stat()), whole(self.hold())
        for _ in range(3):
            self.desk.begin(self.batch)
            self.desk.cancel()
            self.assertEqual((fields(self.desk.stat()), whole(self.hold())), before)
        self.assertEqual(len(self.batch), 2)
        self.desk.release(self.held)
        self.assertEqual(fields(self.desk.apply(self.batch)), (2, 1, 1, 0, 0, 0, 0))

    def test_while_a_batch_is_ready_the_desk_takes_no_other_call(self) -> None:
        self.desk.begin(self.batch)
        at = self.desk.handle.at
        self.assertEqual([call() for call in self.calls_of_the_desk()], [Code.NO_HANDLE] * 10)
        self.assertEqual((self.desk.handle.at, whole(self.held)[0]), (at, whole(self.held)[0]))
        self.assertEqual(fields(self.desk.finish()), (2, 1, 1, 0, 0, 0, 0))
        for call in (self.desk.finish, self.desk.cancel):
            with self.assertRaises(Refused) as caught:
                call()
            self.assertEqual(caught.exception.code, Code.NO_HANDLE)
        self.assertEqual(self.desk.stat().version, 2)

    def test_what_is_appended_meanwhile_is_not_in(self) -> None:
        self.desk.begin(self.batch)
        self.batch.insert(b"k", b"e", b"f", 1, 1)
        self.assertEqual(fields(self.desk.finish()), (2, 1, 1, 0, 0, 0, 0))
        self.assertEqual((len(self.batch), self.desk.stat().edges), (3, 3))
        self.assertEqual(fields(self.desk.apply(self.batch)), (3, 1, 2, 0, 0, 0, 0))

    def test_a_hold_goes_on(self) -> None:
        self.desk.begin(self.batch)
        self.desk.finish()
        self.desk.collect()
        self.assertEqual(self.desk.stat().blocks_retired, 1)
        self.desk.release(self.held)
        self.assertEqual((self.desk.collect(), self.desk.stat().blocks_retired), (1, 0))

    def test_a_desk_that_is_ended_with_a_batch_ready(self) -> None:
        self.desk.begin(self.batch)
        self.desk.free()
        self.assertEqual(self.held.edges(view(), 8), [(0, 0, 1, 1, 5, 5), (1, 1, 2, 2, 6, 6)])

    def test_each_refusal_is_met_when_a_batch_begins(self) -> None:
        rows = {Code.NAMES_FULL: (b"k", b"c", b"d"), Code.KINDS_FULL: (b"n", b"a", b"b"), Code.BLOCKS_FULL: (b"k", b"a", b"b")}
        for code, edge in rows.items():
            with self.subTest(code=code):
                desk, batch = self.open(16, (3, 2, 3))
                for it in FIRST:
                    batch.insert(*it)
                desk.apply(batch)
                for _ in range(17 if code == Code.BLOCKS_FULL else 1):
                    batch.insert(*edge, 1, 1)
                before, length = fields(desk.stat()), len(batch)
                with self.assertRaises(Refused) as caught:
                    desk.begin(batch)
                self.assertEqual((caught.exception.code, fields(desk.stat()), len(batch)), (code, before, length))
        desk, batch = self.open(16, (3, 2, 1))
        desk.begin(batch)
        desk.finish()
        with self.assertRaises(Refused) as caught:
            desk.begin(batch)
        self.assertEqual((caught.exception.code, desk.stat().version), (Code.BATCHES_FULL, 1))

    def test_two_steps_leave_what_one_does(self) -> None:
        """Random batches: one desk applies each, another begins it, gives it up now and then, and finishes it."""
        chance = random.Random(7)
        one, two = self.open(64, (9, 2, 500))[0], self.open(64, (9, 2, 500))[0]
        refused = 0
        for _ in range(400):
            batch = Batch(library())
            for _ in range(chance.randrange(40)):
                edge = (chance.choice([b"k", b"m"]), b"%d" % chance.randrange(10), b"%d" % chance.randrange(9))
                if chance.random() < 0.3:
                    batch.remove(*edge)
                else:
                    chance.choice([batch.insert, batch.add])(*edge, chance.randrange(9), chance.randrange(99))
            told: List[object] = []
            for desk, apply in ((two, self.in_two_steps), (one, Desk.apply)):
                try:
                    told.append((fields(apply(desk, batch)), fields(desk.stat()), desk.collect()))
                except Refused as error:
                    refused += 1
                    told.append((error.code, fields(desk.stat()), desk.collect()))
            self.assertEqual(told[0], told[1])
            batch.free()
        self.assertGreater(refused, 2 * 10)
        self.assertLess(refused, 2 * 390)
        versions = one.hold(), two.hold()
        self.assertEqual(*map(whole, versions))
        for it in versions:
            it.free()

    @staticmethod
    def in_two_steps(desk: Desk, batch: Batch) -> interface.Counts:
        desk.begin(batch)
        desk.cancel()
        desk.begin(batch)
        return desk.finish()


if __name__ == "__main__":
    unittest.main()
