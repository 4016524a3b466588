"""Operations in columns: what they leave, where they stop, and which place they tell where one is refused."""
import random
import unittest
from collections import Counter
from typing import List, Set, Tuple

from calls import Batch, Code, Desk, Operation, Refused, Version, fields, interface, view, whole
from places import library

INSERT, ADD, REMOVE, EXPIRE = interface.INSERT, interface.ADD, interface.REMOVE, interface.EXPIRE
KINDS, NAMES = [b"knows", b"likes"], [b"ann", b"bob", b"cat"]
# ann knows bob (5, at 10); bob likes cat (2, at 11); one more for ann and bob at 20; bob and cat part; what is before 20 goes.
MIXED: List[Operation] = [(INSERT, 0, 0, 1, 5, 10), (ADD, 1, 1, 2, 2, 11), (ADD, 0, 0, 1, 1, 20), (REMOVE, 1, 1, 2, 0, 0),
                          (INSERT, 0, 2, 0, 3, 12), (EXPIRE, 0, 0, 0, 0, 20)]


class Columns(unittest.TestCase):
    def setUp(self) -> None:
        self.desk, self.batch = Desk(library(), 8192), Batch(library())
        self.addCleanup(self.desk.free)
        self.addCleanup(self.batch.free)

    def hold(self) -> Version:
        version = self.desk.hold()
        self.addCleanup(version.free)
        return version

    def test_each_sort(self) -> None:
        self.assertEqual(self.batch.append(KINDS, NAMES, MIXED), (Code.OK, 6))
        self.assertEqual(len(self.batch), 6)
        # version, inserted, updated, removed, absent, overflowed, expired
        self.assertEqual(fields(self.desk.apply(self.batch)), (1, 3, 1, 1, 0, 0, 1))
        version = self.hold()
        self.assertEqual((version.kind_names(), version.names()), (KINDS, NAMES))
        self.assertEqual(version.edges(view(), 4), [(0, 0, 1, 6, 10, 20)])

    def test_what_a_sort_has_not_is_not_looked_at(self) -> None:
        far, never = 1 << 62, (1 << 64) - 1
        told: List[Operation] = [(REMOVE, 0, 0, 1, far, never), (EXPIRE, 9, 9, 9, far, 7)]
        self.assertEqual(self.batch.append([b"k", b"*"], [b"a", b"b", b""], told), (Code.OK, 2))
        self.assertEqual(fields(self.desk.apply(self.batch)), (1, 0, 0, 0, 1, 0, 0))

    def test_a_batch_takes_4096(self) -> None:
        rows: List[Operation] = [(INSERT, 0, it % 3, it % 2, it, it) for it in range(5000)]
        self.batch.insert(b"k", b"a", b"b", 1, 1)
        self.assertEqual(self.batch.append(KINDS, NAMES, rows), (Code.OK, 4095))
        self.assertEqual(len(self.batch), 4096)
        self.assertEqual(self.batch.append(KINDS, NAMES, rows, 4095), (Code.OK, 4095))
        self.desk.apply(self.batch)
        self.assertEqual(self.batch.append(KINDS, NAMES, rows, 4095), (Code.OK, 5000))
        self.assertEqual(len(self.batch), 905)
        self.assertEqual(self.batch.append(KINDS, NAMES, rows, 5000), (Code.OK, 5000))
        self.assertEqual(self.batch.append(KINDS, NAMES, rows, 5001), (Code.OK, 5001))
        self.assertEqual(self.batch.append(KINDS, NAMES, rows, (1 << 64) - 1), (Code.OK, (1 << 64) - 1))
        self.assertEqual(len(self.batch), 905)

    def test_a_refused_operation_leaves_the_batch(self) -> None:
        fine, self.refused = MIXED[:2], 0
        cases: List[Tuple[Operation, Code]] = [
            ((INSERT, 2, 0, 1, 1, 1), Code.BAD_NUMBER), ((ADD, 0, 4, 1, 1, 1), Code.BAD_NUMBER),
            ((REMOVE, 0, 0, 4, 1, 1), Code.BAD_NUMBER), ((4, 0, 0, 1, 1, 1), Code.BAD_NUMBER),
            ((255, 0, 0, 1, 1, 1), Code.BAD_NUMBER), ((INSERT, 0, 3, 1, 1, 1), Code.BAD_NAME),
            ((REMOVE, 0, 0, 3, 1, 1), Code.BAD_NAME), ((INSERT, 0, 0, 1, (1 << 40) + 1, 1), Code.BAD_WEIGHT),
            ((ADD, 0, 0, 1, -(1 << 40) - 1, 1), Code.BAD_WEIGHT), ((INSERT, 0, 0, 1, 1, 1 << 63), Code.BAD_TIME),
            ((EXPIRE, 0, 0, 0, 0, 1 << 63), Code.BAD_TIME)]
        self.batch.insert(b"k", b"a", b"b", 1, 1)
        for operation, code in cases:
            with self.subTest(operation=operation):
                self.assertEqual(self.batch.append(KINDS, NAMES + [b"a b"], [*fine, operation, *fine]), (code, 2))
                self.assertEqual(len(self.batch), 1)
        self.assertEqual(fields(self.desk.apply(self.batch)), (1, 1, 0, 0, 0, 0, 0))

    def test_a_limit_of_its_own(self) -> None:
        rows: List[Operation] = [(INSERT, 0, it % 3, it % 2, it, it) for it in range(5000)]
        for limit in (1, 3, 4095, 4097):
            with self.subTest(limit=limit):
                batch = Batch(library())
                self.assertEqual(batch.append(KINDS, NAMES, rows, 0, limit), (Code.OK, limit))
                self.assertEqual(batch.append(KINDS, NAMES, rows, limit, limit), (Code.OK, limit))
                self.assertEqual(batch.append(KINDS, NAMES, rows, limit, 1), (Code.OK, limit))
                self.assertEqual(batch.append(KINDS, NAMES, rows, limit, limit + 1), (Code.OK, limit + 1))
                self.assertEqual(len(batch), limit + 1)
                # (a call with a smaller limit appends nothing past it, and those of one operation refuse it)
                self.assertEqual(batch.append(KINDS, NAMES, rows, 0), (Code.OK, max(4096 - limit - 1, 0)))
                self.assertEqual(len(batch), max(4096, limit + 1))
                with self.assertRaises(Refused) as caught:
                    batch.insert(b"k", b"a", b"b", 1, 1)
                self.assertEqual(caught.exception.code, Code.BATCH_FULL)
                batch.free()

    def test_limits_that_are_none(self) -> None:
        rows: List[Operation] = [(INSERT, 0, 0, 1, 1, 1)]
        self.batch.insert(b"k", b"a", b"b", 1, 1)
        for limit in (0, (1 << 20) + 1, (1 << 32) - 1):
            self.assertEqual(self.batch.append(KINDS, NAMES, rows, 0, limit), (Code.BAD_LIMITS, 0))
            self.assertEqual(self.batch.append(KINDS, NAMES, [(4, 9, 9, 9, 1, 1)], 0, limit), (Code.BAD_LIMITS, 0))
        self.assertEqual(len(self.batch), 1)

    def test_the_largest_batch(self) -> None:
        most = 1 << 20
        self.assertEqual(most, interface.MOST_OPERATIONS)
        rows: List[Operation] = [(ADD, 0, 0, 1, 1, 1)] * (most + 1)
        self.assertEqual(self.batch.append(KINDS, NAMES, rows, 0, most), (Code.OK, most))
        self.assertEqual(self.batch.append(KINDS, NAMES, rows, most, most), (Code.OK, most))
        self.assertEqual(len(self.batch), most)
        with self.assertRaises(Refused) as caught:
            self.batch.remove(b"k", b"a", b"b")
        self.assertEqual(caught.exception.code, Code.BATCH_FULL)
        self.desk.free()
        self.desk = Desk(library(), most, (2, 1, 1))
        self.assertEqual(fields(self.desk.apply(self.batch)), (1, 1, most - 1, 0, 0, 0, 0))
        self.assertEqual(self.hold().edges(view(), 4), [(0, 0, 1, most, 1, 1)])

    def test_a_large_batch_leaves_what_small_ones_leave(self) -> None:
        made, count = random.Random(7), 65_536
        names = [b"n%d" % it for it in range(1_000)]
        sorts = made.choices((INSERT, ADD, REMOVE, EXPIRE), (600, 250, 149, 1), k=count)
        rows: List[Operation] = [
            (sort, made.randrange(2), made.randrange(1_000), made.randrange(1_000), made.randrange(-9, 9), max(it - 9_000, 0))
            if sort == EXPIRE else
            (sort, made.randrange(2), made.randrange(1_000), made.randrange(1_000), made.randrange(-9, 9), it)
            for it, sort in enumerate(sorts)]
        found = []
        for size in (65_536, 4_096):
            desk, batch, sums = Desk(library(), 262_144, (1_000, 2, 100)), Batch(library()), [0] * 6
            for start in range(0, count, size):
                part = rows[start:start + size]
                self.assertEqual(batch.append(KINDS, names, part, 0, size), (Code.OK, size))
                sums = [one + other for one, other in zip(sums, fields(desk.apply(batch))[1:])]
                desk.collect()
            version = desk.hold()
            _, names_of, kinds_of, _, *tables = whole(version)
            # (which place of its row an edge has depends on what the row's blocks held at the end of each batch)
            found.append((sums, names_of, kinds_of, sorted(version.edges(view(), 4096)), tables))
            self.assertEqual(version.size.version, count // size)
            for it in (version, batch, desk):
                it.free()
        self.assertEqual(*found)
        self.assertTrue(all(found[0][0][:4]) and found[0][0][5])

    def test_a_batch_that_was_refused_grows(self) -> None:
        self.desk.free()
        self.desk = Desk(library(), 64)
        many = [b"n%d" % it for it in range(100)]
        rows: List[Operation] = [(INSERT, 0, it, (it + 1) % 100, 1, 1) for it in range(100)]
        self.assertEqual(self.batch.append(KINDS, many, rows), (Code.OK, 100))
        with self.assertRaises(Exception):
            self.desk.apply(self.batch)
        self.assertEqual(self.batch.append(KINDS, many, rows), (Code.OK, 100))
        self.assertEqual(len(self.batch), 200)


Row = Tuple[int, int, int, int]


def draw(made: random.Random) -> Tuple[List[bytes], List[Row]]:
    """A dictionary, in which some names stand twice, some aren't used and some are no names, and insertions by places in it. A
    long one has more places than those of which so small a batch keeps the numbers."""
    names = [made.choice([b"a", b"b", b"cc", b"d4", b"ee", b"f"]) for _ in range(made.choice([made.randrange(1, 9), 500]))]
    if made.random() < 0.1:
        names[made.randrange(min(len(names), 9))] = made.choice([b"", b"no name", b"\xff", b"n" * 65])
    places = made.choices(made.sample(range(len(names)), min(len(names), 9)), k=made.randrange(2, 80))
    return names, [(one, other, made.randrange(-9, 9), made.randrange(99)) for one, other in zip(places, places[1:])]


class Insertions(unittest.TestCase):
    """Insertions of one kind in columns, beside the same ones in batches that are pushed."""

    def test_what_columns_leave_is_what_one_after_another_leave(self) -> None:
        told: Counter[Code] = Counter()
        overflowed = 0
        for seed in range(2_000):
            made = random.Random(seed)
            limits, blocks = (made.choice([3, 5, 16]), made.choice([1, 2, 3]), 100), made.choice([16, 256])
            # (an insertion of a weight past the limit overflows: its names stay)
            weight = made.choice([6, 1 << 40])
            desks = [Desk(library(), blocks, limits, weight) for _ in range(2)]
            for _ in range(made.randrange(1, 5)):
                names, rows = draw(made)
                code, counts = self.insert_in_both(desks, made.choice([b"k", b"l", b"m"]), names, rows)
                told[code] += 1
                overflowed += counts.overflowed
            versions = [desk.hold() for desk in desks]
            self.assertEqual(whole(versions[0]), whole(versions[1]), seed)
            for it in (*versions, *desks):
                it.free()
        self.assertLessEqual({Code.OK, Code.BAD_NAME, Code.NAMES_FULL, Code.KINDS_FULL, Code.BLOCKS_FULL}, set(told))
        self.assertGreater(overflowed, 100)

    def insert_in_both(self, desks: List[Desk], kind: bytes, names: List[bytes],
                       rows: List[Row]) -> Tuple[Code, interface.Counts]:
        """Inserts the rows in columns and one by one, and hands back what both were told."""
        code, done, counts = desks[0].insert_columns(kind, names, rows)
        batch = Batch(library())
        try:
            for source, target, weight, time in rows:
                batch.insert(kind, names[source], names[target], weight, time)
            alone = fields(desks[1].apply(batch))
            desks[1].collect()
        except Refused as refused:
            self.assertEqual((code, done), (refused.code, 0))
        else:
            self.assertEqual((code, done, fields(counts)), (Code.OK, len(rows), alone))
        finally:
            batch.free()
        return code, counts

    def test_names_of_a_load_that_run_out(self) -> None:
        """10,000 insertions, of which names are new in each batch, or there are too few: a batch of them all beside batches of
        4,096. The rows before the 4,096 in which a name is one too many are in."""
        ends = set()
        for seed in range(24):
            made = random.Random(seed)
            words = [b"n%d" % it for it in range(400)]
            # (each word stands at two places or more, and the last places aren't used)
            names = made.sample(words + words + made.choices(words, k=300), 1_100)
            rows = [(made.randrange(20 + it // 11), made.randrange(20 + it // 11), 1, it) for it in range(10_000)]
            limit = made.choice([100, 340, 390, 400])
            done = self.last_that_fits(names, rows, limit)
            ends.add(done)
            for blocks in (8_000, 40_000):
                with self.subTest(seed=seed, blocks=blocks):
                    self.check_load(names, rows, (limit, 1, 100), blocks, done)
        self.assertEqual(ends, {0, 4_096, 8_192, 10_000})

    def last_that_fits(self, names: List[bytes], rows: List[Row], limit: int) -> int:
        """How many rows are in whose names are no more than the limit, in parts of 4,096."""
        known: Set[bytes] = set()
        for at, (source, target, *_) in enumerate(rows):
            known |= {names[source], names[target]}
            if len(known) > limit:
                return at // 4_096 * 4_096
        return len(rows)

    def check_load(self, names: List[bytes], rows: List[Row], limits: Tuple[int, int, int], blocks: int, done: int) -> None:
        """Loads rows, of which so many are in, and compares what is there with batches of 4,096 of them."""
        desks, batch, sums = [Desk(library(), it, limits) for it in (blocks, 8_000)], Batch(library()), [0] * 6
        code, told, counts = desks[0].insert_columns(b"k", names, rows)
        self.assertEqual((code, told), (Code.OK if done == len(rows) else Code.NAMES_FULL, done))
        for start in range(0, done, 4_096):
            operations: List[Operation] = [(INSERT, 0, *row) for row in rows[start:min(start + 4_096, done)]]
            self.assertEqual(batch.append([b"k"], names, operations), (Code.OK, len(operations)))
            sums = [one + other for one, other in zip(sums, fields(desks[1].apply(batch))[1:])]
            desks[1].collect()
        self.assertEqual(list(fields(counts))[1:], sums)
        versions = [desk.hold() for desk in desks]
        # (which place of its row an edge has depends on what the row's blocks held at the end of each batch)
        one, other = ((it.names(), it.kind_names(), sorted(it.edges(view(), 4_096)), it.degrees(view())) for it in versions)
        self.assertEqual(one, other)
        for it in (*versions, batch, *desks):
            it.free()


if __name__ == "__main__":
    unittest.main()
