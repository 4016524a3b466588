"""Desks that open from columns: beside a desk to which the same operations were applied one after another, and worked rows.

    tools/test_library openings                    2,000 sets of columns, of a seed that is printed
    SCRIPTS=60 SEED=1 tools/test_library openings
"""
import os
import random
import unittest
from typing import Dict, List, Sequence, Tuple

from calls import Batch, Code, Desk, Operation, Refused, fields, interface, view
from places import library

INSERT, ADD, REMOVE, EXPIRE = interface.INSERT, interface.ADD, interface.REMOVE, interface.EXPIRE
MOST_WEIGHT, MOST_TIME = 1 << 40, (1 << 63) - 1
NO_NAMES = [b"", b"z" * 65, b"a b", b"\xff", b"\x7f"]
# Kinds, names, and operations with the places of these.
Columns = Tuple[List[bytes], List[bytes], List[Operation]]


class Opened(unittest.TestCase):
    def open(self, blocks: int, *limits: object) -> Desk:
        desk = Desk(library(), blocks, *limits)  # type: ignore[arg-type]
        self.addCleanup(desk.free)
        return desk

    def table(self, desk: Desk) -> Dict[Tuple[bytes, bytes, bytes], Tuple[int, int, int]]:
        """Each edge by its names, once."""
        version = desk.hold()
        names, kinds, rows = version.names(), version.kind_names(), version.edges(view(), 4096)
        desk.release(version)
        edges = {(kinds[kind], names[source], names[target]): tuple(rest) for kind, source, target, *rest in rows}
        self.assertEqual(len(edges), len(rows))
        return edges  # type: ignore[return-value]

    def stat(self, desk: Desk) -> Tuple[int, ...]:
        """The number, and how many vertices, edges, free, retired and used blocks there are."""
        it = desk.stat()
        return it.version, it.vertices, it.edges, it.blocks_free, it.blocks_retired, it.blocks_used

    def names(self, desk: Desk) -> Tuple[List[bytes], List[bytes]]:
        version = desk.hold()
        told = version.names(), version.kind_names()
        desk.release(version)
        return told

    def blocks_for(self, desk: Desk) -> int:
        """How many blocks of 32 the edges of each source and kind take."""
        counts: Dict[Tuple[bytes, bytes], int] = {}
        for kind, source, _ in self.table(desk):
            counts[kind, source] = counts.get((kind, source), 0) + 1
        return sum(-(-it // 32) for it in counts.values())

    def apply(self, desk: Desk, columns: Columns, count: int) -> None:
        """Applies the first operations, a batch for each."""
        kinds, names, rows = columns
        for sort, kind, source, target, weight, time in rows[:count]:
            batch = Batch(library())
            try:
                (batch.insert if sort == INSERT else batch.add)(kinds[kind], names[source], names[target], weight, time)
                desk.apply(batch)
                desk.collect()
            finally:
                batch.free()

    def check_alike(self, opened: Desk, applied: Desk) -> None:
        self.assertEqual(self.names(opened), self.names(applied))
        self.assertEqual(self.table(opened), self.table(applied))


class Random(Opened):
    def test_column_sets(self) -> None:
        seed = int(os.environ.get("SEED", random.randrange(1 << 32)))
        print(f"SEED={seed}", flush=True)
        chosen = random.Random(seed)
        for _ in range(int(os.environ.get("SCRIPTS", 2000))):
            with self.subTest(seed=seed):
                self.check(random.Random(chosen.randrange(1 << 32)))

    def draw(self, chance: random.Random) -> Columns:
        wrong = chance.random() < 0.3
        kinds = [b"k%d" % it for it in range(chance.choice([1, 1, 2, 5]))]
        names = [b"v%d" % it for it in range(chance.choice([2, 5, 40]))]
        chance.shuffle(names)
        # (a name may stand twice in a dictionary)
        names += names[:chance.randrange(2)]
        if wrong and chance.random() < 0.3:
            names.append(chance.choice(NO_NAMES))
        if wrong and chance.random() < 0.2:
            kinds.append(chance.choice([*NO_NAMES, b"*"]))
        rows: List[Operation] = []
        heavy = chance.random() < 0.3
        for _ in range(chance.choice([0, 1, 7, 60, 200])):
            weight = chance.choice([MOST_WEIGHT, -MOST_WEIGHT, MOST_WEIGHT - 1, 3]) if heavy else chance.randrange(-9, 99)
            time = chance.randrange(50) if chance.random() < 0.98 else MOST_TIME
            row = [chance.choice([INSERT, ADD]), chance.randrange(len(kinds)), int(len(names) * chance.random() ** 2),
                   chance.randrange(len(names)), weight, time]
            if wrong and chance.random() < 0.01:
                place, value = chance.choice([(0, REMOVE), (0, EXPIRE), (0, 9), (1, len(kinds)), (2, len(names)), (3, 1 << 31),
                                              (4, MOST_WEIGHT + 1), (5, MOST_TIME + 1)])
                row[place] = value
            rows.append(tuple(row))  # type: ignore[arg-type]
        return kinds, names, rows

    def check(self, chance: random.Random) -> None:
        columns = kinds, names, rows = self.draw(chance)
        limits = (chance.choice([3, 30, 100]), chance.choice([1, 4, 9]), 1 << 31)
        opened, applied = self.open(64, limits, MOST_WEIGHT), self.open(4096, limits, MOST_WEIGHT)
        before = fields(opened.stat())
        code, done = opened.open_columns(kinds, names, rows)
        wanted, place = self.expect(applied, columns)
        if wanted == Code.OK and self.blocks_for(applied) > 64:
            wanted = Code.BLOCKS_FULL
        self.assertEqual((code, done), (wanted, place))
        if code == Code.OK:
            self.check_alike(opened, applied)
            self.assertEqual(opened.stat().blocks_used, self.blocks_for(applied))
            self.assertEqual((opened.stat().version, opened.stat().blocks_retired), (0, 0))
        else:
            self.assertEqual(fields(opened.stat()), before)
        self.check_goes_on(opened)

    def expect(self, applied: Desk, columns: Columns) -> Tuple[Code, int]:
        """What the first refused row is refused for, and its place, by applying each row as a batch."""
        rows = columns[2]
        for place, (sort, kind, source, target, _, _) in enumerate(rows):
            if sort > ADD or kind >= len(columns[0]) or max(source, target) >= len(columns[1]):
                return Code.BAD_NUMBER, place
            try:
                self.apply(applied, (columns[0], columns[1], [rows[place]]), 1)
            except Refused as refused:
                return refused.code, place
        return Code.OK, 0

    def check_goes_on(self, desk: Desk) -> None:
        """The desk takes a batch as any other."""
        batch = Batch(library())
        self.addCleanup(batch.free)
        try:
            batch.insert(b"k0", b"v0", b"v1", 77, 78)
            number = desk.stat().version
            desk.apply(batch)
        except Refused as refused:
            self.assertIn(refused.code, (Code.NAMES_FULL, Code.KINDS_FULL, Code.BLOCKS_FULL))
            return
        self.assertEqual(desk.stat().version, number + 1)
        self.assertEqual(self.table(desk)[b"k0", b"v0", b"v1"][0::2], (77, 78))


class Rows(Opened):
    NAMES = [b"zoe", b"ann", b"bob", b"unused"]

    def test_names_come_in_order_of_first_appearance(self) -> None:
        """The first edge is from bob to ann, the second from ann to zoe. The first kind is m."""
        desk = self.open(16)
        rows: Sequence[Operation] = [(INSERT, 1, 2, 1, 5, 10), (INSERT, 0, 1, 0, 6, 11), (ADD, 1, 2, 1, 2, 7)]
        self.assertEqual(desk.open_columns([b"k", b"m"], self.NAMES, rows), (Code.OK, 0))
        self.assertEqual(self.names(desk), ([b"bob", b"ann", b"zoe"], [b"m", b"k"]))
        self.assertEqual(self.table(desk), {(b"m", b"bob", b"ann"): (7, 10, 7), (b"k", b"ann", b"zoe"): (6, 11, 11)})
        self.assertEqual(self.stat(desk), (0, 3, 2, 14, 0, 2))

    def test_no_rows(self) -> None:
        desk = self.open(16)
        self.assertEqual(desk.open_columns([], [], []), (Code.OK, 0))
        self.assertEqual(self.stat(desk), (0, 0, 0, 16, 0, 0))

    def test_a_sum_past_the_range_changes_nothing_but_makes_its_names(self) -> None:
        desk = self.open(16, (9, 9, 9), 10)
        rows: Sequence[Operation] = [(INSERT, 0, 0, 1, 10, 1), (ADD, 0, 0, 1, 1, 2), (INSERT, 0, 2, 1, 11, 3),
                                     (ADD, 0, 0, 1, -3, 4)]
        self.assertEqual(desk.open_columns([b"k"], self.NAMES, rows), (Code.OK, 0))
        self.assertEqual(self.names(desk)[0], [b"zoe", b"ann", b"bob"])
        self.assertEqual(self.table(desk), {(b"k", b"zoe", b"ann"): (7, 1, 4)})

    def test_33_edges_take_two_blocks(self) -> None:
        names = [b"s", *(b"t%d" % it for it in range(33))]
        rows: Sequence[Operation] = [(INSERT, 0, 0, it + 1, it, it) for it in range(33)]
        desk = self.open(16)
        self.assertEqual(desk.open_columns([b"k"], names, rows), (Code.OK, 0))
        self.assertEqual(self.stat(desk), (0, 34, 33, 14, 0, 2))
        self.assertEqual(len(self.table(desk)), 33)

    def test_blocks_are_for_each_source_and_kind(self) -> None:
        """17 sources take 17 blocks, and 16 are there."""
        names = [b"v%d" % it for it in range(17)]
        rows: Sequence[Operation] = [(INSERT, 0, it, 0, 1, 1) for it in range(17)]
        desk = self.open(16)
        self.assertEqual(desk.open_columns([b"k"], names, rows), (Code.BLOCKS_FULL, 0))
        self.assertEqual(self.stat(desk), (0, 0, 0, 16, 0, 0))
        self.assertEqual(desk.open_columns([b"k"], names, rows[:16]), (Code.OK, 0))
        self.assertEqual(self.stat(desk), (0, 16, 16, 0, 0, 16))

    def test_the_first_refused_row_is_told(self) -> None:
        good: Operation = (INSERT, 0, 0, 1, 1, 1)
        for wanted, row in ((Code.BAD_NUMBER, (REMOVE, 0, 0, 1, 1, 1)), (Code.BAD_NUMBER, (INSERT, 1, 0, 1, 1, 1)),
                            (Code.BAD_NUMBER, (INSERT, 0, 0, 4, 1, 1)), (Code.BAD_WEIGHT, (ADD, 0, 0, 1, MOST_WEIGHT + 1, 1)),
                            (Code.BAD_TIME, (INSERT, 0, 0, 1, 1, MOST_TIME + 1)), (Code.NAMES_FULL, (ADD, 0, 0, 2, 1, 1))):
            with self.subTest(wanted=wanted):
                desk = self.open(16, (2, 1, 9))
                self.assertEqual(desk.open_columns([b"k"], self.NAMES, [good, row, row, good]), (wanted, 1))
                self.assertEqual(self.stat(desk), (0, 0, 0, 16, 0, 0))
        desk = self.open(16, (2, 1, 9))
        self.assertEqual(desk.open_columns([b"k", b"m"], self.NAMES, [good, (INSERT, 1, 0, 1, 1, 1)]), (Code.KINDS_FULL, 1))
        self.assertEqual(desk.open_columns([b"*"], self.NAMES, [good]), (Code.BAD_NAME, 0))

    def test_a_desk_that_has_a_vertex_is_left_alone(self) -> None:
        desk, batch = self.open(16), Batch(library())
        self.addCleanup(batch.free)
        batch.insert(b"k", b"a", b"b", 1, 1)
        batch.remove(b"k", b"a", b"b")
        desk.apply(batch)
        before = fields(desk.stat())
        self.assertEqual(desk.open_columns([b"k"], self.NAMES, [(INSERT, 0, 0, 1, 1, 1)]), (Code.NOT_EMPTY, 0))
        self.assertEqual(fields(desk.stat()), before)

    def test_what_was_held_answers_on(self) -> None:
        desk = self.open(16)
        held = desk.hold()
        self.assertEqual(desk.open_columns([b"k"], self.NAMES, [(INSERT, 0, 0, 1, 1, 1)]), (Code.OK, 0))
        self.assertEqual(held.names(), [])
        desk.release(held)
        self.assertEqual(len(self.table(desk)), 1)


if __name__ == "__main__":
    unittest.main()
