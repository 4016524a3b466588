"""What became of edges between two versions that a desk holds, beside the edges of both."""
import os
import random
import unittest
from ctypes import c_uint32, c_uint64, sizeof
from typing import Dict, List, Tuple

from calls import ANY_KIND, EVER, Batch, Code, Desk, Version, column, interface, must, view
from differing import diff_columns, differences
from places import library

# How many differences are asked for at random.
COUNT = int(os.environ.get("DIFFERENCES", "240"))
GONE, NEW, CHANGED = interface.GONE, interface.NEW, interface.CHANGED
Marks = Tuple[int, int, int]


def by_source(version: Version, seen: interface.View) -> "Dict[int, Dict[Tuple[int, int], Marks]]":
    """What edges bear, by their kinds and targets, of each source in the order of its row."""
    found: Dict[int, Dict[Tuple[int, int], Marks]] = {}
    for kind, source, target, *marks in version.edges(seen, version.size.edges):
        found.setdefault(source, {})[kind, target] = (marks[0], marks[1], marks[2])
    return found


def plain(earlier: Version, later: Version, seen: interface.View) -> List[Tuple[int, ...]]:
    """What became of edges, from those of both versions."""
    before, after, nothing = by_source(earlier, seen), by_source(later, seen), (0, 0, 0)
    found: List[Tuple[int, ...]] = []
    for source in sorted({*before, *after}):
        old, new = before.get(source, {}), after.get(source, {})
        for (kind, target), marks in old.items():
            if (kind, target) not in new:
                found.append((GONE, kind, source, target, *marks, *nothing))
        for (kind, target), marks in new.items():
            if (kind, target) not in old:
                found.append((NEW, kind, source, target, *nothing, *marks))
            elif old[kind, target] != marks:
                found.append((CHANGED, kind, source, target, *old[kind, target], *marks))
    return found


def hold_of(version: Version) -> interface.Hold:
    assert version.hold is not None
    return version.hold


class Diffs(unittest.TestCase):
    def setUp(self) -> None:
        self.desk = Desk(library(), 4_096)
        self.addCleanup(self.desk.free)

    def change(self, made: random.Random, count: int) -> None:
        """Edges of few sources to many targets, of which a source's edges fill several blocks; whole runs are removed."""
        batch = Batch(library())
        for _ in range(count):
            kind, source, target = made.choice((b"k", b"l", b"m")), b"v%d" % made.randrange(4), made.randrange(150)
            word, time = made.random(), made.randrange(60)
            if word < 0.65:
                batch.insert(kind, source, b"v%d" % target, made.randrange(4), time)
            elif word < 0.98:
                for it in range(target, target + made.choice((1, 1, 40))):
                    batch.remove(kind, source, b"v%d" % it)
            else:
                batch.expire(made.randrange(20))
        self.desk.apply(batch)
        batch.free()

    def test_at_random(self) -> None:
        """Versions of a desk that begins anew between, and reuses what no version has."""
        made = random.Random(31)
        for _ in range(COUNT // 30):
            held: List[Version] = []
            if made.random() < 0.4:
                self.desk.rebase()
            for _ in range(8):
                self.change(made, made.choice((1, 5, 100)))
                held.append(self.desk.hold())
                self.desk.collect()
            for _ in range(30):
                first, last = sorted(made.choices(range(8), k=2))
                begin, kinds = made.randrange(60), range(held[last].size.kinds)
                window = made.choice((EVER, (begin, begin + made.randrange(60))))
                seen = view(made.choice((None, *kinds)), window)
                if seen.kind in (ANY_KIND, *range(held[first].size.kinds)):
                    wanted = plain(held[first], held[last], seen)
                else:  # (all are new: the earlier version has no such kind)
                    wanted = [(NEW, *it[:3], 0, 0, 0, *it[3:]) for it in held[last].edges(seen, 4_096)]
                self.assertEqual(differences(self.desk, held[first], held[last], seen, made.choice((1, 6, 500))), wanted)
            for it in held:
                self.desk.release(it)

    def test_a_hub(self) -> None:
        """Of 65,536 edges in 2,048 blocks some are dropped, whole runs of blocks among them, some changed, and some are new."""
        desk, names = Desk(library(), 16_384), [b"v%d" % it for it in range(65_536)]
        self.addCleanup(desk.free)
        edges = [(0, target, 1, 1) for target in range(len(names))]
        self.assertEqual(desk.insert_columns(b"k", names, edges)[:2], (Code.OK, len(edges)))
        first, made, batch = desk.hold(), random.Random(5), Batch(library())
        for target in (*made.sample(range(65_536), 500), *range(9_000, 10_500)):
            batch.remove(b"k", b"v0", names[target])
        for target in (*made.sample(range(65_536), 500), *range(30_000, 30_070)):
            batch.insert(made.choice((b"k", b"l")), b"v0", names[target], 2, 2)
        desk.apply(batch)
        batch.free()
        last = desk.hold()
        for seen in (view(), view(window=(2, 2))):
            self.assertEqual(differences(desk, first, last, seen, 4_096), plain(first, last, seen))
        for it in (first, last):
            desk.release(it)

    def test_what_is_refused(self) -> None:
        it, pair, made = library(), interface.Diff(), random.Random(2)
        other = Desk(library(), 16)
        self.addCleanup(other.free)
        self.change(made, 30)
        first, own = self.desk.hold(), other.hold()
        self.change(made, 30)
        last = self.desk.hold()
        for earlier, later, code in ((last, first, Code.BAD_NUMBER), (first, own, Code.NO_SEAT), (own, last, Code.NO_SEAT)):
            self.assertEqual(it.desk_diff(self.desk.handle, hold_of(earlier), hold_of(later), pair), code)
            self.assertIsNone(pair.at)
        must(it.desk_diff(self.desk.handle, hold_of(first), hold_of(last), pair))
        self.assertEqual(it.desk_diff(self.desk.handle, hold_of(first), hold_of(last), pair), Code.HELD_ALREADY)
        # What is let go meanwhile stays with the pair.
        wanted = plain(first, last, view())
        source, count, table = c_uint32(), c_uint64(), [column(it, 500) for it in "BIIIqQQqQQ"]
        for it_ in (first, last):
            self.desk.release(it_)
        self.assertEqual(it.desk_diff(self.desk.handle, hold_of(first), hold_of(last), interface.Diff()), Code.NO_SEAT)
        self.assertEqual(it.diff_edges(pair, view(9), source, diff_columns(table, 500), count), Code.NO_KIND)
        uneven = diff_columns(table, 500)
        uneven.recents_after_length = 499
        self.assertEqual(it.diff_edges(pair, view(), source, uneven, count), Code.BAD_LENGTH)
        self.assertEqual((source.value, any(map(any, table))), (0, False))
        must(it.diff_edges(pair, view(), source, diff_columns(table, 500), count))
        self.assertEqual(list(zip(*(it[:count.value] for it in table))), wanted)
        must(it.diff_edges(pair, view(), source, diff_columns(table, 0), count))  # (none are left)
        self.assertEqual((count.value, sizeof(interface.DiffColumns)), (0, 168))
        it.diff_free(pair)
        self.assertIsNone(pair.at)
        self.assertEqual(it.diff_edges(pair, view(), source, diff_columns(table, 500), count), Code.NO_HANDLE)

    def test_versions_of_a_former_opening(self) -> None:
        self.change(random.Random(3), 30)
        first = self.desk.hold()
        self.desk.rebase()
        last = self.desk.hold()
        for it in (last, first):
            code = library().desk_diff(self.desk.handle, hold_of(first), hold_of(it), interface.Diff())
            self.assertEqual(code, Code.NO_SEAT)
        self.assertEqual(differences(self.desk, last, last, view(), 1), [])
        first.free()
        self.desk.release(last)


if __name__ == "__main__":
    unittest.main()
