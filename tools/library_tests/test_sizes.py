"""Sizes and counts past which no other test goes: batches, rebases, holds, blocks, and a ring of 2^18 + 1 names with each table
of it. What is expected comes of the ring's own arithmetic. By hand over a larger ring:

    NAMES=1048577 tools/test_library sizes
"""
import array
import os
import unittest
from typing import Callable, Dict, List, Tuple

from calls import Batch, Code, Desk, Operation, Refused, Row, Version, fields, interface, view
from places import library

MOST = (1 << 32) - 1
BATCHES, REBASES, HOLDS, BLOCKS = 75_000, 300, 2_000, 1 << 22
RING = int(os.environ.get("NAMES", (1 << 18) + 1))
# What is asked, and what it gives.
Tables = Dict[str, Tuple[Callable[[], object], object]]


def weight_of(place: int) -> int:
    return place % 1_000 + 1


def edge_of(place: int) -> Row:
    """The edge of a vertex of the ring to the next one."""
    return 0, place, (place + 1) % RING, weight_of(place), place, place


class Sizes(unittest.TestCase):
    def open(self, blocks: int, limits: Tuple[int, int, int]) -> Desk:
        desk, self.batch = Desk(library(), blocks, limits), Batch(library())
        self.addCleanup(desk.free)
        self.addCleanup(self.batch.free)
        return desk

    def commit(self, desk: Desk, weight: int, time: int = 0) -> Tuple[int, ...]:
        """A batch of one: one weight of one edge."""
        self.batch.insert(b"k", b"a", b"b", weight, time)
        return fields(desk.apply(self.batch))

    def test_batches(self) -> None:
        """No number of batches is the last one, where limits allow more than the standard 65,536."""
        desk = self.open(16, (2, 1, MOST))
        self.commit(desk, 7)
        for number in range(2, BATCHES + 1):
            self.assertEqual(desk.apply(self.batch).version, number)
        self.assertEqual(self.commit(desk, 8), (BATCHES + 1, 0, 1, 0, 0, 0, 0))
        self.assertEqual(fields(desk.stat())[:4], (BATCHES + 1, 2, 1, 1))

    def test_rebases(self) -> None:
        """A desk is rebased again and again, and holds its edge each time; a hold says how often."""
        desk = self.open(16, (2, 1, 1))
        for number in range(REBASES):
            self.assertEqual(self.commit(desk, number + 1, number)[0], 1)
            desk.rebase()
            version = desk.hold()
            assert version.hold is not None
            self.assertEqual(fields(version.hold)[1:], (number + 1, 0))
            self.assertEqual(version.edges(view(), 1), [(0, 0, 1, number + 1, 0, number)])
            desk.release(version)

    def test_holds(self) -> None:
        """Each of 16 numbers is held 2,000 times. A 17th isn't, and the blocks of each stay until its last hold is released."""
        desk = self.open(64, (2, 1, MOST))
        held: List[List[Version]] = []
        for number in range(16):
            self.commit(desk, number + 1)
            held.append([desk.hold() for _ in range(HOLDS)])
        self.commit(desk, 17)
        with self.assertRaises(Refused) as caught:
            desk.hold()
        self.assertEqual((caught.exception.code, desk.collect()), (Code.NO_SEAT, 0))
        for number, (first, *rest) in enumerate(held, 1):
            for version in rest:
                desk.release(version)
            self.assertEqual((desk.collect(), first.edge(0, 0, 1)[0]), (0, number))
            desk.release(first)
            self.assertEqual(desk.collect(), 1)

    def test_holds_one_after_another(self) -> None:
        desk = self.open(64, (2, 1, MOST))
        for number in range(1, HOLDS + 1):
            self.commit(desk, number)
            version = desk.hold()
            self.assertEqual((version.size.version, version.edge(0, 0, 1)[0]), (number, number))
            desk.release(version)
            desk.collect()

    def test_blocks(self) -> None:
        """Of a desk with 2^22 blocks all are free. A batch of as many operations as there may be, of which one is an expiry, asks
        for one more than 2^20 where one block is used."""
        desk = self.open(BLOCKS, (2, 1, MOST))
        self.assertEqual(fields(desk.stat())[4:], (BLOCKS, 0, 0))
        self.commit(desk, 1)
        count = interface.MOST_OPERATIONS
        # (removals of an edge that isn't there, and last an expiry of the one that is)
        columns = [array.array(it, [value]) * count for it, value in zip("BIIIqQ", (interface.REMOVE, 0, 1, 0, 0, 9))]
        columns[0][-1] = interface.EXPIRE
        told = self.batch.append_columns([b"k"], [b"a", b"b"], columns, count, limit=count)
        self.assertEqual(told, (Code.OK, count))
        self.assertEqual(fields(desk.apply(self.batch)), (2, 0, 0, 0, count - 1, 0, 1))

    def test_a_ring(self) -> None:
        """Each name has an edge to the next one, and the last to the first. A rebase leaves each table as it was, and an expiry
        of half of the edges the others."""
        desk, names = self.open(2 * RING + 65_536, (RING, 1, RING)), [b"n%d" % it for it in range(RING)]
        rows = [(it, (it + 1) % RING, weight_of(it), it) for it in range(RING)]
        code, done, counts = desk.insert_columns(b"k", names, rows)
        self.assertEqual((code, done, fields(counts)[:3]), (Code.OK, RING, (-(-RING // 65_536), RING, 0)))
        self.is_the_ring(self.hold(desk), names)
        desk.rebase()
        self.assertEqual(fields(desk.stat()), (0, RING, 1, RING, RING + 65_536, 0, RING))
        version = self.hold(desk)
        self.is_the_ring(version, names)
        self.batch.expire(RING // 2)
        self.assertEqual(fields(desk.apply(self.batch)), (1, 0, 0, 0, 0, 0, RING // 2))
        self.assertTrue(self.hold(desk).edges(view(), 65_536) == version.edges(view(), 65_536)[RING // 2:])
        self.batch.insert(b"k", b"n0", b"another", 1, 1)
        with self.assertRaises(Refused) as caught:
            desk.apply(self.batch)
        self.assertEqual(caught.exception.code, Code.NAMES_FULL)

    def hold(self, desk: Desk) -> Version:
        version = desk.hold()
        self.addCleanup(version.free)
        return version

    def is_the_ring(self, version: Version, names: List[bytes]) -> None:
        every, half = view(), RING // 2
        self.assertEqual((version.size.vertices, version.size.edges), (RING, RING))
        edges = [edge_of(it) for it in range(RING)]
        # Of the late half of the ring's times, each vertex before it is alone.
        late = view(window=(half, RING))
        into = [weight_of((it - 1) % RING) for it in range(RING)]
        tables: Tables = {
            "names": (version.names, names), "edges": (lambda: version.edges(every, 65_536), edges),
            "degrees": (lambda: version.degrees(every), [(1, 1, weight_of(it)) for it in range(RING)]),
            "levels": (lambda: version.levels(every, half), {it: (it - half) % RING for it in range(RING)}),
            "labels": (lambda: version.labels(every), [0] * RING), "cores": (lambda: version.cores(every), [2] * RING),
            "late labels": (lambda: version.labels(late), [0, *range(1, half), *[0] * (RING - half)]),
            "late levels": (lambda: version.levels(late, half), {it % RING: it - half for it in range(half, RING + 1)}),
            "weights in": (lambda: version.weights_in(every), into),
            "late weights in": (lambda: version.weights_in(late), [into[0], *[0] * half, *into[half + 1:]]),
            "names like": (lambda: version.names_like(b"n26214", 7), [it for it, name in enumerate(names) if b"n26214" in name]),
            **self.walks(version)}
        for name, (ask, expected) in tables.items():
            with self.subTest(name):
                # (not by assertEqual: it takes minutes to tell where two such tables differ)
                self.assertTrue(ask() == expected)
        for place in (0, half, RING - 1):
            self.assertEqual(version.vertex(names[place]), place)
            self.assertEqual(version.row(every, place), [edges[place]])
            self.assertEqual(version.in_edges(every, place), [edges[place - 1]])
            self.assertEqual(version.edge(0, place, (place + 1) % RING), edges[place][3:])

    def walks(self, version: Version) -> Tables:
        """Each vertex is reached by as many steps as the ring has between the two, and from the last one to the one before it by
        all of them."""
        every, half = view(), RING // 2
        along, against, either = interface.ALONG, interface.AGAINST, interface.EITHER
        return {
            "along": (lambda: version.within(every, along, [half], 5), [(half + it, it) for it in range(6)]),
            "against": (lambda: version.within(every, against, [2], 3), [(0, 2), (1, 1), (2, 0), (RING - 1, 3)]),
            "either way": (lambda: version.within(every, either, [0], interface.ANY_STEPS),
                           [(it, min(it, RING - it)) for it in range(RING)]),
            "a path": (lambda: version.path(every, half, half - 1), [*range(half, RING), *range(half)])}

    def test_a_ring_of_columns(self) -> None:
        """A desk that begins with as many names has them all, and goes on from there."""
        desk, names = self.open(RING + 65_536, (RING, 1, RING)), [b"n%d" % it for it in range(RING)]
        rows: List[Operation] = [(interface.INSERT, 0, it, (it + 1) % RING, weight_of(it), it) for it in range(RING)]
        self.assertEqual(desk.open_columns([b"k"], names, rows)[0], Code.OK)
        self.assertEqual(fields(desk.stat()), (0, RING, 1, RING, 65_536, 0, RING))
        version = self.hold(desk)
        self.assertTrue(version.names() == names)
        self.assertTrue(version.edges(view(), 65_536) == [edge_of(it) for it in range(RING)])
        self.batch.insert(b"k", names[0], names[-1], 5, RING)
        self.assertEqual(fields(desk.apply(self.batch)), (1, 1, 0, 0, 0, 0, 0))


if __name__ == "__main__":
    unittest.main()
