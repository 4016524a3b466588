"""Small stores whose answers were worked out by hand, asked by way of C."""
import unittest
from typing import Dict, List, Tuple

from calls import Batch, Code, Desk, Owner, Refused, Version, fields, view
from places import library


def push(batch: Batch, record: str) -> None:
    """Appends an operation that is written as a record of a script."""
    word, *told = record.split(",")
    if word == "x":
        batch.expire(int(told[0]))
        return
    kind, source, target = (it.encode() for it in told[:3])
    if word == "r":
        batch.remove(kind, source, target)
    else:
        weight, time = map(int, told[3:])
        (batch.insert if word == "i" else batch.add)(kind, source, target, weight, time)


class Rows(unittest.TestCase):
    def open(self, blocks: int = 16) -> Desk:
        desk, self.batch = Desk(library(), blocks), Batch(library())
        self.addCleanup(desk.free)
        self.addCleanup(self.batch.free)
        return desk

    def commit(self, desk: Desk, *records: str) -> Tuple[int, ...]:
        """The version that a batch left, and how many operations inserted, updated, removed, found nothing and overflowed."""
        for it in records:
            push(self.batch, it)
        return fields(desk.apply(self.batch))[:6]

    def refuse(self, desk: Desk, *records: str) -> Code:
        with self.assertRaises(Refused) as caught:
            self.commit(desk, *records)
        return caught.exception.code

    def hold(self, desk: Desk) -> Version:
        version = desk.hold()
        self.addCleanup(version.free)
        return version

    def stat(self, desk: Desk) -> Tuple[int, ...]:
        """Number, names, edges, and free, retired and used blocks."""
        told = desk.stat()
        return told.version, told.vertices, told.edges, told.blocks_free, told.blocks_retired, told.blocks_used

    def named(self, version: Version, table: Dict[int, int]) -> Dict[str, int]:
        names = [it.decode() for it in version.names()]
        return {names[vertex]: value for vertex, value in table.items()}

    def edge(self, version: Version, kind: str, source: str, target: str) -> Tuple[int, int, int]:
        ends = version.vertex(source.encode()), version.vertex(target.encode())
        return version.edge(version.kind(kind.encode()), *ends)

    CHAIN = ["i,knows,ann,bob,5,10", "i,knows,bob,cat,2,11"]

    def test_levels_stay_those_of_the_version_held(self) -> None:
        desk = self.open()
        self.assertEqual(self.commit(desk, *self.CHAIN), (1, 2, 0, 0, 0, 0))
        first, window = self.hold(desk), view(None, (0, 100))
        self.assertEqual(self.commit(desk, "r,knows,ann,bob"), (2, 0, 0, 1, 0, 0))
        second = self.hold(desk)
        self.assertEqual(self.named(first, first.levels(window, first.vertex(b"ann"))), {"ann": 0, "bob": 1, "cat": 2})
        self.assertEqual(self.named(second, second.levels(window, second.vertex(b"ann"))), {"ann": 0})

    def test_an_edge_that_comes_again_begins_its_times_anew(self) -> None:
        desk = self.open()
        records = ["i,knows,ann,bob,5,10", "r,knows,ann,bob", "i,knows,ann,bob,7,12"]
        self.assertEqual(self.commit(desk, *records), (1, 2, 0, 1, 0, 0))
        self.assertEqual(self.edge(self.hold(desk), "knows", "ann", "bob"), (7, 12, 12))
        self.assertEqual(self.stat(desk), (1, 2, 1, 15, 0, 1))

    def test_an_addition_keeps_the_first_time(self) -> None:
        desk = self.open()
        self.assertEqual(self.commit(desk, "i,knows,ann,bob,5,10"), (1, 1, 0, 0, 0, 0))
        self.assertEqual(self.commit(desk, "a,knows,ann,bob,1,5"), (2, 0, 1, 0, 0, 0))
        self.assertEqual(self.edge(self.hold(desk), "knows", "ann", "bob"), (6, 10, 5))

    def test_an_empty_batch_makes_a_version(self) -> None:
        self.assertEqual(self.commit(self.open()), (1, 0, 0, 0, 0, 0))

    def test_degrees_of_a_window(self) -> None:
        desk = self.open()
        self.commit(desk, "i,k,a,b,1,9", "i,k,a,c,2,10", "i,k,a,d,3,20", "i,k,a,e,4,21")
        version = self.hold(desk)
        found = version.degrees(view(version.kind(b"k"), (10, 20)))
        self.assertEqual(found, [(2, 0, 5), (0, 0, 0), (0, 1, 0), (0, 1, 0), (0, 0, 0)])
        self.assertEqual([it[2:] for it in version.row(view(None, (10, 20)), 0)], [(2, 2, 10, 10), (3, 3, 20, 20)])

    def test_weights_at_their_limit(self) -> None:
        desk = self.open()
        self.assertEqual(self.commit(desk, "i,k,a,b,1099511627776,1", "a,k,a,b,1,2"), (1, 1, 0, 0, 0, 1))
        self.assertEqual(self.edge(self.hold(desk), "k", "a", "b"), (1099511627776, 1, 1))
        self.assertEqual(self.refuse(desk, "i,k,a,b,1099511627777,1"), Code.BAD_WEIGHT)
        self.assertEqual(len(self.batch), 0)

    def test_a_collection_keeps_what_is_held(self) -> None:
        desk = self.open()
        self.commit(desk, *self.CHAIN)
        held = desk.hold()
        self.assertEqual(self.commit(desk, "a,knows,ann,bob,1,20"), (2, 0, 1, 0, 0, 0))
        self.assertEqual((desk.collect(), desk.stat().blocks_retired), (0, 1))
        desk.release(held)
        self.assertEqual((desk.collect(), desk.stat().blocks_retired), (1, 0))
        self.assertEqual(self.stat(desk), (2, 3, 2, 14, 0, 2))

    def test_a_second_block(self) -> None:
        desk = self.open(64)
        self.assertEqual(self.commit(desk, *(f"i,k,s,t{it:02},1,1" for it in range(1, 34))), (1, 33, 0, 0, 0, 0))
        self.assertEqual(self.stat(desk), (1, 34, 33, 62, 0, 2))
        self.commit(desk, "r,k,s,t01", "i,k,s,u,1,2")
        self.assertEqual(self.stat(desk), (2, 35, 33, 61, 1, 2))

    def test_cores_and_labels(self) -> None:
        desk = self.open()
        self.commit(desk, "i,k,a,b,1,1", "i,k,b,c,1,1", "i,k,c,a,1,1", "i,k,c,d,1,1")
        version, window = self.hold(desk), view(None, (0, 9))
        self.assertEqual(version.cores(window), [2, 2, 2, 1])
        self.assertEqual(version.labels(window), [0, 0, 0, 0])

    def test_a_loop_and_two_kinds(self) -> None:
        desk = self.open()
        self.commit(desk, "i,k,a,a,1,1", "i,k,a,b,1,1", "i,m,a,b,1,1")
        version, window = self.hold(desk), view(None, (0, 9))
        self.assertEqual(version.degrees(window), [(3, 1, 3), (0, 2, 0)])
        self.assertEqual(version.cores(window), [1, 1])
        self.assertEqual(version.kind_names(), [b"k", b"m"])

    def test_inputs_that_are_one_memory(self) -> None:
        """Kind, source and target are one text at one address, as C.md allows for what a call only reads."""
        desk, name = self.open(), b"ulm"
        self.batch.insert(name, name, name, 7, 1)
        self.batch.add(name, name, name, 4, 9)
        self.assertEqual(self.commit(desk), (1, 1, 1, 0, 0, 0))
        self.assertEqual(self.edge(self.hold(desk), "ulm", "ulm", "ulm"), (11, 1, 9))

    def test_a_removal_makes_no_name(self) -> None:
        desk = self.open()
        self.assertEqual(self.commit(desk, "r,k,a,b"), (1, 0, 0, 0, 1, 0))
        self.assertEqual(self.stat(desk), (1, 0, 0, 16, 0, 0))

    def test_too_few_blocks(self) -> None:
        desk = self.open()
        self.assertEqual(self.refuse(desk, *(f"i,k,a,b{it:02},1,1" for it in range(1, 18))), Code.BLOCKS_FULL)
        self.assertEqual((len(self.batch), self.stat(desk)), (17, (0, 0, 0, 16, 0, 0)))

    def test_outcomes_of_each_operation(self) -> None:
        desk = self.open()
        self.assertEqual(self.commit(desk, "i,k,a,b,1,1", "i,k,b,c,1,1", "r,k,z,a", "i,k,a,b,1,1"), (1, 2, 1, 0, 1, 0))
        self.assertEqual(self.stat(desk)[3:], (14, 0, 2))

    def test_a_full_batch(self) -> None:
        desk = self.open(4096)
        for _ in range(4096):
            push(self.batch, "i,k,a,b,1,1")
        self.assertEqual(self.refuse(desk, "i,k,a,b,1,1"), Code.BATCH_FULL)
        self.assertEqual(self.commit(desk), (1, 1, 4095, 0, 0, 0))
        self.assertEqual(self.stat(desk), (1, 2, 1, 4095, 0, 1))

    def test_too_many_kinds(self) -> None:
        desk = self.open()
        self.assertEqual(self.refuse(desk, *(f"i,k{it:02},a,b,1,1" for it in range(1, 66))), Code.KINDS_FULL)
        self.assertEqual(self.stat(desk), (0, 0, 0, 16, 0, 0))

    def test_too_many_names(self) -> None:
        desk = self.open(65_536)
        for batch in range(16):
            self.commit(desk, *(f"i,k,s,t{it},1,1" for it in range(4096 * batch, min(4096 * batch + 4096, 65_535))))
            desk.collect()
        before = self.stat(desk)
        self.assertEqual(before[:3], (16, 65_536, 65_535))
        self.assertEqual(self.refuse(desk, "i,k,s,t65535,1,1"), Code.NAMES_FULL)
        self.assertEqual(self.stat(desk), before)

    def test_too_many_batches(self) -> None:
        desk = self.open()
        for _ in range(65_536):
            desk.apply(self.batch)
        self.assertEqual(self.refuse(desk), Code.BATCHES_FULL)
        self.assertEqual(self.stat(desk), (65_536, 0, 0, 16, 0, 0))
        desk.rebase()
        self.assertEqual(self.commit(desk), (1, 0, 0, 0, 0, 0))

    def test_a_load_keeps_the_batches_before_a_refusal(self) -> None:
        """Of 9,000 edges the 8,501st is too heavy: two batches of 4,096 are in. And 16 blocks are too few for one."""
        names, edges = [f"t{it}".encode() for it in range(9_000)], [(0, it, 1, 1) for it in range(9_000)]
        edges[8_500] = (0, 8_500, (1 << 40) + 1, 1)
        desk = self.open(65_536)
        code, done, counts = desk.insert_columns(b"k", names, edges)
        self.assertEqual((code, done, fields(counts)), (Code.BAD_WEIGHT, 8_192, (2, 8_192, 0, 0, 0, 0, 0)))
        self.assertEqual(self.stat(desk)[:3], (2, 8_192, 8_192))
        self.assertEqual(self.hold(desk).names(), names[:8_192])
        code, done, _ = self.open(16).insert_columns(b"k", names, edges)
        self.assertEqual((code, done), (Code.BLOCKS_FULL, 0))

    def test_a_load_makes_its_batches_by_the_free_blocks(self) -> None:
        """Each edge has a source of its own, and so takes a block. Of 20,000 blocks 16,384 are asked for at once; then 3,616 are
        left, too few for the next 4,096."""
        names = [b"n%d" % it for it in range(70_001)]
        edges = [(it, it + 1, it, it) for it in range(70_000)]
        desk = Desk(library(), 200_000, (70_001, 1, 9))
        self.addCleanup(desk.free)
        code, done, counts = desk.insert_columns(b"k", names, edges)
        self.assertEqual((code, done, fields(counts)), (Code.OK, 70_000, (2, 70_000, 0, 0, 0, 0, 0)))
        for blocks, wanted in ((20_000, (Code.BLOCKS_FULL, 16_384, 1)), (8_192, (Code.BLOCKS_FULL, 8_192, 1)),
                               (8_191, (Code.BLOCKS_FULL, 4_096, 1)), (4_095, (Code.BLOCKS_FULL, 0, 0))):
            with self.subTest(blocks=blocks):
                code, done, counts = self.open(blocks).insert_columns(b"k", names, edges)
                self.assertEqual((code, done, counts.version), wanted)
        # The same edge over and over takes one block in all, though each batch asks for one block an insertion.
        desk = self.open(8_192)
        self.assertEqual(desk.insert_columns(b"k", names[:2], [(0, 1, it, it) for it in range(12_288)])[:2], (Code.OK, 12_288))
        self.assertEqual(self.stat(desk)[:3], (2, 2, 1))

    def test_a_load_collects_before_it_is_refused(self) -> None:
        """Ten edges, each of a source of its own, in 25 blocks: each load asks for ten, and retires the ten of the one before."""
        names, edges = [b"n%d" % it for it in range(11)], [(it, it + 1, 1, 1) for it in range(10)]
        desk, wanted = self.open(25), (Code.OK, 10)
        self.assertEqual(desk.insert_columns(b"k", names, edges)[:2], wanted)
        held = desk.hold()
        self.assertEqual(desk.insert_columns(b"k", names, edges)[:2], wanted)
        self.assertEqual(self.stat(desk)[3:], (5, 10, 10))
        self.assertEqual(desk.insert_columns(b"k", names, edges)[:2], (Code.BLOCKS_FULL, 0))
        self.assertEqual(self.stat(desk), (2, 11, 10, 5, 10, 10))
        desk.release(held)
        # Five are free, and ten more once they are collected; and the ten that it retires are collected behind it.
        self.assertEqual(desk.insert_columns(b"k", names, edges)[:2], wanted)
        self.assertEqual(self.stat(desk), (3, 11, 10, 15, 0, 10))
        # What a refused load collects stays collected: five are free, and with those ten too few for sixteen.
        held = desk.hold()
        self.assertEqual(desk.insert_columns(b"k", names, edges)[:2], wanted)
        self.assertEqual(self.stat(desk), (4, 11, 10, 5, 10, 10))
        desk.release(held)
        many = [(it % 10, 0, 1, 1) for it in range(16)]
        self.assertEqual(desk.insert_columns(b"k", names, many)[:2], (Code.BLOCKS_FULL, 0))
        self.assertEqual(self.stat(desk), (4, 11, 10, 15, 0, 10))

    def test_an_expiry(self) -> None:
        """Edges whose recent time is before it go, one of that time stays; and it asks for as many blocks as are used."""
        desk = self.open()
        self.commit(desk, "i,k,a,b,1,9", "i,k,b,c,1,10", "i,m,c,a,1,8")
        self.assertEqual(fields(desk.apply(self.expiry(10))), (2, 0, 0, 0, 0, 0, 2))
        version = self.hold(desk)
        self.assertEqual([it[:3] for it in version.edges(view(), 4)], [(0, 1, 2)])

    def expiry(self, time: int) -> Batch:
        push(self.batch, f"x,{time}")
        return self.batch


class Holds(unittest.TestCase):
    def test_sixteen_numbers_are_held_each_as_often_as_one_likes(self) -> None:
        desk, batch = Desk(library(), 16), Batch(library())
        held: List[Version] = []
        for _ in range(16):
            held += [desk.hold(), desk.hold()]
            desk.apply(batch)
        with self.assertRaises(Refused) as caught:
            desk.hold()
        self.assertEqual(caught.exception.code, Code.NO_SEAT)
        for it in held[:2]:
            desk.release(it)
        held = [desk.hold(), *held[2:]]
        self.assertEqual([it.size.version for it in held], [16, *(it // 2 for it in range(2, 32))])
        last = held[0].hold
        assert last
        self.assertEqual([library().desk_release(desk.handle, last) for _ in range(2)], [Code.OK, Code.NO_SEAT])
        owners: List[Owner] = [*held, batch, desk]
        for each in owners:
            each.free()

    def test_a_hold_of_a_former_opening_is_given_back(self) -> None:
        desk, batch = Desk(library(), 16), Batch(library())
        push(batch, "i,k,a,b,1,1")
        desk.apply(batch)
        held = desk.hold()
        desk.rebase()
        again = desk.hold()
        self.assertEqual((held.size.version, held.size.edges, again.size.version, again.size.edges), (1, 1, 0, 1))
        former, later = held.hold, again.hold
        assert former and later
        codes = [library().desk_release(desk.handle, it) for it in (former, former, later, later)]
        self.assertEqual(codes, [Code.OK, Code.OK, Code.OK, Code.NO_SEAT])
        desk.free()
        self.assertEqual(held.edges(view(), 1), again.edges(view(), 1))
        for it in (held, again, batch):
            it.free()


if __name__ == "__main__":
    unittest.main()
