"""How much a store takes: limits that are said, and a store in process that has more room once it is needed."""
import functools
import io
import itertools
import unittest
from contextlib import redirect_stderr
from ctypes import sizeof
from unittest import mock

from interrupting import CALLS, Scene, places
from support import Case, row

import misteluk
from misteluk import Columns, Limits, Store, errors, survey
from misteluk.command.main import main
from misteluk.engine import interface, library
from misteluk.feeds.feed import Feed
from misteluk.feeds.limits import check
from misteluk.values import limits
from misteluk.values.limits import OF_SCRIPT


class OfLimits(unittest.TestCase):
    def test_walls(self):
        """Vertices times kinds are at most 8,388,606, and kinds at most 64, whatever is said."""
        for wrong in (Limits(vertices=8_388_607), Limits(kinds=65), Limits(vertices=131_072, kinds=64), Limits(kinds=0),
                      Limits(vertices=-1), Limits(batches=1 << 32)):
            self.assertRaises(ValueError, wrong._checked)
        for right in (Limits(), Limits(8_388_606, 1), Limits(131_071, 64), Limits(batches=1)):
            self.assertEqual(right._checked(), right)

    def test_walls_of_smaller_weights(self):
        """One weight for each vertex of each kind, and one more, are below 2^63."""
        for wrong in (Limits(weight=(1 << 40) + 1), Limits(weight=0), Limits(8_388_607, weight=1 << 40),
                      Limits(67_108_864, weight=1), Limits(67_108_863, weight=1 << 37),
                      Limits(67_108_863, 64, weight=2_147_483_680)):
            self.assertRaises(ValueError, wrong._checked)
        for right in (Limits(weight=1), Limits(8_388_606, weight=1 << 40), Limits(67_108_863, weight=(1 << 37) - 1),
                      Limits(67_108_863, 64, weight=2_147_483_679)):
            self.assertEqual(right._checked(), right)

    def test_what_is_over(self):
        self.assertEqual(Limits()._over(8_388_606, 1), [])
        self.assertEqual(Limits()._over(4_194_304, 2), ["4,194,304 vertices, where the store takes 4,194,303 beside 2 kinds"])
        self.assertEqual(Limits()._over(1, 65), ["65 kinds, where the store takes 64"])
        self.assertEqual(Limits(10, 2)._over(11, 3),
                         ["11 vertices, where the store takes 10", "3 kinds, where the store takes 2"])
        self.assertEqual(Limits(vertices=1_000_000)._over(9, 9), ["9 kinds, where the store takes 8"])
        light, most = Limits(weight=1 << 39), Limits(weight=1)
        self.assertEqual((light._over(16_777_214, 1), light._over(8_388_607, 2), most._over(67_108_863, 64)), ([], [], []))
        self.assertEqual(light._over(16_777_215, 1), ["16,777,215 vertices, where the store takes 16,777,214 beside 1 kind"])
        self.assertEqual(most._over(67_108_864, 2), ["67,108,864 vertices, where the store takes 67,108,863 beside 2 kinds"])

    def test_advice(self):
        self.assertEqual(Limits(kinds=3)._advice, "Make the store with more than Limits(kinds=3)")
        smaller = "No store takes more, but vertices beside smaller weights (Limits(weight=..))"
        self.assertEqual([it._advice for it in (Limits(), Limits(batches=9), Limits(weight=1 << 39))], [smaller] * 3)
        self.assertEqual(Limits(weight=1)._advice, "No store takes more")

    def test_shapes(self):
        """A desk's limits have room for what there is, and are within the walls."""
        light = Limits(weight=1 << 39), Limits(weight=1), Limits(kinds=3, weight=1_000), Limits(16_000_000, weight=1 << 39)
        each = (Limits(), Limits(vertices=1_000), Limits(kinds=3), Limits(500_000, 16), *light)
        sizes = 0, 1, 1_000, 131_071, 131_072, 1_048_575, 1_048_576, 8_388_606, 8_388_607, 16_777_214, 67_108_863
        for said, vertices, kinds in itertools.product(each, sizes, (0, 1, 2, 3, 8, 9, 17, 33, 64)):
            if not said._over(vertices, kinds):
                found = said._shape(vertices, kinds)
                self.assertTrue(found.vertices >= vertices and found.kinds >= kinds, (said, vertices, kinds, found))
                self.assertLessEqual(found.vertices * found.kinds, said._product)
                self.assertEqual((found._checked(), found.weight), (found, said.weight))
        for kinds, room in ((0, 8), (8, 8), (9, 16), (16, 16), (17, 32), (32, 32), (33, 64), (64, 64)):
            self.assertEqual(Limits()._shape(1_000, kinds), Limits(limits.MOST_PRODUCT // room, room, limits.MOST_BATCHES, None))


class Room(Case):
    def path(self, count, begin=0):
        return [(f"v{it}", f"v{it + 1}") for it in range(begin, begin + count)]

    def told(self, store):
        with store.open() as session:
            return session.version, list(session.edges().names), sorted(session.edges())

    def test_limits_that_are_said(self):
        store = self.store(limits=Limits(vertices=4, kinds=2))
        store.load(self.path(3), by="set")
        store.insert("link", "v0", "one-more")
        with self.assertRaisesRegex(errors.NamesFull, r"There would be 5 vertices, where the store takes 4. Make the store "
                                                        r"with more than Limits\(vertices=4, kinds=2\)"):
            store.commit()
        self.assertEqual((store.pending, store.discard()), (1, 1))
        for kind in ("a", "b"):
            store.insert(kind, "v0", "v1")
        with self.assertRaisesRegex(misteluk.errors.KindsFull, "There would be 3 kinds, where the store takes 2"):
            store.commit()
        store.discard()
        with self.assertRaisesRegex(errors.OverLimit, "has 9 vertices, where the store takes 4. Make the store with more than"):
            store.load(self.path(8), by="set")
        self.assertEqual((store.stat().version, store.stat().edges), (1, 3))

    def test_batches_that_are_said(self):
        """The store begins anew by itself then, so that it takes as many as come."""
        store = self.store(limits=Limits(batches=3))
        with mock.patch.object(store._engine, "_begin_anew", wraps=store._engine._begin_anew) as anew:
            for it in range(10):
                store.insert("k", "a", f"b{it}")
                self.assertEqual(store.commit().version, it + 1)
        self.assertEqual((anew.call_count, store.stat().edges), (3, 10))

    def test_a_limit_of_weights(self):
        """A weight, an amount or a sum past it changes nothing but that its names are there; also behind a copy."""
        with mock.patch.object(library, "FIRST_BLOCKS", 16):
            store = self.store(limits=Limits(weight=10))
        for weight, target in ((10, "b"), (11, "c"), (-11, "b")):
            store.insert("k", "a", target, weight)
        store.add("k", "a", "b", 1)
        store.add("k", "a", "b", -20)
        told = store.commit()
        self.assertEqual((told.inserted, told.updated, told.overflowed), (1, 0, 4))
        self.assertEqual(self.told(store)[1:], (["a", "b", "c"], [("k", "a", "b", (10, 0, 0))]))
        for it in range(40):
            store.insert("k", f"s{it}", "b", 10)
        store.insert("k", "s0", "b", 11)
        told = store.commit()
        self.assertEqual((told.inserted, told.overflowed, store.blocks), (40, 1, 64))

    def test_more_blocks(self):
        """Sessions hold what they held, numbers and versions stay, and a store that says its blocks has no more."""
        with mock.patch.object(library, "FIRST_BLOCKS", 16):
            store, fixed = self.store(), self.store(blocks=16)
        store.load(self.path(9), by="set")
        held, before = store.open(), self.told(store)
        for it in range(200):
            store.insert("link", f"w{it}", "v1", it, it)
        self.assertEqual((store.commit().version, store.blocks), (2, 256))
        version, names, edges = self.told(store)
        self.assertEqual((version, names[:10], len(names), len(edges)), (2, before[1], 210, 209))
        self.assertEqual((held.version, sorted(held.edges()), store.stat().used), (1, before[2], 209))
        fixed.load(self.path(9), by="set")
        for it in range(200):
            fixed.insert("link", f"w{it}", "v1")
        with self.assertRaisesRegex(misteluk.errors.PoolEmpty, "needs 200 free blocks, and 7 are free"):
            fixed.commit()
        fixed.discard()

    def test_more_blocks_with_all_seats_taken(self):
        with mock.patch.object(library, "FIRST_BLOCKS", 16):
            store = self.store(seats=16)
        held = []
        for it in range(16):
            store.insert("k", f"s{it}", "t")
            store.commit()
            held.append(store.open())
        for it in range(40):
            store.insert("k", f"u{it}", "t")
        self.assertEqual((store.commit().version, store.stat().edges, store.blocks), (17, 56, 64))
        self.assertEqual([it.edge_count for it in held], list(range(1, 17)))

    def test_a_load_has_room_before_it_begins(self):
        """An empty store is opened with as many blocks as a feed wants, so that nothing is copied on the way."""
        with mock.patch.object(library, "FIRST_BLOCKS", 16):
            store = self.store()
        with mock.patch.object(store._engine, "_copy", wraps=store._engine._copy) as copy:
            store.load(self.path(3_000), by="set", batch=500)
        self.assertEqual((copy.call_count, store.blocks, store.stat().edges, store.stat().version), (1, 4_096, 3_000, 6))

    def test_a_load_makes_batches_as_large_as_there_are_blocks_for(self):
        """Two of three parts have room at once in 12,000 blocks, and a batch that is said stays as it is."""
        for blocks, batch, versions in ((None, None, 1), (12_000, None, 2), (None, 4_096, 3)):
            with self.subTest(blocks=blocks, batch=batch):
                store = self.store(blocks=blocks)
                loaded = store.load(self.path(10_000), by="set", batch=batch)
                self.assertEqual((loaded.commit.version, loaded.commit.inserted, loaded.commit.batches),
                                 (versions, 10_000, versions))
                self.assertEqual((store.stat().version, loaded.records), (versions, 10_000 + 2 * versions))
                self.assertEqual(self.told(store)[2], sorted(("link", *it, (1, 0, 0)) for it in self.path(10_000)))

    def test_a_large_batch_of_a_load_that_is_refused_goes_in_as_far_as_it_can(self):
        store = self.store(limits=Limits(vertices=12_000))
        store.load([(f"w{it}", f"w{it + 1}") for it in range(2_999)], by="set")
        with self.assertRaisesRegex(misteluk.errors.NamesFull, "lines 8193 to 10000 was refused, .* 8192 rows before it are"):
            store.load(self.path(10_000), by="set")
        self.assertEqual((store.stat().version, store.stat().edges), (3, 2_999 + 8_192))

    def test_more_vertices_and_kinds(self):
        """The walls are for the product of both, here of 64: a desk has room for the one or for the other."""
        with mock.patch.object(limits, "MOST_PRODUCT", 64):
            store = self.store()
            store.load(self.path(7), by="set")
            self.assertEqual(row(store._engine._opening.shape)[:2], (8, 8))
            held, before = store.open(), self.told(store)
            for it in range(20):
                store.insert("link", f"w{it}", "v1")
            self.assertEqual(store.commit().version, 2)
            self.assertEqual(row(store._engine._opening.shape)[:2], (64, 1))
            self.assertEqual(self.told(store)[1][:8], before[1])
            store.insert("road", "v1", "v2")
            self.assertEqual((store.commit().version, row(store._engine._opening.shape)[:2]), (3, (32, 2)))
            store.insert("rail", "v1", "v2")
            told = "There would be 28 vertices, where the store takes 21 beside 3 kinds. No store takes more"
            with self.assertRaisesRegex(misteluk.errors.KindsFull, told):
                store.commit()
            self.assertEqual((store.discard(), sorted(held.edges())), (1, before[2]))

    def test_the_library_has_the_walls(self):
        """What the limits say here the library says too."""
        engine = self.store()._engine
        for wanted, blocks, code in (((131_071, 64, 1), 16, 0), ((131_072, 64, 1), 16, 19), ((8_388_606, 1, 1), 16, 0),
                                     ((8_388_607, 1, 1), 16, 19), ((1, 65, 1), 16, 19), ((1, 1, 1), limits.MOST_BLOCKS + 1, 9)):
            desk, given = interface.Desk(), interface.Limits(sizeof(interface.Limits), *wanted, limits.MOST_WEIGHT)
            self.assertEqual(engine.library.desk_new_within(1, given, blocks, desk), code, wanted)
            engine.library.desk_free(desk)
        for vertices, kinds, weight, code in ((67_108_863, 64, 2_147_483_679, 0), (67_108_863, 64, 2_147_483_680, 19),
                                              (8_388_607, 1, (1 << 40) - 1, 0), (8_388_607, 1, 1 << 40, 19),
                                              (67_108_864, 1, 1, 19), (1, 1, 1 << 40, 0), (1, 1, (1 << 40) + 1, 19),
                                              (51_030_674, 3, 60_247_241_209, 0), (51_030_675, 3, 60_247_241_209, 19)):
            desk, wanted = interface.Desk(), interface.Limits(sizeof(interface.Limits), vertices, kinds, 1, weight)
            with self.subTest(vertices=vertices, kinds=kinds, weight=weight):
                self.assertEqual(engine.library.desk_new_within(1, wanted, 16, desk), code)
                if code:
                    self.assertRaises(ValueError, Limits(vertices, kinds, 1, weight)._checked)
                else:
                    self.assertEqual(row(Limits(vertices, kinds, 1, weight)._checked())[:2], (vertices, kinds))
            engine.library.desk_free(desk)

    def test_an_endless_store_lets_names_go_before(self):
        with mock.patch.object(limits, "MOST_PRODUCT", 640):
            store = self.store(endless=True)
            for it in range(100):
                store.insert("k", f"s{it}", "t")
                if it:
                    store.remove("k", f"s{it - 1}", "t")
                store.commit()
        self.assertEqual((row(store._engine._opening.shape)[:2], store.stat().edges), ((10, 64), 1))
        self.assertLess(store.stat().vertices, 11)

    def test_an_interrupt_while_it_becomes_larger(self):
        """The batch is in once, and told once, when the commit is made again."""
        class Small(Scene):
            def __init__(self, **options):
                super().__init__(**options)
                for it in range(30):
                    self.store.add("l", f"s{it}", "t", 1, 1)

            def is_right(self):
                self.told.append(self.store.commit())
                with self.store.open() as session:
                    assert (sum(it.inserted for it in self.told), self.store.pending, session.edge_count) == (30, 0,
                                                                                                              32), self.told
                    assert {it.weight for it in session.successors("s3").values()} == {1} and self.session.edge_count == 2
                assert sum(it.batches for it in self.told) == self.store.stat().version - 1
        with mock.patch.object(library, "FIRST_BLOCKS", 16):
            count, wrong = places(functools.partial(Small, blocks=None), CALLS["commit"], Small.is_right, 60)
        self.assertGreater(count, 500)
        self.assertEqual(wrong, [])

    def test_a_restored_store_grows_where_the_saved_one_did(self):
        with mock.patch.object(library, "FIRST_BLOCKS", 16):
            store, fixed = self.store("insert k a b 1 1"), self.store("insert k a b 1 1", blocks=32)
        for it, grows in ((store, True), (fixed, False)):
            it.open().save(self.room / "saved.csv")
            with Store.restore(self.room / "saved.csv") as restored:
                self.assertEqual((restored._engine.grows, restored.blocks), (grows, 16_384 if grows else 32))
            with Store.restore(self.room / "saved.csv", blocks=64) as restored:
                self.assertEqual((restored._engine.grows, restored.blocks), (False, 64))

    def test_a_store_of_smaller_weights_loses_no_edge(self):
        """A version of larger weights isn't restored in it; a load says what wasn't set."""
        store = self.store("insert k a b 11 1")
        store.open().save(self.room / "saved.csv")
        with Store.restore(self.room / "saved.csv", limits=Limits(weight=11)) as restored:
            self.assertEqual(self.told(restored)[1:], self.told(store)[1:])
        with self.assertRaisesRegex(misteluk.StoreError, r"2 names and 0 edges came of .*, and not \(2, 1\)"):
            Store.restore(self.room / "saved.csv", limits=Limits(weight=10))
        loaded = self.store(limits=Limits(weight=10)).load([("a", "b", 11, 1), ("b", "c", 10, 1)], by="set")
        self.assertIn("1 edges inserted, 0 updated; version 1; 1 amounts NOT added or set", str(loaded))

    def test_more_than_a_program_takes_is_saved(self):
        """The file says so, and a store in process takes it."""
        store = self.store()
        store.load(self.path(66_000), by="set")
        with store.open() as session:
            saved = session.save(self.room / "saved.csv")
        self.assertTrue(str(saved).endswith("more than `stinger run` takes"), saved)
        with Store.restore(self.room / "saved.csv") as restored:
            self.assertEqual((self.told(restored)[1:], restored.blocks), (self.told(store)[1:], 262_144))


class OfCommands(Case):
    def test_more_than_a_program_takes(self):
        """70,000 vertices, each with an edge, in a file: a store takes them, and no script is written."""
        path = self.room / "many.csv"
        path.write_text("".join(f"a{it},a{it + 1}\n" for it in range(70_000)))
        words = ["--set", "--source", "1", "--target", "2"]
        self.assertEqual(main(["load", str(path), *words]), 0)
        err = io.StringIO()
        with redirect_stderr(err):
            self.assertEqual(main(["load", str(path), *words, "--script", str(self.room / "script.csv")]), 1)
        self.assertIn("has 70,001 vertices, where the store takes 65,536; 70000 blocks", err.getvalue())
        self.assertIn(". A store of the client takes more. Nothing is loaded", err.getvalue())
        self.assertFalse((self.room / "script.csv").exists())
        with Store() as store:
            store.load(path, by="set", columns=Columns(1, 2))
            with store.open() as session:
                self.assertEqual((session.vertex_count, session.edge_count, session.levels("a0")["a70000"]),
                                 (70_001, 70_000, 70_000))

    def test_blocks_that_no_script_has(self):
        """Batch 17 of 4,096 begins behind row 65,536, where 63,000 blocks are in use."""
        def told(rows):
            with self.assertRaises(misteluk.errors.OverLimit) as fault:
                check(survey(rows, by="set"), limits=OF_SCRIPT, most_blocks=65_536)
            return str(fault.exception)
        rows = [(f"a{it % 32_768}", "b", 1, 0, "kl"[it // 32_768 % 2]) for it in range(65_536)]
        self.assertIn("65536 blocks for its edges", told([*rows, *rows[:5_000]]))
        self.assertIn("smaller batches don't help", told([*rows, *rows[:5_000]]))
        self.assertIn("batches of 536 fit (batch=536, --batch 536)", told([*rows[:65_000], *rows[:9_000]]))

    def test_kinds(self):
        with self.assertRaisesRegex(misteluk.errors.OverLimit, "has 65 kinds, where the store takes 64"):
            self.store().load(Feed("f", [(1, f"k{it}", "a", "b", "1", "0") for it in range(65)]), by="set")


if __name__ == "__main__":
    unittest.main()
