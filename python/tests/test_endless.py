"""Feeds without end, in this process: a store begins anew where it is full, and what is held, pending or counted stays."""
import os
import subprocess
import sys
import threading
import unittest
from unittest import mock

from support import Case, HERE, row

import misteluk
from misteluk import Edge, Limits
from misteluk.engine import library
from misteluk.values import limits


class Endless(Case):
    def test_it_goes_on(self):
        """Versions count on, sessions hold theirs, and what was pending is applied once."""
        store = self.store("add road ulm kiel 5 1", endless=True)
        session, renewed = store.open(), store.compact()
        self.assertEqual(row(renewed)[:4], (1, 2, 1, 1))
        store.add("road", "kiel", "bonn", 7, time=2)
        self.assertEqual((store.commit().version, session.version, session.edge_count), (2, 1, 1))
        self.assertEqual(store.open().edge("road", "ulm", "kiel"), Edge(5, 1, 1))
        self.assertEqual(session.predecessors("kiel"), {"ulm": Edge(5, 1, 1)})
        self.assertRaises(misteluk.NoVertex, session.predecessors, "bonn")

    def test_numbers_stay(self):
        """A store that begins anew has the same names by the same numbers, also of those that have no edge any more."""
        store = self.store(*(f"insert k a{it} b{it} 1 1" for it in range(40)), "remove k a3 b3")
        before = store.open()
        store.compact()
        self.feed(store, "insert k new a7 1 1")
        after = store.open()
        names = before.edges().names
        self.assertEqual(len(names), 80)
        self.assertEqual(list(after.edges().names), [*names, "new"])
        self.assertEqual(sorted(before.edges()), sorted(it for it in after.edges() if it[1] != "new"))

    def test_held_versions_and_few_blocks(self):
        """A session keeps its blocks, and batches go on being applied nevertheless: the store begins anew, unseen."""
        store, sessions = self.store(blocks=32, seats=16), []
        for version in range(1, 60):
            for at in range(8):
                store.insert("k", f"s{at}", "t", version)
            self.assertEqual(store.commit().version, version)
            if version % 5 == 0:
                sessions.append((version, store.open()))
            sessions[:-4] = []
        for version, session in sessions:
            self.assertEqual((session.version, [edge.weight for *_, edge in session.edges()]), (version, [version] * 8))
        self.assertEqual(store.stat().version, 59)

    def test_too_many_blocks_are_refused(self):
        store = self.store(*(f"insert k s{it} t 1 1" for it in range(30)), blocks=32)
        held = store.open()
        for it in range(3):
            store.insert("k", f"s{it}", "t", 2)
        with self.assertRaises(misteluk.errors.PoolEmpty) as told:
            store.commit()
        self.assertEqual((told.exception.needed, told.exception.free, store.pending), (3, 2, 3))
        self.assertEqual(store.commit(batch=2).batches, 2)
        self.assertEqual(sum(edge.weight for *_, edge in held.edges()), 30)

    def full(self, endless):
        store = self.store(endless=endless, blocks=65536, limits=Limits(vertices=65536))
        rows = [(f"v{it}", f"v{it + 1}") for it in range(0, 65536, 2)]
        store.load(rows, by="set", progress=False)
        for source, target in rows[:100]:
            store.remove("link", source, target)
        store.commit()
        return store

    def test_names_that_have_no_edge(self):
        """Where there would be too many names an endless store lets those go that have no edge; another refuses the batch."""
        store = self.full(endless=False)
        store.insert("link", "one", "more")
        self.assertRaises(misteluk.errors.NamesFull, store.commit)
        self.assertEqual(store.discard(), 1)
        store = self.full(endless=True)
        held, version = store.open(), store.stat().version
        store.insert("link", "one", "more")
        self.assertEqual(row(store.commit())[:2], (version + 1, 1))
        self.assertEqual(row(store.stat())[1:3], (65536 - 200 + 2, 32768 - 100 + 1))
        self.assertTrue(held.has_vertex("v0"))
        self.assertFalse(store.open().has_vertex("v0"))

    def test_many_batches(self):
        """A desk takes 65,536 batches; here it says so of the fifth."""
        store = self.store()
        real, said = store._engine.library.desk_apply, []

        def full(*given):
            said.append(1)
            return library.Code.BATCHES_FULL if len(said) == 5 else real(*given)
        with mock.patch.object(store._engine.library, "desk_apply", full):
            for at in range(9):
                store.insert("k", "a", f"b{at}")
                self.assertEqual(store.commit().version, at + 1)
        self.assertEqual((store.stat().version, store.stat().edges, len(said)), (9, 9, 10))

    def test_begun_anew_with_an_older_version(self):
        store = self.store("insert k a b 1 1")
        old = store.open()
        self.feed(store, "insert k b c 2 2", "remove k a b")
        store.insert("k", "x", "y")
        self.assertEqual(row(store.compact(old))[:4], (0, 2, 1, 1))
        self.assertEqual((store.pending, store.commit().version), (1, 1))
        self.assertEqual(sorted(store.open().edges()), [("k", "a", "b", Edge(1, 1, 1)), ("k", "x", "y", Edge(1, 0, 0))])
        self.assertRaises(misteluk.SessionClosed, old.degrees)

    def test_a_copy_of_more_edges_than_blocks(self):
        """A batch asks for a free block for each of its operations: so a copy goes by batches that find them."""
        store = self.store(blocks=16)
        for at in range(40):
            self.feed(store, f"insert k a b{at} {at} 1")
        old = store.open()
        edges = list(old.edges())
        self.feed(store, "remove k a b0")
        self.assertEqual(row(store.compact(old))[:4], (0, 41, 40, 2))
        self.assertEqual(list(store.open().edges()), edges)

    def test_idle_names_of_more_edges_than_blocks(self):
        store = self.store(blocks=64, endless=True)
        for at in range(200):
            store.insert("k", "hub", f"t{at}")
        store.commit(batch=32)
        real, said = store._engine.library.desk_apply, []

        def full(*given):
            said.append(1)
            return library.Code.NAMES_FULL if len(said) == 1 else real(*given)
        with mock.patch.object(store._engine.library, "desk_apply", full):
            self.feed(store, "insert k hub more 1 1")
        self.assertEqual((store.stat().version, store.stat().edges), (8, 201))

    def test_a_copy_without_room(self):
        """All blocks are used, and the copy's last row is an edge that is set twice: its second operation finds no block. (It is
        made by batches, since a name has no edge.)"""
        store = self.store("insert k s0 early 1 1", "insert k s0 gone 1 1", "remove k s0 gone",
                           *(f"insert k s{at} z 1 1" for at in range(13)), blocks=16)
        for operation in ("insert k s13 z 1 1", "insert k early z 1 1", "insert k early z 1 9", "insert k last z 1 1"):
            self.feed(store, operation)
        old = store.open()
        edges = list(old.edges())
        store.commit()
        told = "version 5 finds no room in 16 blocks, and nothing was changed"
        with self.assertRaisesRegex(misteluk.errors.PoolEmpty, told) as caught:
            store.compact(old)
        self.assertEqual((caught.exception.needed, caught.exception.free), (17, None))
        self.assertEqual((row(store.stat())[:3], store.stat().free, list(old.edges())), ((6, 18, 17), 0, edges))
        self.assertEqual(list(store.open().edges()), edges)


class Level(Case):
    """A store keeps no operation that it has applied, unless its batches have a limit: then those since it began anew."""

    def fill(self, store, batches=100, edges=4):
        """Batches of ten additions to few edges; gives the versions, and how many operations were kept behind each."""
        versions, kept = [], []
        for at in range(batches):
            for it in range(10):
                store.add("k", f"s{(at + it) % edges}", "t", 1, at)
            versions.append(store.commit().version)
            kept.append(store._engine.operations_kept)
        return versions, kept

    def test_none_is_kept(self):
        """It has no operation to let go, and so doesn't begin anew."""
        store, most = self.store("add k s0 t 1 1"), 4_294_967_295
        with mock.patch.object(store._engine.library, "desk_rebase", lambda _: self.fail("it began anew")):
            versions, kept = self.fill(store)
        self.assertEqual((versions, max(kept)), (list(range(2, 102)), 0))
        for batches, kept in ((most - 1, 1001), (most, 0)):
            other = self.store("add k s0 t 1 1", limits=Limits(batches=batches))
            self.assertEqual((self.fill(other)[0], other._engine.operations_kept), (versions, kept))
            self.assertEqual(list(store.open().edges()), list(other.open().edges()))

    def test_none_is_kept_however_it_begins_anew(self):
        """As where it grows, or is rebased to an older version."""
        def limit():
            return store._engine._opening.shape.batches, store._engine.operations_kept
        with mock.patch.object(library, "FIRST_BLOCKS", 32):
            store, none = self.store("insert k a b 1 1"), (4_294_967_295, 0)
        self.assertEqual(limit(), none)
        old = store.open()
        for at in range(40):
            store.insert("k", f"s{at}", "t")
        store.commit()
        self.assertEqual((store.blocks, limit()), (128, none))
        self.feed(store, *(f"insert k{it} a b 1 1" for it in range(10)))
        self.assertEqual((store._engine._opening.shape.kinds, limit()), (16, none))
        store.compact()
        self.assertEqual(limit(), none)
        store.compact(old)
        self.assertEqual((list(store.open().edges()), limit()), ([("k", "a", "b", Edge(1, 1, 1))], none))

    def test_few_are_kept(self):
        for batches, most in ((1_000, 1_001), (95, 941), (3, 30), (1, 10)):
            store = self.store("add k s0 t 1 1", limits=Limits(batches=batches))
            session, before = store.open(), store.open().degrees()
            versions, kept = self.fill(store)
            self.assertEqual((versions, max(kept)), (list(range(2, 102)), most), batches)
            self.assertEqual((session.version, list(session.edges())), (1, [("k", "s0", "t", Edge(1, 1, 1))]))
            self.assertEqual(session.degrees(), before)
            with store.open() as last:
                self.assertEqual((last.version, [edge.weight for *_, edge in last.edges()]), (101, [251, 250, 250, 250]))

    def test_out_of_memory(self):
        """Then the batch is pending still, and the next commit tries it again."""
        store = self.store("add k s0 t 1 1", limits=Limits(batches=1))
        store.add("k", "s0", "t", 1, 2)
        with mock.patch.object(store._engine.library, "desk_rebase", lambda _: library.Code.MEMORY):
            self.assertRaises(misteluk.errors.NoMemory, store.commit)
        self.assertEqual((store.pending, store.stat().version, store.commit().version), (1, 1, 2))
        self.assertEqual(store.open().edge("k", "s0", "t"), Edge(2, 1, 2))

    def test_memory(self):
        """What a process takes at most for 400,000 additions to a graph of a hundred edges: some 200 bytes for each that is
        kept."""
        program = """if True:
            import re, sys
            from misteluk import Limits, Store
            peak = lambda: int(re.search(r"VmHWM:\\s+(\\d+)", open("/proc/self/status").read())[1]) / 1024
            store = Store(limits=Limits(batches=int(sys.argv[1]) or None))
            for at in range(200):
                for it in range(2_000):
                    store.add("k", f"s{it % 100}", "t")
                store.commit()
                if at == 9:
                    before = peak()
            print(store.stat().edges, store.stat().version, peak() - before)
            store.close()
        """
        grown = {}
        for batches in (0, 65_536):
            done = subprocess.run([sys.executable, "-c", program, str(batches)], check=True, text=True,
                                  stdout=subprocess.PIPE, env={**os.environ, "PYTHONPATH": str(HERE.parent)})
            *told, grown[batches] = map(float, done.stdout.split())
            self.assertEqual(told, [100, 200])
        self.assertGreater(grown[65_536], 50)
        self.assertLess(grown[0], 5)

    def test_questions_go_on_meanwhile(self):
        """A session answers while the store begins anew, which here waits for that."""
        store = self.store("add k s0 t 1 1", limits=Limits(batches=1))
        session, real, found = store.open(), store._engine.library.desk_rebase, []
        begun, answered = threading.Event(), threading.Event()

        def ask():
            begun.wait(60)
            found.append((session.edge("k", "s0", "t"), session.levels("s0")))
            answered.set()

        def slow(desk):
            begun.set()
            found.append(answered.wait(60))
            return real(desk)
        thread = threading.Thread(target=ask)
        thread.start()
        with mock.patch.object(store._engine.library, "desk_rebase", slow):
            self.assertEqual(self.fill(store, 1), ([2], [10]))
        thread.join()
        self.assertEqual(found, [(Edge(1, 1, 1), {"s0": 0, "t": 1}), True])

    def test_seats_are_as_many(self):
        """Also where the sessions were opened before it began anew."""
        store = self.store(seats=2, limits=Limits(batches=1))
        sessions = [store.open()]
        self.fill(store, 5)
        sessions.append(store.open())
        self.fill(store, 5)
        self.assertRaises(misteluk.errors.NoSeat, store.open)
        sessions.pop(0).close()
        self.assertEqual(store.open().version, 10)


class Crowded(Case):
    """A batch that finds no room, for more than one reason."""

    def test_all_seats_are_taken(self):
        """A store lets idle names go by reading its last version, also where sixteen sessions hold others."""
        with mock.patch.object(limits, "MOST_PRODUCT", 6_400):
            store, sessions = self.store(endless=True, seats=16), []
            for at in range(16):
                self.feed(store, f"insert k a b{at} 1 1")
                sessions.append(store.open())
            for at in range(200):
                self.feed(store, f"insert k s{at} t 1 1", f"remove k s{at} t")
        self.assertEqual((store.stat().version, store.stat().edges), (216, 16))
        self.assertLess(store.stat().vertices, 101)
        self.assertEqual([len(list(it.edges())) for it in sessions], list(range(1, 17)))

    def test_names_and_blocks(self):
        """A batch for which there have to be more names, and then more blocks."""
        with mock.patch.object(library, "FIRST_BLOCKS", 128), mock.patch.object(limits, "MOST_PRODUCT", 6_400):
            store = self.store(endless=True)
            for at in range(90):
                store.insert("k", f"s{at}", "t")
            store.commit()
            for at in range(90, 180):
                store.insert("k", f"s{at}", "t")
            self.assertEqual(store.commit().inserted, 90)
        self.assertEqual((row(store.stat())[:3], store.blocks), ((2, 181, 180), 512))


if __name__ == "__main__":
    unittest.main()
