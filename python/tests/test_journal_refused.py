"""Batches that a store with a file doesn't take, since it refuses them or the file can't be written: all is as it was before."""
import contextlib
import os
import threading
import unittest
from unittest import mock

from journaled import JournalCase, Model, batch, of_sqlite, put, told
from support import kill, row

from misteluk import Limits, Store
from misteluk.errors import JournalFault, KindsFull, NamesFull, NotWritten, OverLimit, PoolEmpty
from misteluk.engine.protocol import WHOLE
from misteluk.engine.waiting import WaitingEngine
from misteluk.journal.checking import check
from misteluk.journal.journal import Journal


def told_of(engine):
    """The last version of an engine that anybody may hold now, and how many edges it has."""
    with contextlib.closing(engine.hold(None)) as held:
        return held.number, held.edges(WHOLE).size


class Refused(JournalCase):
    def test_what_the_engine_refuses_is_not_in_the_file(self):
        store = self.opened(blocks=16, limits=Limits(vertices=10, kinds=2))
        put(store, [("insert", "k", "a", "b", 1, 1)])
        refused = ((NamesFull, [("insert", "k", f"v{it}", "b", 1, 1) for it in range(10)]),
                   (KindsFull, [("insert", f"k{it}", "a", "b", 1, 1) for it in range(2)]),
                   (PoolEmpty, [("add", "k", "a", "b", 1, 1)] * 40))
        for error, rows in refused:
            with self.assertRaises(error):
                put(store, rows)
            self.assertEqual(self.rows("SELECT version FROM batches"), [(1,)])
            store.discard()
        self.assertEqual(put(store, [("add", "k", "a", "b", 1, 1)]).version, 2)
        store.close()
        self.assertEqual(check(self.path).faults, [])
        with Store(self.path) as store:
            self.assertEqual(told(store)[1], {("k", "a", "b"): (2, 1, 1)})

    def test_a_text_that_came_with_a_refused_batch(self):
        with self.opened(limits=Limits(vertices=2)) as store:
            store.insert("k", "Ж", "b")
            store.insert("k", "Ж", "c")
            with self.assertRaises(NamesFull):
                store.commit()
            store.discard()
            store.insert("k", "Ж", "b")
            store.commit()
        with self.opened() as store, store.open() as session:
            self.assertEqual([it[:3] for it in session.edges()], [("k", "Ж", "b")])

    def test_a_batch_that_a_crash_left(self):
        """It is on the disk and was accepted by nobody: the next opening has it, with the answer that a repeat gets. One that the
        engine refuses isn't written at all."""
        store = self.opened(limits=Limits(vertices=3))
        put(store, [("insert", "k", "a", "b", 1, 1)])
        with mock.patch.object(WaitingEngine, "finish", side_effect=KeyboardInterrupt), self.assertRaises(KeyboardInterrupt):
            put(store, [("insert", "k", "a", "c", 1, 1)], producer="feed", sequence=1)
        self.assertEqual((self.rows("SELECT version FROM batches"), told_of(store._engine)), ([(1,), (2,)], (1, 1)))
        kill(store)
        with Store(self.path) as store:
            self.assertEqual((store.stat().version, row(store.commit(producer="feed", sequence=1))[:2]), (2, (2, 1)))
            with mock.patch.object(Journal, "append") as append, self.assertRaises(NamesFull):
                put(store, [("insert", "k", "a", "d", 1, 1)])
            self.assertFalse(append.called)
            store.discard()
            self.assertEqual(put(store, [("add", "k", "a", "b", 1, 1)]).version, 3)
        self.assertEqual(check(self.path).faults, [])

    def test_blocks_are_as_many_as_the_file_needs(self):
        with self.opened() as store:
            put(store, [("insert", "k", f"a{it}", "b", 1, 1) for it in range(40)])
        with self.opened(blocks=16) as store:
            self.assertEqual(store.stat().edges, 40)

    def test_limits_that_are_less_than_the_file_has(self):
        self.opened().close()
        with self.opened() as store:
            put(store, [("insert", "k", "a", f"b{it}", 1, 1) for it in range(5)])
        with self.assertRaisesRegex(OverLimit, "6 vertices"):
            Store(self.path, limits=Limits(vertices=5))
        with self.assertRaisesRegex(ValueError, "weight"):
            Store(self.path, limits=Limits(weight=5))
        with self.opened(limits=Limits(vertices=6)) as store:
            with self.assertRaises(NamesFull):
                put(store, [("insert", "k", "a", "c", 1, 1)])
            store.discard()

    def test_a_greatest_weight(self):
        with self.opened(limits=Limits(weight=10)) as store:
            put(store, [("add", "k", "a", "b", 7, 1)])
            self.assertEqual(put(store, [("add", "k", "a", "b", 7, 2)]).overflowed, 1)
        with self.opened() as store:
            self.assertEqual(told(store)[1], {("k", "a", "b"): (7, 1, 1)})

    def test_an_endless_store_drops_at_the_same_place(self):
        found = {}
        store = self.opened(endless=True, limits=Limits(vertices=10))
        for number in range(1, 30):
            store.insert("k", f"a{number}", f"b{number}", number, number)
            store.expire(max(number - 3, 0))
            store.commit()
            found[number] = told(store)
        drops = [it for it, in self.rows("SELECT version FROM batches WHERE drops ORDER BY 1")]
        self.assertGreater(len(drops), 3)
        store.close()
        for number, wanted in found.items():
            with Store.at(self.path, version=number) as then:
                self.assertEqual(told(then), wanted)
        self.assertEqual(check(self.path).faults, [])
        with self.opened() as store:
            self.assertEqual(told(store), found[29])


class Failing:
    """A connection whose calls fail from one on that begins so; a commit may be made nevertheless."""

    def __init__(self, inner, begins, fault, made=False):
        self.inner, self.begins, self.fault, self.made, self.is_on = inner, begins, fault, made, True

    def execute(self, words, *values):
        if self.is_on and words.startswith(self.begins):
            if self.made:
                self.inner.execute(words, *values)
            raise self.fault
        return self.inner.execute(words, *values)

    def __getattr__(self, name):
        return getattr(self.inner, name)


class Watching(Failing):
    """A connection beside which another thread asks, just before each commit."""

    def __init__(self, inner, asks):
        super().__init__(inner, "", None)
        self.asks = asks

    def execute(self, words, *values):
        if words == "COMMIT":
            other = threading.Thread(target=self.asks)
            other.start()
            other.join(60)
        return self.inner.execute(words, *values)


class Failed(JournalCase):
    """A batch that can't be written leaves the store and its sessions as they were."""

    def planted(self, store, *how, **more):
        journal = store._engine._journal
        journal.opened = Failing(journal.opened, *how, **more)
        return journal.opened

    def test_a_disk_that_is_full(self):
        store = self.fed(3)
        session, model = store.open(), Model().upto(3)
        for words in ("BEGIN", "INSERT", "UPDATE head", "COMMIT"):
            failing = self.planted(store, words, of_sqlite("database or disk is full", "SQLITE_FULL"))
            for _ in range(2):
                with self.assertRaisesRegex(NotWritten, "full"):
                    put(store, batch(4), producer="feed", sequence=4)
                self.assertEqual(told(store), model.told())
                self.assertEqual((store.discard(), session.is_open, session.edge_count), (40, True, len(model.edges)))
            failing.is_on = False
        self.assertEqual(put(store, batch(4), producer="feed", sequence=4).version, 4)
        self.assertEqual(put(store, batch(4), producer="feed", sequence=4).version, 4)
        self.assertEqual(told(store), model.upto(4).told())
        store.close()
        with Store(self.path) as store:
            self.assertEqual(told(store), model.told())

    def test_a_database_that_may_not_grow(self):
        """SQLite's own word for a full disk, from the page on at which it comes."""
        store = self.fed(3)
        store._engine._journal.opened.execute("PRAGMA max_page_count=1")
        with self.assertRaises(NotWritten):
            put(store, [("insert", "k", f"a{it}", "b", 1, 1) for it in range(4_000)])
        store.discard()
        store._engine._journal.opened.execute("PRAGMA max_page_count=1000000")
        self.assertEqual(told(store), Model().upto(3).told())
        self.assertEqual(put(store, batch(4)).version, 4)

    def test_a_sync_that_fails(self):
        """Whether the batch is there isn't known, so nothing more goes in; a repeat by its number goes in once."""
        for made in (True, False):
            with self.subTest(made=made):
                self.path = str(self.room / f"{made}.db")
                store = self.fed(3)
                self.planted(store, "COMMIT", of_sqlite("disk I/O error", "SQLITE_IOERR_FSYNC"), made=made)
                for number in (4, 5):
                    with self.assertRaisesRegex(JournalFault, "a sync failed"):
                        put(store, batch(number), producer="feed", sequence=number)
                    self.assertEqual(told(store), Model().upto(3).told())
                store.discard()
                store.close()
                with Store(self.path) as store:
                    self.assertEqual(store.stat().version, 3 + made)
                    self.assertEqual(put(store, batch(4), producer="feed", sequence=4).version, 4)
                    self.assertEqual(told(store), Model().upto(4).told())

    def test_pages_that_the_disk_doesn_t_take_back(self):
        """As where a sync fails amid it, which SQLite doesn't say then: a compaction ends nevertheless."""
        with self.fed(40) as store:
            journal = store._engine._journal
            with mock.patch.object(Journal, "shrink", return_value=False):
                store.file.compact()
                put(store, batch(41))
                store.file.compact(history=0)
            self.assertGreater(journal._free(), 0)
            silent = mock.Mock(wraps=journal.opened)
            silent.execute = lambda words: journal_opened.execute("SELECT 1" if "incremental_vacuum" in words else words)
            journal_opened = journal.opened
            with mock.patch.object(journal, "opened", silent):
                self.assertFalse(journal.shrink())
            while journal.shrink():
                pass
            self.assertEqual(journal._free(), 0)

    def test_a_file_that_is_gone(self):
        for name in ("graph.db", "graph.db-wal"):
            store = self.fed(2)
            os.rename(self.room / name, self.room / "away")
            with self.assertRaisesRegex(NotWritten, "isn't in its place"):
                put(store, batch(3))
            store.discard()
            (self.room / name).touch()
            with self.assertRaisesRegex(NotWritten, "isn't in its place"):
                put(store, batch(3))
            store.discard()
            self.assertEqual(told(store), Model().upto(2).told())
            os.rename(self.room / "away", self.room / name)
            self.assertEqual(put(store, batch(3)).version, 3)
            store.close()
            for it in self.room.glob("graph.db*"):
                it.unlink()

    def test_a_disk_that_is_full_as_the_desk_is_replaced(self):
        """Where the batch goes into a larger desk, or drops names: the one in use stays, with what it has."""
        store = self.opened(endless=True, limits=Limits(vertices=10))
        put(store, [("insert", "k", f"a{it}", f"b{it}", 1, 1) for it in range(5)])
        put(store, [("remove", "k", "a0", "b0", 0, 0)])
        before = told(store)
        failing = self.planted(store, "COMMIT", of_sqlite("database or disk is full", "SQLITE_FULL"))
        for _ in range(2):
            with self.assertRaises(NotWritten):
                put(store, [("insert", "k", "new", "er", 1, 1)])
            self.assertEqual((told(store), store.discard()), (before, 1))
        failing.is_on = False
        put(store, [("insert", "k", "new", "er", 1, 1)])
        after = told(store)
        self.assertEqual((after[0], len(after[1]), after[2][-2:], self.rows("SELECT version FROM batches WHERE drops")),
                         (3, 5, ["new", "er"], [(3,)]))
        store.close()
        with Store(self.path) as store:
            self.assertEqual(told(store), after)

    def test_nobody_sees_what_is_not_on_the_disk(self):
        """While a batch is being synced, sessions get the version before it, and keep it."""
        store, seen, kept = self.fed(2, seats=4), [], []
        journal, engine = store._engine._journal, store._engine

        def asks():
            seen.append((engine.stat().version, *told_of(engine)))
            kept.append(engine.hold(None))

        journal.opened = Watching(journal.opened, asks)
        for number in (3, 4):
            put(store, batch(number))
            self.assertEqual(told(store), Model().upto(number).told())
        edges = [len(Model().upto(it).edges) for it in (2, 3)]
        self.assertEqual(seen, [(2, 2, edges[0]), (3, 3, edges[1])])
        self.assertEqual([(it.number, it.edges(WHOLE).size) for it in kept], [(2, edges[0]), (3, edges[1])])
        journal.opened = journal.opened.inner
        for it in kept:
            it.close()
        self.assertEqual((store.commit().version, store.stat().retired), (5, 0), "what was held is given back")


if __name__ == "__main__":
    unittest.main()
