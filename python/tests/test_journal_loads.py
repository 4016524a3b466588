"""A first load into a store's file: the store opens with it, and the file has its batches, all of them or none, whatever comes
between."""
import contextlib
import os
import random
import subprocess
import time
import unittest
from unittest import mock

from forking import Python
from interrupting import places
from journaled import JournalCase, of_sqlite, ran, told
from support import HERE, Case, kill, row
from test_journal_refused import Failing, Watching

from misteluk import Store, Units
from misteluk.engine import openings
from misteluk.engine.waiting import WaitingEngine
from misteluk.errors import JournalFault, NotWritten, ReadOnly
from misteluk.feeds import loading
from misteluk.journal import engine
from misteluk.journal.checking import check
from misteluk.journal.journal import Journal
from misteluk.journal.logs import log

# Of how many rows a batch is one at most here, and how many rows there are: three batches.
SIZE, ROWS = 8_192, 20_000


def some_rows(count=ROWS, names=900):
    """Rows of three kinds: some edges come again, and some names want quotes, or are ids."""
    chance = random.Random(5)
    texts = [f"v{it}" if it % 9 else (f'q"{it},' if it % 2 else f"Имя {it}") for it in range(names)]
    return [(chance.choice(texts), chance.choice(texts), chance.randrange(-9, 90), it, f"k{chance.randrange(3)}")
            for it in range(count)]


def graph_of(rows):
    """The edges that rows leave which are set one after another."""
    edges = {}
    for source, target, weight, at, kind in rows:
        edges[kind, source, target] = (weight, edges.get((kind, source, target), (0, at))[1], at)
    return edges


class LoadCase(JournalCase):
    def setUp(self):
        super().setUp()
        for it in (openings, loading, engine):
            patched = mock.patch.object(it, "MOST_AT_ONCE", SIZE)
            patched.start()
            self.addCleanup(patched.stop)

    def graph(self, store):
        with store.open() as session:
            return {tuple(it[:3]): tuple(it[3]) for it in session.edges()}

    def planted(self, store, *how, **more):
        journal = store._engine._journal
        journal.opened = Failing(journal.opened, *how, **more)
        return journal.opened


class Loads(LoadCase):
    def test_the_file_has_batches(self):
        """As if they had been applied one after another: versions, kinds, names in their order, texts, what a commit tells."""
        rows = some_rows()
        real = WaitingEngine.begin
        with Store() as memory, mock.patch.object(WaitingEngine, "begin", autospec=True, side_effect=real) as begun:
            wanted = memory.load(rows, by="set").commit
            store = self.opened()
            self.assertEqual(store.load(rows, by="set").commit, wanted)
            flights = [it.args[1].batch.opens for it in begun.call_args_list]
            self.assertEqual((flights, told(store), store.kinds()), ([3], told(memory), memory.kinds()))
        self.assertEqual(self.rows("SELECT version, operations FROM batches"), [(1, SIZE), (2, SIZE), (3, ROWS - 2 * SIZE)])
        self.assertEqual(os.path.getsize(f"{self.path}-wal"), 0)
        store.add("k0", "v1", "Новое", 1, 5)
        self.assertEqual(store.commit().version, 4)
        wanted = told(store)
        store.close()
        self.assertEqual(check(self.path)[:4] + (check(self.path).faults,), (0, 4, 4, 0, []))
        with self.opened() as store:
            self.assertEqual((told(store), row(store.file.recovered)), (wanted, (4, 0, 4, ROWS + 1)))
            edges = self.graph(store)
        for version in (1, 2, 3):
            with Store.at(self.path, version=version) as then:
                self.assertEqual(self.graph(then), graph_of(rows[:version * SIZE]))
        self.assertEqual(edges, {**graph_of(rows), ("k0", "v1", "Новое"): (1, 5, 5)})

    def test_a_base_behind_it(self):
        """It has the texts of names that came with the load, also where that was broken off."""
        for is_broken_off in (False, True):
            self.path = str(self.room / f"{is_broken_off}.db")
            with self.opened() as store:
                fault = KeyboardInterrupt if is_broken_off else None
                with mock.patch.object(WaitingEngine, "finish", side_effect=fault, autospec=True) if fault else \
                        contextlib.nullcontext(), contextlib.suppress(KeyboardInterrupt):
                    store.load(some_rows(), by="set")
                self.assertEqual(store.file.compact(history=0).version, 3)
            with self.opened() as store:
                self.assertEqual((store.file.recovered.base, self.graph(store)), (3, graph_of(some_rows())))

    def test_its_log_is_a_script(self):
        rows = [it for it in some_rows() if "Имя" not in it[0] + it[1]]
        with self.opened() as store:
            store.load(rows, by="set")
            self.assertEqual(store.stat().version, -(-len(rows) // SIZE))
            edges, _ = ran(b"".join(log(self.path)))
        self.assertEqual(edges, graph_of(rows))

    def test_units_come_with_it(self):
        with self.opened() as store:
            store.load([(*it[:2], f"{it[2]}.50", *it[3:]) for it in some_rows()], by="set", units=Units(weight_scale=100))
        with Store(self.path) as store:
            self.assertEqual((store.units.weight_scale, store.stat().version), (100, 3))

    def test_what_isn_t_an_opening(self):
        """Where something is there, where it is small, and in a store as of a version: batches, or nothing, as ever."""
        with self.opened() as store, mock.patch.object(Journal, "checkpoint") as opened:
            store.insert("k0", "a", "b")
            store.commit()
            store.load(some_rows(), by="set")
            self.assertEqual((store.stat().version, opened.called), (4, False))
        with Store.at(self.path, version=0) as then:
            self.assertRaises(ReadOnly, then.load, some_rows(), by="set")
            self.assertEqual(then.stat().edges, 0)

    def test_another_thread_is_first(self):
        """What it committed is there, and behind it the load, in batches."""
        with self.opened() as store, mock.patch.object(loading, "may_open", lambda _: True):
            store.insert("k0", "x", "y", 1, 1)
            store.commit()
            store.load(some_rows(), by="set")
            wanted = {**graph_of(some_rows()), ("k0", "x", "y"): (1, 1, 1)}
            self.assertEqual((store.stat().version, self.graph(store)), (4, wanted))
        self.assertEqual(check(self.path).faults, [])


class Broken(LoadCase):
    """A load that can't be written, or whose call is broken off."""

    def test_a_full_disk(self):
        """All is as it was, also for those who held the version; and then the load goes in."""
        store = self.opened()
        session = store.open()
        for words in ("BEGIN", "INSERT", "UPDATE head", "COMMIT"):
            failing = self.planted(store, words, of_sqlite("database or disk is full", "SQLITE_FULL"))
            with self.assertRaisesRegex(NotWritten, "full"):
                store.load(some_rows(), by="set")
            self.assertIsNone(store._engine.inner._ready, "it is given up")
            self.assertEqual((row(store.stat())[:3], session.edge_count, self.rows("SELECT 1 FROM batches")), ((0, 0, 0), 0, []))
            failing.is_on = False
        self.assertEqual((store.load(some_rows(), by="set").commit.version, session.edge_count), (3, 0))
        self.assertEqual(self.graph(store), graph_of(some_rows()))
        store.close()
        self.assertEqual(check(self.path).faults, [])

    def test_a_failed_sync(self):
        """Nothing more goes in; the next opening has all of it or nothing."""
        for made in (True, False):
            self.path = str(self.room / f"{made}.db")
            store = self.opened()
            self.planted(store, "COMMIT", of_sqlite("disk I/O error", "SQLITE_IOERR_FSYNC"), made=made)
            for _ in range(2):
                self.assertRaisesRegex(JournalFault, "a sync failed", store.load, some_rows(), by="set")
                self.assertEqual(store.stat().edges, 0)
            store.close()
            with Store(self.path) as store:
                self.assertEqual(self.graph(store), graph_of(some_rows()) if made else {})

    def test_nobody_sees_what_is_not_on_the_disk(self):
        store, seen, kept = self.opened(seats=4), [], []
        it = store._engine

        def asks():
            kept.append(it.hold(None))
            seen.append((it.stat().version, kept[0].number, kept[0].count))

        it._journal.opened = Watching(it._journal.opened, asks)
        store.load(some_rows(), by="set")
        it._journal.opened = it._journal.opened.inner
        self.assertEqual((seen, self.graph(store), kept[0].count), ([(0, 0, 0)], graph_of(some_rows()), 0))
        kept[0].close()

    def test_a_call_that_is_broken_off(self):
        """The file decides: what it has is in, all of it, with each batch and the texts of names."""
        for name, is_in in (("finish", True), ("begin", False)):
            self.path = str(self.room / f"{name}.db")
            store = self.opened()
            with mock.patch.object(WaitingEngine, name, side_effect=KeyboardInterrupt), self.assertRaises(KeyboardInterrupt):
                store.load(some_rows(), by="set")
            self.assertEqual((store.stat().version, self.graph(store)), (3, graph_of(some_rows())) if is_in else (0, {}))
            store.insert("k0", "a", "b", 1, 1)
            self.assertEqual(store.commit().version, 4 if is_in else 1)
            store.close()
            with Store(self.path) as store:
                self.assertEqual(len(self.graph(store)), len(graph_of(some_rows())) * is_in + 1)
            self.assertEqual(check(self.path).faults, [])


class Scene:
    """An empty store with a file."""

    ROWS = some_rows(9_000, 40)

    def __init__(self, room):
        self.path = str(room / "graph.db")
        for it in room.glob("graph.db*"):
            it.unlink()
        self.store = Store(self.path, sync="off")

    def load(self):
        self.store.load(self.ROWS, by="set", progress=False)

    def is_right(self):
        """Whether all is in or nothing, in the store and in the file."""
        wanted = graph_of(self.ROWS)
        with self.store.open() as session:
            found = {tuple(it[:3]): tuple(it[3]) for it in session.edges()}
            assert found in ({}, wanted) and session.version == (2 if found else 0), (len(found), session.version)
        self.store.close()
        assert check(self.path).faults == []
        with Store(self.path, sync="off") as store, store.open() as session:
            assert {tuple(it[:3]): tuple(it[3]) for it in session.edges()} == found, "the file"

    def end(self):
        kill(self.store)


class Interrupts(Case):
    def test_a_load(self):
        with contextlib.ExitStack() as stack:
            for it in (openings, loading, engine):
                stack.enter_context(mock.patch.object(it, "MOST_AT_ONCE", SIZE))
            self.assertEqual(places(lambda: Scene(self.room), Scene.load, lambda it: it.is_right() or True, 3)[1], [])


class Killed(Case):
    WORDS = """
import sys
from misteluk import Store
store = Store(sys.argv[1])
print("begins", flush=True)
store.load([(f"a{it % 9_973}", f"b{it % 997}", 1, it) for it in range(150_000)], by="set")
print("in", flush=True)
sys.stdin.read()
"""

    def killed(self, path, seconds):
        """What a process said that loads rows into a file, and is killed after so many seconds, or once all is in."""
        with Python(["-c", self.WORDS, path], stdout=subprocess.PIPE, stdin=subprocess.PIPE,
                    env={**os.environ, "PYTHONPATH": str(HERE.parent)}) as process:
            said = process.stdout.readline()
            if seconds is None:
                said += process.stdout.readline()
            else:
                time.sleep(seconds)
            process.kill()
            return said + process.stdout.read()

    def test_a_killed_load(self):
        """Nothing of it is there, or all; and all where that was told."""
        chance, edges = random.Random(3), len({(it % 9_973, it % 997) for it in range(150_000)})
        for seconds in (None, *(chance.uniform(0.2, 1.5) for _ in range(3))):
            path = str(self.room / f"{seconds}.db")
            is_told = b"in\n" in self.killed(path, seconds)
            self.assertEqual(check(path).faults, [])
            with Store(path) as store:
                found = store.stat().version, store.stat().edges
            self.assertIn(found, [(3, edges)] if is_told else [(0, 0), (3, edges)])
            self.assertTrue(is_told or seconds is not None)


if __name__ == "__main__":
    unittest.main()
