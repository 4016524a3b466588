"""A store that has a file: what is committed is there after a restart, each batch of a producer once."""
import contextlib
import datetime
import os
import sqlite3
import subprocess
import sys
import threading
import unittest
from unittest import mock

from journaled import JournalCase, Model, batch, put, ran, told
from support import HERE, row

from misteluk import Columns, Limits, Store, StoreError, Units
from misteluk.errors import JournalFault, Locked, NamesFull, NotWritten, ReadOnly, SequenceTaken
from misteluk.journal import beside, compaction, engine
from misteluk.journal.checking import check
from misteluk.journal.compaction import write_base
from misteluk.journal.journal import Journal
from misteluk.journal.logs import log


class Reopened(JournalCase):
    def test_what_was_committed_is_there(self):
        self.fed(35).close()
        model = Model().upto(35)
        with Store(self.path) as store:
            self.assertEqual(told(store), model.told())
            put(store, batch(36))
            self.assertEqual(told(store), model.upto(36).told())
        with Store(self.path) as store:
            self.assertEqual(told(store), model.told())
        self.assertEqual(sorted(os.listdir(self.room)), ["graph.db", "graph.db-lock"])

    def test_names_units_and_times(self):
        with Store(self.path, units=Units(weight_scale=100, times="iso")) as store:
            store.add("Überweisung", "ana", "Иванов Пётр", "0.10", "2024-03-04")
            store.commit()
        with Store(self.path) as store, store.open() as session:
            edge = session.edge("Überweisung", "ana", "Иванов Пётр")
            self.assertEqual((str(edge.weight), edge.first.isoformat()), ("0.10", "2024-03-04T00:00:00+00:00"))
            self.assertEqual((store.kinds(), store.units.weight_scale, store.units.times), (["Überweisung"], 100, "iso"))
        with Store(self.path, units=Units(decimals="float")) as store, store.open() as session:
            self.assertEqual(session.edge("Überweisung", "ana", "Иванов Пётр").weight, 0.1)
        for said in ({"units": Units(weight_scale=10)}, {"units": Units(times="number")}):
            with self.assertRaisesRegex(ValueError, "is said"):
                Store(self.path, **said)

    def test_units_and_names_of_a_load(self):
        self.file("rows.csv", "from,to,amount,day\nana,Иванов Пётр,1.50,2024-03-04\n")
        with Store(self.path) as store:
            store.load(str(self.room / "rows.csv"), by="add", units=Units(weight_scale=100, times="iso"),
                       columns=Columns("from", "to", weight="amount", time="day"))
        with Store(self.path) as store, store.open() as session:
            self.assertEqual([(it[2], str(it[3].weight)) for it in session.edges()], [("Иванов Пётр", "1.50")])

    def test_a_load_of_many_rows(self):
        rows = [(f"a{it % 700}", f"b{it % 911}", it % 50, it) for it in range(30_000)]
        with Store(self.path) as store:
            store.load([(source, target, weight, time, "k") for source, target, weight, time in rows], by="add")
            before = told(store)
        with Store(self.path) as store:
            self.assertEqual(told(store), before)
        self.assertEqual(len(before[1]), len({it[:2] for it in rows}))

    def test_versions_of_an_empty_store(self):
        with Store(self.path) as store:
            self.assertEqual([store.commit().version, store.commit().version], [1, 2])
        with Store(self.path) as store:
            self.assertEqual((store.stat().version, store.commit().version), (2, 3))
            store.file.compact()
        self.assertEqual(check(self.path).faults, [])
        with Store(self.path) as store:
            self.assertEqual((row(store.file.recovered), store.commit().version), ((3, 3, 0, 0), 4))

    def test_a_renewal_and_a_rebase_keep_numbers(self):
        store = self.fed(5)
        self.assertEqual(store.compact().version, 5)
        with store.open() as session:
            self.assertEqual(store.compact(session).version, 5)
        self.assertEqual(told(store), Model().upto(5).told())
        old = store.open()
        put(store, batch(6))
        with self.assertRaisesRegex(StoreError, "older version"):
            store.compact(old)
        self.assertEqual(told(store), Model().upto(6).told())
        store.close()
        with Store(self.path) as store:
            self.assertEqual(told(store), Model().upto(6).told())

    def test_a_store_without_a_file(self):
        with self.store() as store:
            for call in (lambda: store.commit(producer="a", sequence=1), lambda: store.file):
                with self.assertRaisesRegex(StoreError, "has no file"):
                    call()


class AsOf(JournalCase):
    def test_each_version(self):
        with self.fed(12) as store:
            for number in (0, 1, 7, 12):
                with Store.at(self.path, version=number) as then:
                    self.assertEqual(told(then), Model().upto(number).told())
            store.file.compact()
            with Store.at(self.path, version=11) as then:
                self.assertEqual(told(then), Model().upto(11).told())
            for number in (-1, 13):
                with self.assertRaisesRegex(ValueError, "the file has 0 to 12"):
                    Store.at(self.path, version=number)

    def test_it_is_only_read(self):
        self.fed(2).close()
        before = (self.room / "graph.db").read_bytes()
        then = Store.at(self.path, version=2)
        self.addCleanup(self.let_go, then)
        then.insert("k", "a", "b")
        for call in (then.commit, then.compact, lambda: then.compact(then.open())):
            with self.assertRaises(ReadOnly):
                call()
        self.assertEqual((self.room / "graph.db").read_bytes(), before)

    def test_a_time(self):
        clock = mock.Mock(side_effect=[int(it * 1e9) for it in (1e9, 1e9 + 86_400, 1e9 + 50, 1e9 + 2 * 86_400)])
        with mock.patch("misteluk.journal.journal.time.time_ns", clock), self.fed(4):
            pass
        # (the clock of version 3 went back: it is as late as the one before)
        told_at = {"2001-09-08": 0, "2001-09-09": 1, "2001-09-10 01:46:39": 1, "2001-09-10 01:46:40": 3, "2001-09-11": 4,
                   int(1e15): 1, int(1e15) - 1: 0}
        for when, version in told_at.items():
            with Store.at(self.path, time=when) as then:
                self.assertEqual((when, then.stat().version), (when, version))

    def test_what_is_said_wrong(self):
        self.fed(1).close()
        for said in ({}, {"version": 1, "time": 5}):
            with self.assertRaisesRegex(ValueError, "one of the two"):
                Store.at(self.path, **said)
        with self.assertRaises(FileNotFoundError):
            Store.at(self.path + "x", version=1)


class Once(JournalCase):
    def test_a_repeat_gets_the_first_answer(self):
        store = self.opened()
        first = put(store, batch(1), producer="a", sequence=1)
        self.assertEqual(put(store, batch(2), producer="b", sequence=1).version, 2)
        self.assertEqual(put(store, batch(1), producer="a", sequence=1), first)
        self.assertEqual((store.pending, store.stat().version), (0, 2))
        store.close()
        for _ in range(2):  # (by the batches, and by a base)
            with Store(self.path) as store:
                self.assertEqual(put(store, batch(1), producer="a", sequence=1), first)
                self.assertEqual(store.commit(producer="a", sequence=1), first)
                self.assertEqual(list(map(store.file.last_sequence, "abc")), [1, 1, None])
                self.assertEqual((store.stat().version, told(store)[1]), (2, Model().upto(2).edges))
                store.file.compact(history=0)

    def test_another_batch_by_a_number(self):
        store = self.opened()
        put(store, batch(1), producer="a", sequence=5)
        for sequence, why in ((5, "another batch"), (4, "isn't known any more")):
            with self.assertRaisesRegex(SequenceTaken, why) as caught:
                put(store, batch(2), producer="a", sequence=sequence)
            self.assertEqual((caught.exception.last, store.discard(), store.stat().version), (5, 41 - 1, 1))
        self.assertEqual(put(store, batch(2), producer="a", sequence=9).version, 2)

    def test_a_refused_batch_may_be_sent_again(self):
        store = self.opened(limits=Limits(vertices=2))
        for _ in range(2):
            store.insert("k", "a", "b")
            store.insert("k", "a", "c")
            with self.assertRaises(NamesFull):
                store.commit(producer="a", sequence=1)
            store.discard()
        store.insert("k", "a", "b")
        self.assertEqual(store.commit(producer="a", sequence=1).version, 1)

    def test_what_is_said_wrong(self):
        store = self.opened()
        for said in ({"producer": "a"}, {"sequence": 1}, {"producer": "", "sequence": 1}, {"producer": "a", "sequence": -1},
                     {"producer": "a", "sequence": 1 << 63}):
            with self.assertRaises(ValueError):
                store.commit(**said)
        self.assertEqual(store.stat().version, 0)


class Writers(JournalCase):
    def test_a_second_writer_is_refused_by_name(self):
        with self.fed(1):
            with self.assertRaisesRegex(Locked, f"is written by process {os.getpid()} "):
                Store(self.path)
            words = "import sys; from misteluk import Store; Store(sys.argv[1])"
            done = subprocess.run([sys.executable, "-c", words, self.path], stderr=subprocess.PIPE, text=True,
                                  env={**os.environ, "PYTHONPATH": str(HERE.parent)})
            self.assertIn(f"Locked: {os.path.realpath(self.path)} is written by process {os.getpid()}", done.stderr)
        Store(self.path).close()

    def test_a_writer_whose_lock_was_removed(self):
        """Its next batch is refused, since the other one became the writer."""
        first = self.fed(1)
        (self.room / "graph.db-lock").unlink()
        second = self.opened()
        put(second, batch(2))
        for _ in range(2):
            with self.assertRaisesRegex(Locked, "became the writer"):
                put(first, batch(3))
        first.discard()
        self.assertEqual(told(second), Model().upto(2).told())

    def test_another_program_s_database(self):
        with contextlib.closing(sqlite3.connect(self.path)) as opened:
            opened.execute("CREATE TABLE orders(id)")
            opened.commit()
        before = (self.room / "graph.db").read_bytes()
        for call in (lambda: Store(self.path), lambda: Store.at(self.path, version=0), lambda: check(self.path)):
            with self.assertRaisesRegex(JournalFault, "another program's database"):
                call()
        self.assertEqual((self.room / "graph.db").read_bytes(), before)
        self.path = self.file("text.db", "no database at all\n" * 100)
        with self.assertRaisesRegex(JournalFault, "text.db is no store's file, .* Rows are loaded by Store.load, and what"):
            Store(self.path)

    def test_a_later_form(self):
        self.fed(1).close()
        with contextlib.closing(sqlite3.connect(self.path)) as opened:
            opened.execute("UPDATE meta SET value=3 WHERE name='form'")
            opened.commit()
        with self.assertRaisesRegex(JournalFault, "form 3"):
            Store(self.path)

    def test_where_there_can_be_no_file(self):
        with self.assertRaises(IsADirectoryError):
            Store(self.room)
        with self.assertRaises(FileNotFoundError):
            Store(self.room / "none" / "graph.db")
        with self.assertRaisesRegex(ValueError, "sync is"):
            Store(self.path, sync="yes")
        self.assertEqual(os.listdir(self.room), [])


class Tables(JournalCase):
    def test_the_log_is_what_stinger_run_takes(self):
        with self.fed(35):
            script = b"".join(log(self.path))
            since = b"".join(log(self.path, since=30))
            self.assertTrue(script.endswith(since) and since.count(b"\ncommit\n") == 5)
            model = Model().upto(35)
            self.assertEqual(ran(script), (model.edges, list(model.names)))
            self.assertEqual(self.rows("SELECT version, operations FROM batches WHERE version>28"),
                             [(29, 41), *((it, 40) for it in range(30, 36))])

    def test_the_log_of_what_is_left(self):
        with self.fed(20) as store:
            store.file.compact()
            put(store, batch(21))
            self.assertEqual(store.file.compact(history=1).oldest, 20)
            put(store, batch(22))
            model = Model().upto(22)
            edges, names = ran(b"".join(log(self.path)))
            self.assertEqual((edges, names), (model.edges, list(model.names)))
            with self.assertRaisesRegex(ValueError, "the file has 20 to 22"):
                next(log(self.path, since=19))

    def test_a_large_batch_in_the_log(self):
        rows = [("insert", "k", f"a{it}", f"b{it % 7}", it, it) for it in range(9_000)]
        with self.opened() as store:
            store.load([(source, target, weight, time, kind) for _, kind, source, target, weight, time in rows], by="set")
            self.assertEqual(store.stat().version, 1)
            script = b"".join(log(self.path))
        self.assertEqual(script.count(b"commit\n"), 3)
        self.assertEqual(len(ran(script)[0]), 9_000)

    def test_compaction(self):
        store = self.fed(10)
        done = store.file.compact()
        self.assertEqual((done.version, done.oldest, done.dropped), (10, 0, 0))
        for number in range(11, 21):
            put(store, batch(number), producer="feed", sequence=number)
        self.assertEqual(row(store.file.compact(history=4))[2:], (10, 10))
        self.assertEqual(self.rows("SELECT version FROM bases"), [(10,), (20,)])
        self.assertEqual(self.rows("SELECT min(version), max(version) FROM batches"), [(11, 20)])
        for number in range(21, 31):
            put(store, batch(number), producer="feed", sequence=number)
        self.assertEqual(row(store.file.compact(history=datetime.timedelta(0)))[2:], (20, 10))
        self.assertEqual(self.rows("SELECT DISTINCT version FROM columns"), [(20,), (30,)])
        self.assertEqual(check(self.path)[:4], (20, 30, 10, 2))
        self.assertEqual(store.file.last_sequence("feed"), 30)
        store.close()
        with Store(self.path) as store:
            self.assertEqual((store.file.recovered.base, told(store)), (30, Model().upto(30).told()))

    def compacted(self, **options):
        """A store that was fed with 60 batches, and was compacted by itself as soon as that was due."""
        with mock.patch.object(beside, "LEAST_OPERATIONS", 400), mock.patch.object(beside, "LEAST_SECONDS", 0.0):
            store = self.opened(**options)
            for number in range(store.stat().version + 1, 61):
                put(store, batch(number), producer="feed", sequence=number)
                store._engine.beside.join()
        return store

    def test_compaction_by_itself(self):
        """A base for at least so many operations as there are edges; what is older than the history is gone."""
        store = self.compacted(history=25)
        bases = [it for it, in self.rows("SELECT version FROM bases ORDER BY 1")]
        kept = store.file.kept
        self.assertEqual((len(bases), kept.newest, kept.fault, kept.compacted.version), (2, 60, None, bases[-1]))
        self.assertEqual((kept.oldest, bases[0] <= 35), (bases[0], True))
        self.assertGreater(bases[1] - bases[0], Model().upto(bases[0]).told()[0] and len(Model().upto(bases[0]).edges) // 41 - 2)
        self.assertEqual(kept.bytes, sum((self.room / it).stat().st_size for it in ("graph.db", "graph.db-wal")))
        store.close()
        self.assertEqual(check(self.path)[::4], (bases[0], []))
        with Store(self.path) as store:
            self.assertEqual((store.file.recovered.base, told(store)), (bases[1], Model().upto(60).told()))
        with Store.at(self.path, version=35) as then:
            self.assertEqual(told(then), Model().upto(35).told())

    def test_a_history_of_some_time(self):
        store = self.compacted(history=datetime.timedelta(0))
        self.assertEqual(len(self.rows("SELECT version FROM bases")), 2)
        self.assertGreaterEqual(store.file.kept.oldest, 58)
        self.assertEqual(told(store), Model().upto(60).told())

    def test_all_is_kept(self):
        store = self.compacted()
        self.assertEqual((store.file.kept.oldest, self.rows("SELECT count(*) FROM batches")), (0, [(60,)]))
        self.assertLessEqual(len(self.rows("SELECT version FROM bases")), 2)

    def test_a_compaction_that_fails_or_is_broken_off(self):
        """It is told, and tried again when the next one is due; commits go on. One that a closing store breaks off leaves
        nothing."""
        with mock.patch.object(engine, "write_base", side_effect=NotWritten("the disk is full")), \
                self.assertLogs("misteluk.journal", "WARNING"):
            store = self.compacted()
        self.assertEqual((str(store.file.kept.fault), store.stat().version), ("the disk is full", 60))
        store.close()
        real = compaction._step

        def step(journal, *statements):
            journal.is_closed = journal.is_closed or "INSERT" in statements[0][0]
            real(journal, *statements)
        with Store(self.path) as store, mock.patch.object(compaction, "_step", step):
            store._engine.beside.grew(beside.LEAST_OPERATIONS)
            store._engine.beside.join()
        with Store(self.path) as store:
            self.assertEqual((self.rows("SELECT * FROM bases"), self.rows("SELECT id FROM columns")), ([], []))
            self.assertEqual(told(store), Model().upto(60).told())

    def test_what_is_no_history(self):
        for said in (-1, 1.5, "often", datetime.timedelta(-1)):
            with self.assertRaisesRegex(ValueError, "a history is"):
                Store(self.path, history=said)

    def test_a_commit_amid_a_step_of_a_compaction(self):
        """The step writes no head back that isn't the last one any more."""
        store = self.fed(3)
        journal, real = store._engine._journal, Journal.settle
        feeder = threading.Thread(target=lambda: put(store, batch(4)))

        def settle(self):
            found = real(self)
            if threading.current_thread() is not feeder and feeder.ident is None:
                feeder.start()
                feeder.join(0.5)
            return found
        with mock.patch.object(Journal, "settle", settle):
            journal.run(("DELETE FROM columns WHERE version=0", ()))
            feeder.join()
        self.assertEqual(told(store), Model().upto(4).told())
        self.assertEqual(check(self.path).faults, [])

    def test_the_other_base_where_one_is_damaged(self):
        with self.fed(4) as store:
            store.file.compact()
            put(store, batch(5))
            store.file.compact(history=0)
            put(store, batch(6))
        with contextlib.closing(sqlite3.connect(self.path)) as opened:
            opened.execute("UPDATE columns SET data=zeroblob(length(data)) WHERE version=5 AND name='weights'")
            opened.commit()
        self.assertEqual(check(self.path).faults, ["the base of version 5 isn't as it was written"])
        with Store(self.path) as store:
            self.assertEqual((store.file.recovered.base, told(store)), (4, Model().upto(6).told()))

    def test_a_base_that_is_of_another_graph(self):
        """Its digest holds, and the replay finds it."""
        with self.fed(4) as store:
            store.file.compact()
        with Store(str(self.room / "other.db")) as other:
            for number in range(2, 6):
                put(other, batch(number), producer="feed", sequence=number)
            held, make, _ = other._engine._frozen()
            with Store(self.path) as store:
                write_base(store._engine._journal, 4, self.rows("SELECT sum FROM batches WHERE version=4")[0][0], make(held))
            held.close()
        self.assertEqual(check(self.path).faults, ["the base of version 4 isn't the graph that the batches before it lead to"])


if __name__ == "__main__":
    unittest.main()
