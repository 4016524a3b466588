"""What a store's file is by small parts, in rows: heads, bases, what a fault of SQLite means, what a broken off call left."""
import contextlib
import datetime
import json
import os
import shutil
import sqlite3
import unittest
from unittest import mock

from journaled import JournalCase, Model, batch, of_sqlite, put, told
from support import kill, row

from misteluk import Columns, Limits, Store, StoreError, Units, survey
from misteluk.engine.protocol import WHOLE
from misteluk.engine.waiting import WaitingEngine
from misteluk.errors import JournalFault, NotWritten, OverLimit
from misteluk.feeds.steps import FeedMark, FeedPlace
from misteluk.journal import checking, compaction, journal, tables
from misteluk.journal.checking import check
from misteluk.journal.logs import log
from misteluk.journal.replica import begun, read_added, told_added, told_base
from misteluk.journal.tables import Head

DAY = 86_400 * 10**9


class Opened(JournalCase):
    def changed(self, words, *values):
        """The file as another program leaves it."""
        with contextlib.closing(sqlite3.connect(self.path)) as opened:
            opened.execute(words, values)
            opened.commit()

    def test_a_file_without_a_batch(self):
        self.opened().close()
        for call in (lambda: Store.at(self.path, version=0), lambda: Store.at(self.path, time="2999-01-01")):
            with call() as then:
                self.assertEqual(then.stat().version, 0)
        self.assertEqual((check(self.path), list(log(self.path))), ((0, 0, 0, 0, []), []))
        with self.opened() as store:
            self.assertEqual((store.file.kept.oldest, row(store.file.recovered)), (0, (0, 0, 0, 0)))

    def test_what_was_replayed(self):
        self.fed(30).close()
        with Store(self.path) as store:
            self.assertEqual(row(store.file.recovered), (30, 0, 30, 30 * 40 + 1))
            self.assertEqual(store.file.path, os.path.realpath(self.path))

    def test_heads_that_are_not_the_batches(self):
        """Each has its seal, and so only the batches tell."""
        self.fed(3).close()
        (second,), (third,) = self.rows("SELECT sum FROM batches WHERE version IN (2, 3) ORDER BY version")
        for version, found, why in ((2, second, "there are batches behind version 2"), (3, second, "the head has another sum"),
                                    (4, third, "the versions from 4 on are missing, and 4 is the last one")):
            head = Head(version, 7, found)
            self.changed("UPDATE head SET version=?, epoch=?, sum=?, seal=?", *head, head.seal)
            with self.assertRaisesRegex(JournalFault, why) as caught:
                Store(self.path)
            self.assertEqual(caught.exception.whole, min(version, 3))
            self.assertRegex(check(self.path).faults[0], why)
        head = Head(3, 7, third)
        self.changed("UPDATE head SET version=?, epoch=?, sum=?, seal=?", *head, head.seal)
        with Store(self.path) as store:
            self.assertEqual(told(store), Model().upto(3).told())

    def test_a_batch_that_is_missing(self):
        self.fed(3).close()
        self.changed("DELETE FROM batches WHERE version=2")
        with self.assertRaisesRegex(JournalFault, "version 2 is missing, where 3 is there") as caught:
            Store(self.path)
        self.assertEqual(caught.exception.whole, 1)

    def test_damaged_bases(self):
        """The other one is taken, whatever is damaged of the newest."""
        with self.fed(4) as store:
            store.file.compact()
            put(store, batch(5))
            store.file.compact()
        shutil.copy(self.path, self.room / "whole")
        for words in ("UPDATE columns SET data=5 WHERE version=5 AND name='weights'", "UPDATE bases SET at=at+1 WHERE version=5",
                      "UPDATE bases SET sum='x' WHERE version=5", "UPDATE bases SET vertices='x' WHERE version=5",
                      "DELETE FROM columns WHERE version=5 AND name='texts'",
                      "UPDATE columns SET name='x' WHERE version=5 AND name='kinds'"):
            shutil.copy(self.room / "whole", self.path)
            self.changed(words)
            with Store(self.path) as store:
                self.assertEqual((store.file.recovered.base, told(store)), (4, Model().upto(5).told()), words)
                self.assertEqual(check(self.path).faults, ["the base of version 5 isn't as it was written"])

    def test_an_opening_that_fails_leaves_nothing(self):
        """Neither the lock nor an engine, also where the error with its trace is kept."""
        self.opened(limits=Limits(weight=10)).close()
        with self.opened() as store:
            put(store, batch(1)[:3])
        kept = []
        for call, count in ((lambda: Store(self.path, limits=Limits(weight=5)), 0), (lambda: Store.at(self.path, version=9), 1),
                            (lambda: Store(self.path, limits=Limits(vertices=1, weight=10)), 1)):
            with mock.patch.object(WaitingEngine, "close", autospec=True, side_effect=WaitingEngine.close) as closed:
                try:
                    call()
                except (ValueError, OverLimit) as fault:
                    kept.append(fault)
            self.assertEqual(closed.call_count, count)
            Store(self.path).close()
        self.assertEqual(len(kept), 3)

    def test_a_text_is_written_once(self):
        for _ in range(2):
            with self.opened() as store:
                for _ in range(2):
                    store.add("k", "Анна", "b")
                    store.commit()
        with self.opened() as store:  # (a table of its own has them too)
            store.add("k", "Ж Ж", "b")
            store.commit()
            store.load(survey([("Анна", "b"), ("Ж Ж", "b"), ("Э Э", "b")], by="add"), by="add")
        *before, one, last = [it for it, in self.rows("SELECT texts FROM batches ORDER BY version")]
        self.assertEqual([it is None for it in before], [False, True, True, True])
        self.assertEqual([list(json.loads(it).values()) for it in (one, last)], [["Ж Ж"], ["Э Э"]])

    def test_names_of_a_survey_made_apart(self):
        """Whose table has texts of its own, beside those that the store has by then."""
        path = self.file("rows.csv", "from,to\nИванов Пётр,b\nЖ Ж,c\n")
        with Store(self.path) as store:
            store.insert("k", "Анна", "b")
            store.commit()
            store.load(survey(path, by="add", columns=Columns("from", "to")), by="add")
        names = {"Анна", "Иванов Пётр", "Ж Ж"}
        for more in ("Д Д", "Э Э"):
            with Store(self.path) as store:
                with store.open() as session:
                    self.assertEqual({it[1] for it in session.edges()}, names)
                store.insert("k", more, "b")
                store.commit()
            names.add(more)

    def test_how_far_feeds_are_in(self):
        """By the batches, and by a base."""
        told = FeedMark("/a.csv", (1, 2), 0, turn=3).written(FeedPlace(done=5))
        with self.opened() as store:
            store.insert("k", "a", "b")
            store._ledger.commit(True, 10, told)
            self.assertEqual(store._engine.feeds, {"3 /a.csv": told})
        for _ in range(2):
            with self.opened() as store:
                self.assertEqual(store._engine.feeds, {"3 /a.csv": told})
                store.file.compact()
        self.assertEqual((store.file.recovered.base, self.rows("SELECT feed FROM batches")), (1, [(told,)]))

    def test_limits_are_kept(self):
        """Those that were said last, also where nothing was committed."""
        for said, vertices in ((None, None), (Limits(vertices=50), 50), (None, 50), (Limits(vertices=60, kinds=3), 60),
                               (None, 60)):
            with Store(self.path, **({} if said is None else {"limits": said})) as store:
                self.assertEqual((store._engine.limits.vertices, store._engine.settings.vertices), (vertices, vertices))
        self.assertEqual((store._engine.settings.kinds, store._engine.settings.batches), (3, None))

    def test_units_are_kept(self):
        with Store(self.path) as store:
            store.load([("a", "b", "1.50", 1)], by="set", units=Units(weight_scale=100))
        with Store(self.path) as store:
            self.assertEqual(store.units.weight_scale, 100)
        with Store.at(self.path, version=1) as then:
            self.assertEqual((then.units.weight_scale, str(next(iter(then.open().edges()))[3].weight)), (100, "1.50"))


    def test_what_a_server_s_replica_is_told(self):
        """Batches and bases as JSON, from which the same graph comes; nothing where a loss of power may take it back."""
        store = self.opened(sync="full")
        for number in range(1, 6):
            put(store, batch(number), producer="feed", sequence=number)
        engine = store._engine
        added = read_added(json.loads(json.dumps(told_added(engine, 2))))
        self.assertEqual((added.rows, added.newest, added.settings), (engine.some_rows(2, 5), 5, engine.settings))
        self.assertEqual([it.version for it in added.rows], [3, 4, 5])
        self.assertEqual((told_added(engine, 5)["rows"], told_base(engine)["base"]), ([], None))
        store.file.compact()
        state, settings = begun(json.loads(json.dumps(told_base(engine))), 2)
        with contextlib.closing(state.engine), contextlib.closing(state.engine.hold(None)) as held:
            self.assertEqual((held.number, held.edges(WHOLE).size, settings), (5, len(Model().upto(5).edges), engine.settings))
            self.assertEqual((held.names(), state.sources), (list(Model().upto(5).names), engine.state.sources))
        engine._journal.sync = "normal"
        for call in (told_base, lambda it: told_added(it, 1)):
            self.assertRaisesRegex(JournalFault, "sync=normal", call, engine)


class Faults(JournalCase):
    def test_what_a_fault_means(self):
        """That nothing is written; or that whether it was isn't known, and this writer takes nothing more."""
        syncs = "a sync failed"
        for at, (fault, error, why) in enumerate((
                (of_sqlite("disk I/O error", "SQLITE_IOERR_WRITE"), NotWritten, "disk I/O error. Nothing is written"),
                (of_sqlite("database is locked", None), NotWritten, "database is locked. Nothing is written"),
                (of_sqlite("disk I/O error", "SQLITE_IOERR_FSYNC"), JournalFault, syncs),
                (of_sqlite("disk I/O error", "SQLITE_IOERR_DIR_FSYNC"), JournalFault, syncs),
                (of_sqlite("disk I/O error", None), JournalFault, syncs),
                (sqlite3.DatabaseError("database disk image is malformed"), JournalFault, "isn't as it was written: SQLite"))):
            self.path = str(self.room / f"{at}.db")
            store = self.fed(2)
            opened = store._engine._journal.opened
            failing = mock.Mock(wraps=opened, in_transaction=False)
            failing.execute.side_effect = lambda words, *given: self.raised(fault) if words == "COMMIT" else opened.execute(
                words, *given)
            store._engine._journal.opened = failing
            with self.assertRaisesRegex(error, why):
                put(store, batch(3))
            self.assertEqual(store._engine.has_ended, error is JournalFault)
            opened.execute("ROLLBACK")
            store.discard()
            store._engine._journal.opened = opened
            self.assertEqual(told(store), Model().upto(2).told())
            if error is NotWritten:
                self.assertEqual(put(store, batch(3)).version, 3)
            else:
                self.assertRaisesRegex(JournalFault, why, put, store, batch(3))
                store.discard()

    @staticmethod
    def raised(fault):
        raise fault

    def test_a_batch_that_an_interrupt_broke_off(self):
        """The file says whether it is in: one that was written is, with what came with it, and one that wasn't isn't."""
        for of, name, is_in in ((WaitingEngine, "finish", True), (WaitingEngine, "begin", False)):
            self.path = str(self.room / f"{name}.db")
            store = self.fed(2)
            with mock.patch.object(of, name, side_effect=KeyboardInterrupt), self.assertRaises(KeyboardInterrupt):
                put(store, [("insert", "k", "Анна", "b", 1, 1)], producer="other", sequence=7)
            self.assertEqual((store.discard(), store.pending, store._engine.has_ended), (0, 1, False))  # (it is on its way)
            done = store.commit()
            self.assertEqual((done.version, done.inserted, store.stat().edges), (3, 1, len(Model().upto(2).edges) + 1))
            self.assertEqual((store.file.last_sequence("other"), store.pending), (7 if is_in else None, 0))
            store.close()
            self.assertEqual(check(self.path).faults, [])
            with Store(self.path) as store, store.open() as session:
                self.assertEqual((session.edge("k", "Анна", "b").weight, session.version), (1, 3))

    def test_what_is_told_behind_an_interrupt(self):
        """The version that a session has then: who reads the one before would load the same again."""
        for name, is_in in (("finish", True), ("begin", False)):
            self.path = str(self.room / f"{name}.db")
            store = self.fed(2)
            with mock.patch.object(WaitingEngine, name, side_effect=KeyboardInterrupt), self.assertRaises(KeyboardInterrupt):
                store.load([("x", "y", 1, 1)], by="set")
            told_by, wanted = store.stat(), 2 + is_in
            with store.open() as session:
                self.assertEqual((told_by.version, session.version, session.has_vertex("x")), (wanted, wanted, is_in))
            self.assertEqual(told_by.edges, len(Model().upto(2).edges) + is_in)
            with mock.patch.object(WaitingEngine, name, side_effect=KeyboardInterrupt), self.assertRaises(KeyboardInterrupt):
                store.load([("x", "z", 1, 1)], by="set")
            kill(store)
            self.assertRaisesRegex(StoreError, "the store is closed", store.stat)

    def test_pages_are_given_back(self):
        """By steps, behind each of which those who commit have their turn."""
        store, shrink = self.fed(12), journal.Journal.shrink
        store.file.compact()
        put(store, batch(13))
        with mock.patch.object(journal, "AT_ONCE", 1), mock.patch("time.sleep") as rested, \
                mock.patch.object(compaction, "_step", wraps=compaction._step) as stepped, \
                mock.patch.object(journal.Journal, "shrink", autospec=True, side_effect=shrink) as shrunk:
            store.file.compact(history=0)
        self.assertEqual(self.rows("PRAGMA freelist_count"), [(0,)])
        self.assertEqual(rested.call_args_list, [mock.call(0.001)] * (stepped.call_count + shrunk.call_count - 1))
        self.assertGreater(shrunk.call_count, 2)

    def test_a_check_beside_the_writer(self):
        """All that it reads is of one moment."""
        store = self.fed(3)

        def read(opened):
            found = tables.read_head(opened)
            put(store, batch(4))
            return found
        with mock.patch.object(checking, "read_head", read):
            self.assertEqual(check(self.path), (0, 3, 3, 0, []))
        self.assertEqual(check(self.path), (0, 4, 4, 0, []))

    def test_a_log_of_a_damaged_batch(self):
        self.fed(7).close()
        with contextlib.closing(sqlite3.connect(self.path)) as opened:
            opened.execute("UPDATE batches SET records=CAST(replace(records, ',k1,', ',k2,') AS BLOB) WHERE version=5")
            opened.commit()
        with self.assertRaisesRegex(JournalFault, "the batch of version 5") as caught:
            list(log(self.path))
        self.assertEqual(caught.exception.whole, 4)

    def test_a_history_of_days(self):
        """From the base on that isn't newer than what was written so long ago."""
        clock = mock.Mock(side_effect=lambda: self.now)
        with mock.patch("time.time_ns", clock):
            self.now = 0
            store = self.opened()
            for number in range(1, 13):
                self.now = number * DAY
                put(store, batch(number))
                if number % 3 == 0 and number < 12:
                    store.file.compact()
            done = store.file.compact(history=datetime.timedelta(days=4))
        self.assertEqual((done.version, done.oldest, done.dropped), (12, 6, 6))
        self.assertEqual(self.rows("SELECT version FROM bases"), [(6,), (9,), (12,)])


if __name__ == "__main__":
    unittest.main()
