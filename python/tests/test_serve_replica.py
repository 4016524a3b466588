"""Replicas: servers that have another one's store, by its file or over HTTP, and go on where either is killed."""
import contextlib
import os
import sqlite3
import time
import unittest
from unittest import mock

from journaled import Model, batch, put, told
from serving import ServeCase
from support import Case

from misteluk import Columns, connect, Store, StoreError, Units
from misteluk.errors import JournalFault, NotWritten, ReadOnly
from misteluk.journal.replica import Added, FirstFile
from misteluk.journal.tables import Settings
from misteluk.serve import log
from misteluk.serve.board import Board
from misteluk.serve.limits import ServerLimits
from misteluk.serve.replica import FirstServer, Replica
from misteluk.serve.server import Server


class BySteps(Case):
    """A replica of a first that the test has."""

    def replica(self, kind=FirstServer, version=5):
        first = mock.Mock(spec=kind)
        first.name, first.begin.return_value = "/x/first", (mock.Mock(version=version, kinds=[], texts={}), Settings())
        with mock.patch("misteluk.serve.replica.first_of", return_value=first):
            return Replica("first")

    def test_what_is_told(self):
        for newest, ahead, fault, told in (
                (7, 0.0, "", {"behind": 2, "seconds": 0.0}), (7, 90.0, "", {"behind": 2, "seconds": 10.123}),
                (5, 101.0, "", {"behind": 0, "seconds": 0.0}), (4, 0.0, "why", {"behind": 0, "seconds": 0.0, "reason": "why"})):
            it = self.replica()
            it._newest, it._ahead, it._fault = newest, ahead, fault
            with mock.patch("time.time", return_value=100.12345):
                self.assertEqual(it.told(), told)

    def test_steps(self):
        """What came is applied and told; since when the first is ahead is known as long as it is."""
        it, board = self.replica(), mock.Mock()
        for rows, newest, version, settings, is_more, ahead in (
                ([], 5, 5, Settings(), False, 0.0), ([mock.Mock(version=6, at=90_000_000)], 7, 6, Settings(), True, 90.0),
                ([mock.Mock(version=7, at=95_000_000)], 7, 7, Settings(), True, 0.0),
                ([], 7, 7, Settings(weight_scale=100), False, 0.0)):
            def take(added):
                it._copy.state.version, it._copy.settings = version, added.settings
            it.first.added.return_value = Added(rows, newest, settings)
            with mock.patch.object(it._copy, "take", side_effect=take) as taken:
                self.assertEqual((it._step(board), it._ahead, it.behind), (is_more, ahead, newest - version))
            self.assertEqual((taken.call_count, it.store._ledger.terms.units.scale),
                             (int(version > 5), settings.weight_scale or 1))
        self.assertEqual(board.advance.call_count, 3)

    def test_a_first_that_can_t_be_read(self):
        """It is logged once, with what led to it where nobody meant it, and what is told has no place of this machine."""
        for fault, is_meant in ((NotWritten("at /x/first: why"), True), (OSError("at /x/first: why"), True),
                                (KeyError("at /x/first: why"), False)):
            it, told = self.replica(), f"/x/first can't be read, and what is there answers: {fault}"
            with mock.patch.object(log, "fault") as logged:
                it._failed(fault)
                it._failed(fault)
            logged.assert_called_once_with(told, None if is_meant else fault, told)
            self.assertEqual(it.fault.strip("'"), "at the first: why")

    def test_its_end(self):
        """A file stays open as long as its thread may read it."""
        for kind, count in ((FirstServer, 1), (FirstFile, 0)):
            it = self.replica(kind)
            with mock.patch.object(it, "_run") as ran:
                it.begin("a board")
                self.assertTrue(it._thread.daemon)
                it.close()
            self.assertEqual((ran.call_args, it.first.close.call_count), (mock.call("a board"), count))
        for is_over, count in ((True, 0), (False, 1)):
            it = self.replica()
            it._over = mock.Mock(**{"is_set.side_effect": [False, is_over, True]})
            with mock.patch.object(it, "_step", side_effect=KeyError), mock.patch.object(log, "fault") as logged:
                it._run("a board")
            self.assertEqual(logged.call_count, count, "what goes wrong at its end is no fault")


class Replicas(ServeCase):
    def setUp(self):
        super().setUp()
        self.path = str(self.room / "graph.db")

    def replica_of(self, name):
        """A replica whose versions a board has, as a server's."""
        replica = Replica(name)
        self.addCleanup(replica.close)
        self.board = Board(replica.store, ServerLimits())
        self.addCleanup(self.board.close)
        replica.begin(self.board)
        return replica

    def comes_to(self, replica, version):
        self.until(lambda: self.board.stat.version >= version)
        self.assertEqual(told(replica.store), Model().upto(version).told())

    def fed(self, store, first, last):
        for number in range(first, last + 1):
            put(store, batch(number), producer="feed", sequence=number)

    def test_of_a_file(self):
        with Store(self.path) as store:
            self.fed(store, 1, 20)
            store.file.compact(history=0)
            self.fed(store, 21, 25)
            replica = self.replica_of(self.path)
            self.comes_to(replica, 25)
            self.fed(store, 26, 60)
            self.comes_to(replica, 60)
            self.assertEqual((replica.told(), self.board.stat.version), ({"behind": 0, "seconds": 0.0}, 60))
            replica.store.insert("k", "a", "b")
            with self.assertRaisesRegex(ReadOnly, "another one's replica"):
                replica.store.commit()
            replica.store.discard()
        with Store(self.path) as store:  # (the first is begun again)
            self.fed(store, 61, 70)
            self.comes_to(replica, 70)

    def falls_behind(self, store, name, advance=lambda: None):
        """A replica of what a store has takes its next step behind batches that only bases of the store have by then. It begins
        anew with that, goes on, and its client has what it held."""
        replica = Replica(name)
        self.addCleanup(replica.close)
        self.board = Board(replica.store, ServerLimits())
        self.addCleanup(self.board.close)
        replica._step(self.board)
        lease = self.board.lease()
        for first, last in ((6, 35), (36, 43)):
            self.fed(store, first, last)
            store.file.compact(history=0)
        self.assertGreater(store.file.kept.oldest, 5)
        seats = replica.store._engine.seats
        for last in (43, 45):
            self.fed(store, store.stat().version + 1, last)
            advance()
            for _ in range(60):
                if self.board.stat.version < last:  # (a server waits where there is nothing more)
                    replica._step(self.board)
            self.assertEqual((told(replica.store), self.board.stat.version), (Model().upto(last).told(), last))
            self.assertEqual(replica.told(), {"behind": 0, "seconds": 0.0})
            self.assertEqual(replica.store.kinds(), Model().upto(last).told()[3])
            self.assertEqual(replica.store._engine.seats, seats)
            with self.board.lent(lease.name) as held:
                self.assertEqual((held.version, len(held.edges())), (5, len(Model().upto(5).edges)))

    def test_one_that_fell_behind_a_file(self):
        with Store(self.path) as store, mock.patch("misteluk.journal.replica.MOST_BATCHES", 10):
            self.fed(store, 1, 5)
            self.falls_behind(store, self.path)

    def test_one_that_fell_behind_a_server(self):
        with Store(self.path, seats=16) as store, mock.patch("misteluk.journal.replica.MOST_BATCHES", 10), \
                Server(store, "127.0.0.1:0") as server:
            self.fed(store, 1, 5)
            server.board.advance()
            self.falls_behind(store, server.url, server.board.advance)

    def test_a_batch_that_is_missing(self):
        """Nothing takes its place where no base is later: it says so, and what it has stays."""
        with Store(self.path) as store:
            self.fed(store, 1, 5)
            replica = Replica(self.path)
            self.addCleanup(replica.close)
            self.fed(store, 6, 9)
            store._engine._journal.opened.execute("DELETE FROM batches WHERE version=6")
            for _ in range(2):
                self.assertRaisesRegex(JournalFault, "version 6 is missing", replica._step, mock.Mock())
            self.assertEqual(told(replica.store), Model().upto(5).told())

    def test_names_and_units(self):
        with Store(self.path) as store:
            replica = self.replica_of(self.path)
            self.file("rows.csv", "from,to,amount,day\nana,Иванов Пётр,1.50,2024-03-04\n")
            store.load(str(self.room / "rows.csv"), by="add", units=Units(weight_scale=100, times="iso"),
                       columns=Columns("from", "to", weight="amount", time="day"))
            self.until(lambda: self.board.stat.version == 1)
            with replica.store.open() as session:
                self.assertEqual([(it[2], str(it[3].weight)) for it in session.edges()], [("Иванов Пётр", "1.50")])

    def test_of_a_server(self):
        """Both are killed in turn, and neither shows anything else than the first batches."""
        with Store(self.path, seats=16) as store:
            self.fed(store, 1, 12)
            store.file.compact(history=0)
            self.fed(store, 13, 15)
            with Server(store, "127.0.0.1:0") as server:
                port = server.address.port
                replica = self.replica_of(server.url)
                self.comes_to(replica, 15)
                self.fed(store, 16, 40)
                server.board.advance()
                self.comes_to(replica, 40)
        self.until(lambda: replica.fault)
        self.assertEqual(told(replica.store), Model().upto(40).told())
        with Store(self.path, seats=16) as store, Server(store, f"127.0.0.1:{port}"):
            self.fed(store, 41, 45)
            self.until(lambda: not replica.fault)
            self.comes_to(replica, 45)

    def test_a_killed_replica_and_a_killed_first(self):
        socket, other = (f"unix:{self.room / it}" for it in ("first", "second"))
        first = self.begun(self.path, "--listen", socket)
        second = self.begun("--replica-of", self.path, "--listen", other)
        sent = 0
        for turn in range(3):
            with connect(socket) as store:
                for _ in range(5):
                    sent += 1
                    store.add("k", f"a{sent}", "b")
                    store.commit()
            killed = first if turn % 2 else second
            killed.kill()
            killed.wait()
            if turn % 2:
                first = self.begun(self.path, "--listen", socket)
            else:
                second = self.begun("--replica-of", self.path, "--listen", other)
            with connect(other) as store:
                self.until(lambda: store.stat().version == sent)
                with store.open() as session:
                    self.assertEqual({it[1] for it in session.edges()}, {f"a{it}" for it in range(1, sent + 1)})

    def begun(self, *words):
        server = self.command(*words)
        said = server.stdout.readline()
        self.assertIn("serves", said, said or server.stderr.read())
        return server

    def until(self, is_so):
        end = time.monotonic() + 60
        while not is_so() and time.monotonic() < end:
            time.sleep(0.05)
        self.assertTrue(is_so())

    def test_what_it_can_t_have(self):
        """A file that isn't what it was: it says so, and answers on; a server that may lose what it has gives nothing."""
        with Store(self.path, sync="normal", seats=16) as store:
            self.fed(store, 1, 3)
            with Server(store, "127.0.0.1:0") as server, self.assertRaisesRegex(StoreError, "sync=normal"):
                Replica(server.url)
            replica = self.replica_of(self.path)
            self.comes_to(replica, 3)
        with contextlib.closing(sqlite3.connect(self.path)) as opened:
            opened.execute("UPDATE head SET version=2")
            opened.commit()
        self.until(lambda: "isn't as it was written" in replica.fault)
        self.assertEqual(told(replica.store), Model().upto(3).told())
        self.assertIn("all that a replica is made of", self.command("--replica-of", self.path, "--sync", "off").communicate()[1])

    def test_what_is_read_is_synced(self):
        with Store(self.path) as store:
            self.fed(store, 1, 2)
            first = FirstFile(self.path)
            self.addCleanup(first.close)
            state, _ = first.begin(1)
            state.engine.close()
            self.fed(store, 3, 4)
            synced = []
            with mock.patch.object(os, "fsync", lambda file: synced.append(os.readlink(f"/proc/self/fd/{file}"))):
                self.assertEqual([it.version for it in first.added(2).rows], [3, 4])
            self.assertEqual(sorted(map(os.path.basename, synced)), ["graph.db", "graph.db-wal"])


if __name__ == "__main__":
    unittest.main()
