"""Posts that wait together go in by one write and one sync, each as a batch of its own: what each is answered, where one is
refused, where the write fails, and what is there when the server is killed or the power is lost amid them."""
import http.client
import json
import random
import shutil
import threading
import time
import unittest
from contextlib import closing
from unittest import mock

import crashing
from journaled import JournalCase, of_sqlite
from support import as_soon_as
from test_serve_journal import JournalServed

from misteluk import Limits, Store
from misteluk.engine.library import LibraryEngine
from misteluk.engine.operations import INSERT, REMOVE, Operations, Post
from misteluk.errors import JournalFault, NotWritten
from misteluk.journal.checking import check
from misteluk.serve.limits import ServerLimits
from misteluk.serve.server import Server


def some(number):
    """The operations of a batch: names and edges of their own and shared ones, removals, changes of an edge."""
    chance = random.Random(number)
    rows = [(INSERT, "k", f"a{chance.randrange(9)}", f"b{chance.randrange(9)}", number, number)
            for _ in range(chance.randrange(1, 5))]
    return rows + [(REMOVE, "k", f"a{number % 9}", f"b{number % 7}", 0, 0)] * (number % 3 == 0)


class AtOnce(JournalCase):
    """The engine's own call."""

    def flights(self, store, *batches):
        return [store._engine.flight(it, True) for it in batches]

    def fly(self, store, numbers):
        return store._engine.fly_all(self.flights(store, *(Operations(some(it)) for it in numbers)))

    def writes(self, store):
        """Counts the transactions of a store's file."""
        journal = store._engine._journal
        return mock.patch.object(journal, "_write", wraps=journal._write)

    def test_each_is_a_batch_of_its_own(self):
        with self.opened() as store, Store(str(self.room / "other.db"), sync="off") as other:
            with self.writes(store) as writes:
                done = [it for at in range(0, 60, 6) for it in self.fly(store, range(at, at + 6))]
            self.assertEqual(writes.call_count, 10)
            alone = [other._engine.fly(it) for it in self.flights(other, *(Operations(some(it)) for it in range(60)))]
            self.assertEqual(done, alone)
            self.assertEqual([it.version for it in done], [*range(1, 61)])
            graphs = [self.graph(it) for it in (store, other)]
        self.assertEqual(graphs[0], graphs[1])
        with self.opened() as store:
            self.assertEqual(self.graph(store), graphs[0])
        self.assertEqual(check(self.path).faults, [])

    @staticmethod
    def graph(store):
        with store.open() as session:
            return session.version, session.vertices(), sorted((*it[:3], *it[3]) for it in session.edges())

    def test_which_don_t_go_together(self):
        """Nothing is in then, and nothing is written."""
        with self.opened(limits=Limits(vertices=6, kinds=1)) as store:
            first = self.flights(store, Operations([(INSERT, "k", "a", "b", 1, 1)], post=Post("key", None)))[0]
            store._engine.fly(first)
            good = Operations([(INSERT, "k", "a", "c", 1, 1)])
            for bad in (Operations([(INSERT, "other", "a", "b", 1, 1)]),
                        Operations([(INSERT, "k", f"n{it}", f"m{it}", 1, 1) for it in range(3)]),
                        Operations([(INSERT, "k", "a", "d", 1, 1)], post=Post("key", None)),
                        Operations([(INSERT, "k", "a", "b", 1, 1)], post=Post("key", None)),
                        Operations([(3, "", "", "", 0, 5)])):
                with self.writes(store) as writes:
                    self.assertEqual(store._engine.fly_all(self.flights(store, good, bad)), [])
                self.assertEqual((writes.call_count, store.stat().version, store.stat().edges), (0, 1, 1))
            twice = [Operations([(INSERT, "k", "a", "b", 1, 1)], post=Post("new", None)) for _ in range(2)]
            self.assertEqual(store._engine.fly_all(self.flights(store, *twice)), [])
        self.assertEqual(check(self.path).newest, 1)

    def test_an_endless_store_that_drops_names(self):
        """They go in one after another then: a replay has to drop at the same place."""
        with self.opened(endless=True, limits=Limits(vertices=8, kinds=1)) as store:
            for name in "abcd":
                store.insert("k", name, name.upper())
                store.commit()
            for name in "abc":
                store.remove("k", name, name.upper())
            store.commit()
            self.assertEqual(self.fly(store, [1, 2]), [])
            self.assertEqual(store.stat().version, 5)

    def test_a_write_that_fails(self):
        """None is in: the store is as it was, and goes on after a full disk; after a failed sync nothing goes in any more."""
        for fault, raised, after in ((of_sqlite("database or disk is full", "SQLITE_FULL"), NotWritten, 4),
                                     (of_sqlite("disk I/O error", "SQLITE_IOERR_FSYNC"), JournalFault, None)):
            with closing(self.opened()) as store:
                if not store.stat().version:
                    self.fly(store, [1, 2])
                journal, before = store._engine._journal, self.graph(store)
                failing = mock.Mock(wraps=journal.opened)
                failing.execute = lambda words, *given: self.failed(fault, journal_opened, words, *given)
                journal_opened, failing.in_transaction = journal.opened, False
                with mock.patch.object(journal, "opened", failing):
                    self.assertRaises(raised, self.fly, store, [3, 4])
                journal_opened.execute("ROLLBACK") if journal_opened.in_transaction else None
                self.assertEqual(self.graph(store), before)
                if after is not None:
                    self.assertEqual([it.version for it in self.fly(store, [3, 4])], [3, 4])
                else:
                    self.assertRaises(JournalFault, self.fly, store, [5, 6])
        self.assertEqual(check(self.path).newest, 4)

    @staticmethod
    def failed(fault, opened, words, *given):
        if words == "COMMIT":
            raise fault
        return opened.execute(words, *given)

    def test_a_fault_behind_the_write(self):
        """The file has all of them, the store takes nothing more, and the next opening has them."""
        with closing(self.opened()) as store:
            real, count = LibraryEngine.fly, []

            def fly(engine, flight):
                count.append(flight)
                if len(count) == 2:
                    raise MemoryError("no memory")
                return real(engine, flight)
            with mock.patch.object(LibraryEngine, "fly", fly):
                self.assertRaisesRegex(JournalFault, "the file has batches that the store doesn't take", self.fly, store,
                                       [1, 2, 3])
            self.assertRaises(JournalFault, self.fly, store, [4])
        with self.opened() as store, Store(str(self.room / "other.db"), sync="off") as other:
            self.fly(other, [1, 2, 3])
            self.assertEqual(self.graph(store), self.graph(other))


class Together(JournalServed):
    CLIENTS = 8

    def served(self, within=ServerLimits(), **options):
        store = Store(self.path, seats=16, endless=True, **options)
        self.addCleanup(self.let_go, store)
        server = Server(store, "127.0.0.1:0", limits=within).start()
        self.addCleanup(server.stop)
        self.port = server.address.port
        return store, server

    def at_once(self, store, server, *posts):
        """The answers of posts that come while another one is written, and how often the file is written for them."""
        journal, is_in, go_on, answers = store._engine._journal, threading.Event(), threading.Event(), {}
        real, written = journal._write, []

        def write(*given):
            written.append(given)
            if len(written) == 1:
                is_in.set()
                go_on.wait(60)
            return real(*given)
        with mock.patch.object(journal, "_write", write):
            first = threading.Thread(target=self.add, args=(["first,row"],))
            first.start()
            is_in.wait(60)
            threads = []
            for at, (body, headers) in enumerate(posts):
                threads.append(threading.Thread(target=lambda at=at, body=body, headers=headers: answers.update(
                    {at: self.ask("POST", "/v1/rows", body, **headers)})))
                threads[-1].start()
                as_soon_as(lambda: len(server._api.turns._waiting) == at + 1)
            go_on.set()
            for it in (first, *threads):
                it.join()
        return [answers[at] for at in range(len(posts))], len(written) - 1

    def test_one_write_for_all_that_wait(self):
        store, server = self.served()
        found, writes = self.at_once(store, server, *((f"add,k,a,b{it},1,1\nadd,k,a,c,2,1\n", {}) for it in range(6)))
        self.assertEqual([(status, it["version"], it["inserted"], it["updated"]) for status, it in found],
                         [(200, 2, 2, 0), *((200, it, 1, 1) for it in range(3, 8))])
        self.assertEqual((writes, self.ask("GET", "/v1/stat")[1]["feed"]["rows"]), (1, 13))
        self.assertEqual(self.weights()["a", "c"], 12)

    def test_one_that_is_refused_spoils_no_other(self):
        for at, (bad, status, word) in enumerate((("add,k,a\n", 400, "BadRow"), ("add,other,a,b,1,1\n", 409, "KindsFull"))):
            self.path = str(self.room / f"graph{at}.db")
            store, server = self.served(limits=Limits(kinds=1, vertices=100))
            found, writes = self.at_once(store, server, *((bad if it == 2 else f"add,k,a,b{it},1,1\n", {}) for it in range(5)))
            self.assertEqual([it[0] for it in found], [200, 200, found[2][0], 200, 200])
            self.assertGreaterEqual(found[2][0], 400, found[2])
            self.assertEqual([it[1]["version"] for it in found if it[0] == 200], [2, 3, 4, 5])
            self.assertEqual(set(self.weights()), {("first", "row"), *(("a", f"b{it}") for it in (0, 1, 3, 4))})
            self.assertEqual(writes, 1 if at == 0 else 4)

    def test_keys(self):
        """Two of one key are one; another one by it is refused; a repeat of an earlier one gets its answer."""
        store, server = self.served()
        before = self.add(["x,y"], Idempotency_Key="before")
        row = "add,k,a,b,1,1\n"
        one = {"Idempotency_Key": "one"}
        found, _ = self.at_once(store, server, (row, one), (row, one), (row, {}),
                                ("add,k,x,y,1,1\n", {"Idempotency_Key": "before"}), ("add,k,c,d,1,1\n", one))
        self.assertEqual([it[0] for it in found], [200, 200, 200, 200, 409])
        self.assertEqual((found[0], found[3], found[4][1]["error"]), (found[1], before, "SequenceTaken"))
        self.assertEqual(self.weights(), {("x", "y"): 1, ("first", "row"): 1, ("a", "b"): 2})
        self.assertEqual(self.ask("GET", "/v1/stat")[1]["feed"]["rows"], 4)

    def test_a_large_one_among_them(self):
        store, server = self.served()
        large = "".join(f"add,k,l{it},b,1,1\n" for it in range(5_000))
        found, writes = self.at_once(store, server, *((body, {}) for body in ("add,k,a,b,1,1\n", large, "add,k,c,d,1,1\n")))
        self.assertEqual([(it[0], it[1]["version"], it[1]["inserted"]) for it in found],
                         [(200, 2, 1), (200, 4, 5_000), (200, 5, 1)])
        self.assertEqual(writes, 4)

    def test_one_that_was_given_up(self):
        """A post whose client was told that it takes too long isn't made any more where it waited still."""
        store, server = self.served(ServerLimits(time=0.5))
        told = []
        with server.feeding._lock:
            threads = [threading.Thread(target=lambda it=it: told.append(self.add([it]))) for it in ("a,b", "given,up")]
            threads[0].start()
            as_soon_as(lambda: server._api.turns._is_under_way)
            threads[1].start()
            for it in threads:
                it.join()
        self.assertEqual([(status, it["error"]) for status, it in told], [(503, "TooLong")] * 2)
        as_soon_as(lambda: not server._api.turns._is_under_way)
        self.assertEqual((self.add(["c,d"])[0], self.weights()), (200, {("a", "b"): 1, ("c", "d"): 1}))

    # What is there behind a kill.

    def feed_all(self, said, is_over):
        """Clients that post single rows, each its own, as fast as they are answered."""
        def one(client):
            talk = http.client.HTTPConnection("127.0.0.1", self.port, timeout=60)
            try:
                for number in range(100_000):
                    if is_over.is_set():
                        return
                    row = f"c{client},n{number}"
                    talk.request("POST", "/v1/rows", f"add,k,{row},1,1\n", {"Content-Type": "text/csv"})
                    answer = talk.getresponse()
                    told = json.loads(answer.read())
                    if answer.status == 200:
                        said[row] = told["version"]
            except (OSError, http.client.HTTPException, ValueError):
                return
            finally:
                talk.close()
        threads = [threading.Thread(target=one, args=(it,)) for it in range(self.CLIENTS)]
        for it in threads:
            it.start()
        return threads

    def killed(self, seconds, **environment):
        """What clients of a server were told until it was killed."""
        said, is_over = {}, threading.Event()
        server = self.begin(**environment)
        threads = self.feed_all(said, is_over)
        time.sleep(seconds)
        server.kill()
        server.wait()
        is_over.set()
        for it in threads:
            it.join()
        return said

    def has(self, path, said):
        """Whether a file has what was acknowledged, each as the version that was told, and nothing twice."""
        self.assertEqual(check(path).faults, [])
        with Store.at(path, time="2999-01-01") as then, then.open() as session:
            found = {",".join(it[1:3]): it[3].weight for it in session.edges()}
        self.assertEqual(set(found.values()), {1})
        self.assertEqual(set(said) - set(found), set())
        self.assertEqual(len(set(said.values())), len(said))
        return len(found) - len(said)

    def test_a_server_that_is_killed(self):
        chance, more = random.Random(3), []
        for turn in range(4):
            self.path = str(self.room / f"graph{turn}.db")
            said = self.killed(chance.uniform(0.3, 1.5))
            self.assertGreater(len(said), 5)
            more.append(self.has(self.path, said))
        self.assertLessEqual(max(more), self.CLIENTS)

    def test_a_loss_of_power(self):
        """What wasn't synced is gone, by shim.c: no answer came before its sync."""
        shim = crashing.shim_in(self.room)
        if shim is None:
            self.skipTest("no C compiler is here")
        chance = random.Random(5)
        for turn in range(3):
            here, there = self.room / f"here{turn}", self.room / f"there{turn}"
            here.mkdir(), there.mkdir()
            self.path = str(here / "graph.db")
            said = self.killed(chance.uniform(0.3, 1.2), LD_PRELOAD=shim, SHIM_FROM=here, SHIM_TO=there)
            self.assertGreater(len(said), 5)
            for it in there.glob("*.part*"):
                it.unlink()
            shutil.copy(here / "graph.db-lock", there)
            self.assertLessEqual(self.has(str(there / "graph.db"), said), self.CLIENTS)


if __name__ == "__main__":
    unittest.main()
