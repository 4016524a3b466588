"""Parts of a server by steps: its health, those who await a version, which threads answer what, how uvicorn is told to run."""
import asyncio
import threading
import time
import unittest
from unittest import mock

from serving import HAS_PACKAGES, NO_PACKAGES, Clock, ServeCase
from support import Case

from misteluk import Commit, SessionClosed, Stat, Store
from misteluk.errors import FeedFault, NotWritten
from misteluk.journal.compaction import FileCompacted
from misteluk.journal.engine import Journaled
from misteluk.journal.file import Kept
from misteluk.serve import checking, keeping, log
from misteluk.serve.board import HeldVersion
from misteluk.serve.feeding import Feeding
from misteluk.serve.health import Health
from misteluk.serve.keeping import Keeper
from misteluk.serve.limits import ServerLimits
from misteluk.serve.metrics import Counts
from misteluk.serve.people import Person
from misteluk.serve.server import Server

if HAS_PACKAGES:
    from misteluk.serve.flow import within
    from misteluk.serve.news import Bell
    from misteluk.serve.board import Full

FED = {"rows": 7, "bad": 2, "expired": 3, "behind": 11, "state": "followed"}


class Healths(unittest.TestCase):
    def health(self, feeding=(), keeper=None, replica=None, engine=None):
        """The health of a server that is well but for what is given."""
        fed = mock.Mock(**{"state": "followed", "is_reading": False, **dict(feeding)})
        fed.told.return_value = FED
        fed.store._engine = engine or mock.Mock(has_ended=False)
        board = mock.Mock(stat=Stat(5, 4, 3, 20, 8, 9))
        board.held.return_value = [HeldVersion(3, 2, 1, False), HeldVersion(4, 3, 2, False), HeldVersion(5, 4, 0, True)]
        return Health(board, fed, keeper, Counts(), mock.Mock(count=6, refused=1), replica)

    def test_why_it_is_not_ready(self):
        late, well = mock.Mock(is_late=True), mock.Mock(is_late=False)
        for given, told in (
                ({}, []), ({"keeper": well}, []), ({"replica": mock.Mock(fault="")}, []),
                ({"keeper": late}, ["a save is late, or failed"]), ({"feeding": {"state": "failed"}}, ["the feed failed"]),
                ({"feeding": {"is_reading": True}}, ["the feed's file is still read for the first time"]),
                ({"feeding": {"state": "ended"}}, []),
                ({"replica": mock.Mock(fault="x")}, ["the first, whose replica this is, can't be read"]),
                ({"engine": mock.Mock(has_ended=True)},
                 ["the store's file takes nothing more until the server is started again"])):
            self.assertEqual(self.health(**given).faults(), told, given)

    def of_file(self, compacted, fault):
        engine = mock.Mock(spec=Journaled, has_ended=False)
        health = self.health(engine=engine)
        health._feeding.store.file.kept = Kept(3, 9, 77, compacted, fault)
        return health

    def test_a_file(self):
        self.assertIsNone(self.health().of_file())
        self.assertEqual(self.of_file(None, None).of_file(), {"oldest": 3, "bytes": 77})
        self.assertEqual(self.of_file(FileCompacted(5, 60, 3, 2), NotWritten("at /tmp/x")).of_file(),
                         {"oldest": 3, "bytes": 77, "base": 5, "fault": "NotWritten"})

    def numbers(self, health):
        lines = [it.split() for it in health.text().splitlines() if not it.startswith("#")]
        return {name.partition("misteluk_")[2]: float(value) for name, value in lines}

    def test_numbers(self):
        found = self.numbers(self.health())
        for name in ("memory_bytes", "processor_seconds_total"):
            self.assertGreater(found.pop(name), 0)
        (info, one), = [it for it in found.items() if it[0].startswith("info{version=")]
        del found[info]
        self.assertEqual((one, found), (1, {
            "version": 5, "vertices": 4, "edges": 3, "versions_held": 2, "sessions": 3, 'blocks{state="used"}': 9,
            'blocks{state="free"}': 20, 'blocks{state="retired"}': 8, "rows_total": 7, "bad_rows_total": 2,
            "expired_edges_total": 3, "behind_bytes": 11, "feed_failed": 0, "connections": 6, "connections_refused_total": 1}))
        self.assertEqual((self.numbers(self.of_file(None, None))["file_bytes"],
                          self.numbers(self.of_file(None, None))["file_oldest_version"]), (77, 3))

    def test_numbers_of_a_save_and_of_a_replica(self):
        for more, failed in (({}, 0), ({"error": "OSError"}, 1)):
            keeper = mock.Mock(took=0.5)
            keeper.told.return_value = {"version": 4, "seconds": 2.5, **more}
            found = self.numbers(self.health(keeper=keeper))
            self.assertEqual([found[it] for it in ("saved_version", "saved_age_seconds", "save_seconds", "save_failed")],
                             [4, 2.5, 0.5, failed])
        replica = mock.Mock()
        replica.told.return_value = {"behind": 3, "seconds": 1.5}
        found = self.numbers(self.health(replica=replica))
        self.assertEqual((found["replica_behind_versions"], found["replica_behind_seconds"]), (3, 1.5))


class Feedings(unittest.TestCase):
    def setUp(self):
        self.clock, self.board = Clock(), mock.MagicMock()
        self.feeding = Feeding(self.board, ServerLimits(idle=60), self.clock)

    def followed(self, **state):
        """What is followed now."""
        usual = {"behind": 7, "ended_half": False, "killed": 0, "is_replaced": False, "place.bad": 0, "place.rows": 0}
        self.feeding.readers.last = found = mock.Mock(**{**usual, **state}, last_bad=None)
        self.feeding.readers._all, self.feeding.state, found.name = [found], "followed", "f.csv"
        return found

    def test_a_feed_that_fails(self):
        """What nobody meant is logged with what led to it."""
        for fault, word, is_meant in ((FeedFault("f.csv:3: why"), "FeedFault", True), (ValueError("why"), "ValueError", True),
                                      (OSError("why"), "OSError", True), (KeyError("why"), "KeyError", False)):
            self.setUp()
            with mock.patch.object(log, "fault") as logged:
                self.feeding._ended(self.followed(), fault)
            reason = self.feeding.reason
            logged.assert_called_once_with(f"the feed ended: {fault}", None if is_meant else fault, f"the feed ended: {reason}")
            self.assertEqual((self.feeding.state, self.feeding.fault, "f.csv" in reason), ("failed", word, False))
            self.assertEqual((self.board.store.discard.call_count, self.board.advance.call_count), (1, 1))
            told = self.feeding.told()
            self.assertEqual((told["state"], told["error"], told["reason"]), ("failed", word, reason))

    def test_a_feed_that_ends(self):
        with mock.patch.object(log, "fault") as logged:
            self.feeding._ended(self.followed(), None)
        self.assertEqual((self.feeding.state, self.feeding.fault, logged.call_count), ("ended", "", 0))

    def test_steps(self):
        """Rows are counted from those that were in before."""
        following = mock.MagicMock(**{"place.rows": 100, "is_left": False})
        following.__iter__.return_value = [mock.Mock(rows=rows, commit=Commit(1, 0, 0, 0, 0, 0, 1, expired))
                                           for rows, expired in ((130, 2), (135, 3))]
        self.feeding.readers._steps(following)
        self.assertEqual((self.feeding.rate.total, self.feeding.expired, self.board.advance.call_count), (35, 5, 2))
        self.assertEqual(self.feeding.readers.late, 0)

    def test_a_file_that_is_read_at_first(self):
        self.assertFalse(self.feeding.is_reading)
        self.feeding._is_read = False
        following = self.followed()
        self.assertTrue(self.feeding.is_reading)
        for following.behind in (0, 500):
            self.assertFalse(self.feeding.is_reading)
        self.setUp()
        self.followed()
        self.feeding.state = "ended"
        self.assertFalse(self.feeding.is_reading)

    def test_what_is_told(self):
        self.assertEqual(self.feeding.told(), {"state": "open", "rows": 0, "rows_a_second": 0.0, "bad": 0, "expired": 0})
        seat = self.feeding.claim(Person("ann", "feed"))
        self.assertEqual([self.feeding.told()[it] for it in ("state", "by")], ["a client feeds", "ann"])
        self.clock.now = 60.0
        self.assertNotIn("by", self.feeding.told())
        self.feeding.let_go(seat.name, Person("ann", "feed"))
        self.followed(**{"ended_half": True, "killed": 2, "is_replaced": True, "place.bad": 3})
        found = self.feeding.told()
        self.assertEqual([found[it] for it in ("state", "bad", "behind", "half_line", "readers_killed", "replaced")],
                         ["followed", 3, 7, True, 2, True])

    def test_batches_by_their_numbers(self):
        """Each is applied once; what the last one did is known also once its client has no seat; one given up can't come."""
        done, text = Commit(1, 1, 0, 0, 0, 0), "a,k,x,y,5,1\n"
        seat = self.feeding.claim()
        with mock.patch.object(self.feeding, "_apply", return_value=done) as applied:
            for number in (1, 1, 2, 2):
                self.assertEqual(self.feeding.batch(seat.name, number, text, {}, True), done)
            self.assertEqual((applied.call_count, self.board.advance.call_count), (2, 2))
            self.assertIsNone(self.feeding.landed(seat.name, 3))
            self.assertRaisesRegex(SessionClosed, "batch 3 was given up", self.feeding.batch, seat.name, 3, text, {}, True)
            self.feeding.batch(seat.name, 4, text, {}, True)
        self.feeding.let_go(seat.name)
        self.assertEqual([self.feeding.landed(seat.name, it) for it in (3, 4, 5)], [None, done, None])
        self.assertRaises(SessionClosed, self.feeding.batch, seat.name, 4, text, {}, True)
        other = self.feeding.claim()
        self.assertIsNone(self.feeding.landed(other.name, 1))
        self.assertRaises(SessionClosed, self.feeding.landed, "nobody", 1)

    def test_records_that_are_seen_at_once(self):
        """Insertions and additions that keep every rule; all else is read one by one, with the same outcome."""
        lines = ["i,k,a,b,5,1", "a,l,a,c,-7,2", "a,k,c,a,0,999999999999999999"]
        rows = [(0, "k", "a", "b", 5, 1), (1, "l", "a", "c", -7, 2), (1, "k", "c", "a", 0, 10**18 - 1)]
        self.assertEqual(checking._plain_rows(lines), rows)
        self.assertEqual(list(checking.checked_operations("\n".join([*lines, ""])).rows), rows)
        for more in ("r,k,a,b", "x,5", "a,*,a,b,5,1", 'a,k,"a",b,5,1', "a,k,,b,5,1", "a,k,a b,b,5,1", "a,k,a,b,x,1",
                     "a,k,a,b,5,-1", "a,k,a,b,5", "a,k,a,b,5,1,1", "A,k,a,b,5,1", "", "a,k,a,b,1000000000000,1"):
            self.assertIsNone(checking._plain_rows([*lines, more]), more)
        self.assertIsNone(checking._plain_rows([]))


class Keepers(Case):
    def test_a_store_that_is_restored(self):
        """With what is said; it begins anew, and its file has version 0."""
        path = str(self.room / "graph.gz")
        keeper = Keeper(path)
        self.addCleanup(keeper.close)
        self.assertEqual((keeper.restored(seats=3), keeper.told()), (None, {"version": None, "seconds": None}))
        with self.store("add k a b 1 1") as store, store.open() as session:
            session.save(path)
        with mock.patch.object(Store, "compact", autospec=True, side_effect=Store.compact) as compacted:
            store = keeper.restored(seats=3, blocks=None, endless=True)
        self.addCleanup(self.let_go, store)
        self.assertEqual((store.seats, store.stat().version, compacted.call_count), (3, 0, 1))
        self.assertEqual((keeper.told()["version"], keeper.told()["seconds"] < 60), (0, True))

    def test_its_end(self):
        """Another one may save there then; what it holds is given back."""
        kept = [Keeper(str(self.room / "graph.gz"))]
        self.assertRaisesRegex(ValueError, "another server saves in", Keeper, str(self.room / "graph.gz"))
        kept[0].close()
        kept.append(Keeper(str(self.room / "graph.gz")))
        kept[1].close()
        self.assertEqual([it._lock.closed for it in kept], [True, True])

    def test_saves_by_a_clock(self):
        """A version that the file has isn't saved again; one is late behind twice the time between two saves, and 30 s."""
        clock, board = Clock(), mock.MagicMock()
        session = board.lent.return_value.__enter__.return_value
        session.save.side_effect = lambda *_, **__: setattr(clock, "now", clock.now + 2.5)
        with mock.patch.object(keeping.time, "monotonic", clock):
            clock.now = 1_000.0
            keeper = Keeper(str(self.room / "graph.gz"), 60)
            self.addCleanup(keeper.close)
            for after, is_late in ((0, False), (150, False), (150.5, True)):
                clock.now = 1_000.0 + after
                self.assertEqual(keeper.is_late, is_late, after)
            for version, count in ((3, 1), (3, 1), (4, 2)):
                session.version = version
                keeper.save(board)
                self.assertEqual((session.save.call_count, keeper.took, keeper.is_late), (count, 2.5, False))
                self.assertEqual(keeper.told(), {"version": version, "seconds": 0.0})

    def test_a_save_that_fails(self):
        keeper, board = Keeper(str(self.room / "graph.gz")), mock.Mock()
        self.addCleanup(keeper.close)
        for fault, word, is_meant in ((OSError(28, "full"), "OSError", True), (NotWritten("why"), "NotWritten", True),
                                      (KeyError("why"), "KeyError", False)):
            board.lent.side_effect = fault
            with mock.patch.object(log, "fault") as logged:
                keeper.save(board)
            self.assertEqual((keeper.fault, keeper.told()["state"], keeper.told()["error"]), (word, "failed", word))
            logged.assert_called_once_with(f"the version isn't saved: {fault}", None if is_meant else fault,
                                           f"the version isn't saved: {keeper.reason}")


@unittest.skipUnless(HAS_PACKAGES, NO_PACKAGES)
class Bells(unittest.TestCase):
    """Those who wait for a bell are woken long before their time is over."""

    def waits(self, bell, is_there, seconds=20.0, gone=None, later=None):
        """For how long one waits, where something comes a little later from another thread."""
        async def wait():
            left = None if gone is None else asyncio.get_running_loop().create_future()
            if left is not None:
                asyncio.get_running_loop().call_later(gone, left.set_result, None)
            await bell.until(is_there, seconds, left)
        thread = threading.Timer(0.1, later or (lambda: None))
        begun = time.monotonic()
        thread.start()
        asyncio.run(wait())
        found = time.monotonic() - begun
        thread.join()
        self.assertEqual(bell._waiting, set())
        return found

    def test_what_ends_a_wait(self):
        bell, rung = Bell(), []
        self.assertLess(self.waits(bell, lambda: True), 15)
        self.assertTrue(0.05 < self.waits(bell, lambda: rung, later=lambda: (rung.append(1), bell.ring())) < 15)
        self.assertTrue(0.05 < self.waits(bell, lambda: False, 0.06) < 15)
        self.assertTrue(0.05 < self.waits(bell, lambda: False, gone=0.06) < 15)
        self.assertTrue(0.05 < self.waits(bell, lambda: False, later=bell.close) < 15)
        self.assertTrue(bell.is_over)
        self.assertLess(self.waits(bell, lambda: False), 15)
        bell.ring()  # (the loop is closed by now)

    def test_a_ring_for_nothing(self):
        """Who waits goes on where what it waits for isn't there yet."""
        bell = Bell()
        self.assertTrue(0.2 < self.waits(bell, lambda: False, 0.25, later=bell.ring) < 15)

    def test_what_is_late(self):
        async def late():
            async with within(0.01, "why"):
                await asyncio.sleep(60)

        async def other(fault):
            async with within(60, "why"):
                raise fault

        async def in_time():
            async with within(0.01, "why"):
                pass
            await asyncio.sleep(0.03)
            return "not late any more"
        self.assertEqual(asyncio.run(in_time()), "not late any more")
        with self.assertRaises(Full) as caught:
            asyncio.run(late())
        self.assertEqual((caught.exception.word, str(caught.exception), caught.exception.after), ("TooLong", "why", 1))
        for fault in (KeyError, asyncio.CancelledError):
            with self.assertRaises(fault):
                asyncio.run(other(fault()))


class Running(ServeCase):
    def test_how_uvicorn_is_told_to_run(self):
        config = self.serve(limits=ServerLimits(idle=7.5))._runner.config
        self.assertEqual((config.access_log, config.server_header, config.proxy_headers), (False, False, False))
        self.assertEqual((config.timeout_keep_alive, config.backlog, config.lifespan), (12, 64, "off"))
        self.assertEqual(config.log_level, "critical")

    def test_a_server_that_is_entered(self):
        """It answers within, and not behind."""
        with Server(self.store(seats=16, endless=True), "127.0.0.1:0") as self.server:
            self.assertEqual(self.ask("/healthz").status, 200)
        self.assertRaises(ConnectionError, self.ask, "/healthz")

    def test_how_often_silent_sessions_are_looked_for(self):
        """Four times while one may be silent, and each 5 s at least."""
        server = self.serve()
        for idle, seconds in ((60, 5.0), (10, 2.5), (0.5, 0.125)):
            server.limits, over = ServerLimits(idle=idle), mock.Mock()
            over.wait.side_effect = [False, False, True]
            with mock.patch.object(server.board, "sweep") as swept:
                server._sweep(over)
            self.assertEqual((over.wait.call_args_list, swept.call_count), ([mock.call(seconds)] * 3, 2))

    def test_how_fast_it_is_fed(self):
        server = self.serve()
        with mock.patch.object(type(server.feeding.rate), "a_second", return_value=1.26):
            _, told = asyncio.run(server._api._event(None))
            self.assertEqual((told["rows_a_second"], told["touched"]), (1.3, None))

    def threads(self, method, path, body=None):
        """By which threads a request is answered."""
        api, seen = self.server._api, []

        def noted(name):
            pool = getattr(api, name)
            real = pool.run

            async def run(*given):
                seen.append(name)
                return await real(*given)
            return mock.patch.object(pool, "run", run)
        patches = [noted(it) for it in ("quick", "held", "slow", "feed", "bodies")]
        for it in patches:
            it.start()
        try:
            found = self.ask(path, method, body, Content_Type="application/json")
        finally:
            for it in patches:
                it.stop()
        self.assertLess(found.status, 400, found.body)
        return seen

    def test_which_threads_answer(self):
        """A question over the whole graph takes none of those for quick ones."""
        self.fed()
        session = self.post("/v1/sessions").json["session"]
        ask, edge = f"/v1/sessions/{session}/ask", "/v1/edge?kind=transfer&source=ana&target=funnel"
        many, few = (b'{"call": "found", "ends": [%s]}' % b", ".join([b'["transfer", "ana", "funnel"]'] * it) for it in (65, 64))
        table = b'{"call": "degrees"}'
        for method, path, body, wanted in (
                ("GET", edge, None, []), ("GET", "/v1/out_edges?source=ana", None, ["quick"]),
                ("GET", "/v1/edges", None, ["slow"]), ("GET", "/v1/levels?source=ana", None, ["slow"]),
                ("GET", "/v1/in_edges?target=funnel", None, ["slow"]), ("POST", "/v1/ask", b'{"questions": []}', ["slow"]),
                ("POST", ask, b'{"call": "edges"}', ["slow"]), ("POST", ask, many, ["quick"]), ("POST", ask, few, []),
                ("POST", ask, b'{"call": "out_of", "name": "ana"}', []), ("POST", ask, table, ["slow"]), ("POST", ask, table, []),
                ("GET", "/v1/sessions", None, ["quick"]), ("PUT", f"/v1/sessions/{session}", None, ["held"]),
                ("GET", "/metrics", None, ["quick"]), ("POST", "/v1/feeder", None, ["feed"])):
            self.assertEqual(self.threads(method, path, body), wanted, path)
        with mock.patch.object(type(self.server.board), "is_busy", True):
            self.assertEqual(self.threads("GET", edge), ["quick"])


if __name__ == "__main__":
    unittest.main()
