"""Versions that clients share, and the seat of the one that feeds, by a clock of the tests' own."""
import pathlib
import threading
import unittest
from unittest import mock

from serving import Clock
from support import Case

from misteluk import SessionClosed
from misteluk.errors import Busy
from misteluk.serve.board import Board, Full
from misteluk.serve.feeding import Feeding
from misteluk.serve.keeping import Keeper
from misteluk.serve import limits
from misteluk.serve.limits import ServerLimits, versions_by_memory
from misteluk.serve.posts import WaitingPost


class Versions(Case):
    """The board, by a clock of its own."""

    def setUp(self):
        super().setUp()
        self.clock = Clock()
        self.at = self.store(seats=16, endless=True)
        self.board = Board(self.at, ServerLimits(idle=60, clients=40, versions=16), self.clock)

    def advance(self):
        self.at.add("k", "a", "b", 1, 1)
        self.at.commit()
        self.board.advance()

    def told(self):
        return [(it.version, it.clients) for it in self.board.held()]

    @staticmethod
    def post(feeding, rows):
        waiting = WaitingPost(rows)
        feeding.rows([waiting])
        return waiting.told()

    def test_clients_of_one_version_share_it(self):
        leases = [self.board.lease() for _ in range(20)]
        self.advance()
        self.assertEqual(self.told(), [(0, 20), (1, 0)])
        self.assertEqual([it.is_last for it in self.board.held()], [False, True])
        for it in leases:
            self.board.let_go(it.name)
        self.assertEqual((self.told(), self.at._engine.open_count), ([(1, 0)], 1))

    def test_sixteen_versions(self):
        """As many as clients may hold. What comes beyond is told when it may ask again; and then it may."""
        leases = []
        for _ in range(16):
            leases.append(self.board.lease())
            self.clock.now += 1
            self.advance()
        self.board.lease(0)  # (so that version 1 is the first one that all its clients may let go)
        with self.assertRaises(Full) as told:
            self.board.lease()
        self.assertEqual((told.exception.word, told.exception.after, len(self.told())), ("NoSeat", 45, 17))
        self.clock.now += 44.5
        self.assertRaises(Full, self.board.lease)
        self.clock.now += 0.5
        self.assertEqual(self.board.lease().shared.version, 16)
        self.assertRaisesRegex(SessionClosed, "silent for 60 s", self.board.keep, leases[0].name)
        self.assertEqual([it.version for it in self.board.held()], [0, *range(2, 17)])
        self.assertEqual(self.board.keep(leases[2].name).shared.version, 2)

    def test_the_newest_is_always_there(self):
        """Whatever clients hold, also where they hold more versions than the library holds at once: it is asked, and saved."""
        board, leases = Board(self.at, ServerLimits(versions=50), self.clock), []
        keeper = Keeper(str(self.room / "graph"))
        self.addCleanup(keeper.close)
        for it in range(40):
            leases.append(board.lease())
            self.at.add("k", "a", f"b{it}", 1, 1)
            self.at.commit()
            board.advance()
            with board.lent() as session:
                self.assertEqual((session.version, len(session.edges())), (it + 1, it + 1))
            keeper.save(board)
            self.assertEqual((keeper.told()["version"], keeper.fault), (it + 1, ""))
        self.assertEqual([it.version for it in board.held()], list(range(41)))
        for at, it in enumerate(leases):
            with board.lent(it.name) as session:
                self.assertEqual((session.version, sorted(session.successors("a")) if at else []),
                                 (at, sorted(f"b{to}" for to in range(at))))
        for it in leases:
            board.let_go(it.name)
        self.assertEqual(([it.version for it in board.held()], self.at.stat().version), ([40], 40))

    def test_some_rows_of_a_post_are_no_version(self):
        """Neither to those who ask the newest, nor to a save."""
        self.advance()
        real, told = self.at._engine.fly, []

        def fly(flight):
            found = real(flight)
            with self.board.lent() as session:
                told.append((session.version, [it for it, _ in self.told()]))
            return found
        with mock.patch.object(self.at._engine, "fly", fly):
            self.post(Feeding(self.board, ServerLimits()), [["add", "k", f"s{it}", "t", "1", "1"] for it in range(5_000)])
        self.assertEqual((told, [it for it, _ in self.told()]), ([(1, [1]), (1, [1])], [3]))

    def test_versions_at_intervals(self):
        """What is fed is no version before one is published; that waits for a post that is going in."""
        self.board.limits = self.board.limits._replace(publish=5.0)
        rung, feeding = [], Feeding(self.board, self.board.limits)
        self.board.ring = lambda: rung.append(self.board.stat.version)
        self.advance()
        self.post(feeding, [["add", "k", "c", "d", "1", "1"]])
        self.assertEqual((self.told(), self.board.stat.version, self.at.stat().version), ([(0, 0)], 0, 2))
        leases = [self.board.lease(), self.board.lease()]
        feeding.publish()
        feeding.publish()
        self.assertEqual((self.told(), self.board.stat.version, rung), ([(0, 2), (2, 0)], 2, [2]))
        real, threads = self.at._engine.fly, []

        def fly(flight):
            found = real(flight)
            threads.append(threading.Thread(target=feeding.publish))
            threads[-1].start()
            threads[-1].join(0.1)
            return found
        with mock.patch.object(self.at._engine, "fly", fly):
            self.post(feeding, [["add", "k", f"s{it}", "t", "1", "1"] for it in range(5_000)])
        for it in threads:
            it.join()
        self.assertEqual((rung, [it.version for it in self.board.held()]), ([2, 4], [0, 4]))
        for it in leases:
            self.board.let_go(it.name)

    def test_how_many_by_memory(self):
        """One for each 64 MB that the machine has, or its container, from 16 to 1,024."""
        path = str(self.room / "memory.max")
        for megabytes, container, wanted in ((8_192, None, 128), (8_192, "max\n", 128), (8_192, f"{4 << 30}\n", 64),
                                             (8_192, f"{64 << 30}\n", 128), (512, None, 16), (1 << 20, None, 1_024),
                                             (8_191, None, 127)):
            pages = {"SC_PHYS_PAGES": megabytes << 8, "SC_PAGE_SIZE": 4_096}
            if container is not None:
                self.file("memory.max", container)
            with mock.patch.object(limits, "OF_CONTAINER", path), mock.patch.object(limits.os, "sysconf", pages.get):
                self.assertEqual(versions_by_memory(), wanted, (megabytes, container))
            pathlib.Path(path).unlink(missing_ok=True)

    def test_who_asks_isn_t_silent(self):
        lease = self.board.lease()
        self.clock.now = 59
        with self.board.lent(lease.name) as session:
            self.clock.now = 500
            self.assertEqual((self.board.sweep(), session.version), (0, 0))
        self.advance()
        self.clock.now = 559
        self.assertEqual((self.board.sweep(), self.told()), (0, [(0, 1), (1, 0)]))
        self.clock.now = 560
        self.assertEqual((self.board.sweep(), self.told()), (1, [(1, 0)]))

    def test_so_many_clients(self):
        for _ in range(40):
            self.board.lease()
        with self.assertRaises(Full) as told:
            self.board.lease()
        self.assertEqual((told.exception.word, told.exception.after), ("Full", 60))

    def test_a_version_that_is_asked_stays(self):
        """Also where its client lets it go meanwhile, and where the next one comes."""
        with self.board.lent() as session:
            self.advance()
            self.assertEqual((session.edge_count, self.told()), (0, [(0, 0), (1, 0)]))
        self.assertEqual(self.told(), [(1, 0)])
        lease = self.board.lease()
        with self.board.lent(lease.name) as session:
            self.board.let_go(lease.name)
            self.advance()
            self.assertEqual(session.edge_count, 1)
        self.assertEqual(self.told(), [(2, 0)])

    def test_a_version_by_its_number(self):
        """One that somebody holds can be held by others."""
        first = self.board.lease()
        self.advance()
        second = self.board.lease(0)
        self.assertEqual((second.shared, self.told()), (first.shared, [(0, 2), (1, 0)]))
        self.assertRaisesRegex(SessionClosed, "version 7 isn't held", self.board.lease, 7)

    def test_a_feeder_that_is_silent(self):
        feeding = Feeding(self.board, ServerLimits(idle=60), self.clock)
        first = feeding.claim()
        self.clock.now = 59
        self.assertRaises(Busy, feeding.claim)
        self.assertEqual(feeding.batch(first.name, 1, "a,k,x,y,1,1\n", {}, True).inserted, 1)
        self.clock.now = 118
        self.assertRaises(Busy, feeding.claim)
        self.clock.now = 119
        feeding.claim()
        self.assertRaises(SessionClosed, feeding.batch, first.name, 2, "a,k,x,y,1,1\n", {}, True)

    def test_sixteen_versions_over_renewals(self):
        """Those that were held before a store began anew count too."""
        leases = []
        for _ in range(20):
            try:
                leases.append(self.board.lease())
            except Full as fault:
                self.assertEqual(fault.word, "NoSeat")
            self.advance()
            self.at.compact()
        self.assertEqual((len(leases), [it for it, _ in self.told()]), (16, [*range(16), 20]))
        self.board.let_go(leases.pop().name)
        self.assertEqual([it for it, _ in self.told()], [*range(15), 20])

    def test_the_rate(self):
        feeding = Feeding(self.board, ServerLimits(), self.clock)
        self.clock.now = 20
        self.post(feeding, [["add", "k", "a", f"t{it}", "1", "1"] for it in range(50)])
        self.assertEqual((feeding.told()["rows"], feeding.told()["rows_a_second"]), (50, 5.0))
        self.clock.now = 40
        self.assertEqual(feeding.told()["rows_a_second"], 0)


if __name__ == "__main__":
    unittest.main()
