"""What a store in process gives back meanwhile, and not only as it is closed: memory of sessions that were closed, handles that
threads take at once, and the versions that a collection counts as held."""
import pathlib
import re
import threading
import time
import unittest
from typing import List
from unittest import mock

from support import Case

import misteluk
from misteluk import Edge
from misteluk.engine.guard import Notes, Owned

EDGES, MOST = 10_000, 8 << 20


def resident() -> int:
    """How many bytes of memory this process has."""
    text = pathlib.Path("/proc/self/status").read_text()
    return sum(map(int, re.findall(r"(?m)^VmRSS:\s+(\d+) kB", text))) << 10


class GivingBack(Case):
    def sessions(self, store: misteluk.Store, count: int, is_read: bool = False) -> "List[misteluk.Session]":
        """So many sessions, each of a version of its own, that were asked and closed; of some all edges were read."""
        closed = []
        for at in range(1, count + 1):
            store.insert("k", f"s{at % 1_000}", "t", at)
            store.commit()
            session = store.open()
            self.assertEqual(session.edge("k", f"s{at % 1_000}", "t").weight, at)
            if is_read:
                self.assertEqual((len(session.edges()), session.degrees()["t"].into), (EDGES, EDGES // 10))
            session.close()
            closed.append(session)
        return closed

    def store_of_edges(self) -> misteluk.Store:
        """A store of 10,000 edges, ten of each vertex, of which one leads to `t`."""
        ends = [(at, f"s{(at + more) % 1_000}") for at in range(1_000) for more in range(1, 10)]
        return self.store(*(f"insert k s{at} {to} 1 0" for at, to in [*ends, *((at, "t") for at in range(1_000))]))

    def test_sessions_that_were_closed(self) -> None:
        """Neither those that nobody has any more nor those that somebody keeps have a version, arrays or names."""
        store = self.store_of_edges()
        for count, is_read in ((2_000, False), (60, True)):
            self.sessions(store, count // 2, is_read)
            before = resident()
            kept = self.sessions(store, count, is_read)
            self.assertLess(resident() - before, MOST)
            with self.assertRaises(misteluk.SessionClosed):
                kept[0].degrees()

    def test_a_store_that_was_closed(self) -> None:
        """What its desk and the versions of its sessions had is given back by then, also where somebody keeps a session."""
        for is_kept in (False, True):
            store = self.store("insert k a b 5 1")
            session, library = store.open(), store._engine.library
            name, raw = ("version_free", session._held._first.raw) if is_kept else ("desk_free", session._held.desk.raw)
            if not is_kept:
                del session
            with mock.patch.object(library, name, wraps=getattr(library, name)) as freed:
                store.close()
            self.assertIn(mock.call(raw), freed.call_args_list)

    def test_threads_copy_a_version_s_handle_one_at_a_time(self) -> None:
        """A handle takes one call at a time, also the first one, which each thread copies."""
        store = self.store("insert k a b 5 1")
        session, barrier = store.open(), threading.Barrier(64)
        within: List[None] = []
        most: List[int] = []
        library = store._engine.library
        clone = library.version_clone

        def counted(*given: object) -> int:
            within.append(None)
            most.append(len(within))
            time.sleep(0.001)
            within.pop()
            return int(clone(*given))

        def ask() -> None:
            barrier.wait()
            self.assertEqual(session.edge("k", "a", "b"), Edge(5, 1, 1))
        with mock.patch.object(library, "version_clone", counted):
            threads = [threading.Thread(target=ask) for _ in range(64)]
            for it in threads:
                it.start()
            for it in threads:
                it.join()
        self.assertEqual((max(most), len(within)), (1, 0))
        self.assertGreater(len(most), 1)


class Floors(Case):
    def test_a_collection_s_floor_is_the_least_version_held(self) -> None:
        store = self.store("insert k a b 1 1")
        first = store.open()
        self.feed(store, "insert k a b 2 2")
        second = store.open()
        self.feed(store, "insert k a b 3 3")
        self.assertEqual(store.collect().floor, 1)
        first.close()
        self.assertEqual(store.collect().floor, 2)
        second.close()
        self.assertEqual(store.collect().floor, 3)


class Noted(unittest.TestCase):
    def test_notes(self):
        """What is let go, or whose owner is gone, is given back by the next call, once; and what is forgotten never."""
        notes, given = Notes(), []
        owners = [Owned(raw, notes) for raw in range(5)]
        first = notes.know(owners[0], "first")
        notes.let_go(first)
        notes.let_go(first)
        notes.give_back(given.append)
        self.assertEqual(given, ["first"])
        del owners[3:]
        notes.give_back(given.append)
        self.assertEqual(sorted(given[1:]), [3, 4])
        notes.let_go(notes.know(owners[0], "left"))
        del owners[2]
        notes.forget()
        notes.give_back(given.append)
        self.assertEqual(len(given), 3)


if __name__ == "__main__":
    unittest.main()
