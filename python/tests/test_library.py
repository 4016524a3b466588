"""The library in process: threads that ask at once, a store in a fork, thousands of stores, and a library that isn't the one."""
import _ctypes
import copy
import gc
import multiprocessing
import os
import pathlib
import pickle
import platform
import resource
import subprocess
import sys
import threading
import unittest
from array import array
from contextlib import ExitStack
from unittest import mock

from support import HERE, Case

import misteluk
from misteluk import Edge, Store, errors
from misteluk.engine import asked, calling, finding, held, interface
from misteluk.engine.finding import OF_LIBRARY, find_library
from misteluk.engine.guard import Guard, Notes, Owned, alone
from misteluk.engine.protocol import WHOLE

SESSION = []


def told(call):
    try:
        return str(call())
    except misteluk.StoreError as fault:
        return str(fault)


def answers():
    """What a session and its store answer to calls."""
    session, store = SESSION[0], SESSION[0].store
    return [told(it) for it in (session.degrees, session.edges, lambda: session.in_edges("b"), lambda: session.out_edges("a"),
                                lambda: session.edge("k", "a", "b"), store.stat, store.commit,
                                lambda: store.insert("k", "a", "c"))]


def close():
    SESSION[0].close()
    SESSION[0].store.close()


class InProcess(Case):
    def test_threads_ask_one_session(self):
        """While another feeds: each answer is the held version's."""
        store = self.store(*(f"insert k s{it % 40} t{it % 70} {it} {it}" for it in range(2_000)))
        session, wrong, is_over = store.open(), [], threading.Event()

        def answers():
            return session.degrees().to_dict(), session.cores().to_dict(), session.predecessors("t3"), sorted(session.edges())
        wanted = answers()

        def ask():
            while not is_over.is_set():
                found = answers()
                if found != wanted:
                    wrong.append(found)
        threads = [threading.Thread(target=ask) for _ in range(4)]
        for it in threads:
            it.start()
        for at in range(60):
            store.insert("k", f"s{at % 40}", f"new{at}", at)
            store.remove("k", f"s{at % 40}", f"t{at % 70}")
            store.commit()
        is_over.set()
        for it in threads:
            it.join()
        self.assertEqual((wrong, store.stat().version), ([], 61))

    def test_a_number_that_a_later_version_told(self):
        """An older version doesn't have the name or kind, though its number is known by then."""
        store = self.store("insert k a b 1 1")
        old = store.open()
        store.insert("l", "b", "c", 2, 2)
        store.commit()
        new = store.open()
        self.assertEqual((new.edge("l", "b", "c"), len(new.in_edges("c", "l"))), (Edge(2, 2, 2), 1))
        for ask in (old.in_edges, old.out_edges, lambda name: old.edge("k", "a", name)):
            self.assertRaises(misteluk.NoVertex, ask, "c")
        self.assertRaises(misteluk.errors.NoKind, old.edge, "l", "a", "b")
        self.assertEqual((old.edge("k", "a", "b"), new.edge("k", "a", "b")), (Edge(1, 1, 1), Edge(1, 1, 1)))

    def test_an_opening_costs_no_walk_over_names(self):
        """A version's sizes, for which the library goes through all its names, are asked for once many names are wanted."""
        store = self.store("insert k a b 1 1", "insert l b c 2 2", seats=3)
        sizes = mock.Mock(side_effect=store._engine.library.version_size)
        with mock.patch.object(store._engine.library, "version_size", sizes):
            first = store.open()
            self.assertEqual((first.version, first.vertex_count, list(first.degrees()), first.edges().kinds),
                             (1, 3, ["a", "b", "c"], ("k", "l")))
            names = [f"{it:064}" for it in range(held.FEW_NAMES + 1)]
            store.load({"source": names[:-1], "target": names[1:]}, by="set")
            second = store.open()
            self.assertEqual((second.version, second.vertex_count, sizes.call_count), (2, len(names) + 3, 0))
            self.assertEqual((list(second.degrees()), sizes.call_count), (["a", "b", "c", *names], 1))
            store.insert("m", "z" * 64, "a")
            store.commit()
            self.assertEqual((list(store.open().degrees())[-2:], sizes.call_count), ([names[-1], "z" * 64], 1))

    def test_the_edges_of_a_few(self):
        """Of a vertex that has more than its row has room for at first they come as well, unless they are more than is said."""
        held_version = self.store(*(f"insert k hub t{it} 1 1" for it in range(33))).open()._held
        for most, count in ((None, 33), (33, 33), (32, None), (34, 33)):
            with mock.patch.object(held_version.kept, "rows", []):
                found = held_version.few_out_of(WHOLE, "hub", most)
            self.assertEqual(found and found.size, count, most)

    def test_a_version_is_indexed_once(self):
        """Where a walk goes along edges and against them."""
        store = self.store("insert k a b 1 1")
        session, library = store.open(), store._engine.library
        with mock.patch.object(library, "version_index", wraps=library.version_index) as indexed:
            for is_directed, count in ((True, 0), (False, 1), (False, 1)):
                session.neighborhood("a", 2, directed=is_directed)
                self.assertEqual(indexed.call_count, count)
            with store.open() as other:
                self.assertEqual((other.path("a", "b"), indexed.call_count), (["a", "b"], 2))

    def test_a_handle_is_taken_again(self):
        """Calls that come one after another have one copy of a version's handle between them."""
        session = self.store("insert k a b 1 1").open()
        for _ in range(3):
            self.assertEqual((session.edge("k", "a", "b").weight, len(session._held.kept.idle)), (1, 1))

    def test_tables_are_kept(self):
        """A question that was asked before costs no call: the latest ones, up to so many bytes, or the last one alone."""
        store = self.store("insert k a b 1 1", "insert l b c 2 9", seats=3)
        session, library = store.open(), store._engine.library
        asks = [session.degrees, session.components, session.cores, lambda: session.levels("a"), lambda: session.levels("b"),
                lambda: session.degrees("k"), lambda: session.components(since=5), lambda: session.cores("l", 2, 9)]
        calls = [mock.patch.object(library, f"version_{it}", mock.Mock(side_effect=getattr(library, f"version_{it}")))
                 for it in ("degrees", "labels", "cores", "levels")]
        with ExitStack() as stack:
            counted = [stack.enter_context(it) for it in calls]
            wanted = [it().to_dict() for it in asks]
            for _ in range(2):
                self.assertEqual([it().to_dict() for it in asks], wanted)
            self.assertEqual([it.call_count for it in counted], [2, 2, 2, 2])
            with mock.patch.object(asked, "MOST_KEPT", 60):  # (three vertices: 12 bytes, and 48 of degrees)
                for it in (session.degrees, session.components, session.cores, session.components, session.degrees):
                    it()
                self.assertEqual([it.call_count for it in counted], [2, 2, 2, 2])
                session.levels("c")
                self.assertEqual(list(map(dict, (session.degrees(), session.components()))), [wanted[0], wanted[1]])
                self.assertEqual([it.call_count for it in counted], [2, 3, 2, 3])
            session.close()
            for it in asks:
                self.assertRaises(misteluk.SessionClosed, it)

    def test_threads_feed_one_store(self):
        store = self.store()

        def feed(name):
            for at in range(200):
                store.insert("k", name, f"t{at}")
                if at % 20 == 0:
                    store.commit()
        threads = [threading.Thread(target=feed, args=(f"s{it}",)) for it in range(4)]
        for it in threads:
            it.start()
        for it in threads:
            it.join()
        store.commit()
        self.assertEqual((store.pending, store.stat().edges), (0, 800))

    def test_a_fork(self):
        """It is told by each call that the store is another process's, and ends nothing there."""
        store = self.store("insert k a b 1 1")
        SESSION[:] = [store.open()]
        self.addCleanup(SESSION.clear)
        self.assertNotIn("another process's", " ".join(answers()))
        with multiprocessing.get_context("fork").Pool(1) as pool:
            self.assertEqual([it for it in pool.apply(answers) if "another process's" not in it], [])
            pool.apply(close)
        self.assertEqual((store.stat().edges, SESSION[0].edge("k", "a", "b")), (1, Edge(1, 1, 1)))

    def test_a_fork_makes_its_own(self):
        """And frees nothing of what its parent has."""
        store = self.store("insert k a b 1 1")
        session = store.open()
        child = os.fork()
        if child == 0:
            status = 1
            with Store() as own:
                own.insert("k", "x", "y")
                own.commit()
                del store, session
                gc.collect()
                own.commit()
                status = 0 if own.stat().edges == 1 else 2
            os._exit(status)
        self.assertEqual(os.waitstatus_to_exitcode(os.waitpid(child, 0)[1]), 0)
        self.assertEqual(session.degrees()["a"].out, 1)

    def test_thousands_of_stores(self):
        """Memory stays level, also where a session is left behind."""
        def some(count):
            for _ in range(count):
                with Store(blocks=64) as store:
                    store.insert("k", "a", "b")
                    store.commit()
                    store.open().degrees()
            return resource.getrusage(resource.RUSAGE_SELF).ru_maxrss
        before = some(500)
        self.assertLess(some(1_500) - before, 4_096)

    def test_the_end_of_the_process(self):
        """Nothing is freed, and nothing said but that a store wasn't closed."""
        code = ("import misteluk; s = misteluk.Store(); s.insert('k', 'a', 'b'); s.commit(); session = s.open(); "
                "print(session.degrees()['a'].out)")
        done = subprocess.run([sys.executable, "-c", code], cwd=HERE.parent, stdout=subprocess.PIPE, stderr=subprocess.PIPE,
                              text=True, timeout=60)
        self.assertEqual((done.returncode, done.stdout, done.stderr), (0, "1\n", ""))

    def test_the_memory_of_a_version_comes_back(self):
        """A version that nobody has any more keeps no block from being freed."""
        store = self.store(*(f"insert k s{it} t 1 1" for it in range(20)), blocks=64)
        for again in range(3):
            session = store.open()
            for it in range(20):
                store.insert("k", f"s{it}", "t", again + 2)
            store.commit()
            self.assertEqual(store.stat().retired, 20)
            if again == 1:
                session.close()
            del session
            gc.collect()
            self.assertEqual(store.collect().recycled, 20)


class Tables(unittest.TestCase):
    def test_which_are_kept(self):
        """The latest ones of so many bytes together, or the last one alone; one that is asked for is the latest again."""
        for most, steps, kept in ((24, "abc", "bc"), (23, "abc", "c"), (1, "abc", "c"), (36, "abc", "abc"), (24, "aab", "ab"),
                                  (24, "abAc", "ac"), (24, "aBbc", "bc")):
            answers = asked.Answers()
            with mock.patch.object(asked, "MOST_KEPT", most):
                for it in steps:
                    answers.put(it, [array("I", (1, 2, 3))]) if it.islower() else answers.get(it.lower())
            self.assertEqual("".join(it for it in "abc" if answers.get(it)), kept, (most, steps))


class Choice(Case):
    def test_a_library_that_isn_t_there(self):
        """Nothing stands for it: it says what to do."""
        with mock.patch.dict(os.environ, {OF_LIBRARY: "/no/such.so"}):
            for options in ({}, {"blocks": 64}, {"endless": True}):
                with self.assertRaises(misteluk.errors.LibraryNotFound) as told:
                    Store(**options)
                self.assertEqual(str(told.exception), "no file /no/such.so (named by MISTELUK_LIBRARY) is there. Have "
                                 "MISTELUK_LIBRARY name another one, or unset it: then the package's own is loaded, or the one "
                                 "that ./stinger library makes in the repository")

    def test_no_library_at_all(self):
        """Of a package that stands alone, as one that was installed without one."""
        alone = str(self.room / "there" / "misteluk" / "engine" / "finding.py")
        with mock.patch.dict(os.environ, {OF_LIBRARY: ""}), mock.patch.object(finding, "__file__", alone):
            self.assertRaisesRegex(errors.LibraryNotFound, "^no libmisteluk.so is here. Make it by ./stinger library in the "
                                   "repository, or install the wheel of a release, or have MISTELUK_LIBRARY name a", Store)

    def test_a_library_of_elsewhere(self):
        """Of 32 bits, of another machine, and what is none: each tells the next step."""
        data = pathlib.Path(find_library()).read_bytes()
        of_32, of_another = bytearray(data), bytearray(data)
        of_32[4], of_another[18:20] = 1, (183).to_bytes(2, "little")  # (the header's class; its machine, as that of ARM)
        for name, held, why in (("of_32", of_32, "wrong ELF class: ELFCLASS32"), ("none", b"none\n", "file too short"),
                                ("of_another", of_another, f"it is there, of another machine than {platform.machine()}")):
            path = self.room / f"{name}.so"
            path.write_bytes(held)
            with mock.patch.dict(os.environ, {OF_LIBRARY: str(path)}):
                told = f"no library can be loaded: .*{why}.*Have MISTELUK_LIBRARY name another"
                self.assertRaisesRegex(misteluk.errors.LibraryNotFound, told, Store)

    def test_a_library_of_another_time(self):
        """One that lacks a function, and one of another interface."""
        with mock.patch.dict(os.environ, {OF_LIBRARY: _ctypes.__file__}):
            self.assertRaisesRegex(errors.LibraryNotFound, "has no function misteluk_.*Have MISTELUK_LIBRARY name", Store)
        here = interface.INTERFACE
        with mock.patch.object(interface, "INTERFACE", 99), mock.patch.dict(calling._OPENED, clear=True), mock.patch.dict(
                os.environ, {OF_LIBRARY: find_library()}):
            self.assertRaisesRegex(errors.LibraryNotFound, f"interface {here}, and this needs 99. Have MISTELUK_LIBRARY", Store)

    def test_no_copy(self):
        """A second store of the same handles would free them twice."""
        store = self.store("insert k a b 1 1")
        for call in (copy.copy, copy.deepcopy, pickle.dumps):
            self.assertRaisesRegex(TypeError, "save a session, and restore the file", call, store)
        self.assertEqual(store.stat().edges, 1)


class Guarding(Case):
    """What keeps calls from being made twice."""

    def test_what_is_let_go_is_given_back_once(self):
        notes, given = Notes(), []
        owned = Owned("a", notes)
        note = next(iter(notes._known))
        notes.let_go(note)
        notes.let_go(note)
        notes.give_back(given.append)
        del owned
        gc.collect()
        notes.give_back(given.append)
        self.assertEqual(given, ["a"])
        forgotten = Owned("b", notes)
        del forgotten
        notes.give_back(given.append)
        self.assertEqual((given, notes._known), (["a", "b"], {}))

    def test_a_handler_is_told(self):
        class Thing:
            def __init__(self):
                self._guard = Guard()

            @alone
            def call(self, then):
                return then()
        thing = Thing()
        self.assertEqual(thing.call(lambda: 5), 5)
        self.assertRaisesRegex(misteluk.StoreError, "a signal's handler", thing.call, lambda: thing.call(lambda: 5))
        self.assertEqual(thing.call(lambda: 6), 6)


if __name__ == "__main__":
    unittest.main()
