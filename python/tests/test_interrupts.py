"""An interrupt ends a call and nothing else: no answer is taken for another's, no batch is applied twice, no seat stays taken.

Each call is interrupted in the calling thread between steps of Python's own; and calls are interrupted by a timer, with a model
of the store. Each test is made again with a fault that is planted, and has to find it.
"""
import functools
import gc
import os
import signal
import unittest
import warnings
import weakref
from unittest import mock

from asking import NEED, NO_ANSWERS, ROWS, calls, plain
from interrupting import CALLS, EDGES, Scene, after, handler, interrupt_in_a_call, one_wrong, places
from modelled import Model
from support import Case, kill, optional

import misteluk
from misteluk import Store, ledger, store
from misteluk.engine import held, library
from misteluk.engine.calling import room
from misteluk.engine.protocol import Arrays

ALL = {"MISTELUK_INTERRUPTS": "all"}
# What of a store is interrupted by other tests, which are of loads, of feeds and of stores with a file; and what asks it for
# nothing.
ELSEWHERE = {"load", "load_in_steps", "follow", "file", "at"}
OF_A_STORE = {**dict.fromkeys(("insert", "add", "remove", "expire", "discard"), "operations"), "compact": "rebase",
              "close": "end", **{it: it for it in ("commit", "open", "stat", "collect", "restore")}}
NO_CALLS = {"blocks", "pending", "kinds", "units", "is_closed"}


class Interrupts(Case):
    def places(self, name, scene=Scene):
        return places(scene, CALLS[name], lambda scene: after(name, scene))

    def find_a_fault(self, name, scene=Scene):
        """Of a call in which one is planted."""
        with one_wrong():
            self.assertEqual(len(self.places(name, scene)[1]), 1)

    def test_each_call(self):
        for name in CALLS:
            with self.subTest(name):
                count, wrong = self.places(name)
                self.assertGreater(count, 10)
                self.assertEqual(wrong, [])

    def test_where_it_renews_itself(self):
        """Nothing is applied twice or lost, the session answers on, and versions are counted on, wherever the interrupt comes."""
        anew = functools.partial(Scene, limits=misteluk.Limits(batches=1))
        scene = anew()
        self.addCleanup(scene.end)
        self.assertEqual((scene.store._engine.operations_kept, scene.store.commit().version,
                          scene.store._engine.operations_kept), (2, 2, 3))
        for name in ("commit", "small batches"):
            count, wrong = self.places(name, anew)
            self.assertGreater(count, 30)
            self.assertEqual(wrong, [])

        def unnoted(engine, opening):
            """A fault to plant: that it begins anew is noted afterwards."""
            library.check(engine.library.desk_rebase(opening.desk.raw))
            engine._opening = opening._replace(before=opening.number, kept=0, flying=None)
            return engine._opening
        with mock.patch.object(library.LibraryEngine, "_begin_anew", unnoted), mock.patch.dict(os.environ, ALL):
            self.find_a_fault("commit", anew)

    def test_each_call_finds_a_fault(self):
        with mock.patch.object(weakref, "ref", lambda it: lambda: it):
            self.find_a_fault("open")
        with mock.patch.object(ledger.Ledger, "_land", lambda _: None):
            self.find_a_fault("commit")

    def test_what_is_noted_too_early(self):
        """A fault to plant: a call notes that it gives what it did, and an interrupt may come before it gives that."""
        def early(call, *given):
            call(*given)
            return iter(())
        with mock.patch.object(store, "noting", early):
            for name in ("commit", "nothing", "rebase", "end", "leave"):
                with self.subTest(name):
                    self.find_a_fault(name)

    def test_operations_are_kept_once_or_not_at_all(self):
        for word, given in (("insert", "kst"), ("add", "kst"), ("remove", "kst"), ("expire", (3,)), ("discard", ())):
            def right(scene, wanted=(0, 3) if word == "discard" else (3, 4)):
                assert scene.store.pending in wanted, scene.store.pending
            count, wrong = places(Scene, lambda scene: getattr(scene.store, word)(*given), right)
            self.assertGreater(count, 5)
            self.assertEqual(wrong, [])

    def test_a_version_that_is_saved_and_restored(self):
        """The file has the version, whole, or isn't there; each is made again, and nothing is left open."""
        path, descriptors = self.room / "saved.csv", set(os.listdir("/proc/self/fd"))

        def restored(scene):
            with Store.restore(path) as other, other.open() as session:
                assert session.get_edges(list(EDGES)) == list(EDGES.values())

        def saved(scene):
            for _ in range(2):
                if path.exists():
                    restored(scene)
                    path.unlink()
                scene.session.save(path)
            assert os.listdir(self.room) == [path.name], os.listdir(self.room)
            scene.is_right()
        with warnings.catch_warnings(), mock.patch("sys.unraisablehook"):
            warnings.simplefilter("ignore", ResourceWarning)  # (Python closes late what an interrupt comes amid)
            for call, right in ((lambda it: it.session.save(path), saved), (lambda it: Store.restore(path), restored)):
                count, wrong = places(Scene, call, right)
                self.assertGreater(count, 100)
                self.assertEqual(wrong, [])
                gc.collect()
        self.assertEqual(set(os.listdir("/proc/self/fd")), descriptors)

    def test_three_hundred(self):
        model = Model(self.room)
        self.addCleanup(model.end)
        with handler(interrupt_in_a_call):
            model.run(300)
        self.assertGreater(model.steps, 100)  # (on a quiet machine fewer steps than interrupts)

    def test_three_hundred_find_a_fault(self):
        # An interrupt leaves the model only where it comes while a fault is on its way out of a call.
        found = (Exception, KeyboardInterrupt)
        with mock.patch.object(ledger.Ledger, "_land", lambda _: None), handler(interrupt_in_a_call), self.assertRaises(found):
            model = Model(self.room)
            self.addCleanup(model.end)
            model.run(300)

    def test_a_handler_that_calls(self):
        """It has its answer, or is told that it interrupts another call; and the call that it interrupts has its own."""
        store = self.store("insert l a b 5 1")
        session, told = store.open(), []

        def call(*_):
            try:
                told.append(f"{store.stat().edges} edges")
            except misteluk.StoreError as fault:
                told.append(str(fault))
        with handler(call):
            while len(told) < 50:
                signal.setitimer(signal.ITIMER_REAL, 1e-4)
                for _ in range(9):
                    self.assertEqual(session.edge("l", "a", "b"), (5, 1, 1))
        interrupts = "a signal's handler can't call a store while it interrupts another call of it"
        self.assertLessEqual(set(told), {"1 edges", interrupts})


class Asked:
    """A store with rows and a session of them, which is asked something."""

    def __init__(self, call, given, wanted):
        self.call, self.given, self.wanted = call, given, wanted
        self.store = Store(blocks=64, seats=2)
        for word, *ends, weight, time in map(str.split, ROWS):
            getattr(self.store, word)(*ends, int(weight), int(time))
        self.store.commit()
        self.session = self.store.open()

    def ask(self):
        return self.call(self.session, *self.given)

    def is_right(self):
        """Whether the session answers the same as one that nobody interrupted, and so does one that is opened now; and whether
        each has its seat."""
        with self.store.open() as later:
            for it in (self.session, later):
                found = plain(self.call(it, *self.given)), plain(it.edges()), plain(it.degrees())
                assert found == self.wanted, found
        self.session.close()
        for it in [self.store.open() for _ in range(2)]:
            it.close()

    def end(self):
        kill(self.store)


class Questions(Case):
    """Each call of a session that answers, interrupted: neither that session nor a later one answers anything else."""

    def places(self, name):
        (call, given), = ((call, given) for it, call, given in calls(str(self.room / "edges.csv")) if it == name)
        scene = Asked(call, given, None)
        wanted = plain(scene.ask()), plain(scene.session.edges()), plain(scene.session.degrees())
        scene.end()
        # (a question notes nothing at its end)
        return places(lambda: Asked(call, given, wanted), Asked.ask, Asked.is_right, 5, 2)

    def test_each(self):
        for name, *_ in calls(""):
            with self.subTest(name):
                count, wrong = self.places(name)
                self.assertGreater(count, 3)
                self.assertEqual(wrong, [])

    def test_a_fault_is_found(self):
        """Two to plant: a table is kept before it is filled, and edges are before they are read."""
        def early(self, call, codes, scope, *given):
            found = self.kept.answers.get((call, scope, given))
            if found is None:
                found = [room(it, self.count) for it in codes]
                self.kept.answers.put((call, scope, given), found)
                found[:] = self._new_table(getattr(self._library, f"version_{call}"), codes, self._view(scope), *given)
            return found

        def empty(self, scope):
            if self.kept.all is None:
                self.kept.all = Arrays.none()
                self.kept.all = self._read(self._view(scope))
            return self.kept.all
        for name, of, planted in (("cores", "_table", early), ("levels", "_table", early), ("edges", "edges", empty)):
            with self.subTest(name), mock.patch.object(held.LibraryVersion, of, planted), mock.patch.dict(os.environ, ALL), \
                    one_wrong():
                self.assertEqual(len(self.places(name)[1]), 1)

    def test_each_call_is_interrupted(self):
        """No call of a store or a session is left out, here or in the tests that are named."""
        of_session = {it for it in dir(self.store(*ROWS).open()) if not it.startswith("_")} - NO_ANSWERS
        passed_over = {it for it, package in NEED.items() if not optional(package)}
        self.assertEqual(of_session - {it for it, *_ in calls("")}, passed_over)
        of_store = {it for it in dir(Store) if not it.startswith("_")} - NO_CALLS - ELSEWHERE
        self.assertEqual(of_store, set(OF_A_STORE))
        self.assertEqual({it for it in OF_A_STORE.values() if it not in CALLS}, {"operations", "restore"})


if __name__ == "__main__":
    unittest.main()
