"""An interrupt at each place of a commit to a file: each batch is in once, in the store and in the file, and told once."""
import gc
import itertools
import unittest
import warnings

from interrupting import at_line, handler, interrupt_in_a_call, places
from modelled import OfFile
from support import Case, kill, row

from misteluk import Store
from misteluk.journal.checking import check


class Scene:
    """A store with a file and an edge, and an amount that is pending three times. What was told of commits is kept."""

    def __init__(self, room):
        self.path, self.told = str(room / "graph.db"), []
        for it in room.glob("graph.db*"):
            it.unlink()
        self.store = Store(self.path, sync="off", blocks=64)
        self.store.insert("k", "a", "b", 5, 1)
        self.store.commit()
        self.pend()

    def pend(self):
        for _ in range(3):
            self.store.add("k", "a", "b", 1, 2)

    def commit(self):
        self.told.append(self.store.commit())

    def small_batches(self):
        self.told.append(self.store.commit(batch=1))

    def numbered(self):
        self.told.append(self.store.commit(producer="feed", sequence=1))

    def compact(self):
        self.store.file.compact()

    def is_right(self):
        """Whether a commit takes what is left, and all of it is told once."""
        store = self.store
        gc.collect()
        self.told.append(store.commit())
        assert (sum(it.updated for it in self.told), store.pending) == (3, 0), self.told
        self.holds(8, sum(it.batches for it in self.told) + 1)

    def is_once(self):
        """Whether the producer, who sends the same again until an answer comes, gets that of the one time."""
        store = self.store
        for is_sent in (store.pending == 0, True, False):
            if is_sent:
                self.pend()
            done = store.commit(producer="feed", sequence=1)
            assert row(done)[:5] == (2, 0, 3, 0, 0) and store.pending == 0, (done, store.pending)
        self.holds(8, 2)

    def is_there(self):
        self.store.commit()
        self.holds(8, 2)

    def holds(self, weight, version):
        """Whether the store has the edge and the version, and the file that it leaves."""
        with self.store.open() as session:
            assert (session.edge("k", "a", "b"), session.version) == ((weight, 1, 2), version), "the store"
        self.store.close()
        assert check(self.path).faults == [], "the file"
        with Store(self.path, sync="off") as store, store.open() as session:
            assert (session.edge("k", "a", "b"), session.version) == ((weight, 1, 2), version), "the file"

    def end(self):
        kill(self.store)


class Interrupts(Case):
    def wrong(self, call, is_right, most=12):
        return places(lambda: Scene(self.room), call, lambda it: is_right(it) or True, most)[1]

    def test_a_commit(self):
        self.assertEqual(self.wrong(Scene.commit, Scene.is_right), [])

    def test_a_commit_in_small_batches(self):
        self.assertEqual(self.wrong(Scene.small_batches, Scene.is_right, 6), [])

    def test_a_numbered_commit(self):
        self.assertEqual(self.wrong(Scene.numbered, Scene.is_once), [])

    def test_a_compaction(self):
        self.assertEqual(self.wrong(Scene.compact, Scene.is_there, 6), [])

    def test_a_timer_s_interrupts(self):
        """With a model beside the store, which is opened again and again."""
        with handler(interrupt_in_a_call):
            model = OfFile(self.room)
            self.addCleanup(model.end)
            model.run(150)
        self.assertGreater(model.steps, 50)

    def is_interrupted(self, at, opening):
        """Opens a store and interrupts that at a line; whether there is such a line. What is left then Python closes late."""
        stores = []
        with warnings.catch_warnings():
            warnings.simplefilter("ignore", ResourceWarning)
            found = at_line(at, lambda: stores.append(opening()))
            for it in stores:
                it.close()
            del stores
            gc.collect()
        return found

    def lines(self, opening, is_right):
        """How many lines an opening has; it is interrupted at some of them, and then all must be right."""
        at = 1
        while self.is_interrupted(at, opening):
            is_right()
            at += 23
        is_right()
        return at

    def test_an_opening(self):
        """The next one finds the file, and no lock that the interrupted one had."""
        scene = Scene(self.room)
        scene.commit()
        scene.store.close()

        def is_right():
            with Store(scene.path, sync="off") as store:
                self.assertEqual(store.stat().version, 2)
        self.assertGreater(self.lines(lambda: Store(scene.path, sync="off"), is_right), 200)

    def test_an_opening_at_a_version(self):
        """It is there at the next call, and the store that has the file goes on."""
        scene, count = Scene(self.room), itertools.count(2)
        self.addCleanup(scene.end)

        def is_right():
            with Store.at(scene.path, version=1) as then, then.open() as session:
                self.assertEqual(session.edge("k", "a", "b"), (5, 1, 1))
            scene.store.add("k", "a", "c", 1, 1)
            self.assertEqual(scene.store.commit().version, next(count))
        self.assertGreater(self.lines(lambda: Store.at(scene.path, version=1), is_right), 200)


if __name__ == "__main__":
    unittest.main()
