"""A load that is interrupted, between any two steps of Python's own, leaves whole batches in the store and none of them twice.

Each test is made again with a fault that is planted, and has to find it.
"""
import unittest
from unittest import mock

from interrupting import one_wrong, places
from support import Case, kill

from misteluk import Columns, Store, ledger, survey
from misteluk.feeds.loading import load_in_steps
from misteluk.values.units import Units

# Rows of a feed, two a batch: an edge that is in each of three batches, and a name that goes as an id.
ROWS = [("a", "b", 1, 1), ("b", "c", 2, 2), ("a", "b", 4, 3), ("c", "d e", 8, 4), ("a", "b", 16, 5)]
ROWS_A_BATCH, BATCHES = 2, 3
COLUMNS = Columns(1, 2, weight=3, time=4, default_kind="l")
BEFORE = {("l", "a", "b"): (5, 1, 1)}


class Scene:
    """A store with one edge and a session of it, into which a feed is loaded; and what was told of the feed's batches."""

    def __init__(self, by):
        self.by, self.told = by, []
        self.store = Store(blocks=64, seats=2)
        self.store.insert("l", "a", "b", 5, 1)
        self.store.commit()
        self.session = self.store.open()

    def load(self):
        return self.store.load(ROWS, by=self.by, batch=ROWS_A_BATCH, columns=COLUMNS)

    def steps(self):
        return load_in_steps(self.store, survey(ROWS, by=self.by, batch=ROWS_A_BATCH, columns=COLUMNS))

    def in_steps(self):
        for receipt in self.steps():
            self.told.append(receipt)

    def is_right(self):
        """Whether a number of whole batches is in, those that were told of among them; and a second load comes behind them."""
        count = self.store.stat().version - 1
        assert len(self.told) <= count <= (len(self.told) + 1 if self.told else BATCHES), count
        assert [it.version for it in self.told] == list(range(2, len(self.told) + 2))
        there = ROWS[:count * ROWS_A_BATCH]
        self.has(self.after(there))
        assert self.load().commit.version == count + BATCHES + 1
        self.has(self.after(there + ROWS))
        assert self.session.get_edges(list(BEFORE)) == list(BEFORE.values()) and self.store.pending == 0

    def after(self, rows):
        """The edges behind such rows, by a plain loop."""
        edges = dict(BEFORE)
        for source, target, weight, time in rows:
            before, first, _ = edges.get(("l", source, target), (0, time, 0))
            edges["l", source, target] = (weight + (before if self.by == "add" else 0), first, time)
        return edges

    def has(self, edges):
        """Whether the last version has these edges and no others, by their own names."""
        with self.store.open() as session:
            assert session.get_edges(list(edges)) == list(edges.values()), edges
            assert set(session.degrees()) == {it for _, *ends in edges for it in ends}
            assert self.store.stat().edges == len(edges)

    def end(self):
        kill(self.store)


class Empty:
    """A store that nothing was told of, and a feed in cents that says its units, and was counted before."""

    def __init__(self, _):
        self.store = Store(blocks=64)
        self.found = survey(ROWS, by="add", batch=ROWS_A_BATCH, columns=COLUMNS, units=Units(weight_scale=100))

    def load(self):
        self.store.load(self.found, by="add")

    def is_right(self):
        """Whether the units are the feed's where a part of it is in, and no one's where nothing is."""
        wanted = Units(100 if self.store.stat().version else 1, "number")
        assert (self.store.units, self.store.kinds()) == (wanted, ["l"] if self.store.stat().version else []), self.store.units
        assert self.store.load([("x", "y", 7)], by="set", units=Units(weight_scale=wanted.weight_scale)).commit.inserted == 1
        with self.store.open() as session:
            assert session.edge("link", "x", "y").weight == 7
            assert not self.store.kinds()[1:] or session.edge("l", "b", "c").weight == 2

    def end(self):
        kill(self.store)


class Loads(Case):
    def places(self, by, call=Scene.load, scene=Scene):
        return places(lambda: scene(by), call, scene.is_right)

    def test_places(self):
        for by, call in (("add", Scene.load), ("set", Scene.load), ("add", Scene.in_steps)):
            with self.subTest(by, call=call.__name__):
                count, wrong = self.places(by, call)
                self.assertGreater(count, 300)
                self.assertEqual(wrong, [])

    def test_places_of_one_that_says_units(self):
        count, wrong = self.places("add", Empty.load, Empty)
        self.assertGreater(count, 50)
        self.assertEqual(wrong, [])

    def test_places_find_a_fault(self):
        """One to plant: nobody looks what became of a batch whose call was interrupted."""
        with mock.patch.object(ledger.Ledger, "_land", lambda _: None), one_wrong():
            self.assertEqual(len(self.places("add", Empty.load, Empty)[1]), 1)

        def twice(self, batch, collect, feed=None):
            """Another: what an interrupt broke off is applied again."""
            try:
                return right(self, batch, collect, feed)
            except KeyboardInterrupt:
                return right(self, batch, collect, feed)
        right = ledger.Ledger.apply
        with mock.patch.object(ledger.Ledger, "apply", twice), one_wrong():
            self.assertEqual(len(self.places("add")[1]), 1)


if __name__ == "__main__":
    unittest.main()
