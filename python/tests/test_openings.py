"""An empty store opens with all rows of a load, or of a saved file, in one step. It takes less time, and else nobody can tell it
from batches: counts, answers, refusals and versions' numbers are those of a store that took batches.

What compares the two is tried on faults that are planted, and has to find each.
"""
import contextlib
import itertools
import random
import threading
import unittest
from unittest import mock

from graphs import KINDS, NAMES, Graph
from interrupting import one_wrong, places
from support import Case, kill, optional

import misteluk
from misteluk import Edge, Limits, Store, ledger, saving
from misteluk.engine import library, openings
from misteluk.engine.operations import ADD, INSERT, REMOVE, Numbered
from misteluk.feeds import loading
from misteluk.values import records

WINDOWS = ({}, {"since": 10, "until": 40})
MOST = records.MOST_WEIGHT
# Of such weights some sums overflow, or some weights where they are to be at most 7, or none.
WEIGHTS = ([1, 7, -5], [0, MOST, -MOST, 3], [1, 2, 8])
NO_OPENING = mock.patch.object(loading, "may_open", lambda _: False)


@contextlib.contextmanager
def few_at_once():
    """Batches of 4 rows that a load joins up to 16, so that small tables have several."""
    with contextlib.ExitStack() as all_:
        all_.enter_context(mock.patch.object(records, "MOST_OPERATIONS", 4))
        for it in (loading, openings):
            all_.enter_context(mock.patch.object(it, "MOST_AT_ONCE", 16))
        yield


def rows_of(made):
    """Source, target, weight, time and kind of some rows, of which many are of one edge."""
    names, kinds = NAMES[:made.choice((1, 4, len(NAMES)))], KINDS[:made.randrange(1, 4)]
    weights = made.choice(WEIGHTS)
    return [(made.choice(names), made.choice(names), made.choice(weights), made.randrange(60), made.choice(kinds))
            for _ in range(made.choice((1, 4, 5, 30, 90)))]


def answers_of(store):
    """What the last version says to every request, but in which order it has edges."""
    with store.open() as session:
        told = [session.version, session.vertex_count, sorted(session.edges()), list(session.vertices())]
        kinds = itertools.product((None, *store.kinds()), WINDOWS)
        asks = (session.degrees, session.components, session.cores, *(lambda it=it, **how: session.levels(it, **how)
                                                                      for it in session.vertices()[::5]))
        return [*told, *(list(ask(kind=kind, **window).items()) for kind, window in kinds for ask in asks)]


def told_of(store, loaded):
    """All that is told of a store into which a feed was loaded."""
    return [loaded.commit, loaded.records, store.stat(), store.blocks, store.kinds(), store.units, answers_of(store)]


class Opened:
    """How often a desk was opened with columns while this is entered."""

    count = 0

    def __enter__(self):
        def applied(engine, opening, flight):
            self.count += flight.batch.opens > 0
            return right(engine, opening, flight)
        right = library.LibraryEngine._applied
        self.patch = mock.patch.object(library.LibraryEngine, "_applied", applied)
        self.patch.start()
        return self

    def __exit__(self, *_):
        self.patch.stop()


class Loads(Case):
    def outcome(self, rows, by, **options):
        """What a load leaves, and the same operations and load after it; or what it is refused by."""
        store = Store(**options)
        try:
            first = told_of(store, store.load(rows, by=by))
            store.remove(rows[0][4], *rows[0][:2])
            store.insert(KINDS[0], NAMES[2], NAMES[0], 2, 30)
            store.expire(20)
            store.commit(batch=4)
            return [first, told_of(store, store.load(rows[::-1], by="set"))]
        except misteluk.StoreError as fault:
            return [type(fault), str(fault), store.stat()]
        finally:
            self.let_go(store)

    def differ(self, seeds, fault=contextlib.nullcontext):
        """How many of some loads are told otherwise than those of batches, and how many stores opened with their rows."""
        count, opened = 0, Opened()
        with few_at_once(), opened:
            for seed in seeds:
                made = random.Random(seed)
                rows, by = rows_of(made), made.choice(("set", "add"))
                options = made.choice(({}, {"blocks": made.choice((16, 100, 2_000))}, {"limits": Limits(weight=7)},
                                       {"limits": Limits(vertices=made.choice((4, 12)), kinds=2)}, {"endless": True}))
                with NO_OPENING:
                    wanted = self.outcome(rows, by, **options)
                with fault():
                    count += self.outcome(rows, by, **options) != wanted
        return count, opened.count

    def test_they_are_told_as_batches_are(self):
        count, opened = self.differ(range(200))
        self.assertEqual(count, 0)
        self.assertGreater(opened, 80)

    def test_faults_are_found(self):
        def one_more(engine, operations):
            found = as_batches(engine, operations)
            return found and found + 1

        def swapped(engine, opening, flight, stat):
            made = opened(engine, opening, flight, stat)
            flight.counts.inserted, flight.counts.updated = flight.counts.updated, flight.counts.inserted
            flight.take(made.before)
            return made

        def from_nothing(engine, opening, flight, stat):
            return opened(engine, opening, flight, stat)._replace(before=0, number=0)

        def backwards(store, found, part, at, collect, opens=0):
            columns = Numbered(*(it[::-1] for it in part.columns[:6]), *part.columns[6:])
            return apply(store, found, part._replace(columns=columns) if opens else part, at, collect, opens)

        def but_the_last(store, found, part, at, collect, opens=0):
            return apply(store, found, part.some(slice(-1)) if opens and len(part.lines) > 1 else part, at, collect, opens)
        as_batches, opened, apply = loading.as_batches, library.LibraryEngine._opened, loading._apply
        for where, name, fault in ((loading, "as_batches", one_more), (library.LibraryEngine, "_opened", swapped),
                                   (library.LibraryEngine, "_opened", from_nothing),
                                   (openings, "may_overflow", lambda *_: False), (loading, "_apply", backwards),
                                   (loading, "_apply", but_the_last)):
            with self.subTest(fault=fault):
                self.assertTrue(any(self.differ([it], lambda: mock.patch.object(where, name, fault))[0] for it in range(30)))

    def test_edges_are_those_of_a_model(self):
        for seed in range(60):
            made, graph = random.Random(seed), Graph()
            rows, by = rows_of(made), made.choice(("set", "add"))
            for source, target, weight, time, kind in rows:
                graph.put(kind, source, target, weight, time, by == "add")
            store = self.store()
            store.load(rows, by=by)
            with store.open() as session:
                self.assertEqual(sorted(session.edges()), sorted((*it, edge) for it, edge in graph.items()))
                self.assertEqual((list(session.vertices()), store.kinds()), (list(graph.names), list(graph.kinds)))

    def test_as_many_rows_as_they_are(self):
        """Of 65,537 rows two batches are told of, and of one that is in a feed twice that it was updated."""
        rows = {"source": [f"a{it % 50_000}" for it in range(65_537)], "target": ["b"] * 65_537}
        for blocks, opened in ((None, 1), (200_000, 1), (66_000, 0)):
            with Opened() as found:
                store = self.store(blocks=blocks)
                loaded = store.load(rows, by="add")
            self.assertEqual((found.count, loaded.commit.inserted, loaded.commit.updated), (opened, 50_000, 15_537))
            if opened:
                self.assertEqual((loaded.commit.batches, loaded.records, store.stat().version), (2, 65_541, 2))
            with store.open() as session:
                self.assertEqual((session.edge("link", "a0", "b"), session.edge("link", "a49999", "b")),
                                 (Edge(2, 0, 0), Edge(1, 0, 0)))

    def test_only_an_empty_store_opens_so(self):
        """And one with batches of a size that is said, or without a collection, or with steps, has these."""
        rows = [("a", "b", 1, 1), ("b", "c", 1, 1)]
        with Opened() as found:
            for how in ({"batch": 1}, {"collect": False}):
                self.assertEqual(self.store().load(rows, by="set", **how).commit.inserted, 2)
            self.assertEqual(len(list(self.store().load_in_steps(misteluk.survey(rows, by="set")))), 1)
            self.store("insert link x y 1 1").load(rows, by="set")
            self.assertEqual(found.count, 0)
            self.store().load(rows, by="set")
        self.assertEqual(found.count, 1)

    def test_versions_count_on(self):
        """Those of a store to which empty batches came, one of which is held."""
        store = self.store()
        for _ in range(3):
            store.commit()
        with store.open() as before, Opened() as found:
            self.assertEqual(store.load([("a", "b", 5)], by="set").commit.version, 4)
            with store.open() as session:
                self.assertEqual((session.version, session.edge_count, found.count), (4, 1, 1))
                self.assertEqual((before.version, before.edge_count, list(before.vertices())), (3, 0, []))
                self.assertEqual(len(before.diff(session).new), 1)
            self.assertEqual(store.collect().floor, 3)
        store.insert("link", "a", "c")
        self.assertEqual((store.commit().version, store.stat().edges), (5, 2))

    def test_another_thread_was_first(self):
        """What it put there stays: batches come behind it."""
        def may_open(engine):
            thread = threading.Thread(target=self.feed, args=(store, "insert link a b 7 1"))
            thread.start()
            thread.join()
            return True
        store = self.store()
        with mock.patch.object(loading, "may_open", may_open):
            loaded = store.load([("a", "b", 5, 2), ("b", "c", 1, 2)], by="add")
        self.assertEqual((loaded.commit.version, loaded.commit.inserted, loaded.commit.updated), (2, 1, 1))
        with store.open() as session:
            self.assertEqual(session.edge("link", "a", "b"), Edge(12, 1, 2))


class Overflows(Case):
    def overflows(self, operations, most):
        """Whether an operation overflows, one after another."""
        sums = {}
        for code, kind, source, target, weight, _ in operations.rows():
            found = weight + (sums.get((kind, source, target), 0) if code == ADD else 0)
            if abs(weight) > most or abs(found) > most:
                return True
            sums[kind, source, target] = found
        return False

    def test_none_is_missed(self):
        draw, sure = random.Random(3), 0
        for _ in range(400):
            most, codes = draw.choice((40, MOST)), draw.choice(((INSERT,), (ADD,), (INSERT, ADD)))
            weights = [0, 1, -most // 4, most // 3, most, most + (most < MOST)][:draw.randrange(2, 7)]
            rows = [(draw.choice(codes), "k", draw.choice("abcdefgh"), draw.choice("abcdefgh"), draw.choice(weights), 0)
                    for _ in range(draw.choice((1, 3, 600)))]
            operations = Numbered.of(rows)
            for have in (True, False):
                with contextlib.nullcontext() if have else mock.patch.object(openings, "numpy_for", lambda *_: None):
                    found = openings.may_overflow(operations, most)
                self.assertTrue(found or not self.overflows(operations, most), (rows, most))
                sure += not found
        self.assertGreater(sure, 200)

    def test_borders(self):
        """The greatest weight is none too many, nor is a sum that comes to it."""
        for code, weights, told in ((INSERT, (40, -40), False), (INSERT, (41,), True), (INSERT, (-41,), True),
                                    (ADD, (40,), False), (ADD, (20, 20), False), (ADD, (20, 21), True), (ADD, (41,), True)):
            operations = Numbered.of([(code, "k", "a", "b", it, 0) for it in weights])
            for way in (optional("numpy"), None):
                with mock.patch.object(openings, "numpy_for", lambda *_: way):
                    self.assertEqual(openings.may_overflow(operations, 40), told, (code, weights, way))

    def test_how_many_batches_they_count_as(self):
        """Where all of them find room; none where one takes an edge away."""
        rows = [(INSERT, "k", f"a{it}", "b", 1, 0) for it in range(4_097)]
        for more, grows, free, count in (((), True, 0, 1), ((), False, 8_192, 1), ((), False, 8_191, 0),
                                         (((REMOVE, "k", "a1", "b", 0, 0),), True, 0, 0)):
            engine = mock.Mock(grows=grows, limits=Limits(), **{"stat.return_value.free": free})
            self.assertEqual(openings.as_batches(engine, Numbered.of([*rows, *more])), count)

    @unittest.skipUnless(optional("numpy"), "numpy is not there")
    def test_amounts_of_many_edges_are_sure(self):
        """Together they are more than a weight may be, and of no edge."""
        rows = [(ADD, "k", f"a{it % 997}", f"b{it % 991}", MOST // 8, 0) for it in range(2_000)]
        self.assertFalse(openings.may_overflow(Numbered.of(rows), MOST))
        self.assertTrue(openings.may_overflow(Numbered.of(rows * 9), MOST))


class Restores(Case):
    def restored(self, path, **options):
        with Store.restore(path, **options) as store:
            return [store.stat(), store.blocks, store.kinds(), store.units, answers_of(store)]

    def differ(self, seeds, fault=contextlib.nullcontext):
        count, opened = 0, Opened()
        with few_at_once(), mock.patch.object(saving, "MOST_AT_ONCE", 16):
            for seed in seeds:
                made = random.Random(seed)
                with Store(endless=made.random() < 0.5) as store:
                    store.load(rows_of(made), by=made.choice(("set", "add")))
                    if made.random() < 0.3:
                        store.expire(made.randrange(40))
                        store.commit(batch=4)
                    store.open().save(self.room / "s.csv")
                options = made.choice(({}, {"blocks": 2_000}, {"limits": Limits(vertices=len(NAMES))}))
                with mock.patch.object(saving, "may_open", lambda _: False):
                    wanted = self.restored(self.room / "s.csv", **options)
                with fault(), opened:
                    count += self.restored(self.room / "s.csv", **options) != wanted
        return count, opened.count

    def test_they_are_told_as_batches_are(self):
        count, opened = self.differ(range(60))
        self.assertEqual(count, 0)
        self.assertGreater(opened, 0)

    def test_a_fault_is_found(self):
        def one_more(engine, operations):
            found = as_batches(engine, operations)
            return found and found + 1
        as_batches = openings.as_batches
        self.assertTrue(any(self.differ([it], lambda: mock.patch.object(saving, "as_batches", one_more))[0] for it in range(20)))

    def test_what_is_refused_is_told_as_of_batches(self):
        store = self.store("insert k a b 1 1", "insert k c d 1 1")
        store.open().save(self.room / "s.csv")
        told = []
        for may_open in (openings.may_open, lambda _: False):
            with mock.patch.object(saving, "may_open", may_open), self.assertRaises(misteluk.StoreError) as fault:
                Store.restore(self.room / "s.csv", limits=Limits(vertices=3))
            told.append((type(fault.exception), str(fault.exception)))
        self.assertEqual(*told)


class Scene:
    """An empty store into which a feed is loaded, which makes it open."""

    ROWS = [("a", "b", 1, 1), ("b", "c d", 2, 2), ("a", "b", 4, 3)]

    def __init__(self):
        self.store, self.told = Store(blocks=64, seats=2), []

    def load(self):
        self.told.append(self.store.load(self.ROWS, by="add"))

    def is_right(self):
        """Whether all rows are in or none, and a load after it adds them once more."""
        count = self.store.stat().version
        assert count in (0, 1) and len(self.told) <= count, (count, self.told)
        assert self.store.kinds() == ["link"] * count, self.store.kinds()
        with self.store.open() as session:
            assert session.edge_count == 2 * count and not (count and session.edge("link", "a", "b") != (5, 1, 3))
        assert self.store.load(self.ROWS, by="add").commit.version == count + 1
        with self.store.open() as session:
            assert session.get_edges([("link", "a", "b"), ("link", "b", "c d")]) == [
                (5 * count + 5, 1, 3), (2 * count + 2, 2, 2)]
        assert self.store.pending == 0

    def end(self):
        kill(self.store)


class Interrupts(Case):
    def test_places(self):
        count, wrong = places(Scene, Scene.load, Scene.is_right, 100)
        self.assertGreater(count, 300)
        self.assertEqual(wrong, [])

    def test_places_find_a_fault(self):
        """One to plant: nobody looks what became of a load whose call was interrupted."""
        with mock.patch.object(ledger.Ledger, "_land", lambda _: None), one_wrong():
            self.assertEqual(len(places(Scene, Scene.load, Scene.is_right, 100)[1]), 1)


if __name__ == "__main__":
    unittest.main()
