"""Components that are kept from version to version are those that a session has of the same version, which the library finds in
all its edges."""
import random
import threading
import unittest
from unittest import mock

from interrupting import Scene, one_wrong, places
from support import Case, as_soon_as

import misteluk
from misteluk import Limits, Store, components
from misteluk.engine import news
from misteluk.journal.journal import Journal

# How many stores are fed, and how often each.
FEEDS, STEPS = 100, 20
WORDS = ("insert", "add", "remove", "expire")


def joined(before, after):
    """The labels that are none any more, each with the one in its place."""
    return {it: after[it] for it in set(before.values()) if after[it] != it}


class Feed:
    """A store that changes by chance, and its components; and what a session says of these."""

    def __init__(self, made, store):
        self.made, self.store, self.live = made, store, misteluk.LiveComponents(store)
        self.session, self.known, self.time, self.refused, self.is_same = store.open(), {}, 0, 0, True

    def change(self):
        """Commits a batch, which may be refused, or has the store start over."""
        made, store = self.made, self.store
        few = made.random() < 0.7  # (only additions)
        for _ in range(made.choice((0, 1, 1, 3, 12))):
            word = "insert" if few else made.choices(WORDS, (30, 20, 40, 2))[0]
            ends = [f"v{made.randrange(40)}" for _ in range(2)]
            self.time += 1
            if word == "expire":
                store.expire(max(self.time - made.randrange(30), 0))
            else:
                marks = () if word == "remove" else (made.choice((1, 1, 1, 1, 1, 9, 10)), self.time)
                getattr(store, word)(made.choice("kl"), *ends, *marks)
        try:
            done = store.commit()
            self.is_same = self.is_same and not (done.removed or done.expired or done.overflowed)
        except misteluk.Refused:
            store.discard()
            self.refused += 1
        chance = made.random()
        if chance < 0.03:
            store.compact()
        elif chance < 0.06:
            with store.open() as last:
                store.compact(made.choice((last, self.session if self.session.is_open else last)))
            self.is_same = False

    def check(self, case):
        """Whether the components are those of the last version, and what was joined since the one before is told: unless an edge
        is gone, or the store started over, or more came than is kept."""
        told, live, session = self.live.update(), self.live, self.store.open()
        found = session.components()
        if told is not None or news.MOST > 10:
            case.assertEqual(told, joined(self.known, found) if self.is_same else None)
        case.assertEqual((live.version, live.count, live.table()), (session.version, len(set(found.values())), found))
        case.assertEqual([live[it] for it in found], list(found.values()))
        ends = [self.made.choice(found.names) for _ in range(2 if found else 0)]
        case.assertTrue(not ends or live.same(*ends) is (found[ends[0]] == found[ends[1]]))
        self.take(session)
        return told is not None and len(told)

    def take(self, session):
        self.session.close()
        self.session, self.known, self.is_same = session, session.components(), True


class Joining(Scene):
    """A store whose last batch joins two components, which nobody was told of yet."""

    def __init__(self):
        super().__init__()
        self.store.discard()
        self.store.insert("l", "d", "e")
        self.store.commit()
        self.live = misteluk.LiveComponents(self.store)
        self.store.insert("l", "e", "c")
        self.store.commit()

    def update(self):
        self.told.append(self.live.update())

    def is_right(self):
        """What wasn't told isn't known; and the components are those of the last version."""
        told = [*self.told, self.live.update()]
        assert told in ([{"d": "a"}, {}], [{"d": "a"}], [None]), told
        assert self.live.table() == dict.fromkeys("abcde", "a"), self.live.table()


class LiveComponents(Case):
    def whole(self):
        """Entered where nobody is to look at all edges."""
        return mock.patch.object(components, "Trees", side_effect=AssertionError("all edges were looked at"))

    def feed_by_chance(self, made, **options):
        """Feeds a store, and counts at how many versions components were joined, and at how many all were found again."""
        with Store(seats=4, **options) as store:
            feed, grown, whole = Feed(made, store), 0, 0
            for _ in range(STEPS):
                feed.change()
                if made.random() < 0.8:
                    count = feed.check(self)
                    grown, whole = grown + (count is not False and count > 0), whole + (count is False)
            feed.live.close()
            feed.session.close()
        return grown, whole, feed.refused

    def test_at_random(self):
        made, found = random.Random(31), []
        for at in range(FEEDS):
            options = ({}, {"limits": Limits(vertices=35)}, {"blocks": 60}, {"limits": Limits(weight=9)})[at % 4]
            with mock.patch.object(news, "MOST", made.choice((10, 1 << 14))):
                found.append(self.feed_by_chance(made, **options))
        for wanted, counts in zip((250, 100, 20), zip(*found)):
            self.assertGreater(sum(counts), wanted)

    def test_threads(self):
        """Several threads use it while another one commits: each table is that of its version."""
        store, made = self.store(seats=8), random.Random(5)
        wanted, found, is_over = {0: {}}, [], threading.Event()
        live = misteluk.LiveComponents(store)

        def ask():
            while not is_over.is_set():
                live.update()
                found.append(live.table())
        asking = [threading.Thread(target=ask) for _ in range(2)]
        for it in asking:
            it.start()
        for at in range(120):
            for _ in range(3):
                store.insert("k", f"v{made.randrange(60)}", f"v{made.randrange(60)}")
            if at % 10 == 9:
                store.remove("k", *store.open().edges()[0][1:3])
            version = store.commit().version
            with store.open() as session:
                wanted[version] = session.components()
            as_soon_as(lambda: found and found[-1].version == version)
        is_over.set()
        for it in asking:
            it.join()
        self.assertEqual([it for it in found if wanted[it.version] != it], [])

    def test_next_to_a_batch_that_is_written(self):
        """While a batch is written to a store's file, others have the version of before, and don't wait."""
        store = self.store("insert k a b 1 1", "insert k c d 1 1", path=self.room / "graph.db")
        live, found, append = misteluk.LiveComponents(store), [], Journal.append

        def written(*given):
            asking = threading.Thread(target=lambda: found.append((live.update(), live.version)))
            asking.start()
            asking.join()
            return append(*given)
        with mock.patch.object(Journal, "append", written), mock.patch.object(store._ledger, "settle"), self.whole():
            self.feed(store, "insert k b c 1 2")
            found.append((live.update(), live.version))
        self.assertEqual(found, [({}, 1), ({"c": "a"}, 2)])
        with Store.at(self.room / "graph.db", version=1) as then:
            self.assertEqual(misteluk.LiveComponents(then).count, 2)

    def test_a_followed_feed(self):
        """An update within the call that tells of a batch is of that batch's version, or of a later one."""
        path, store, found = self.file("feed", "a,b,1,1\nc,d,1,2\nb,c,1,3\n"), self.store(), []
        live = misteluk.LiveComponents(store)
        columns = misteluk.Columns(1, 2, weight=3, time=4)

        def on(batch):
            found.append((live.update(), live.version - batch.version))
        with self.whole(), store.follow(path, by="add", columns=columns, batch=1, until_end=True, on=on) as following:
            self.assertEqual(len(list(following)), 3)
        self.assertEqual(found, [({}, 0), ({}, 0), ({"c": "a"}, 0)])

    def test_interrupts(self):
        self.assertEqual(places(Joining, Joining.update, Joining.is_right)[1], [])
        with one_wrong(), mock.patch.object(components, "noting", lambda call, it: call(it) or ()):
            self.assertEqual(len(places(Joining, Joining.update, Joining.is_right)[1]), 1)

    def test_one_that_is_broken_off(self):
        scene = Joining()
        self.addCleanup(scene.end)
        with mock.patch.object(components.Trees, "root", side_effect=KeyboardInterrupt):
            self.assertRaises(KeyboardInterrupt, scene.live.update)
        for ask in (lambda: scene.live.count, lambda: scene.live["a"], scene.live.table):
            self.refused(misteluk.StoreError, "an update was broken off", ask)
        self.assertEqual((scene.live.update(), scene.live.update(), scene.live.version), (None, {}, 3))

    def test_much_that_is_new(self):
        """So many operations are kept as there may be, of one batch or several; of columns those with as many names."""
        edges = [(f"a{it}", f"b{it}") for it in range(4)]
        for batches, is_known in (([3], True), ([4], False), ([1, 2], True), ([2, 2], False), ([4, 1], False)):
            store, count = self.store("insert k a b 1 1"), 0
            live = misteluk.LiveComponents(store)
            with mock.patch.object(news, "MOST", 3):
                for size in batches:
                    for ends in edges[:size]:
                        store.insert("k", *ends)
                    store.commit()
                self.assertEqual((live.update(), live.count), ({} if is_known else None, 1 + max(batches)))
                store.insert("k", "a", "a0")
                store.commit()
                self.assertEqual((live.update(), live.count), ({"a0": "a"}, max(batches)))
                for count, wanted in ((2, {}), (3, None)):
                    rows = {"source": ["c"] * count, "target": [f"c{count}{it}" for it in range(count)]}
                    store.load({"source": ["c"] * 2, "target": ["d", "d"]}, by="set")
                    self.assertEqual((live.update(), live["d"]), ({}, "c"))
                    store.load(rows, by="set", batch=1)
                    self.assertEqual((live.update(), live.same("d", f"c{count}0")), (wanted, True))

    def test_names_and_errors(self):
        store = self.store("insert k a b 1 1")
        store.insert("k", "Иванов Пётр", "c d")
        store.commit()
        live = misteluk.LiveComponents(store)
        self.assertEqual((live["c d"], live.same("a", "c d"), live.count), ("Иванов Пётр", False, 2))
        store.insert("k", "b", "c d")
        store.commit()
        self.assertEqual((live["c d"], live.update(), live["c d"]), ("Иванов Пётр", {"Иванов Пётр": "a"}, "a"))
        self.refused(misteluk.NoVertex, "components['nobody']", lambda: live["nobody"])
        self.refused(misteluk.NoVertex, "components['nobody']", lambda: live.same("a", "nobody"))
        self.assertRaises(TypeError, lambda: live[5])
        self.assertEqual(repr(live), "<LiveComponents: 1 of version 3>")
        with store.open() as session:
            store.compact(session)
        self.refused(misteluk.SessionClosed, "the components of version 3 are closed", lambda: live.count)
        self.assertEqual((live.update(), live.version, live["b"]), (None, 0, "a"))
        live.close()
        self.refused(misteluk.SessionClosed, "of version 0 are closed", lambda: live["a"])
        self.refused(misteluk.SessionClosed, "the components are closed", live.update)
        with misteluk.LiveComponents(store) as live:
            store.close()
            self.refused(misteluk.StoreError, "the store is closed", live.update)
        self.assertEqual(repr(live), "<LiveComponents: closed>")

    def test_an_endless_store_drops_names(self):
        store = self.store(endless=True, limits=Limits(vertices=6))
        live = misteluk.LiveComponents(store)
        for at in range(20):
            ends = f"k a{at} b{at}", f"k b{at} c{at}"
            for operation in (*(f"insert {it} 1 1" for it in ends), *(f"remove {it}" for it in ends)):
                self.feed(store, operation)
                live.update()
                with store.open() as session:
                    self.assertEqual((live.table(), live.version), (session.components(), session.version))

    def test_what_was_heard_before_the_store_started_over(self):
        """A version has the number of one from before, which wasn't asked for; and what its batch did isn't known."""
        store = self.store("insert k a x 1 1", limits=Limits(weight=9))
        live = misteluk.LiveComponents(store)
        with store.open() as session:
            self.feed(store, "insert k a b 1 1")
            live.update()
            self.feed(store, "insert k a b 2 2")
            store.compact(session)
        for operation, wanted in (("insert k b y 1 1", {}), ("insert k b y 2 1", {}), ("insert k b y 10 1", None)):
            live.update()
            self.feed(store, operation)
            self.assertEqual((live.update(), live.count, live.same("a", "b")), (wanted, 2, False))

    def test_it_takes_no_seat(self):
        """Sessions, and as many as there are of these, may hold more versions than the library does. Of a store with a file each
        batch holds one more: where none is left, the oldest ones answer on."""
        for count, options in ((16, {}), (16, {"path": self.room / "graph.db"}), (9, {"path": self.room / "other.db"})):
            store = self.store("insert k a b 1 1", seats=16, **options)
            lives, sessions = [], []
            for at in range(40):
                if at % 20 < count:
                    lives.append(misteluk.LiveComponents(store))
                elif at % 20 < 16:
                    sessions.append(store.open())
                self.feed(store, f"insert k b{at} c{at} 1 1")
            self.assertEqual([it.count for it in lives], [at + 1 for at in range(40) if at % 20 < count])
            self.assertEqual([len(set(it.components().values())) for it in sessions],
                             [at + 1 for at in range(40) if count <= at % 20 < 16])
            for it in lives:
                it.update()
                self.assertEqual((it.count, it["c39"]), (41, "b39"))
            store.close()


if __name__ == "__main__":
    unittest.main()
