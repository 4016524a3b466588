"""What became of edges between versions that one store holds: the library tells it, as sets of their edges give it."""
import random
import unittest
from unittest import mock

from support import IN_PROCESS, IS_SERVED, Case, optional

import misteluk
from misteluk import diffs
from misteluk.engine import differences
from misteluk.session import LAST
from misteluk.values import diff

numpy = optional("numpy")
PARTS = ("gone", "new", "before", "after")


def told(found):
    """The four parts of a difference, as lists."""
    return [list(getattr(found, it)) for it in PARTS]


def by_sets(earlier, later, scope):
    """The same from the edges of both versions."""
    before, after = ({it[:3]: it[3] for it in diffs.edges_or_none(session, *scope)} for session in (earlier, later))
    changed = [it for it in after if it in before and before[it] != after[it]]
    rows = [[(*it, before[it]) for it in before if it not in after], [(*it, after[it]) for it in after if it not in before]]
    return [*rows, *([(*it, marks[it]) for it in changed] for marks in (before, after))]


@unittest.skipIf(IS_SERVED, IN_PROCESS)
class Diffs(Case):
    def of_the_library(self, earlier, later, *scope):
        """What the library tells: whoever reads all edges of a version fails."""
        with mock.patch.object(diffs, "edges_or_none", side_effect=AssertionError("the edges were read")):
            return earlier.diff(later, *scope)

    def change(self, made, store, names, count):
        """Changes edges of few sources to many targets, of which a source's edges fill several blocks, and removes whole runs."""
        for _ in range(count):
            kind, source, time = made.choice("kl"), names[made.randrange(3)], made.randrange(60)
            word, target = made.random(), made.randrange(len(names))
            if word < 0.6:
                store.insert(kind, source, names[target], made.randrange(4), time)
            elif word < 0.7:
                store.add(kind, source, names[target], 1, time)
            elif word < 0.98:
                for it in range(target, min(target + made.choice((1, 1, 40)), len(names))):
                    store.remove(kind, source, names[it])
            else:
                store.expire(made.randrange(20))
        store.commit()

    def test_at_random(self):
        made, pairs = random.Random(23), 0
        while pairs < 200:
            store = self.store(seats=6)
            names = [f"v{it}" for it in range(made.choice((4, 90, 200)))]
            sessions = []
            for _ in range(6):
                self.change(made, store, names, made.choice((1, 4, 60, 300)))
                sessions.append(store.open())
            for _ in range(20):
                first, last = sorted(made.sample(range(6), 2))
                begin = made.randrange(50)
                scope = (made.choice((None, None, "k", "l", "none")), begin, begin + made.randrange(50))
                if made.random() < 0.4:
                    scope = (scope[0], 0, LAST)
                earlier, later = sessions[first], sessions[last]
                if scope[0] in (None, *later.kinds()):
                    found = told(self.of_the_library(earlier, later, *scope))
                else:  # (neither version has the kind)
                    found = told(earlier.diff(later, *scope))
                    self.assertEqual(found, [[], [], [], []])
                self.assertEqual(found, by_sets(earlier, later, scope))
                for way in (None, numpy):
                    with mock.patch.object(diff, "numpy_for", lambda count, way=way: way if count else None):
                        self.assertEqual(told(diff.Diff(*(diffs.edges_or_none(it, *scope) for it in (earlier, later)))), found)
                pairs += 1
            store.close()

    def test_a_difference_of_many_edges_takes_more_room(self):
        store = self.store(seats=3)
        names = [f"v{it}" for it in range(40)]
        first = store.open()
        for source in names:
            for target in names:
                store.insert("k", source, target, 1, 1)
        store.commit()
        last = store.open()
        for rooms in ((1, 1, 1), (7, 2, 100), (1_024, 4, 262_144)):
            with mock.patch.multiple(differences, **dict(zip(("FIRST_ROOM", "MORE_ROOM", "MOST_ROOM"), rooms))):
                found = self.of_the_library(first, last)
                self.assertEqual((len(found.new), len(found.gone), list(found.new)), (1_600, 0, list(last.edges())))

    def test_where_the_desk_does_not_hold_both(self):
        """Over another store, backwards, and over versions from before the store began anew, it is found by the edges."""
        store, other = self.store("insert k a b 1 1", seats=4), self.store("insert k a c 1 1")
        first = store.open()
        self.feed(store, "remove k a b")
        last = store.open()
        self.assertEqual([first.diff(other.open()).counts(), last.diff(first).counts()],
                         [{"gone": 1, "new": 1, "changed": 0}, {"gone": 0, "new": 1, "changed": 0}])
        self.assertEqual(told(self.of_the_library(first, first)), [[], [], [], []])
        first.close()
        self.assertRaises(misteluk.SessionClosed, first.diff, last)
        self.assertRaises(misteluk.SessionClosed, last.diff, first)

    def test_a_session_closed_takes_its_hold_back_alone(self):
        """What became of edges is read by a handle of its own, which is freed."""
        store = self.store("insert k a b 1 1", seats=2)
        for it in range(40):
            with store.open() as first:
                self.feed(store, f"insert k a b {it} {it + 2}")
                with store.open() as last:
                    self.assertEqual(self.of_the_library(first, last).counts(), {"gone": 0, "new": 0, "changed": 1})


if __name__ == "__main__":
    unittest.main()
