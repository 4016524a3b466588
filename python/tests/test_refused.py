"""A commit that is refused changes nothing: all that can be seen of a store and its sessions is compared before and after it.

A version opened afterwards has what one has that was opened before; and what is pending goes in once there is room for it.
"""
from dataclasses import replace
import contextlib
import unittest
from unittest import mock

from support import Case, kill, row

import misteluk
from misteluk import Limits
from misteluk.errors import KindsFull, NamesFull, NoMemory, PoolEmpty
from misteluk.engine import library
from misteluk.engine.interface import Code
from misteluk.values import limits

FULL = Limits(vertices=4, kinds=2)
# Four names and two kinds, of which two names and a kind have no edge any more.
IDLE = ("insert k a b 1 1", "insert q c d 2 2", "remove q c d")
USED = ("insert k a b 1 1", "insert q c d 2 2")
# Two edges of 16 blocks, each set nine times: the other blocks are free, or those of versions that nobody has.
REPLACED = ["insert k a b 1 1"] + [f"insert k a b {it} {it}" for it in range(2, 9)]
FIVE = [f"insert k a n{it} 1 9" for it in range(5)]
TWENTY = [f"insert k s{it} t 1 9" for it in range(20)]
# How a store is made, what is in, what is refused, and by which word.
REFUSALS = {
    "names": ({"limits": FULL}, USED, ["insert k a e 1 3"], NamesFull),
    "names of an endless one": ({"limits": FULL, "endless": True}, USED, ["insert k a e 1 3"], NamesFull),
    "idle names": ({"limits": FULL}, IDLE, ["insert k a e 1 3"], NamesFull),
    "more names than are idle": ({"limits": FULL, "endless": True}, IDLE, FIVE, NamesFull),
    "kinds": ({"limits": FULL}, USED, ["insert z a b 1 3"], KindsFull),
    "kinds of an endless one": ({"limits": FULL, "endless": True}, USED, ["insert z a b 1 3"], KindsFull),
    "more kinds than are idle": ({"limits": FULL, "endless": True}, IDLE, ["insert y a b 1 3", "insert z a b 1 3"], KindsFull),
    "blocks": ({"blocks": 16}, REPLACED, TWENTY, PoolEmpty),
    "blocks of an endless one": ({"blocks": 16, "endless": True}, REPLACED, TWENTY, PoolEmpty),
    "an expiry's blocks": ({"blocks": 16}, [f"insert k s{it} t 1 1" for it in range(9)], ["expire 1"], PoolEmpty),
    "idle names, and blocks": ({"limits": Limits(vertices=30, kinds=1), "blocks": 16, "endless": True},
                               [f"insert k i{it} t 1 1" for it in range(14)] + [f"remove k i{it} t" for it in range(10)],
                               [f"insert k m{it} t 1 9" for it in range(20)], PoolEmpty),
    "a batch too many, and names": ({"limits": replace(FULL, batches=1)}, USED[:1], FIVE, NamesFull),
    "a batch too many, and kinds": ({"limits": replace(FULL, batches=1), "endless": True}, USED[:1],
                                    [f"insert z{it} a b 1 3" for it in range(3)], KindsFull),
    "a batch too many, and blocks": ({"limits": Limits(batches=1), "blocks": 16}, USED[:1], TWENTY, PoolEmpty),
}


def seen(store, sessions):
    """All that can be seen of a store and its sessions, and of a session of its last version."""
    own = (store.stat(), store.pending, store._ledger.told_pending, store.kinds(), store.units, store.blocks,
           store._engine.operations_kept, store._engine.open_count)
    found = []
    for it in sessions:
        edges = it.edges()
        found.append((it.version, it.is_open, it.vertices(), list(edges.names), list(edges.kinds), list(edges),
                      dict(it.degrees()),
                      dict(it.components()), dict(it.cores()), dict(it.levels("a")) if it.has_vertex("a") else None))
    return own, found


@contextlib.contextmanager
def smaller_walls(most):
    """The walls of a store without limits, smaller."""
    with mock.patch.object(limits, "MOST_PRODUCT", most), mock.patch.object(library, "FIRST_BLOCKS", 16), \
            mock.patch.object(library, "MOST_BLOCKS", 64):
        yield


class Refusals(Case):
    def let_go(self, store):
        kill(store)

    def give(self, store, operations):
        for it in operations:
            word, *names = it.split()
            getattr(store, word)(*names[:3], *map(int, names[3:]))

    def is_refused(self, store, operations, word, seats=14):
        """The store says no, and is as before; a session that is opened then is like one of before."""
        sessions = [store.open() for _ in range(min(2, seats))]
        self.give(store, operations)
        before = seen(store, sessions)
        for _ in range(2):
            self.assertRaises(word, store.commit, collect=False)
            self.assertEqual(seen(store, sessions), before)
        with store.open() as later:
            self.assertEqual(seen(store, [later])[1][0], before[1][-1])
        for it in sessions:
            it.close()

    def test_each_kind(self):
        for name, (options, there, operations, word) in REFUSALS.items():
            with self.subTest(name):
                store = self.store(seats=16, **options)
                kept = []
                for it in there:
                    self.give(store, [it])
                    store.commit(collect=False)
                    kept = [*kept[-2:], store.open()]
                self.is_refused(store, operations, word)
                self.assertEqual(store.discard(), len(operations))

    def test_of_a_store_that_grows(self):
        """It has more vertices, more kinds or more blocks only where the batch goes in then."""
        with smaller_walls(64):
            for operations, word in (([f"insert z{it} a c 1 1" for it in range(8)] + [f"insert k s{it} a 1 9" for it in range(5)],
                                      KindsFull),
                                     ([f"insert k s{it} t 1 9" for it in range(64)], NamesFull),
                                     ([f"insert k s t{it % 9} {it} 9" for it in range(70)], PoolEmpty)):
                for endless in (False, True):
                    with self.subTest(word=word, endless=endless):
                        store = self.store("insert k a b 1 1", "insert k b c 1 1", "remove k b c", endless=endless, seats=4)
                        self.is_refused(store, operations, word)
                        store.discard()
                        self.give(store, [f"insert k s t{it % 9} {it} 9" for it in range(30)])
                        self.assertEqual((store.commit().version, store.blocks, store.stat().edges), (2, 64, 10))

    def test_with_all_seats_taken(self):
        """The last version is read, though sixteen others are held."""
        for endless in (False, True):
            with self.subTest(endless=endless):
                store, sessions = self.store(seats=16, endless=endless, limits=Limits(vertices=19, kinds=1)), []
                for at in range(16):
                    self.feed(store, f"insert k a b{at} 1 1")
                    sessions.append(store.open())
                self.feed(store, "remove k a b3")
                self.give(store, FIVE)
                before = seen(store, sessions)
                for _ in range(2):
                    self.assertRaises(NamesFull, store.commit)
                    self.assertEqual(seen(store, sessions), before)
                store.discard()
                self.feed(store, "insert k a last 1 9")
                self.give(store, FIVE[:2])
                if endless:  # (it lets `b3` go)
                    self.assertEqual((store.commit().inserted, store.stat().vertices), (2, 19))
                else:
                    self.assertRaises(NamesFull, store.commit)
                self.assertEqual([len(list(it.edges())) for it in sessions], list(range(1, 17)))

    def test_out_of_memory(self):
        """Wherever the library says so: as the batch is applied, as it begins anew, as another desk is made or filled."""
        def out_after(calls, real):
            left = [calls]

            def call(*given):
                left[0] -= 1
                return Code.MEMORY if left[0] < 0 else real(*given)
            return call
        with smaller_walls(6_400):
            # (a copy of a graph that has a name without an edge is made by batches)
            idle = ["insert k d c 1 1", "remove k d c"]
            for name, calls, more, options, operations in (
                    ("desk_apply", 0, [], {}, ["insert k a z 1 9"]),
                    ("desk_rebase", 0, [], {"limits": Limits(batches=1)}, FIVE), ("desk_new_within", 0, [], {}, TWENTY),
                    ("desk_open_columns", 0, [], {}, TWENTY), ("desk_apply", 1, [], {}, TWENTY),
                    ("desk_apply", 1, idle, {}, TWENTY), ("desk_apply", 2, idle, {}, TWENTY),
                    ("desk_rebase", 0, idle, {}, TWENTY), ("desk_hold", 0, [], {}, TWENTY),
                    ("desk_new_within", 0, [], {}, [f"insert z{it} a b 1 1" for it in range(9)])):
                with self.subTest(name, calls=calls, more=more):
                    store = self.store("insert k a b 1 1", "insert k b c 1 1", *more, **options)
                    self.give(store, operations)
                    sessions = [store.open()]
                    before, of = seen(store, sessions), store._engine.library
                    with mock.patch.object(of, name, out_after(calls, getattr(of, name))):
                        self.assertRaises(NoMemory, store.commit)
                    self.assertEqual(seen(store, sessions), before)
                    self.assertEqual(store.commit().inserted, len(operations))

    def test_a_load(self):
        """Its batches before the refused one are in, and nothing of that one."""
        rows, how = [("x", "y"), ("y", "x"), ("x", "z"), ("z", "y")], {"by": "set", "columns": misteluk.Columns(1, 2)}
        store, other = (self.store(*IDLE, limits=replace(FULL, kinds=3), endless=True) for _ in range(2))
        with self.assertRaisesRegex(NamesFull, "lines 3 to 4 was refused, .* 2 rows before it are"):
            store.load(rows, batch=2, **how)
        other.load(rows[:2], **how)
        self.assertEqual(row(other.stat())[:3], (2, 4, 3))
        self.assertEqual(seen(store, [store.open()]), seen(other, [other.open()]))


if __name__ == "__main__":
    unittest.main()
