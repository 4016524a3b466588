"""A copy of a version answers every request as the version does: names and kinds in their order, both times of each edge."""
import itertools
import random
import unittest
from array import array
from unittest import mock

from support import Case

import misteluk
from misteluk.engine import copies as copying
from misteluk.engine.copies import content_of, operations_of
from misteluk.engine.library import LibraryEngine
from misteluk.engine.operations import INSERT, Operations
from misteluk.engine.protocol import Arrays

KINDS = ("road", 'a,"kind"', "rail")
WINDOWS = ({}, {"since": 30}, {"until": 40}, {"since": 20, "until": 50}, {"since": 61, "until": 61})


def answers_of(session, sources):
    """What a session says to every request, and in which order."""
    asks = (session.degrees, session.components, session.cores, *(lambda it=it, **how: session.levels(it, **how)
                                                                  for it in sources))
    told = []
    for kind, window, ask in itertools.product((None, *KINDS, "no kind"), WINDOWS, asks):
        try:
            told.append(list(ask(kind=kind, **window).items()))
        except (misteluk.errors.NoKind, misteluk.NoVertex) as fault:
            told.append(fault.word)
    edges = [(kind, source, target) for kind in (*KINDS, "no kind") for source in sources for target in sources]
    return told + session.get_edges(edges, missing="no such name")


class Copies(Case):
    def grown(self, seed, operations=160):
        """A store that was fed at random, with removals, expiries and times that go back; a session of some version is held."""
        made, store = random.Random(seed), self.store(blocks=2048, seats=2)
        names = [made.choice((f"n{it}", f'q"{it}', f"c,{it}", f"Ж {it}")) for it in range(made.choice((2, 9, 25)))]
        kinds, held = KINDS[:made.choice((1, 2, 3))], None
        for at in range(operations):
            edge = made.choice(kinds), made.choice(names), made.choice(names)
            word = made.choice(("insert", "insert", "add", "remove"))
            getattr(store, word)(*edge, *(() if word == "remove" else (made.randrange(-9, 9), made.randrange(60))))
            if made.random() < 0.1:
                store.expire(made.randrange(30))
                store.commit(collect=True)
                if held is None and made.random() < 0.2:
                    held = store.open()
        store.commit()
        return [it for it in (held, store.open()) if it], names

    def copied(self, content):
        store = self.store(blocks=2048)
        store._ledger.terms.names.take(self.names)
        operations = operations_of(content)
        for at in range(0, len(operations.codes), 4):
            store._ledger.apply(Operations(columns=operations.some(slice(at, at + 4))), True)
        return store.open()

    def differ(self, seed):
        """Of how many versions the copy says anything else."""
        sessions, names = self.grown(seed)
        count = 0
        for it in sessions:
            self.names = it.store._ledger.terms.names
            content = content_of(it._held)
            copy = self.copied(content)
            count += answers_of(it, [*names, "nobody"]) != answers_of(copy, [*names, "nobody"])
            self.assertLessEqual(len(operations_of(content).codes),
                                 2 * (content.edges.size + len(content.names) + len(content.kinds)))
        return count

    def test_copies(self):
        self.assertEqual(sum(map(self.differ, range(7))), 0)

    def test_faults_are_found(self):
        """A copy without first times, with names out of order, and without the loops that make names known."""
        def recent_alone(found, edges, items):
            put(found, edges._replace(firsts=edges.recents), items)

        def out_of_order(content, is_begun):
            return iter(range(content.edges.size))
        put = copying._put
        for name, fault in (("_put", recent_alone), ("_items", out_of_order), ("_put_loop", lambda *_: None)):
            with self.subTest(name), mock.patch.object(copying, name, fault):
                self.assertTrue(any(map(self.differ, range(4))))

    def opened_with(self, content, blocks):
        """What an engine of so many blocks has that begins with a content as version 7; and whether insertions had batches."""
        engine = LibraryEngine(blocks, 2, False)
        self.addCleanup(engine.close)
        with mock.patch.object(LibraryEngine, "_apply_all", autospec=True, side_effect=LibraryEngine._apply_all) as applied:
            engine.begin_with(content, 7)
        held = engine.hold(None)
        found, stat = content_of(held), engine.stat()
        self.assertEqual((held.number, stat.version, stat.retired), (7, 7, 0))
        self.assertEqual(stat.used, len({(kind, source) for kind, source in zip(*content.edges[:2])}))  # (no row has 33 edges)
        return ((found.kinds, found.names, sorted(zip(*found.edges))),
                any(it.args[2].has(INSERT) for it in applied.call_args_list))

    def test_a_desk_that_begins_with_a_content(self):
        """Whatever its blocks, it has kinds, names and times as they were. Few blocks take a loop at a time, and many all."""
        ways = []
        for seed in range(20):
            for it in self.grown(seed)[0]:
                content = content_of(it._held)
                wanted = content.kinds, content.names, sorted(zip(*content.edges))
                rows = len({*zip(*content.edges[:2])})
                for blocks in (None, 2_048, max(rows + 1, 16)):
                    found, had_batches = self.opened_with(content, blocks)
                    self.assertEqual(found, wanted, (seed, blocks))
                    ways.append((blocks, had_batches))
        self.assertEqual({it for it in ways if it[0] in (None, 2_048)}, {(None, False), (2_048, False)})
        self.assertIn(True, {had_batches for _, had_batches in ways})

    def test_loops_that_are_edges(self):
        """A kind's first edge may be the loop that has it known, and is none that is removed."""
        edges = [(1, 0, 0, 5, 3, 9), (0, 1, 0, 2, 1, 1), (2, 1, 1, 4, 4, 4)]
        content = copying.Content(["k0", "k1", "k2", "k3"], ["a", "b", "c"], Arrays(*map(array, "IIIqQQ", zip(*edges))))
        insertions, removals = copying.opening_of(content)
        self.assertEqual(insertions.rows()[:4], [(INSERT, "k0", "a", "a", 0, 0), (INSERT, "k1", "a", "a", 5, 3),
                                                 (INSERT, "k2", "a", "a", 0, 0), (INSERT, "k3", "a", "a", 0, 0)])
        self.assertEqual([it[1:4] for it in removals.rows()], [("k0", "a", "a"), ("k2", "a", "a"), ("k3", "a", "a"),
                                                               ("k0", "c", "c")])
        found, _ = self.opened_with(content, None)
        self.assertEqual(found, (content.kinds, content.names, sorted(edges)))

    def test_names_without_edges_fall_away(self):
        store = self.store("insert road a b 1 1", "insert rail c d 2 2", "insert road d b 3 3", "remove rail c d")
        content = content_of(store.open()._held)
        edges = [[0, 0], [0, 3], [1, 1], [1, 3], [1, 3], [1, 3]]
        self.assertEqual((content.kinds, content.names, [it.tolist() for it in content.edges]),
                         (["road", "rail"], ["a", "b", "c", "d"], edges))
        active = content.without_idle_names()
        self.assertEqual((active.kinds, active.names), (["road"], ["a", "b", "d"]))
        self.assertEqual(operations_of(active).rows(), [(INSERT, "road", "a", "b", 1, 1), (INSERT, "road", "d", "b", 3, 3)])
        self.assertEqual(operations_of(copying.Content([], [], Arrays.none())).rows(), [])


if __name__ == "__main__":
    unittest.main()
