"""Calls that ask for neighbors, paths, reach and all edges: what is refused, what files and frames get, and interrupts."""
import csv
import os
import unittest
import warnings

from graphs import NAMES
from interrupting import at_line
from support import IS_SERVED, Case, optional

import misteluk
from misteluk.engine.asked import Answers
from misteluk import Edge, Neighbor, Store, Units

pandas = optional("pandas")


class Calls(Case):
    def test_a_path_whose_step_has_many_edges_that_are_gone(self):
        """17 vertices stand a level below the last one, and the edges of the first 16 to it have expired; an earlier session
        holds them. The same in a window that has the last edge alone."""
        ways = [(f"insert k a s{it} 1 9", f"insert k s{it} t 1 {9 if it == 16 else 1}") for it in range(17)]
        store = self.store(*(it for way in ways for it in way))
        held = store.open()
        store.expire(5)
        self.assertEqual(store.commit().expired, 16)
        self.assertEqual(held.path("a", "t"), ["a", "s0", "t"])
        self.assertEqual(held.path("a", "t", since=5), ["a", "s16", "t"])
        self.assertEqual(store.open().path("a", "t"), ["a", "s16", "t"])

    def test_a_path_whose_step_has_many_edges_from_elsewhere(self):
        """No walk reaches the vertices of the first 16 edges into the last one."""
        session = self.store(*(f"insert k b{it} t 1 1" for it in range(16)), "insert k a s 1 1", "insert k s t 1 1").open()
        self.assertEqual(session.path("a", "t"), ["a", "s", "t"])

    def test_one_vertex(self):
        session = self.store("insert k a b 3 1", "insert l a b 4 5", "insert k b a 1 2", "insert k a a 9 3",
                             "insert k c c 1 1").open()
        self.assertEqual(session.successors("a"), {"b": Edge(7, 1, 5), "a": Edge(9, 3, 3)})
        self.assertEqual(session.successors("a", "k"), {"b": Edge(3, 1, 1), "a": Edge(9, 3, 3)})
        self.assertEqual(session.predecessors("a", since=3), {"a": Edge(9, 3, 3)})
        self.assertEqual(session.neighbors("a", "k", until=2), {"b": Neighbor(Edge(3, 1, 1), Edge(1, 2, 2))})
        self.assertEqual(session.weights_in(), {"a": 10, "b": 7, "c": 1})
        self.assertEqual(session.weights_in("l"), {"a": 0, "b": 4, "c": 0})
        self.assertEqual((session.path("a", "b"), session.path("b", "c"), session.path("c", "c")), (["a", "b"], None, ["c"]))
        self.assertEqual((session.edge_count, bool(session), *map(session.has_vertex, ("a", "z", ""))),
                         (5, True, True, False, False))
        self.assertEqual([session.has_edge(*it) for it in (("k", "a", "b"), ("l", "b", "a"), ("k", "z", "b"), ("", "a", "b"))],
                         [True, False, False, False])
        self.assertEqual((session.vertices(), session.kinds(), session.vertex_count), (("a", "b", "c"), ("k", "l"), 3))
        self.assertEqual(list(session.edges(kind="l")), [("l", "a", "b", Edge(4, 5, 5))])
        self.assertEqual(session.successors("b", "l"), {})
        self.assertEqual(session.neighborhood("b", 10 ** 18, directed=False), {"b": 0, "a": 1})
        self.assertEqual(session.neighborhood("b", 0, directed=False), {"b": 0})

    def test_edges_of_a_kind(self):
        """The kind comes first, as in other calls."""
        session = self.store("insert k a b 3 1", "insert l a b 4 5", "insert l b c 4 7").open()
        self.assertEqual(list(session.edges("l")), list(session.edges(kind="l")))
        self.assertEqual(list(session.edges("l", since=6)), [("l", "b", "c", Edge(4, 7, 7))])
        self.refused(misteluk.errors.NoKind, "nix", lambda: session.edges("nix"))
        for call in (session.levels, session.out_edges, session.in_edges):  # (the kind is told where neither is there)
            self.refused(misteluk.errors.NoKind, "nix", lambda: call("nobody", "nix"))
        for wrong in (["lab"], [("l", "a")], [("l", "a", "b", "c")]):
            self.refused(TypeError, f"by its kind, source and target, and not by {wrong[0]!r}", lambda: session.get_edges(wrong))

    def test_an_empty_session(self):
        session = self.store().open()
        self.assertEqual((session.edge_count, bool(session), list(session.edges()), session.weights_in()), (0, True, [], {}))
        self.assertFalse(session.has_vertex("a"))
        with self.assertRaises(misteluk.NoVertex):
            session.neighbors("a")

    def refused(self, word, text, call):
        with self.assertRaises(word) as told:
            call()
        self.assertIn(text, str(told.exception))

    def test_what_is_refused(self):
        store = self.store("insert k a b 1 1")
        session = store.open()
        self.feed(store, "insert l y z 1 1")
        for call in (session.successors, session.predecessors, session.neighbors, lambda it: session.path("a", it),
                     lambda it: session.path(it, "a"), lambda it: session.neighborhood(it, 1, directed=False),
                     lambda it: session.neighborhood(it, 0, directed=False), lambda it: session.neighborhood(it, 1)):
            self.refused(misteluk.NoVertex, "z", lambda: call("z"))
            self.refused(misteluk.errors.BadName, "at least one byte", lambda: call(""))
        for call in (lambda **of: session.successors("a", **of), lambda **of: session.path("a", "b", **of), session.weights_in,
                     lambda **of: session.neighborhood("a", 1, directed=False, **of), session.edges):
            self.refused(misteluk.errors.NoKind, "l", lambda: call(kind="l"))
            self.refused(misteluk.errors.BadWindow, "", lambda: call(since=2, until=1))
            self.refused(misteluk.errors.BadTime, "", lambda: call(since=-1))
        self.refused(ValueError, "hops is 0 or more", lambda: session.neighborhood("a", -1))
        self.refused(TypeError, "'str' object cannot be interpreted as an integer", lambda: session.neighborhood("a", "2"))
        edges = session.edges()
        session.close()
        self.assertEqual(list(edges), [("k", "a", "b", Edge(1, 1, 1))])
        for call in (session.edges, lambda: session.successors("a"), lambda: session.edge_count,
                     lambda: session.has_vertex("a"), lambda: session.has_edge("k", "a", "b"), session.vertices, session.kinds):
            self.refused(misteluk.SessionClosed, "version 1 is closed", call)

    def test_a_name_is_a_text(self):
        """A frame's numbers are loaded as texts, so they are asked for as texts."""
        store = self.store()
        store.load({"source": [1, 2], "target": [2, 3]}, by="set")
        session = store.open()
        self.assertEqual(session.path("1", "3"), ["1", "2", "3"])
        for call in (lambda: session.levels(1), lambda: session.predecessors(1), lambda: session.neighbors(1),
                     lambda: session.path(1, "3"), lambda: session.path("3", 1), lambda: session.neighborhood(1, 2),
                     lambda: session.neighborhood(1, 2, directed=False), lambda: session.edge("link", "2", 1),
                     lambda: session.get_edges([("link", 1, "2")]), lambda: session.degrees(1),
                     lambda: session.predecessors("2", kind=1), lambda: list(session.edges(kind=1)),
                     lambda: misteluk.view(session, 1)):
            self.refused(TypeError, "a kind and a name are texts, and not 1", call)

    def test_units(self):
        store = Store(units=Units(weight_scale=100, times="iso"))
        self.addCleanup(store.close)
        store.add("k", "a", "b", "0.10", "2024-03-04T12:00:00")
        store.add("l", "a", "b", "2.05", "2024-03-05")
        store.commit()
        session = store.open()
        self.assertEqual(str(session.successors("a")["b"].weight), "2.15")
        self.assertEqual(list(map(str, session.weights_in(until="2024-03-04").values())), ["0.00", "0.10"])
        self.assertEqual(session.path("a", "b", since="2024-03-06"), None)
        session.edges().to_csv(self.room / "edges.csv")
        self.assertEqual((self.room / "edges.csv").read_text().splitlines(), [
            "kind,source,target,weight,first,recent",
            "k,a,b,0.10,2024-03-04T12:00:00+00:00,2024-03-04T12:00:00+00:00",
            "l,a,b,2.05,2024-03-05T00:00:00+00:00,2024-03-05T00:00:00+00:00"])

    def test_a_file(self):
        """Any name comes back; and a fault on the way leaves the file that was there."""
        store = Store()
        self.addCleanup(store.close)
        wanted = [["k", source, target, str(at - 5), str(at), str(at)]
                  for at, (source, target) in enumerate(zip(NAMES, NAMES[3:]))]
        for kind, source, target, weight, time, _ in wanted:
            store.insert(kind, source, target, int(weight), int(time))
        store.commit()
        session, path = store.open(), self.room / "edges.csv"
        self.assertEqual(session.edges().to_csv(path), len(wanted))
        with open(path, encoding="utf-8", newline="") as file:
            header, *found = csv.reader(file)
        self.assertEqual((header, sorted(found)), (["kind", "source", "target", "weight", "first", "recent"], sorted(wanted)))
        with Store() as copy:
            copy.load(str(path), by="set", columns=misteluk.Columns("source", "target", "kind", "weight", "recent"))
            with copy.open() as there:
                self.assertEqual(sorted(there.edges()), sorted(session.edges()))
        before = path.read_bytes()
        at = 1
        with warnings.catch_warnings():
            warnings.simplefilter("ignore")  # (an interrupt as the file is closed leaves that to Python)
            while at_line(at, lambda: session.edges().to_csv(path)):
                self.assertTrue(path.read_bytes() == before and os.listdir(self.room) == ["edges.csv"], at)
                at += 7
        self.assertGreater(at, 30)
        with self.assertRaises(OSError):
            session.edges().to_csv(self.room / "nowhere" / "x")

    @unittest.skipUnless(pandas, "pandas is not there")
    def test_a_frame(self):
        frame = self.store("insert k a b 3 1", "add k a b 4 5").open().edges().to_pandas()
        self.assertEqual(list(frame.columns), ["kind", "source", "target", "weight", "first", "recent"])
        self.assertEqual(frame.values.tolist(), [["k", "a", "b", 7, 1, 5]])
        self.assertEqual(len(self.store("insert k a b 1 1").open().edges(since=2).to_pandas()), 0)

    def wrong_lines(self, session, call, step=3):
        """At which of every so many lines an interrupt of the call makes it, or all edges, go wrong afterwards, three of them at
        most; and how many lines it runs."""
        right, edges, wrong, at = call(), list(session.edges()), [], 1
        while len(wrong) < 3:
            try:
                if not IS_SERVED:  # (it would have the answers already)
                    session._held.kept.answers = Answers()
                if not at_line(at, call):
                    break
                if (call(), list(session.edges())) != (right, edges):
                    wrong.append(at)
            except misteluk.StoreError:
                wrong.append(at)
            at += step
        return wrong, at

    def test_each_line_interrupted(self):
        """A call that only asks, interrupted at each few lines: the same call then answers, and so do others."""
        store = self.store("insert k a b 5 1", "insert k b c 7 1", "insert l a c 1 2")
        session = store.open()
        calls_ = {
            "neighbors": lambda: session.neighbors("b"), "successors": lambda: session.successors("a"),
            "predecessors": lambda: session.predecessors("c"),
            "weights_in": session.weights_in, "path": lambda: session.path("a", "c", "k"), "edges": lambda: list(session.edges()),
            "neighborhood": lambda: session.neighborhood("b", 2, directed=False), "in": lambda: session.has_vertex("a"),
            "edge_count": lambda: session.edge_count}
        for name, call in calls_.items():
            with self.subTest(name):
                wrong, count = self.wrong_lines(session, call)
                self.assertEqual(wrong, [])
                self.assertGreater(count, 5)
        self.assertEqual(session.path("a", "c", "k"), ["a", "b", "c"])
        self.assertEqual(store.stat().edges, 3)


if __name__ == "__main__":
    unittest.main()
