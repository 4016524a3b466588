"""Held versions as graphs of networkx, beside graphs that networkx's own calls make of the same edges: each public method, and
algorithms of each sort. Graphs are random, with removals, kinds and windows. What nobody can change, what becomes of a graph
whose session is closed, and how much is read."""
import copy
import gc
import pickle
import unittest
import weakref
from unittest import mock

from graphs import Play
from of_networkx import ALGORITHMS, METHODS, NUMERIC, OF_CLASSES, own, plain, said, transfers
from support import Case, optional

import misteluk
from misteluk import Units, errors
from misteluk.engine.held import LibraryVersion

networkx = optional("networkx")
numpy, scipy, pandas = map(optional, ("numpy", "scipy", "pandas"))
ROUNDS, GRAPHS = 5, 2
FROZEN = "Frozen graph can't be modified"
# What changes a graph, and whatever else has a dict.
CHANGE = {"add_edge": ("a", "b"), "add_edges_from": ([("a", "b")],), "add_node": ("n",), "add_nodes_from": (["n"],), "clear": (),
          "add_weighted_edges_from": ([("a", "b", 1)],), "clear_edges": (), "remove_edge": ("a", "b"), "remove_node": ("a",),
          "remove_edges_from": ([("a", "b")],), "remove_nodes_from": (["a"],), "update": ([("a", "b")],)}
CHANGE_DICT = {"__setitem__": ("a", 1), "__delitem__": ("a",), "update": ({"a": 1},), "setdefault": ("n", 1), "pop": ("a", 1),
               "popitem": (), "clear": (), "__ior__": ({"a": 1},)}


@unittest.skipUnless(networkx, "networkx is not there")
class Beside(Case):
    def differing(self, session, window, wanted, names):
        """Which methods of a session's graph of this window give something else than those of another graph; each is asked of a
        graph of which nothing is read, and of one of which all is."""
        found, nodes = [], list(wanted)
        for it in names:
            for is_read in (False, True):
                session._read = None
                graph = session.graph(*window)
                if is_read:
                    list(graph.edges(data=True)), list(graph.in_edges)
                one, other = (said(METHODS[it], g, nodes[0], nodes[-1]) for g in (graph, wanted))
                found += [] if one == other else [(it, is_read)]
        return found

    def play(self, seed):
        """What differs for versions of a random store, with a random kind and window each."""
        play, found = Play(seed), []
        for _ in range(4):
            play.step()
            model = play.now
            window = play.random.choice([None, *model.kinds]), play.random.choice([0, play.time // 2]), play.time
            is_multi = window[0] is None and len(model.kinds) > 1
            with play.store.open() as session:
                wanted = own(model.names, [(*ends, *edge) for ends, edge in model.view(*window)], is_multi,
                             version=session.version)
                if model.names:
                    found += self.differing(session, window, wanted, [it for it in METHODS if hasattr(wanted, it)])
        play.end()
        return found

    def test_each_method_is_tried(self):
        for kind in (networkx.DiGraph, networkx.MultiDiGraph):
            public = {it for it in dir(kind) if not it.startswith("_") and not it.endswith("_factory")}
            self.assertEqual(public - set(METHODS) - set(CHANGE), set())

    def test_methods_are_those_of_networkx(self):
        for seed in range(ROUNDS):
            with self.subTest(seed=seed):
                self.assertEqual(self.play(seed), [])

    def test_a_planted_difference_is_found(self):
        from misteluk import graphs
        whole, one, count = graphs.Read.whole, graphs.Read._one, graphs.Read.count
        for name, wrong, method in (
                ("whole", lambda read: whole(read)[::-1], ("adjacency", True)),
                ("_one", lambda read, side, name: one(read, 1 - side, name), ("successors", False)),
                ("_one", lambda read, side, name: graphs.Frozen(list(one(read, side, name).items())[1:]), ("adj", False)),
                ("count", lambda read: count(read) + 1, ("size", False)),
                ("nodes", lambda read: dict(list(read._nodes.items())[::-1]), ("nodes", True))):
            with self.subTest(name=name), mock.patch.object(graphs.Read, name, wrong):
                self.assertTrue(any(method in self.play(seed) for seed in range(4)))


@unittest.skipUnless(networkx, "networkx is not there")
class Algorithms(Case):
    def sessions(self, seed, **units):
        """A version of a random graph, and the same as networkx has it: of one kind, and of both."""
        store, scale = self.store(**units), units["units"].scale if units else 1
        rows = transfers(seed, scale)
        store.load(rows, by="set")
        session, rows = store.open(), [(kind, source, target, weight, at, at) for source, target, weight, at, kind in rows]
        about = {"version": session.version}
        return session, (("k", own(session.vertices(), [it for it in rows if it[0] == "k"], False, **about)),
                         (None, own(session.vertices(), rows, True, **about)))

    def differing(self, session, kind, wanted, names):
        """Which algorithms give something else than over networkx's graph, and which raise an error."""
        found, raised, nodes = [], [], list(wanted)
        for it in names:
            session._read = None
            one, other = (said(ALGORITHMS[it], g, nodes[0], nodes[5]) for g in (session.graph(kind), wanted))
            found += [] if one == other else [(it, one, other)]
            raised += [(it, one)] if isinstance(one, str) and it != "same" else []
        return found, raised

    def test_algorithms_are_those_of_networkx(self):
        names = [it for it in ALGORITHMS if it not in NUMERIC or numpy and scipy]
        for seed in range(GRAPHS):
            session, wanted = self.sessions(seed)
            for kind, graph in wanted:
                found, raised = self.differing(session, kind, graph, names)
                self.assertEqual(found, [], (seed, kind))
                self.assertEqual(kind and raised, kind and [])  # (several don't take a multigraph)

    def test_weights_with_decimals_are_floats(self):
        """Exactly those that are printed so: algorithms add them to floats, which networkx's graph of Decimals can't bear."""
        session, wanted = self.sessions(1, units=Units(weight_scale=100))
        names = [it for it in ALGORITHMS if it not in NUMERIC or numpy and scipy]
        for kind, graph in wanted:
            found, raised = self.differing(session, kind, graph, names)
            self.assertEqual((found, kind and raised), ([], kind and []))
        exact = session.edges().to_networkx()
        with self.assertRaisesRegex(TypeError, "Decimal"):
            networkx.betweenness_centrality(networkx.DiGraph(exact), weight="weight"), networkx.closeness_centrality(
                exact, distance="weight")

    def test_a_planted_difference_is_found(self):
        from misteluk import graphs
        session, ((kind, graph), _) = self.sessions(2)
        edges = graphs.Read._edges
        with mock.patch.object(graphs.Read, "_edges", lambda read, found: edges(read, found.at(range(1, found.size)))):
            found = {it for it, *_ in self.differing(session, kind, graph, [it for it in ALGORITHMS if it not in NUMERIC])[0]}
        self.assertGreater(len(found), 25)


ROADS = ("insert road ulm kiel 5 1", "insert road kiel bonn 7 2", "insert rail ulm bonn 3 3", "insert road ulm bonn 8 4")


@unittest.skipUnless(networkx, "networkx is not there")
class Views(Case):
    def test_which_class_it_is(self):
        """A graph of one kind, or of a version with one, has one edge from node to node; a name without an edge is a node."""
        store = self.store(*ROADS[:2])
        one = store.open().graph()
        self.feed(store, *ROADS[2:], "remove road kiel bonn")
        session = store.open()
        two, road = session.graph(), session.graph("road")
        self.assertEqual([(it.is_multigraph(), sorted(it.edges)) for it in (one, two, road, session.graph("*"))], [
            (False, [("kiel", "bonn"), ("ulm", "kiel")]),
            (True, [("ulm", "bonn", "rail"), ("ulm", "bonn", "road"), ("ulm", "kiel", "road")]),
            (False, [("ulm", "bonn"), ("ulm", "kiel")]),
            (True, [("ulm", "bonn", "rail"), ("ulm", "bonn", "road"), ("ulm", "kiel", "road")])])
        for it in (one, two, road):
            self.assertIsInstance(it, networkx.DiGraph)
            self.assertEqual(list(it), ["ulm", "kiel", "bonn"])
        self.assertEqual(list(networkx.isolates(session.graph("rail"))), ["kiel"])
        self.assertEqual((two["ulm"]["bonn"], road["ulm"]["bonn"], two.graph), (
            {"road": {"kind": "road", "weight": 8, "first": 4, "recent": 4},
             "rail": {"kind": "rail", "weight": 3, "first": 3, "recent": 3}},
            {"kind": "road", "weight": 8, "first": 4, "recent": 4}, {"version": session.version}))
        self.assertEqual(str(road), "HeldDiGraph with 3 nodes and 2 edges")
        none = self.store().open().graph()
        self.assertEqual((len(none), none.size(), none.is_multigraph(), list(none.edges)), (0, 0, False, []))

    def test_what_is_refused(self):
        session = self.store(*ROADS).open()
        self.refused(errors.NoKind, "graph(kind='sea')", lambda: session.graph("sea"))
        self.refused(errors.NoKind, "'ulm' is a vertex", lambda: session.graph("ulm"))
        self.refused(errors.BadWindow, "since 5 is after until 1", lambda: session.graph(since=5, until=1))
        with mock.patch.dict("sys.modules", {"networkx": None}):
            self.refused(errors.Missing, "networkx", session.graph)

    def test_nobody_can_change_it(self):
        session = self.store(*ROADS).open()
        for graph in (session.graph("road"), session.graph()):
            self.assertTrue(networkx.is_frozen(graph))
            for it, given in CHANGE.items():
                self.assertRaisesRegex(networkx.NetworkXError, FROZEN, getattr(graph, it), *given)
            dicts = [graph.nodes["ulm"], graph._adj["ulm"], graph._pred["bonn"], graph._adj["ulm"]["bonn"]]
            dicts += [it for *_, it in graph.edges(data=True)] + [it for *_, it in graph.in_edges(data=True)]
            dicts += [graph.get_edge_data("ulm", "kiel"), graph._node["kiel"], *graph._adj.values(), *graph._pred.values()]
            for it in dicts:
                for name, given in CHANGE_DICT.items():
                    self.assertRaisesRegex(networkx.NetworkXError, FROZEN, getattr(it, name), *given)
            self.assertRaisesRegex(networkx.NetworkXError, FROZEN, networkx.set_edge_attributes, graph, 1, "x")
            self.assertRaisesRegex(networkx.NetworkXError, FROZEN, networkx.set_node_attributes, graph, 1, "x")
            self.assertEqual(set(graph._adj["ulm"]), {"kiel", "bonn"})
            graph.graph["colour"] = graph.name = "red"  # (a graph has its own of these)
            self.assertEqual(session.graph("road").graph, {"version": session.version})
        self.assertEqual(set(CHANGE_DICT), {it for it in dir(dict) if it in (
            "__setitem__", "__delitem__", "__ior__", "clear", "pop", "popitem", "setdefault", "update")})

    def test_copies_are_networkx_s_own(self):
        """They can be changed, and have nothing of the version's; what a copy is of is as it was."""
        session = self.store(*ROADS, units=Units(weight_scale=10)).open()
        for view, kind in ((session.graph("road"), networkx.DiGraph), (session.graph(), networkx.MultiDiGraph)):
            before = plain(view)
            for made in (view.copy(), pickle.loads(pickle.dumps(view)), copy.copy(view), copy.deepcopy(view), kind(view),
                         view.subgraph(list(view)).copy(), networkx.compose(view, view)):
                self.assertEqual((type(made), networkx.is_frozen(made), plain(made)), (kind, False, before))
                for *_, about in made.edges(data=True):
                    about["weight"] = 77
                made.nodes["ulm"]["colour"] = "red"
                made.remove_node("kiel")
                made.add_edge("bonn", "ulm", colour="blue")
                self.assertEqual(plain(view), before)
                self.assertEqual({about.get("weight", 77) for *_, about in made.in_edges(data=True)}, {77})
            view.graph[7] = "a key that is no text"
            self.assertEqual(view.copy().graph, {**view.graph})
            for part in (view.adj, view._adj, view._node, view["ulm"], view._adj["ulm"], view.edges, view.nodes):
                for again in (pickle.loads(pickle.dumps(part)), copy.deepcopy(part)):
                    self.assertEqual(plain(again), plain(part))
            row = copy.deepcopy(view._adj)["ulm"]
            self.assertEqual({type(row), *map(type, row.values()), type(pickle.loads(pickle.dumps(view._adj))["ulm"])}, {dict})
            self.assertIs(type(view.__class__()), kind)
            made = view.__class__([("x", "y")], name="n")
            self.assertEqual((list(made.edges)[0][:2], made.graph), (("x", "y"), {"name": "n"}))
            seen = view.copy(as_view=True)
            self.assertEqual((type(seen), networkx.is_frozen(seen), seen._node is view._node), (kind, True, True))

    def test_a_closed_session_answers_no_more(self):
        """Neither a graph of which nothing was read, nor one of which all was, nor what was made of them."""
        for end in (lambda session: session.close(), lambda session: session.store.close(),
                    lambda session: session.store.compact(session)):
            for is_read in (False, True):
                self.no_answers(self.store(*ROADS).open(), end, is_read)

    def no_answers(self, session, end, is_read):
        graphs, names = [session.graph("road"), session.graph()], set(METHODS) - OF_CLASSES
        made = [it for g in graphs for it in (g.adj, g.edges, g.nodes, g.degree, g.subgraph(["ulm", "kiel"]))]
        if is_read:
            list(map(plain, graphs))
        end(session)
        for name, g in [*((it, graphs[0]) for it in names - {"new_edge_key"}), *((it, graphs[1]) for it in names)]:
            with self.subTest(name=name, is_read=is_read), self.assertRaises(errors.SessionClosed):
                plain(METHODS[name](g, "ulm", "bonn"))
        for call in (str, pickle.dumps, copy.deepcopy, networkx.DiGraph, networkx.degree_histogram, networkx.density,
                     lambda g: list(networkx.weakly_connected_components(g))):
            for g in graphs:
                self.assertRaises(errors.SessionClosed, call, g)
        for it in made:
            self.assertRaises(errors.SessionClosed, plain, it)
        self.assertRaises(errors.SessionClosed, session.graph)

    def test_a_closed_session_keeps_nothing(self):
        session = self.store(*ROADS).open()
        list(session.graph().edges)
        read = weakref.ref(session._read)
        gc.collect()
        self.assertIsNotNone(read())
        session.close()
        gc.collect()
        self.assertIsNone(read())

    def test_it_keeps_its_version(self):
        """It is of the version whatever is committed, also where nobody has the session any more."""
        store = self.store(*ROADS)
        graph, wanted = store.open().graph(), plain(store.open().graph())
        self.feed(store, "remove road ulm kiel", "insert sea bonn kiel 5 9", "remove rail ulm bonn")
        self.assertEqual((list(graph["ulm"]), plain(graph)), (["kiel", "bonn"], wanted))

    def test_how_much_is_read(self):
        """A row when it is asked for, all at once for who asks for many, and nothing again."""
        store = self.store(*(f"insert k v{at} v{at * 7 % 200} 1 1" for at in range(200)))
        session, asked = store.open(), []
        right = {it: getattr(LibraryVersion, it) for it in ("out_of", "into", "edges")}
        noted = {it: lambda held, *given, it=it: (asked.append(it), right[it](held, *given))[1] for it in right}
        with mock.patch.multiple(LibraryVersion, **noted):
            graph = session.graph()
            self.assertEqual((len(graph), "v3" in graph, graph.number_of_edges(), str(graph), asked), (
                200, True, 200, "HeldDiGraph with 200 nodes and 200 edges", []))
            list(graph["v3"]), list(graph.predecessors("v3")), list(session.graph()["v3"])
            self.assertEqual(asked, ["out_of", "into"])
            for at in range(100):
                list(graph[f"v{at}"])
            self.assertEqual((asked[2:-1], asked[-1]), (["out_of"] * (len(asked) - 3), "edges"))
            self.assertLess(len(asked), 80)
            del asked[:]
            list(graph.edges), list(graph.in_edges), list(session.graph().edges), list(session.graph("k").edges)
            self.assertEqual(asked, ["edges"])  # (of the kind, which is another question)
            list(session.graph("k").edges), session.graph("k").subgraph(["v1", "v2"]).size()
            self.assertEqual(asked, ["edges"])
            list(session.graph("k", since=1)["v1"])
            self.assertEqual(asked, ["edges", "out_of"])

    def test_for_who_goes_through_all_all_is_read_once(self):
        session = self.store(*ROADS).open()
        for call in (lambda g: list(g.adjacency()), lambda g: list(g._pred.values()), lambda g: list(g.edges)):
            session._read = None
            with mock.patch.object(LibraryVersion, "out_of", side_effect=AssertionError), mock.patch.object(
                    LibraryVersion, "into", side_effect=AssertionError):
                self.assertEqual(len(call(session.graph("road"))), 3)


@unittest.skipUnless(networkx, "networkx is not there")
class Made(Case):
    def test_a_graph_of_edges_is_as_networkx_makes_it(self):
        """With the order of nodes and rows; also of some edges in an order of their own, and of one twice."""
        for seed in range(ROUNDS):
            play = Play(seed)
            for _ in range(4):
                play.step()
            with play.store.open() as session:
                edges = session.edges()
                for found in (edges, edges[::-1], edges.take([0] * 2 if len(edges) else [])):
                    self.as_networkx_makes_it(session, found)
            play.end()

    def as_networkx_makes_it(self, session, edges):
        rows = [(kind, source, target, *edge) for kind, source, target, edge in edges]
        made, wanted = edges.to_networkx(name="n"), own(session.vertices(), rows, True, name="n")
        for part in ("graph", "_node", "_adj", "_succ", "_pred"):
            one, other = getattr(made, part), getattr(wanted, part)
            self.assertEqual((list(one), list(map(str, one.values()))), (list(other), list(map(str, other.values()))))
        for source, target in made.edges():
            self.assertIs(made._adj[source][target], made._pred[target][source])
        self.assertEqual((type(made), type(made._adj), made._adj is made._succ), (networkx.MultiDiGraph, dict, True))

    def test_it_is_the_user_s(self):
        graph = self.store(*ROADS).open().edges().to_networkx()
        graph.remove_node("kiel")
        graph.add_edge("bonn", "ulm", "sea", weight=1)
        graph.nodes["ulm"]["colour"] = "red"
        networkx.set_edge_attributes(graph, 5, "lanes")
        self.assertEqual(dict(graph.nodes), {"ulm": {"colour": "red"}, "bonn": {}})
        self.assertEqual(sorted(graph.edges(keys=True, data="lanes")), [
            ("bonn", "ulm", "sea", 5), ("ulm", "bonn", "rail", 5), ("ulm", "bonn", "road", 5)])
        self.assertEqual(sorted(map(str, graph.in_edges(data="lanes"))), sorted(map(str, graph.edges(data="lanes"))))

    def test_its_dicts_are_put_in_place(self):
        """Which takes less than a third of the time of networkx's calls: none is made."""
        session = self.store(*ROADS).open()
        for kind in (networkx.DiGraph, networkx.MultiDiGraph):
            with mock.patch.object(kind, "add_edges_from", side_effect=AssertionError), mock.patch.object(
                    kind, "add_edge", side_effect=AssertionError):
                self.assertEqual(session.edges().to_networkx().number_of_edges(), 4)
                self.assertEqual(session.graph("road").copy().number_of_edges(), 3)


if __name__ == "__main__":
    unittest.main()
