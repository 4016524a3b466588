"""Neighbors, paths, reach and all edges, beside a model in plain dicts and beside networkx. Graphs are random, with removals,
expiries, windows, loads, held sessions and rebases. Comparisons are made again with faults that are planted, and have to find
them."""
import unittest
from unittest import mock

from graphs import NAMES, Play
from support import IS_SERVED, Case, optional

import misteluk
from misteluk import Edge, Edges, Neighbor, Session
from misteluk.engine.held import LibraryVersion
from misteluk.engine.protocol import Arrays
from misteluk.values import records

networkx = optional("networkx")
# How many plays there are over stores of servers: the same ones are asked in process too, and there in a tenth of the time.
FEW = 3


def both(edges):
    """Edges by a name, those of one name summed."""
    found = {}
    for name, it in edges:
        before = found.get(name, Edge(0, it.first, it.recent))
        found[name] = Edge(before.weight + it.weight, min(before.first, it.first), max(before.recent, it.recent))
    return found


def reached(view, name, either_way=False):
    """How many steps off each vertex is that is reached."""
    steps = {it[1:] for it, _ in view} | ({it[:0:-1] for it, _ in view} if either_way else set())
    found, last = {name: 0}, {name}
    while last:
        last = {b for a, b in steps if a in last} - set(found)
        found.update(dict.fromkeys(last, 1 + max(found.values())))
    return found


def walk_to(view, levels, names, end):
    """The shortest walk that has, from its end on, the first name each time; `None` where there is none."""
    walk = [end] if end in levels else None
    while walk and levels[walk[0]]:
        near = {it[1] for it, _ in view if it[2] == walk[0] and levels.get(it[1]) == levels[walk[0]] - 1}
        walk.insert(0, next(it for it in names if it in near))
    return walk


def of_vertex(session, graph, name, window, hops):
    """Which of the session's answers to a vertex differ from the model's."""
    view = graph.view(*window)
    out = both((it[2], edge) for it, edge in view if it[1] == name)
    into = both((it[1], edge) for it, edge in view if it[2] == name)
    levels, near = reached(view, name), reached(view, name, True)
    wanted = {
        "successors": out, "predecessors": into, "neighbors": {it: Neighbor(out.get(it), into.get(it)) for it in {*out, *into}},
        "neighborhood": {it: level for it, level in levels.items() if level <= hops},
        "within either way": {it: level for it, level in near.items() if level <= hops}, "in": True}
    found = {
        "successors": session.successors(name, *window), "predecessors": session.predecessors(name, *window),
        "neighbors": session.neighbors(name, *window), "neighborhood": session.neighborhood(name, hops, *window),
        "within either way": session.neighborhood(name, hops, *window, directed=False), "in": session.has_vertex(name)}
    differ = [it for it in wanted if found[it] != wanted[it]]
    for other in graph.names:
        walk, wanted = session.path(name, other, *window), walk_to(view, levels, list(graph.names), other)
        differ += [] if walk == wanted else ["path"]
        steps = session.path(name, other, *window, edges=True)
        pairs = None if steps is None else [it[1:3] for it in steps]
        differ += [] if pairs == (None if wanted is None else list(zip(wanted, wanted[1:]))) else ["edges of a path"]
        differ += [] if all((it[:3], it[3]) in view for it in map(tuple, steps or ())) else ["edges of a path"]
    return differ


def of_all(session, graph, window):
    """Which of the session's answers to all edges differ from the model's."""
    view = graph.view(*window)
    weights = dict.fromkeys(graph.names, 0)
    for it, edge in view:
        weights[it[2]] += edge.weight
    found = list(session.edges(kind=window[0], since=window[1], until=window[2]))
    differ = [] if sorted(found) == sorted((*it, edge) for it, edge in view) else ["edges"]
    differ += [] if session.weights_in(*window) == weights else ["weights_in"]
    differ += [] if session.edge_count == len(graph) else ["len"]
    few = [(kind, a, b) for kind in ("k", "nix") for a in NAMES[:3] for b in ("v1", "nobody")]
    return differ + ([] if [session.has_edge(*it) for it in few] == [it in graph for it in few] else ["in"])


def of_networkx(session, graph, name, window):
    """Which answers differ from networkx's, over the graph that the session gives itself and over the model's."""
    wanted = networkx.MultiDiGraph(version=session.version)
    wanted.add_nodes_from(graph.names)
    wanted.add_edges_from((it[1], it[2], it[0], {"kind": it[0], **edge._asdict()}) for it, edge in graph.view(*window))
    given = session.edges(*window).to_networkx(version=session.version)
    differ = [] if networkx.utils.graphs_equal(given, wanted) and list(given) == list(graph.names) else ["to_networkx"]
    lengths = dict(networkx.single_source_shortest_path_length(wanted, name))
    for other in graph.names:
        walk = session.path(name, other, *window)
        is_right = walk is None if other not in lengths else (
            walk is not None and networkx.is_path(wanted, walk) and len(walk) == lengths[other] + 1)
        differ += [] if is_right else ["path"]
    near = dict(networkx.single_source_shortest_path_length(wanted.to_undirected(), name, 2))
    differ += [] if session.neighborhood(name, 2, *window, directed=False) == near else ["neighborhood"]
    differ += [] if set(session.successors(name, *window)) == set(wanted.successors(name)) else ["successors"]
    differ += [] if set(session.predecessors(name, *window)) == set(wanted.predecessors(name)) else ["predecessors"]
    return differ + ([] if session.weights_in(*window) == dict(wanted.in_degree(weight="weight")) else ["weights_in"])


class Walks(Case):
    def play(self, seed, steps=12, beside=None):
        """Gives each answer that differs in a play that asks all sessions that it holds, and one of the last version."""
        play = Play(seed)
        self.addCleanup(play.end)
        for _ in range(steps):
            play.step()
            with play.store.open() as last:
                for session, graph in [*play.held, (last, play.now)]:
                    try:
                        yield from (beside or self.beside_the_model)(play.random, session, graph) if graph.names else []
                    except misteluk.StoreError:
                        yield "no step of a path"

    def some(self, random_, graph):
        """A name, and a view."""
        since, until = sorted(random_.choices(range(-20, 160), k=2))
        window = random_.choice([(0, records.MOST_TIME), (max(0, since), max(0, until))])
        return random_.choice(list(graph.names)), (random_.choice([None, *graph.kinds]), *window)

    def beside_the_model(self, random_, session, graph):
        name, window = self.some(random_, graph)
        return of_vertex(session, graph, name, window, random_.randrange(4)) + of_all(session, graph, window)

    def beside_networkx(self, random_, session, graph):
        return of_networkx(session, graph, *self.some(random_, graph))

    def test_answers_are_those_of_the_model(self):
        for seed in range(FEW if IS_SERVED else 10):
            with self.subTest(seed=seed):
                self.assertEqual([*self.play(seed)], [])

    @unittest.skipUnless(networkx, "networkx is not there")
    def test_answers_are_those_of_networkx(self):
        for seed in range(30, 30 + FEW if IS_SERVED else 36):
            with self.subTest(seed=seed):
                self.assertEqual([*self.play(seed, beside=self.beside_networkx)], [])

    def planted(self, wanted, where, name, change, **more):
        """Whether an answer that is changed is found to differ."""
        right = getattr(where, name)
        with mock.patch.object(where, name, lambda *asked, **named: change(right(*asked, **named))):
            self.assertTrue(any(wanted in self.play(seed, **more) for seed in range(4)), wanted)

    def test_a_planted_difference_is_found(self):
        def fewer(found):
            return {it: value for it, value in list(found.items())[1:]}
        for name in ("successors", "predecessors", "neighbors"):
            self.planted(name, Session, name, fewer)
        for name in ("neighborhood", "weights_in"):
            self.planted(name, Session, name, lambda found: {it: value + 1 for it, value in found.items()})
        self.planted("path", Session, "path", lambda walk: walk and [walk[0], *walk])
        self.planted("path", Session, "path", lambda walk: None)
        self.planted("edges", Session, "edges", lambda found: [(*ends, edge._replace(first=0)) for *ends, edge in found])
        self.planted("in", Session, "has_edge", lambda found: True)
        self.planted("within either way", LibraryVersion, "within", lambda found: (found[0][1:], found[1][1:]))
        self.planted("edges", Arrays, "places", lambda found: found[1:])
        self.planted("path", LibraryVersion, "path", lambda found: found[:1])
        self.planted("edges of a path", Session, "path", lambda walk: walk and walk[:-1])
        self.planted("no step of a path", Session, "out_edges", lambda found: found[:0])
        if networkx:
            self.planted("to_networkx", Edges, "to_networkx", lambda it: it.reverse(), beside=self.beside_networkx)


if __name__ == "__main__":
    unittest.main()
