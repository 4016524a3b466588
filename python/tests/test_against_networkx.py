"""Answers beside networkx, on random graphs with kinds, windows, removals and sessions that are held; and whether such a
comparison finds a difference that is planted."""
from dataclasses import replace
import random
import unittest
from unittest import mock

from support import Case, optional

from misteluk import Degree, Edge, Session

from misteluk.values import records

networkx = optional("networkx")
ROUNDS = 12


class Model:
    """The same graph in a networkx graph: edges by kind as keys, with weight and times. Names stay, also without edges."""

    def __init__(self):
        self.graph = networkx.MultiDiGraph()

    def apply(self, operation):
        word, kind, source, target, *rest = operation
        there = self.graph.get_edge_data(source, target, kind)
        if word == "remove":
            if there:
                self.graph.remove_edge(source, target, kind)
            return
        weight, time = rest
        if there is None:
            self.graph.add_edge(source, target, kind, weight=weight, first=time, recent=time)
        elif word == "insert":
            there.update(weight=weight, recent=time)
        elif abs(there["weight"] + weight) <= records.MOST_WEIGHT:
            there.update(weight=there["weight"] + weight, recent=time)

    def view(self, kind, since, until):
        """The edges of the kind and the window, with all names."""
        view = networkx.MultiDiGraph()
        view.add_nodes_from(self.graph)
        view.add_edges_from((source, target, key, told) for source, target, key, told in self.graph.edges(keys=True, data=True)
                            if kind in (None, key) and since <= told["recent"] <= until)
        return view


def differences(session: Session, model: Model, kind, since, until, source) -> list:
    """Which of the session's answers differ from networkx's."""
    view = model.view(kind, since, until)
    plain = networkx.Graph(view)
    plain.remove_edges_from(list(networkx.selfloop_edges(plain)))
    names = list(session.degrees(kind, since, until))
    place = {it: at for at, it in enumerate(names)}
    labels = {it: min(part, key=place.__getitem__) for part in networkx.weakly_connected_components(view) for it in part}
    degrees = {it: Degree(view.out_degree(it), view.in_degree(it), view.out_degree(it, weight="weight")) for it in view}
    edges = [(key, a, b) for a in names[:5] for b in names[:5] for key in ("k0", "k1")]
    told = [model.graph.get_edge_data(a, b, key) for key, a, b in edges]
    wanted = {
        "levels": dict(networkx.single_source_shortest_path_length(view, source)), "components": labels,
        "cores": networkx.core_number(plain), "degrees": degrees,
        "edges": [Edge(it["weight"], it["first"], it["recent"]) if it else None for it in told]}
    window = (kind, since, until)
    found = {"levels": session.levels(source, *window), "components": session.components(*window),
             "cores": session.cores(*window), "degrees": session.degrees(*window), "edges": session.get_edges(edges,
                                                                                                              missing=None)}
    return [it for it in wanted if found[it] != wanted[it]]


@unittest.skipUnless(networkx, "networkx is not there")
class Comparison(Case):
    def operations(self, random_, count, names):
        """Random operations, a fourth of them removals, the times going up."""
        for at in range(count):
            ends = f"k{random_.randrange(3)}", f"v{int(names * random_.random() ** 2)}", f"v{random_.randrange(names)}"
            if random_.random() < 0.25:
                yield ("remove", *ends)
            else:
                weight = random_.choice([random_.randrange(-50, 100), records.MOST_WEIGHT])
                yield (random_.choice(["insert", "add"]), *ends, weight, at)

    def play(self, seed: int) -> list:
        """Batches while three sessions are held and let go; each is asked at every turn. Returns what differed."""
        random_ = random.Random(seed)
        store = self.store(seats=3)
        model, held, differed = Model(), {}, []
        names, count = random_.choice([(6, 20), (30, 60), (120, 150)])
        for turn in range(6):
            for it in self.operations(random_, random_.randrange(count), names):
                getattr(store, it[0])(*it[1:])
                model.apply(it)
            store.commit(collect=turn % 2 == 1)
            slot = turn % 3
            if slot in held:
                held.pop(slot)[0].close()
            copy = Model()
            copy.graph = model.graph.copy()
            held[slot] = store._open(slot), copy
            for session, there in held.values():
                asked = random_.choice([None, "k0", "k1"]), *sorted(random_.sample(range(-1, count + 1), 2))
                asked = asked[0], max(0, asked[1]), asked[2]
                source = random_.choice(list(there.graph) or [""])
                known = asked[0] is None or asked[0] in {key for *_, key in there.graph.edges(keys=True)}
                if source and known:
                    differed += differences(session, there, *asked, source)
        return differed

    def test_answers_are_those_of_networkx(self):
        for seed in range(ROUNDS):
            with self.subTest(seed=seed):
                self.assertEqual(self.play(seed), [])

    def planted(self, wanted: str, name: str, change) -> None:
        """Whether a session that answers otherwise is found out."""
        right = getattr(Session, name)
        with mock.patch.object(Session, name, lambda *asked, **named: change(right(*asked, **named))):
            self.assertIn(wanted, [it for seed in range(4) for it in self.play(seed)])

    def test_a_planted_difference_is_found(self):
        def last_changed(by):
            return lambda answer: {**answer, list(answer)[-1]: by(list(answer.values())[-1])} if answer else answer
        self.planted("levels", "levels", last_changed(lambda it: it + 1))
        self.planted("components", "components", last_changed(lambda it: it + "x"))
        self.planted("cores", "cores", last_changed(lambda it: it + 1))
        self.planted("degrees", "degrees", last_changed(lambda it: replace(it, weight_out=it.weight_out + 1)))
        self.planted("edges", "get_edges", lambda edges: [it and it._replace(first=it.first + 1) for it in edges])

    def test_a_window_that_is_one_too_wide_is_found(self):
        right = Session.degrees
        wide = lambda self, kind=None, since=0, until=records.MOST_TIME: right(self, kind, since, until + 1)  # noqa: E731
        with mock.patch.object(Session, "degrees", wide):
            self.assertIn("degrees", [it for seed in range(6) for it in self.play(seed)])

    def test_a_session_that_answers_from_the_last_version_is_found(self):
        right = Session.levels

        def last(session, *asked):
            free = session.store._open(2) if 2 not in session.store._engine._held else None
            answer = right(free or session, *asked)
            if free:
                free.close()
            return answer
        with mock.patch.object(Session, "levels", last):
            self.assertIn("levels", [it for seed in range(8) for it in self.play(seed)])


if __name__ == "__main__":
    unittest.main()
