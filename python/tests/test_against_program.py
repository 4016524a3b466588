"""Each question of each kind of session beside `stinger run`, which is asked through pipes, over random operations, loads,
expiries, held sessions and stores that begin anew; and whether such a comparison finds a difference that is planted."""
import asyncio
import csv
import random
import unittest
from dataclasses import is_dataclass
from collections import defaultdict
from unittest import mock

from asking import BECOME, NEED, NO_ANSWERS, awaited
from graphs import KINDS, NAMES
from harness import LAST, Refused, Run
from support import IN_PROCESS, IS_SERVED, Case, kill, optional, row

import misteluk
from misteluk import Answer, AsyncSession, Diff, Edges, Session
from misteluk.values import records

ROUNDS, STEPS = 5, 7
COMMANDS = {"insert": "i", "add": "a", "remove": "r", "expire": "x"}


# What is worked out from the program's answers where it has no record for a question.

def beside(edges, name, at):
    """The edges at one end by the other, those of several kinds as one."""
    found = defaultdict(list)
    for ends, marks in edges.items():
        if ends[at] == name:
            found[ends[3 - at]].append(marks)
    return {it: (sum(mark[0] for mark in marks), min(mark[1] for mark in marks), max(mark[2] for mark in marks))
            for it, marks in found.items()}


def neighbors(edges, name):
    out, into = beside(edges, name, 1), beside(edges, name, 2)
    return {it: (out.get(it), into.get(it)) for it in {**out, **into}}


def weights_in(voice, *window):
    edges = voice.edges(*window)
    return {it: sum(marks[0] for ends, marks in edges.items() if ends[2] == it) for it in voice.degrees()}


def either_way(voice, name, hops):
    near, edges = {name: 0}, voice.edges()
    voice.levels(name)
    for hop in range(1, hops + 1):
        ends = {(ends[1], ends[2]) for ends in edges} | {(ends[2], ends[1]) for ends in edges}
        near.update({target: hop for source, target in ends if near.get(source) == hop - 1 and target not in near})
    return near


def diff(voice, later):
    old, new = voice.edges(), later.edges()
    changed = {it: (marks, new[it]) for it, marks in old.items() if it in new and new[it] != marks}
    return [{it: marks for it, marks in old.items() if it not in new}, {it: marks for it, marks in new.items() if it not in old},
            changed]


def flows(voice, later):
    gone, new, changed = diff(voice, later)
    found = {it: [0] * 4 for it in later.degrees()}
    grown = [*((ends, -marks[0]) for ends, marks in gone.items()), *((ends, marks[0]) for ends, marks in new.items()),
             *((ends, after[0] - before[0]) for ends, (before, after) in changed.items())]
    for (_, source, target), weight in grown:
        found[source][0], found[source][2] = found[source][0] + 1, found[source][2] + weight
        found[target][1], found[target][3] = found[target][1] + 1, found[target][3] + weight
    return {it: tuple(values) for it, values in found.items()}


def among(voice, names, *window):
    edges = {ends: marks for ends, marks in voice.edges(*window).items() if {*ends[1:]} <= set(names)}
    known = voice.degrees()
    if not set(names) <= set(known):
        raise Refused("NoVertex")
    return {it: (sum(ends[1] == it for ends in edges), sum(ends[2] == it for ends in edges),
                 sum(marks[0] for ends, marks in edges.items() if ends[1] == it)) for it in names}


def length(voice, source, target, *window):
    levels = voice.levels(source, *window)
    return levels[target] if target in levels or not voice.levels(target, *window) else None


def only_at(voice, name, at, *window):
    voice.levels(name, *window)  # (refused for a name that there isn't)
    return {ends: marks for ends, marks in voice.edges(*window).items() if ends[at] == name}


def knows(voice, kind):
    """Whether the version has a kind, which the program refuses else."""
    try:
        voice.degrees(kind)
    except Refused:
        return False
    return True


# By the name of each call what the program says; `a` and `b` are vertices, `k` is a kind, and a window what any call may have.
SAID = {
    "levels": lambda voice, a, b, k, *window: voice.levels(a, *window),
    "components": lambda voice, a, b, k, *window: voice.components(*window),
    "cores": lambda voice, a, b, k, *window: voice.cores(*window),
    "degrees": lambda voice, a, b, k, *window: voice.degrees(*window),
    "weights_in": lambda voice, a, b, k, *window: weights_in(voice, *window),
    "edge": lambda voice, a, b, k: voice.edge(k, a, b),
    **dict.fromkeys(("edges", "frame", "to_csv", "to_networkx", "to_igraph", "to_graph_tool", "graph"),
                    lambda voice, a, b, k, *window: voice.edges(*window)),
    "to_scipy": lambda voice, a, b, k, *window: sums(voice.edges(*window)),
    "out_edges": lambda voice, a, b, k, *window: only_at(voice, a, 1, *window),
    "in_edges": lambda voice, a, b, k, *window: only_at(voice, a, 2, *window),
    "successors": lambda voice, a, b, k, *window: beside(only_at(voice, a, 1, *window), a, 1),
    "predecessors": lambda voice, a, b, k, *window: beside(only_at(voice, a, 2, *window), a, 2),
    "neighbors": lambda voice, a, b, k, *window: neighbors({**only_at(voice, a, 1, *window), **only_at(voice, a, 2, *window)}, a),
    "path": lambda voice, a, b, k, *window: (length(voice, a, b, *window), True),
    "neighborhood": lambda voice, a, b, k, *window: {it: at for it, at in voice.levels(a, *window).items() if at <= 2},
    "either_way": lambda voice, a, b, k: either_way(voice, a, 2),
    "edge_count": lambda voice, a, b, k: len(voice.edges()),
    "has_vertex": lambda voice, a, b, k: a in voice.degrees(),
    "has_edge": lambda voice, a, b, k: (k, a, b) in voice.edges(),
    "vertices": lambda voice, a, b, k: tuple(voice.degrees()),
    "kinds": lambda voice, a, b, k: {it for it in KINDS if knows(voice, it)},
    "among": lambda voice, a, b, k, *window: among(voice, (a, b), *window),
    "diff": lambda voice, a, b, k, later: diff(voice, later), "flows": lambda voice, a, b, k, later: flows(voice, later),
}
# Questions that need a package: where it isn't there they are passed over.
NEEDS = {"frame": "pandas", **BECOME, **NEED}
ASKED = [it for it in SAID if optional(NEEDS.get(it, "misteluk"))]


def sums(edges):
    found = defaultdict(int)
    for (_, source, target), marks in edges.items():
        found[source, target] += marks[0]
    return {it: weight for it, weight in found.items() if weight}


# What a session answers, in the same form.

def plain(found):
    if isinstance(found, Edges):
        return {ends: tuple(edge) for *ends, edge in found for ends in [tuple(ends)]}
    if isinstance(found, Diff):
        changed = {(it.kind, it.source, it.target): (tuple(it.before), tuple(it.after)) for it in found.changed}
        return [plain(found.gone), plain(found.new), changed]
    if isinstance(found, (Answer, dict)):
        return {name: plain(it) for name, it in found.items()}
    if is_dataclass(found):
        return tuple(map(plain, vars(found).values()))
    return tuple(map(plain, found)) if isinstance(found, tuple) else found


def path_of(session, ask, a, b, *window):
    """How long a path is, and whether each of its edges is there."""
    walk = ask(Session.path, a, b, *window)
    if walk is None:
        return None, True
    edges = plain(session.edges(*window))
    steps = {ends[1:] for ends in edges}
    return len(walk) - 1, walk[0] == a and walk[-1] == b and set(zip(walk, walk[1:])) <= steps


def csv_of(ask, path, *window):
    count = ask(Session.edges, *window).to_csv(path)
    with open(path, encoding="utf-8", newline="") as file:
        rows = list(csv.reader(file))[1:]
    assert len(rows) == count
    return {tuple(it[:3]): tuple(map(int, it[3:])) for it in rows}


def asked(session, ask, name, path, a, b, k, *window):
    """What a session answers to a question."""
    if name in ("levels", "out_edges", "in_edges", "successors", "predecessors", "neighbors"):
        return plain(ask(getattr(Session, name), a, *window))
    if name == "edge":
        assert ask(lambda session: session.get_edges([(k, a, b)])) == [session.edge(k, a, b)]
        return plain(ask(Session.edge, k, a, b))
    if name == "edges":
        of = dict(zip(("kind", "since", "until"), window))
        return {it[:3]: tuple(it[3]) for it in ask(lambda session: list(session.edges(**of)))}
    if name == "neighborhood":
        return plain(ask(Session.neighborhood, a, 2, *window))
    if name == "either_way":
        return plain(ask(lambda session: session.neighborhood(a, 2, directed=False)))
    if name == "among":
        return plain(ask(lambda session: session.degrees(*window, among=iter([b, a, b]))))
    if name == "to_csv":
        return csv_of(ask, path, *window)
    if name == "path":
        return path_of(session, ask, a, b, *window)
    if name == "edge_count":
        return ask(lambda session: session.edge_count)
    if name in ("has_vertex", "has_edge"):
        return ask(Session.has_vertex, a) if name == "has_vertex" else ask(Session.has_edge, k, a, b)
    if name == "kinds":
        return set(ask(Session.kinds))
    if name == "frame":
        rows = ask(Session.edges, *window).to_pandas()
        return {it[:3]: it[3:] for it in rows.itertuples(index=False, name=None)}
    found = getattr(ask(Session.edges, *window), name)() if name in BECOME else ask(getattr(Session, name), *window)
    if name in ("to_networkx", "graph"):
        return {(it["kind"], *ends): (it["weight"], it["first"], it["recent"]) for *ends, it in found.edges(data=True)}
    if name == "to_igraph":
        names = found.vs["name"]
        return {(it["kind"], names[it.source], names[it.target]): (it["weight"], it["first"], it["recent"]) for it in found.es}
    if name == "to_graph_tool":
        return edges_of(found)
    if name == "to_scipy":
        names, matrix = session.edges(*window).names, found.tocoo()
        matrix.sum_duplicates()
        return {(names[a], names[b]): it for a, b, it in zip(matrix.row, matrix.col, matrix.data) if it}
    return plain(found)


def edges_of(graph):
    """The edges of a graph of graph-tool."""
    names, marks = graph.vp["name"], [graph.ep[it] for it in ("kind", "weight", "first", "recent")]
    return {(kind, names[source], names[target]): tuple(told) for source, target, kind, *told in graph.iter_edges(marks)}


class Both:
    """A store and a run of the program that are told the same, and sessions with what the run holds of the same versions."""

    def __init__(self, seed):
        self.random, self.store, self.run = random.Random(seed), misteluk.Store(blocks=4096, seats=4), Run()
        self.time, self.pending, self.held, self.differ = 0, [], [], []
        self.kinds = KINDS[:self.random.randrange(1, 4)]
        self.loop = asyncio.new_event_loop()

    def ends(self):
        pick = self.random.random
        return self.random.choice(self.kinds), NAMES[int(len(NAMES) * pick() ** 2)], NAMES[int(len(NAMES) * pick())]

    def some_time(self):
        """Mostly later than all before, and at times long ago."""
        self.time += 1
        return self.time if self.random.random() < 0.8 else self.random.randrange(self.time + 1)

    def operation(self):
        word = self.random.choices(list(COMMANDS), (4, 4, 3, 1))[0]
        given = (self.random.randrange(max(0, self.time - 40), self.time + 1),) if word == "expire" else self.ends()
        if word in ("insert", "add"):
            given += self.random.choice([1, 7, -5, 0, records.MOST_WEIGHT]), self.some_time()
        getattr(self.store, word)(*given)
        self.pending.append((COMMANDS[word], *given))

    def same(self, what, found, wanted):
        if found != wanted:
            self.differ.append((what, found, wanted))

    def commit(self):
        batch, told = self.random.choice([5, 4096]), [0] * 6
        parts = [self.pending[at:at + batch] for at in range(0, max(len(self.pending), 1), batch)]
        for it in parts:
            told = list(map(sum, zip(told, self.run.commit(it))))
        self.pending = []
        *counts, batches, expired = row(self.store.commit(batch=batch))[1:]
        self.same("commit", [*counts, expired, batches], [*told, len(parts)])

    def load(self):
        by, rows = self.random.choice(["add", "set"]), []
        for _ in range(self.random.randrange(1, 30)):
            kind, *ends = self.ends()
            rows.append((*ends, self.random.randrange(9), self.some_time(), kind))
        self.store.load(rows, by=by, batch=9)
        for at in range(0, len(rows), 9):
            self.run.commit([("a" if by == "add" else "i", it[4], *it[:4]) for it in rows[at:at + 9]])

    def step(self):
        if self.random.random() < 0.3:
            self.load()
        else:
            for _ in range(self.random.randrange(14)):
                self.operation()
            self.commit()
        self.same("stat", row(self.store.stat())[:3], self.run.stat())
        if len(self.held) == 3:
            for it in self.held.pop(self.random.randrange(3)):
                it.close()
        self.held.append((self.store.open(), self.run.open()))
        if self.random.random() < 0.15 and not IS_SERVED:  # (a server alone does so)
            session, voice = self.random.choice(self.held)
            self.store.compact(session)
            self.run.rebase(voice)
            self.held = [(self.store.open(), self.run.open())]

    def ask_all(self, path):
        """Asks each question of each session that is held, of a random window and random names."""
        for at, (session, voice) in enumerate(self.held):
            self.same("size", (session.version, session.vertex_count), (voice.version, voice.count))
            by = awaited(AsyncSession(session), self.loop) if at else lambda call, *given: call(session, *given)
            for name in ASKED:
                self.ask(session, voice, by, name, path)

    def ask(self, session, voice, by, name, path):
        (k, a, b), window = self.ends(), ()
        if name in ("diff", "flows"):
            later, heard = self.held[-1]
            found = by(Session.diff, later) if name == "diff" else by(lambda session: later.flows(session))
            return self.same(name, plain(found), SAID[name](voice, a, b, k, heard))
        if name not in ("edge", "either_way", "edge_count", "vertices", "kinds", "has_vertex",
                        "has_edge") and self.random.random() < 0.6:
            window = self.random.choice([None, *KINDS]), *sorted(self.random.choices(range(self.time + 3), k=2))
        try:
            wanted = SAID[name](voice, a, b, k, *window)
        except Refused as fault:
            wanted = str(fault)
        try:
            found = asked(session, by, name, path, a, b, k, *window)
        except Exception as fault:  # (one that isn't a refusal is a difference too)
            found = getattr(fault, "word", None) or repr(fault)
        self.same((name, a, b, k, window), found, wanted)

    def end(self):
        kill(self.store)
        self.run.end()
        self.loop.close()


class Comparison(Case):
    def play(self, seed, steps=STEPS):
        """What differed in a play, in which all that is held is asked now and then, up to the first time that something did."""
        both = Both(seed)
        self.addCleanup(both.end)
        for at in range(steps):
            both.step()
            if at % 2 or at == steps - 1:
                both.ask_all(str(self.room / "edges.csv"))
            if both.differ:
                break
        return both.differ

    def test_answers_are_those_of_the_program(self):
        for seed in range(ROUNDS):
            with self.subTest(seed=seed):
                self.assertEqual(self.play(seed)[:3], [])

    def test_each_question_is_asked(self):
        """Each public call of a session that answers has its counterpart, so that none is left out."""
        questions = {it for it in vars(Session) if not it.startswith("_")} - NO_ANSWERS
        self.assertEqual(questions - set(SAID), {"get_edges"})  # (which is asked with each edge)
        self.assertEqual(set(SAID) - questions, {"among", "either_way", "edge_count", "frame", "to_csv", *BECOME})

    @unittest.skipIf(IS_SERVED, IN_PROCESS)
    def test_a_planted_difference_is_found(self):
        right = {it: getattr(Session, it) for it in ("levels", "edges", "in_edges", "successors", "diff", "degrees", "graph")}
        for name, planted in (
                ("levels", lambda session, source, kind=None, since=0, until=LAST:
                    right["levels"](session, source, kind, since + 1, until)),
                ("edges", lambda session, *given: right["edges"](session, *given)[1:]),
                ("in_edges", lambda session, *given: right["in_edges"](session, *given)[:-1]),
                ("successors", lambda session, source, *_: right["successors"](session, source)),
                ("degrees", lambda session, *given, among=None: right["degrees"](session, *given, among=among and [*among][:1])),
                ("graph", lambda session, kind=None, *given: right["graph"](session, None, *given)),
                ("diff", lambda session, later, *given: right["diff"](later, session, *given))):
            with self.subTest(name), mock.patch.object(Session, name, planted):
                needed = NEEDS.get(name, "misteluk")  # (a package that not every Python has)
                self.assertTrue(not optional(needed) or any(self.play(seed, 4) for seed in range(12)))

    def test_the_run_ends_as_it_is_to(self):
        run = Run()
        self.assertEqual(run.commit([("i", "k", "a", "b", 5, 1), ("x", 0)]), (1, 0, 0, 0, 0, 0))
        self.assertRaisesRegex(Refused, "NoVertex", run.open().levels, "c")
        self.assertEqual(run.end(), ("", 1))


if __name__ == "__main__":
    unittest.main()
