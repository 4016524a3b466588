"""Answers as arrays with names: tables, edges, what became of them, and the forms that other packages take."""
import json
import pickle
import random
import unittest
from array import array
from collections import Counter
from datetime import datetime, timezone
from decimal import Decimal
from itertools import accumulate, product
from unittest import mock

from support import IN_PROCESS, IS_SERVED, Case, optional

import misteluk
from misteluk import Changed, Degree, Edge, Units
from misteluk.engine.calling import texts_of
from misteluk.values import fields

numpy, pandas, igraph, scipy = map(optional, ("numpy", "pandas", "igraph", "scipy"))
ROADS = ("insert road ulm kiel 5 1", "insert road kiel bonn 7 2", "insert rail ulm bonn 3 3")


class Tables(Case):
    def test_no_dict_is_made_before_it_is_asked_for(self):
        degrees = self.store(*ROADS).open().degrees()
        self.assertEqual((len(degrees), list(degrees), degrees.top(1, "weight_out")), (3, ["ulm", "kiel", "bonn"], [
            ("ulm", Degree(2, 0, 8))]))
        self.assertEqual([list(it.values) for it in degrees.columns.values()], [[2, 1, 0], [0, 1, 2], [8, 7, 0]])
        self.assertIsNone(degrees._rows)
        self.assertEqual(degrees, {"ulm": Degree(2, 0, 8), "kiel": Degree(1, 1, 7), "bonn": Degree(0, 2, 0)})
        self.assertIsNot(degrees.to_dict(), degrees.to_dict())
        levels = self.store(*ROADS).open().levels("ulm")
        self.assertEqual(json.loads(json.dumps(levels.to_dict())), {"ulm": 0, "kiel": 1, "bonn": 1})

    def test_it_is_a_mapping(self):
        levels = self.store(*ROADS).open().levels("kiel")
        self.assertEqual((dict(levels), {**levels}, levels.get("ulm"), "bonn" in levels, "ulm" in levels),
                         ({"kiel": 0, "bonn": 1}, {"kiel": 0, "bonn": 1}, None, True, False))
        self.assertEqual((list(levels.items()), list(levels.values()), str(levels)),
                         ([("kiel", 0), ("bonn", 1)], [0, 1], "{'kiel': 0, 'bonn': 1}"))
        self.assertRaises(KeyError, lambda: levels["ulm"])
        self.assertRaises(TypeError, hash, levels)
        for it in (levels, self.store(*ROADS, units=Units(weight_scale=10)).open().degrees(), misteluk.Answer(a=1)):
            copy = pickle.loads(pickle.dumps(it))
            self.assertEqual((copy, copy.version, copy.request, copy.value), (it, it.version, it.request, it.value))

    @unittest.skipUnless(numpy and pandas, "numpy and pandas are not there")
    def test_arrays_and_frames(self):
        session = self.store(*ROADS, units=Units(weight_scale=10, decimals="float")).open()
        self.assertEqual({name: it.tolist() for name, it in session.degrees().to_numpy().items()},
                         {"out": [2, 1, 0], "into": [0, 1, 2], "weight_out": [80, 70, 0]})
        self.assertEqual(session.components().to_numpy()["label"].tolist(), ["ulm"] * 3)
        frame = session.degrees().to_pandas()
        self.assertEqual((list(frame.index), frame["weight_out"].tolist()), (["ulm", "kiel", "bonn"], [8.0, 7.0, 0.0]))


class Shown(Case):
    """How answers are shown: all rows of a few, and of many the first and the last ones."""

    def test_tables(self):
        for count in (0, 1, 60):
            rows = {f"v{it}": it for it in range(count)}
            self.assertEqual((repr(misteluk.Answer(rows)), str(misteluk.Answer(rows))), (repr(rows), repr(rows)))
        many = misteluk.Answer({f"v{it}": it for it in range(26_400)})
        self.assertEqual(repr(many), "{'v0': 0, 'v1': 1, 'v2': 2, 'v3': 3, 'v4': 4, .., 'v26395': 26395, 'v26396': 26396, "
                         "'v26397': 26397, 'v26398': 26398, 'v26399': 26399} of 26,400 names")
        session = self.store(*(f"insert k v v{it:02} 1 {it}" for it in range(60))).open()
        for ask in (session.degrees, session.components, lambda: session.levels("v")):
            table, rows = ask(), [f"{name!r}: {it!r}" for name, it in ask().items()]
            self.assertEqual(repr(table), f"{{{', '.join([*rows[:5], '..', *rows[-5:]])}}} of 61 names")
            self.assertIn("<p>61 names of version 1: ", table._repr_html_())
            self.assertIsNone(table._rows)

    def test_edges(self):
        few, many = (self.store(*(f"insert k v v{it:02} {it} 1" for it in range(count))).open() for count in (1, 61))
        edges = many.edges()
        row = "('k', 'v', 'v00', Edge(weight=0, first=1, recent=1))"
        self.assertEqual(repr(few.edges()), f"<1 edge of 1 kind and 2 names: {row}>")
        self.assertEqual(repr(edges), f"<61 edges of 1 kind and 62 names: {', '.join([*map(repr, edges[:5]), '..'])}, "
                         f"{', '.join(map(repr, edges[-5:]))}>")
        self.assertEqual(repr(edges[:0]), "<0 edges of 1 kind and 62 names>")
        self.assertEqual(repr(edges.weight), "ReadOnlyArray('q', [0, 1, 2, 3, 4, .., 56, 57, 58, 59, 60]) of 61 numbers")
        self.assertEqual(repr(edges.weight[:2]), "ReadOnlyArray('q', [0, 1])")
        self.assertEqual([it.__array_interface__["version"] for it in (edges.weight, edges[:0].weight)], [3, 3])
        head = "".join(f"<td>{it}</td>" for it in ("kind", "source", "target", "weight", "first", "recent"))
        self.assertEqual(few.edges()._repr_html_(), f"<table><tr>{head}</tr><tr><td>k</td><td>v</td><td>v00</td>"
                         "<td>0</td><td>1</td><td>1</td></tr></table><p>1 edge of 1 kind and 2 names</p>")
        self.assertEqual(edges._repr_html_().count("<tr>"), 11)

    def test_differences(self):
        before, after = self.store("insert k a <b> 1 1", "insert k a c 2 2").open(), self.store("insert k a c 3 2").open()
        told = before.diff(after)._repr_html_()
        for row in (("gone", "k", "a", "&lt;b&gt;", 1, 1, 1, "", "", ""), ("changed", "k", "a", "c", 2, 2, 2, 3, 2, 2)):
            self.assertIn(f"<tr>{''.join(f'<td>{it}</td>' for it in row)}</tr>", told)
        self.assertIn("<p>1 gone, 0 new, 1 changed</p>", told)
        self.assertIn("<tr><td>new</td><td>k</td><td>a</td><td>&lt;b&gt;</td><td></td>", after.diff(before)._repr_html_())
        many = self.store(*(f"insert k a v{it} 1 1" for it in range(1_200))).open()
        self.assertEqual(repr(many.diff(after)), "<Diff: 1,200 gone, 1 new, 0 changed>")
        self.assertEqual(many.diff(after)._repr_html_().count("<tr>"), 12)

    def test_what_a_load_and_a_store_say(self):
        store = self.store()
        loaded = store.load(self.file("<a>.csv", "source,target\na,b\na,c\n"), by="set", progress=False)
        self.assertIn("<table><caption>Stat</caption><tr><th>version</th><td>1</td></tr><tr><th>vertices</th><td>3</td></tr>",
                      store.stat()._repr_html_())
        told = loaded._repr_html_()
        for row in ("<caption>Loaded</caption>", "<th>rows</th><td>2</td>", "<th>inserted</th><td>2</td>", "&lt;a&gt;.csv</td>",
                    "<th>bad rows</th><td>0</td>"):
            self.assertIn(row, told)
        self.assertNotIn("<a>", told)


class NamesInOneText(Case):
    def test_names_are_cut_out_of_their_text(self):
        """By numpy, where it is there, and in a loop: names of any signs that names have, and of each length. Behind the last one
        is room that was not used, or none."""
        made, signs = random.Random(8), "".join(map(chr, range(0x21, 0x7F)))
        for count in (1, 64, 300):
            names = ["".join(made.choices(signs, k=at % 64 + 1)) for at in range(count)]
            ends = array("Q", accumulate(map(len, names)))
            for many, room in product((0, 1_000), (0, 1, 9)):
                text = array("B", "".join(names).encode("ascii") + bytes(room))
                with self.subTest(count=count, many=many, room=room), mock.patch.object(fields, "MANY", many):
                    self.assertEqual(texts_of(text, ends), names)

    def test_newer_names_behind_those_that_are_known(self):
        """A version is asked for its names, and then a later one, in which many more are: it is asked for the new ones alone."""
        store = self.store()
        for first, last in ((0, 40), (40, 1_100), (1_100, 1_101), (1_101, 2_400)):
            self.feed(store, *(f"insert k v{at} v{at + 1} 1 1" for at in range(first, last)))
            with self.subTest(last=last), store.open() as session:
                names = [f"v{at}" for at in range(last + 1)]
                self.assertEqual([(it, degree.out, degree.into, degree.weight_out) for it, degree in session.degrees().items()],
                                 [(it, it != names[-1], it != names[0], it != names[-1]) for it in names])


class EdgesOfAVersion(Case):
    def test_columns(self):
        edges = self.store(*ROADS).open().edges()
        told = {tuple(it) for it in zip(map(edges.kinds.__getitem__, edges.kind), map(edges.names.__getitem__, edges.source),
                                        map(edges.names.__getitem__, edges.target), edges.weight, edges.first, edges.recent)}
        self.assertEqual(told, {("road", "ulm", "kiel", 5, 1, 1), ("road", "kiel", "bonn", 7, 2, 2),
                                ("rail", "ulm", "bonn", 3, 3, 3)})
        self.assertEqual((len(edges), edges[0], list(edges[1:]), list(edges)[-1]),
                         (3, next(iter(edges)), list(edges)[1:], edges[-1]))
        self.assertEqual(edges.top(2), [("road", "kiel", "bonn", Edge(7, 2, 2)), ("road", "ulm", "kiel", Edge(5, 1, 1))])
        self.assertEqual(edges.top(1, "recent"), [("rail", "ulm", "bonn", Edge(3, 3, 3))])
        self.assertRaises(ValueError, edges.top, 1, "first time")

    def differing(self, session):
        """Vertices of whose edges, out and in, each kind's apart, something else is told than of all edges."""
        def of(end, name, window):
            return Counter(it for it in session.edges(**window) if it[end] == name)
        found = []
        for name, window in product(session.edges().names, ({}, {"kind": "k"}, {"since": 3}, {"kind": "l", "until": 5})):
            for end, call in ((1, session.out_edges), (2, session.in_edges)):
                told = list(call(name, **window))
                kinds = [it[0] for it in told]
                if Counter(told) != of(end, name, window) or len(set(kinds)) < sum(a != b for a, b in zip(kinds, [None, *kinds])):
                    found.append((call.__name__, name, window))
        return found

    def test_the_edges_of_vertices(self):
        """As they are told of a version that has told all its edges, and of one that hasn't; by numpy, where it is there, and by
        a search. Some were removed, so that a row's places aren't in their order."""
        made = random.Random(9)
        rows = [f"insert {made.choice('kl')} v{made.randrange(9)} v{made.randrange(9)} {at} {at % 8}" for at in range(200)]
        gone = [it.split()[1:4] for it in made.sample(rows, 60)]
        for many, kinds in product((0, 1_000), ("kl", "k")):
            store = self.store(*(it.replace(" l ", f" {kinds[-1]} ") for it in rows))
            for kind, source, target in gone:
                store.remove(kinds[-1] if kind == "l" else kind, source, target)
            store.commit()
            self.feed(store, *(f"insert {kinds[-1]} v{at} v{8 - at} 1 1" for at in range(9)), "insert l v0 v0 1 1")
            with self.subTest(many=many, kinds=kinds), mock.patch.object(fields, "MANY", many), store.open() as session:
                self.assertEqual(self.differing(session), [])
                apart = {it: Counter(session.out_edges(it)) for it in session.edges().names}
                with store.open() as other:
                    self.assertEqual({it: Counter(other.out_edges(it)) for it in apart}, apart)

    @unittest.skipIf(IS_SERVED, IN_PROCESS)
    def test_edges_that_come_in_are_asked_for_alone(self):
        """Nothing reads all edges for them, and a vertex that has more than a row has room for at first has them all."""
        store = self.store(*(f"insert k v{at} hub {at} 1" for at in range(100)), "insert k hub v1 5 2")
        with store.open() as session:
            self.assertEqual([it[1:3] for it in session.in_edges("hub")], [(f"v{at}", "hub") for at in range(100)])
            self.assertEqual((list(session.in_edges("v2")), session.weights_in()["hub"]), ([], 4_950))
            self.assertIsNone(session._held.kept.all)

    def test_weights_that_come_in(self):
        """Sums of the greatest weights, of kinds and windows, beside those of all edges."""
        made = random.Random(6)
        rows = [f"insert {made.choice('kl')} v{made.randrange(40)} v{made.randrange(6)} {made.choice((1 << 40, -(1 << 40), 1))} "
                f"{made.randrange(9)}" for _ in range(300)]
        session = self.store(*rows).open()
        for window in ({}, {"kind": "l"}, {"since": 4}, {"kind": "k", "since": 2, "until": 5}):
            wanted = dict.fromkeys(session.vertices(), 0)
            for _, _, target, edge in session.edges(**window):
                wanted[target] += edge.weight
            self.assertEqual(session.weights_in(**window), wanted)
            self.assertGreater(max(map(abs, wanted.values())), 1 << 41)

    @unittest.skipUnless(numpy, "numpy is not there")
    @unittest.skipIf(IS_SERVED, IN_PROCESS)
    def test_edges_of_a_source_that_begin_elsewhere_are_found(self):
        rows = "insert k v1 v2 1 1", "insert k v2 v1 1 1", "insert l v1 v1 1 1"
        with mock.patch.object(fields, "MANY", 0), self.store(*rows).open() as session:
            self.assertEqual((self.differing(session), list(session._held.kept.begins)), ([], [0, 2, 3]))
            for wrong in (array("I", (0, 1, 3)), array("I", (0, 2, 2)), array("I", (1, 2, 3))):
                with mock.patch.object(session._held.kept, "begins", wrong):
                    self.assertNotEqual(self.differing(session), [])

    def test_windows_and_kinds(self):
        session = self.store(*ROADS).open()
        for again in range(2):  # (the second time from what is kept)
            self.assertEqual(sorted(it[:3] for it in session.edges(since=2)), [
                ("rail", "ulm", "bonn"), ("road", "kiel", "bonn")])
            self.assertEqual([it[:3] for it in session.edges("rail", until=2)], [])
            self.assertEqual([it[:3] for it in session.edges("rail")], [("rail", "ulm", "bonn")])
            self.assertEqual(len(list(session.edges())), 3)
        self.assertRaises(misteluk.errors.NoKind, session.edges, "sea")

    def test_a_path_s_edges(self):
        session = self.store(*ROADS, "insert road bonn trier 1 9").open()
        self.assertEqual(session.path("ulm", "trier", "road", edges=True), [
            ("road", "ulm", "kiel", Edge(5, 1, 1)), ("road", "kiel", "bonn", Edge(7, 2, 2)),
            ("road", "bonn", "trier", Edge(1, 9, 9))])
        self.assertEqual((session.path("ulm", "ulm", edges=True), session.path("trier", "ulm", edges=True)), ([], None))

    def test_diff(self):
        store = self.store(*ROADS, seats=3)
        first = store.open()
        self.feed(store, "remove rail ulm bonn", "add road kiel bonn 1 5", "insert sea kiel riga 2 6")
        last = store.open()
        diff = first.diff(last)
        self.assertEqual((diff.counts(), bool(diff)), ({"gone": 1, "new": 1, "changed": 1}, True))
        self.assertEqual((list(diff.gone), list(diff.new)), ([("rail", "ulm", "bonn", Edge(3, 3, 3))], [
            ("sea", "kiel", "riga", Edge(2, 6, 6))]))
        self.assertEqual(diff.changed, [Changed("road", "kiel", "bonn", Edge(7, 2, 2), Edge(8, 2, 5))])
        self.assertEqual((list(last.diff(first).new), last.diff(first).counts()["gone"]), (list(diff.gone), 1))
        self.assertFalse(first.diff(first))
        self.assertEqual(first.diff(last, "sea").counts(), {"gone": 0, "new": 1, "changed": 0})
        other = self.store(*ROADS[::-1]).open()  # (another store, with other numbers)
        self.assertFalse(first.diff(other))
        self.assertRaisesRegex(ValueError, "other units", first.diff, self.store(units=Units(weight_scale=10)).open())

    def test_the_edges_with_the_greatest_values(self):
        """Equal ones stand in the order of the edges."""
        rows = (("a", 3, 1, 9), ("b", 7, 5, 8), ("c", 3, 5, 9), ("d", 7, 1, 9), ("e", -7, 5, 5), ("f", 3, 5, 9))
        session = self.store(*(f"insert k v {it} {weight} {time}" for it, weight, first, recent in rows
                               for time in (first, recent))).open()
        edges = session.edges()
        self.assertEqual([it[2] for it in edges], list("abcdef"))
        for by, count, wanted in (("weight", 3, "bda"), ("weight", 6, "bdacfe"), ("weight", 9, "bdacfe"), ("weight", 0, ""),
                                  ("first", 3, "bce"), ("first", 6, "bcefad"), ("recent", 2, "ac"), ("recent", 5, "acdfb")):
            with self.subTest(by=by, count=count):
                self.assertEqual("".join(it[2] for it in edges.top(count, by)), wanted)
        self.assertEqual(edges.top(3), edges.top(3, "weight"))
        self.assertRaisesRegex(ValueError, "by is 'weight', 'first' or 'recent'", edges.top, 3, "kind")

    def test_diffs_at_random(self):
        made = random.Random(6)
        store = self.store(seats=2)
        for step in range(6):
            for _ in range(60):
                word = made.choice(("insert", "add", "remove"))
                getattr(store, word)(made.choice("kl"), f"s{made.randrange(6)}", f"t{made.randrange(6)}",
                                     *(() if word == "remove" else (made.randrange(3), made.randrange(9))))
            store.commit()
            if step == 0:
                before = store.open()
            else:
                with store.open() as after:
                    old, new = ({it[:3]: it[3] for it in session.edges()} for session in (before, after))
                    diff = before.diff(after)
                    self.assertEqual({it[:3] for it in diff.gone}, set(old) - set(new))
                    self.assertEqual({it[:3] for it in diff.new}, set(new) - set(old))
                    self.assertEqual({(it.kind, it.source, it.target): (it.before, it.after) for it in diff.changed},
                                     {it: (old[it], new[it]) for it in set(old) & set(new) if old[it] != new[it]})

    @unittest.skipUnless(numpy and pandas, "numpy and pandas are not there")
    def test_frames_of_dates(self):
        """They have dates as pandas does; where one is of a year that it hasn't, all of its column are objects."""
        for year, of_dates in ((2024, True), (9999, False)):
            store = self.store(units=Units(weight_scale=100, times="iso"))
            days = [datetime(1970, 1, 1, tzinfo=timezone.utc), datetime(year, 3, 4, 12, 0, 0, 250_001, tzinfo=timezone.utc)]
            for day in days:
                store.insert("road", "ulm", "kiel", "0.30", day)
            store.insert("rail", "kiel", "ulm", 7)
            store.commit()
            frame = store.open().edges().to_pandas()
            self.assertEqual(list(frame.columns), ["kind", "source", "target", "weight", "first", "recent"])
            self.assertEqual(list(zip(frame["kind"], frame["weight"])), [("road", Decimal("0.30")), ("rail", Decimal(7))])
            for column, dates in (("first", [days[0]] * 2), ("recent", [days[1], days[0]])):
                self.assertEqual([*frame[column]], dates)
            self.assertEqual([frame[it].dtype == object for it in ("first", "recent")], [False, not of_dates])

    @unittest.skipUnless(numpy and pandas, "numpy and pandas are not there")
    def test_frames(self):
        store = self.store(*ROADS)
        first = store.open()
        self.feed(store, "remove rail ulm bonn", "add road kiel bonn 1 5")
        frame = first.diff(store.open()).to_pandas()
        self.assertEqual(frame["state"].tolist(), ["gone", "changed"])
        self.assertEqual(frame["weight_before"].tolist(), [3, 7])
        arrays = first.edges().to_numpy()
        self.assertEqual((arrays["weight"].dtype.str, sorted(arrays["weight"].tolist())), ("<i8", [3, 5, 7]))

    @unittest.skipUnless(igraph, "igraph is not there")
    def test_igraph(self):
        graph = self.store(*ROADS).open().edges().to_igraph()
        self.assertEqual((graph.vcount(), graph.ecount(), graph.is_directed(), graph.vs["name"]), (3, 3, True, [
            "ulm", "kiel", "bonn"]))
        edges = {(it["kind"], graph.vs[it.source]["name"], graph.vs[it.target]["name"], it["weight"]) for it in graph.es}
        self.assertEqual(edges, {("road", "ulm", "kiel", 5), ("road", "kiel", "bonn", 7), ("rail", "ulm", "bonn", 3)})

    @unittest.skipUnless(scipy and numpy, "scipy is not there")
    def test_scipy(self):
        session = self.store(*ROADS, "insert rail ulm kiel 4 1").open()
        matrix, names = session.edges().to_scipy(), list(session.edges().names)
        self.assertEqual((matrix.shape, matrix[names.index("ulm"), names.index("kiel")], matrix.sum()), ((3, 3), 9, 19))


if __name__ == "__main__":
    unittest.main()
