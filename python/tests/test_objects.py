"""Graphs, frames, columns and rows as feeds; what is missing in them is refused as an empty field of a file is."""
import datetime
import io
import unittest
import warnings
from datetime import date
from decimal import Decimal
from unittest import mock

from support import Case, feed_of, optional

import misteluk
from misteluk import Columns, Edge, Units, errors
from misteluk.feeds.objects import from_networkx
from misteluk.feeds import feed as feeds, objects

OF_TRANSFERS = Columns("from", "to", None, "amount", "when", "transfer")


class Missing(Case):
    def test_what_stands_for_no_value(self):
        class Neither:
            """As pandas' NA: compared, it gives what is neither true nor false."""

            def __ne__(self, other):
                return self

            def __bool__(self):
                raise TypeError("boolean value of NA is ambiguous")

        missing = [None, float("nan"), Decimal("NaN"), Decimal("sNaN"), Neither(), ""]
        self.assertEqual([objects.text_of(it) for it in missing], [""] * 6)
        self.assertEqual([objects.text_of(it) for it in ("nan", "None", 0, 0.0, 7.0, 7.5, False)],
                         ["nan", "None", "0", "0", "7", "7.5", "False"])

    def test_the_row_of_what_is_no_value(self):
        """Where columns aren't taken whole, since one has values of several types."""
        for size in (1, 2, 1_024):
            with mock.patch.object(feeds, "ROWS_AT_ONCE", size), self.assertRaisesRegex(
                    misteluk.errors.FeedFault, "^columns:3: b'c': bytes are no text"):
                list(feed_of({"source": ["a", 5.5, b"c", "d"], "target": ["x", "y", None, "w"]}).rows)


@unittest.skipUnless(optional("networkx"), "networkx is not there")
class Graphs(Case):
    def test_networkx(self):
        import networkx
        graph = networkx.DiGraph(name="g")
        graph.add_edge(1, "b", weight=7.0, time=9)
        graph.add_edge("b", "c", kind="other")
        self.assertEqual(list(from_networkx(graph).rows),
                         [(1, "link", "1", "b", "7", "9"), (2, "other", "b", "c", "1", "0")])
        both = from_networkx(networkx.Graph([(1, 2), (3, 3)]))
        self.assertEqual([it[2:4] for it in both.rows], [("1", "2"), ("2", "1"), ("3", "3")])
        both = from_networkx(networkx.Graph([(1, 2, {"weight": 5, "time": 9, "kind": "k"})]))
        self.assertEqual([it[1:] for it in both.rows], [("k", "1", "2", "5", "9"), ("k", "2", "1", "5", "9")])
        one = from_networkx(networkx.Graph([(1, 2)]), both_ways=False)
        self.assertEqual(len(list(one.rows)), 1)
        with self.assertRaisesRegex(misteluk.errors.FeedFault, "two nodes of the graph have one name"):
            from_networkx(networkx.Graph([(1, "1")]))

    def test_a_graph_comes_back(self):
        """With the recent time of each edge; a name that has no edge is told of, and isn't loaded."""
        dates = {"units": Units(weight_scale=100, times="iso")}
        store = misteluk.Store(**dates)
        self.addCleanup(self.let_go, store)
        store.insert("road", "a", "b", "2.50", "2024-03-04")
        store.insert("rail", "b", "a", 7, "2024-03-05T12:00:00.25+01:00")
        store.insert("rail", "b", "c", 1, "2024-03-06")
        store.commit()
        store.remove("rail", "b", "c")
        store.commit()
        with store.open() as session:
            graph, wanted = session.edges().to_networkx(), list(session.edges())
        copy = misteluk.Store(**dates)
        self.addCleanup(self.let_go, copy)
        with self.assertWarnsRegex(errors.LeftOut, "1 node of the graph, 'c', has no edge: a store has the names of edges"):
            copy.load(graph, by="set")
        self.assertEqual(list(copy.open().edges()), wanted)

    def test_an_edge_s_time(self):
        """It is the attribute that is said, and `recent` alone isn't taken for a time: it may mean something else."""
        import networkx
        graph = networkx.DiGraph()
        graph.add_edge("a", "b", first=1, recent=5)
        graph.add_edge("a", "c", first=1, recent=5, time=7)
        graph.add_edge("a", "d", recent=True)
        self.assertEqual([it[5] for it in from_networkx(graph).rows], ["5", "7", "0"])
        self.assertEqual([it[5] for it in from_networkx(graph, time="first").rows], ["1", "1", "0"])

    def test_columns_that_no_one_named_are_told_of(self):
        """A table with a column `weight` looks as if that were read; it is where it is named."""
        table = {"source": ["a"], "target": ["b"], "weight": [7], "time": [3]}
        row, file = {"source": "a", "target": "b", "kind": "road"}, self.file("rows.csv", "source,target,weight\na,b,7\n")
        for data, told in ((table, r"Columns\(weight='weight', time='time'\), or --weight weight --time time"),
                           ([row], r"Columns\(kind='kind'\), or --kind kind"), (file, r"rows.csv: only the columns")):
            store = self.store()
            with self.assertWarnsRegex(misteluk.errors.LeftOut, told):
                store.load(data, by="set")
            self.assertEqual(list(store.open().edges()), [("link", "a", "b", Edge(1, 0, 0))])
        with warnings.catch_warnings():
            warnings.simplefilter("error")
            for columns in (Columns(weight="weight"), Columns(time="time"), Columns("source", 2)):
                misteluk.survey(table, by="set", columns=columns)
            misteluk.survey({"source": ["a"], "target": ["b"], "amount": [7]}, by="set")

    def test_nodes_without_an_edge_are_told_of(self):
        import networkx
        graph = networkx.DiGraph([("a", "b"), ("c", "c")])
        graph.add_nodes_from(["x", 7])
        with self.assertWarnsRegex(misteluk.errors.LeftOut, "2 nodes of the graph, as 'x', have no edge"):
            from_networkx(graph)

    def test_missing_values_are_bad_rows(self):
        """A node or attribute that stands for no value is refused as an empty field of a file is, by its row and field."""
        import networkx
        none = float("nan")
        graph = networkx.DiGraph([("a", "b"), (none, "c"), ("d", float("nan"))], name="g")
        graph.add_edge("e", "f", weight=None)
        graph.add_edge("e", "g", time=none)
        graph.add_edge("e", "h", kind=None)
        with self.assertRaises(misteluk.BadRows) as told:
            self.store().load(graph, by="set")
        rows = [(it.place.line, it.word, it.field) for it in told.exception.faults]
        self.assertEqual(rows, self.places_of(graph, {("c",): ("BadName", "source"), ("d",): ("BadName", "target"),
                                                     ("f",): ("BadWeight", "weight"), ("g",): ("BadTime", "time"),
                                                     ("h",): ("BadName", "kind")}))

    def places_of(self, graph, wanted) -> list:
        """The places of these edges, told by a name that each has: a graph's row is its place in networkx's own order."""
        return [(at, *told) for at, edge in enumerate(graph.edges, 1) for names, told in wanted.items() if names[0] in edge]


@unittest.skipUnless(optional("igraph"), "igraph is not there")
class OfIgraph(Case):
    def test_igraph(self):
        """Names are attributes, or numbers; kinds, weights and times are attributes too; an undirected edge is one either way."""
        import igraph
        graph = igraph.Graph([(0, 1), (2, 1), (0, 0)], directed=True)
        self.assertEqual([it[1:] for it in feed_of(graph).rows], [
            ("link", "0", "1", "1", "0"), ("link", "2", "1", "1", "0"), ("link", "0", "0", "1", "0")])
        graph.vs["name"], graph.es["weight"], graph.es["kind"] = ["a", "Иванов Пётр", 7], [2.5, 3, -1], ["k", "l", "k"]
        graph.es["day"] = ["2024-05-01", "2024-05-02", "2024-05-03"]
        self.assertEqual(list(feed_of(graph, columns=Columns(time="day")).rows), [
            (1, "k", "a", "Иванов Пётр", "2.5", "2024-05-01"), (2, "l", "7", "Иванов Пётр", "3", "2024-05-02"),
            (3, "k", "a", "a", "-1", "2024-05-03")])
        both = igraph.Graph([(0, 1), (2, 2)])
        self.assertEqual([it[2:4] for it in feed_of(both).rows], [("0", "1"), ("1", "0"), ("2", "2")])
        self.assertEqual([it[2:4] for it in feed_of(both, both_ways=False).rows], [("0", "1"), ("2", "2")])

    def test_what_is_refused(self):
        import igraph
        graph = igraph.Graph([(0, 1), (1, 2)], directed=True)
        graph["name"], graph.vs["name"] = "g", ["a", "b", "a"]
        self.refused(errors.FeedFault, "graph g: two vertices have one name", lambda: feed_of(graph))
        graph.vs["name"] = ["a", b"b", "c"]
        self.refused(errors.FeedFault, "graph g:1: b'b': bytes are no text", lambda: feed_of(graph))
        graph.vs["name"] = ["a", None, "c"]
        graph.es[0]["weight"] = 5  # (the other one has none)
        with self.assertRaises(misteluk.BadRows) as told:
            self.store().load(graph, by="set")
        found = [(it.place.line, it.field) for it in told.exception.faults]
        self.assertEqual(found, [(1, "target"), (2, "source"), (2, "weight")])
        with self.assertWarnsRegex(errors.LeftOut, "2 nodes of the graph, as 'c', have no edge"):
            feed_of(igraph.Graph(4, [(0, 1)], vertex_attrs={"name": list("abcd")}))

    def test_a_graph_comes_back(self):
        """With each edge's recent time; also by way of a GraphML file, which has dates if they are texts."""
        import igraph
        units = Units(weight_scale=100, times="iso")
        store = self.store(units=units)
        store.add("road", "a & b", "Иванов", "2.50", "2024-03-04")
        store.add("rail", "Иванов", "a & b", 7, "2024-03-05T12:00:00.25+01:00")
        store.commit()
        wanted, graph = list(store.open().edges()), store.open().edges().to_igraph()
        for name in ("weight", "first", "recent"):
            graph.es[f"{name}_as_text"] = list(map(str, graph.es[name]))
        graph.write_graphml(str(self.room / "graph.graphml"))
        read = igraph.Graph.Read_GraphML(str(self.room / "graph.graphml"))
        self.assertEqual(set(read.es.attributes()) - {"weight"}, {"kind", "weight_as_text", "first_as_text", "recent_as_text"})
        for given, columns in ((graph, Columns()), (read, Columns(time="recent_as_text")), (read, Columns(
                weight="weight_as_text", time="recent_as_text"))):
            copy = self.store(units=units)
            copy.load(given, by="set", columns=columns)
            self.assertEqual(list(copy.open().edges()), wanted)


@unittest.skipUnless(optional("scipy"), "scipy is not there")
class Matrices(Case):
    def test_scipy(self):
        """An entry is an edge of numbers from 0, with its weight, also one that is 0; entries in one place are summed."""
        import numpy
        from scipy import sparse
        entries = [5, 7, -2, 0, 1], ([0, 2, 2, 1, 2], [1, 0, 0, 1, 2])
        wanted = [("0", "1", 5), ("2", "0", 5), ("1", "1", 0), ("2", "2", 1)]
        for form in ("coo", "csr", "csc"):
            matrix = sparse.coo_matrix(entries, shape=(4, 4)).asformat(form)
            for by in ("set", "add"):
                store = self.store()
                store.load(matrix, by=by)
                found = [(source, target, edge.weight) for _, source, target, edge in store.open().edges()]
                self.assertEqual(sorted(found), sorted(wanted), form)
        twice = sparse.csr_matrix(([5, 7], [1, 1], [0, 2, 2]), shape=(2, 2))
        self.assertEqual([it[2:5] for it in feed_of(twice).rows], [("0", "1", "12")])
        self.assertEqual((len(sparse.coo_matrix(entries).data), list(twice.data)), (5, [5, 7]))  # (they are as they were)
        for values, weights in (([0.25, 1.5], ["0.25", "1.5"]), (numpy.array([True, True]), ["1", "1"])):
            matrix = sparse.csr_matrix((values, ([0, 1], [1, 0])), shape=(2, 2))
            self.assertEqual([it[1:5] for it in feed_of(matrix, columns=Columns(default_kind="k")).rows], [
                ("k", "0", "1", weights[0]), ("k", "1", "0", weights[1])])

    def test_it_comes_back(self):
        session = self.store("insert k 0 1 5 1", "insert k 1 2 -7 2", "insert k 2 0 9 3").open()
        store = self.store()
        store.load(session.edges().to_scipy(), by="set")
        self.assertEqual(sorted((ends, edge.weight) for *ends, edge in store.open().edges()), [
            (["link", "0", "1"], 5), (["link", "1", "2"], -7), (["link", "2", "0"], 9)])

    def test_what_is_refused(self):
        from scipy import sparse
        self.refused(errors.FeedFault, "matrix: it has 2 rows and 3 columns, which aren't the same vertices",
                     lambda: feed_of(sparse.csr_matrix((2, 3))))
        self.refused(ValueError, "a matrix has no columns with names",
                     lambda: feed_of(sparse.eye(2), columns=Columns(weight="w")))


class NoTexts(Case):
    def test_tables_that_are_no_texts(self):
        """By their first bytes, which no text has: the word says what reads them. A text that looks like it is read."""
        import gzip
        import zipfile
        with zipfile.ZipFile(self.room / "book.xlsx", "w") as book:
            book.writestr("xl/workbook.xml", "<workbook/>")
        begins = {"a.parquet": b"PAR1\x15\x04\x15", "b.csv": b"PAR1\x15\x00", "c.feather": b"ARROW1\0\0\xff"}
        for name, begin in begins.items():
            (self.room / name).write_bytes(begin + b"\0" * 50)
        with gzip.open(self.room / "d.csv.gz", "wb") as packed:
            packed.write(b"PAR1\x15\x04")
        parquet = "a Parquet file", "read_parquet"
        for name, (what, reader) in {"a.parquet": parquet, "b.csv": parquet, "c.feather": ("a Feather file", "read_feather"),
                                     "d.csv.gz": parquet,
                                     "book.xlsx": ("an Excel file or another archive", "read_excel")}.items():
            path = str(self.room / name)
            self.refused(errors.FeedFault, f"{path}: this is {what}, and no text: read it with pandas.{reader}",
                         lambda: self.store().load(path, by="set"))
        for text in ("PAR1,PK\na,b\n", "PK,ARROW1\na,b\n", ""):
            store = self.store()
            columns = Columns(*text.split()[0].split(",")) if text else Columns(1, 2)
            store.load(self.file("text.csv", text), by="set", columns=columns)
            self.assertEqual(store.open().vertices(), ("a", "b") if text else ())


@unittest.skipUnless(optional("pandas"), "pandas is not there")
class Frames(Case):
    def test_pandas(self):
        import pandas
        frame = pandas.read_csv(io.StringIO("from,to,amount,when\nana,funnel,980.0,2024-05-01\n"), parse_dates=["when"])
        store = self.store()
        store.load(frame, by="add", columns=OF_TRANSFERS, units=Units(times="iso"))
        session = store.open()
        when = datetime.datetime(2024, 5, 1, tzinfo=datetime.timezone.utc)
        self.assertEqual(session.edge("transfer", "ana", "funnel"), Edge(980, when, when))
        degrees = session.degrees().to_pandas()
        self.assertEqual(degrees.loc["funnel"].to_dict(), {"out": 0, "into": 1, "weight_out": 0})
        self.assertEqual(session.levels("ana").to_pandas()["level"].to_dict(), {"ana": 0, "funnel": 1})
        self.assertEqual(self.store().open().cores().to_pandas().shape, (0, 1))

    def test_a_table_that_a_user_makes(self):
        """Its columns are the fields of its values, or what these are called."""
        degrees = misteluk.Answer(ana=misteluk.Degree(1, 0, 9), ben=misteluk.Degree(0, 2, 3))
        rows = {"ana": {"out": 1, "into": 0, "weight_out": 9}, "ben": {"out": 0, "into": 2, "weight_out": 3}}
        self.assertEqual(degrees.to_pandas().to_dict("index"), rows)
        self.assertEqual([name for name, _ in degrees.top(1, by="into")], ["ben"])
        shares = misteluk.Answer({"ana": 5}, value="share")
        self.assertEqual((shares.to_pandas()["share"].to_dict(), shares.to_numpy()["share"].tolist()), ({"ana": 5}, [5]))

    def test_missing_values_are_bad_rows(self):
        """As the same rows written as CSV are: row 1 of a frame is line 2 of its file."""
        import pandas
        frame = pandas.DataFrame({"from": ["a", "b", None, "d", ""], "to": pandas.array(["x", pandas.NA, "y", "z", "w"]),
                                  "amount": [1, 2, 3, float("nan"), 5], "when": pandas.to_datetime(["2024-05-01"] * 4 + [None])})
        frame.loc[5] = ["e", "f", 6, pandas.NaT]
        path = self.room / "frame.csv"
        frame.to_csv(path, index=False)
        for feed, before in ((frame, 0), (str(path), 1)):
            with self.assertRaises(misteluk.BadRows) as told:
                self.store().load(feed, by="add", columns=OF_TRANSFERS, units=Units(times="iso", weight_scale=100))
            found = [(it.place.line - before, it.field) for it in told.exception.faults]
            self.assertEqual(found, [(2, "target"), (3, "source"), (4, "amount"), (5, "source"), (5, "time"), (6, "time")])


class Rows(Case):
    def rows(self, wanted: str, data, **options) -> None:
        """Whether what is given has these rows: a line each, its fields parted by a space."""
        feed = feed_of(data, **options)
        self.assertEqual("\n".join(" ".join(map(str, it)) for it in feed.rows), wanted)

    def test_tuples(self):
        self.rows("1 link a b 1 0\n2 link c d 1 0", [("a", "b"), ("c", "d")])
        self.rows("1 link a b 5 0", [("a", "b", 5)])
        self.rows("1 road a b 5 2024-05-01", iter([["a", "b", 5.0, date(2024, 5, 1)]]), columns=Columns(default_kind="road"))
        self.rows("1 road a b 5 7\n2 link 1 2 3 4", [("a", "b", 5, 7, "road"), (1, 2, 3, 4, "link")])
        self.rows("1 link b a 1 9", [("a", 9, "b")], columns=Columns(3, 1, time=2))
        self.rows("", [])

    def test_dicts_and_columns(self):
        columns = Columns("from", "to", weight="w")
        self.rows("1 link a b 5 0\n2 link c d 6 0", [{"from": "a", "to": "b", "w": 5}, {"to": "d", "from": "c", "w": 6}],
                  columns=columns)
        self.rows("1 link a b 5 0\n2 link c d 6 0", {"w": [5, 6], "to": ["b", "d"], "from": ["a", "c"]}, columns=columns)

    def bad(self, wanted: list, data, **options) -> None:
        with self.assertRaises(misteluk.BadRows) as told:
            self.store().load(data, by="set", **options)
        self.assertEqual([(it.place.line, it.field) for it in told.exception.faults], wanted)

    def test_missing_values_are_bad_rows(self):
        self.bad([(1, "source"), (3, "weight")], [(None, "b", 1), ("a", "b", 1), ("c", "d")])
        self.bad([(2, "target")], [{"source": "a", "target": "b"}, {"source": "c"}])
        self.bad([(2, "source")], {"source": ["a", float("nan")], "target": ["b", "c"]})

    def fault(self, told: str, data, **options) -> None:
        with self.assertRaises(misteluk.errors.FeedFault) as fault:
            self.store().load(data, by="set", **options)
        self.assertIn(told, str(fault.exception))

    def test_rows_of_another_form(self):
        self.fault("rows:1: a row is a tuple or a dict, and not str", ["ab", "cd"])
        self.fault("rows:2: str, where the first row is a tuple", [("a", "b"), "cd"])
        self.fault("rows:2: tuple, where the first row is a dict", [{"source": "a", "target": "b"}, ("a", "b")])
        self.fault("rows:2: 3 fields, where the first row has 2", [("a", "b"), ("c", "d", 5)])
        self.fault("rows:1: 6 fields, where an edge has source, target", [tuple("abcdef")])
        self.fault("rows:1: 1 fields, where the columns need 2", [("a",)])
        self.fault("no column 'target'; the header has 'source'", [{"source": "a"}])
        self.fault("the columns aren't equally long: source has 2, target has 1", {"source": ["a", "b"], "target": ["c"]})
        with self.assertRaisesRegex(TypeError, "and not int"):
            self.store().load(7, by="set")


if __name__ == "__main__":
    unittest.main()
