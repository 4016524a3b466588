"""Weights and names in each way in: as texts, lists, arrays, frames, files and posts, they are taken or refused alike."""
import unittest
import warnings
from decimal import Decimal
from fractions import Fraction

from support import Case, optional
from serving import ServeCase

import misteluk
from misteluk import Columns, Store, errors
from misteluk.values import texts
from misteluk.values.units import Units

WEIGHTED = Columns(weight="weight")


class Posts(ServeCase):
    def test_weights(self):
        store = self.serve(units=Units(weight_scale=100)).store
        for at, (weight, wanted) in enumerate((("1,234.56", "1234.56"), (2.0, "2.00"), (12.34, "12.34"), ("2", "2.00"))):
            self.assertEqual(self.post("/v1/rows", {"rows": [["add", "k", "a", f"b{at}", weight, 0]]}).status, 200)
            with store.open() as session:
                self.assertEqual(str(session.edge("k", "a", f"b{at}").weight), wanted)
        for wrong in ("1,234", "1e-99999999", 12.345):
            self.assertEqual(self.post("/v1/rows", {"rows": [["add", "k", "a", "b", wrong, 0]]}).json["error"], "BadWeight")


class Weights(Case):
    def numbers(self):
        """Numbers that are 2, and such as are 12.34, of each type."""
        twos = [2, 2.0, Decimal("2"), Decimal("2.0"), Decimal("2.00E0"), Fraction(4, 2), "2"]
        parts = [12.34, Decimal("12.34"), "12.34"]
        numpy = optional("numpy")
        if numpy:
            twos += [getattr(numpy, it)(2) for it in ("int8", "uint8", "int16", "int32", "uint32", "int64", "uint64", "float16",
                                                      "float32", "float64", "longdouble")]
            parts += [getattr(numpy, it)("12.34") for it in ("float16", "float32", "float64", "longdouble")]
        return twos, parts

    def weights(self, store: Store) -> list:
        with store.open() as session:
            return session.edges().weight.tolist()

    def ways(self, value):
        yield lambda store: (store.add("k", "a", "b", value), store.commit())
        yield lambda store: store.load([("a", "b", value)], by="add")
        columns = {"source": ["a"], "target": ["b"], "weight": [value]}
        yield lambda store: store.load(columns, by="add", columns=WEIGHTED)

    def test_whole_numbers_of_each_type(self):
        twos, parts = self.numbers()
        for value in twos:
            for scale, wanted in ((1, 2), (100, 200)):
                for way in self.ways(value):
                    store = self.store(units=Units(weight_scale=scale))
                    way(store)
                    self.assertEqual(self.weights(store), [wanted], (type(value), value, scale))
        for value in parts:
            for way in self.ways(value):
                store = self.store(units=Units(weight_scale=100))
                way(store)
                self.assertEqual(self.weights(store), [1234], (type(value), value))
                self.assertRaises((misteluk.errors.BadWeight, misteluk.BadRows), way, self.store(units=Units(weight_scale=1)))
        for wrong in (True, float("inf"), float("nan"), Decimal("sNaN"), Decimal("1E+999999"), Fraction(5, 2), "2.0", b"2", None):
            for way in self.ways(wrong):
                self.assertRaises((errors.BadWeight, misteluk.BadRows, errors.FeedFault), way, self.store(units=Units(1)))

    def test_texts_of_numbers(self):
        """A whole one below 1e19 is told without decimals, others as Python prints them."""
        for value, text in ((9e18, "9000000000000000000"), (1e19, "1e+19"), (-1e19, "-1e+19"), (Decimal("9E+18"), "9" + 18 * "0"),
                            (Decimal("1E+19"), "1E+19"), (Decimal("-1E+19"), "-1E+19"), (Fraction(10**19), "1" + 19 * "0"),
                            (Fraction(3), "3"), (Fraction(5, 2), "5/2"), (10**19, "1" + 19 * "0")):
            self.assertEqual(texts.text_of(value), text)

    @unittest.skipUnless(optional("pandas"), "pandas is not there")
    def test_columns_of_each_type(self):
        """Of arrays, and of frames, also with pandas' own types that may lack a value."""
        import numpy
        import pandas
        options, ends = {"by": "add", "columns": WEIGHTED}, {"source": ["a", "c"], "target": ["b", "b"]}
        for form in ("int8", "uint16", "int64", "float16", "float32", "float64", "longdouble", "object"):
            array = numpy.array([2, 3], dtype=form)
            for data in ({**ends, "weight": array}, pandas.DataFrame({**ends, "weight": array})):
                store = self.store()
                store.load(data, **options)
                self.assertEqual(sorted(self.weights(store)), [2, 3], form)
        for form in ("Int8", "UInt64", "Int64", "Float32", "Float64"):
            frame = pandas.DataFrame({**ends, "weight": pandas.array([2, 3], dtype=form)})
            store = self.store()
            store.load(frame, **options)
            self.assertEqual(sorted(self.weights(store)), [2, 3], form)
            frame.loc[1, "weight"] = pandas.NA
            self.assertRaisesRegex(misteluk.BadRows, "frame:2: BadWeight: amount ''", self.store().load, frame, **options)
        for form in ("float16", "float32", "float64", "Float32", "Float64", "object"):
            frame = pandas.DataFrame({**ends, "weight": pandas.array([12.34, -0.1], dtype=form)})
            for data in (frame, {it: frame[it] for it in frame}):
                store = self.store(units=Units(weight_scale=100))
                store.load(data, **options)
                self.assertEqual(sorted(self.weights(store)), [-10, 1234], form)

    def test_thousands(self):
        """Where there is no doubt of it: in groups of three, before a point, or between two groups."""
        for text, wanted in (("1,234.56", "1234.56"), ("-1,234.5", "-1234.5"), ("+12,345.67", "+12345.67"),
                             ("1,234,567", "1234567"), ("1,234,567.89", "1234567.89"), ("123,456.00", "123456.00"),
                             ("1'234.50", "1234.50"), ("1 234 567", "1234567"), ("1\u202f234.5", "1234.5"),
                             ("999,999,999.99", "999999999.99")):
            self.assertEqual(texts.together(text), wanted, text)
            mirrored = text.translate(str.maketrans(".,", ",."))
            self.assertEqual(texts.together(mirrored, ","), wanted, mirrored)
        for text in ("1,234", "12,34.5", "1,234,56.5", "1,234,5678.9", "1,2345.0", "1,23.0", "1234,567.0", "1,234,56",
                     "1,234 567", "1,234'567.0", ",234.5", "1,,234.5", "1,234.", "1,234.5,6", "1.234,50", "1.234.567",
                     "1,234.5e3", "1,23\u0664.5", "0x1,234.5", "", "1", "1.5"):
            self.assertIsNone(texts.together(text), text)
            self.assertIsNone(texts.together(text.translate(str.maketrans(".,", ",.")), ","), text)

    def test_thousands_in_each_way(self):
        for way in self.ways("1,234.56"):
            store = self.store(units=Units(weight_scale=100))
            way(store)
            self.assertEqual(self.weights(store), [123_456])
        for way in self.ways("1,234,567"):
            store = self.store()
            way(store)
            self.assertEqual(self.weights(store), [1_234_567])
        options = {"by": "add", "columns": Columns(1, 2, weight=3), "delimiter": ";", "units": Units(weight_scale=100)}
        for text, decimal in (("1,234.56", "."), ("1.234,56", ",")):
            store = self.store()
            store.load(self.file("rows.csv", f"a;b;{text}\nc;b;1\n"), decimal=decimal, **options)
            self.assertEqual(sorted(self.weights(store)), [100, 123_456])
            other = "," if decimal == "." else "."
            for wrong, read_as in ((text, other), (text[:5], decimal)):
                self.assertRaises(misteluk.BadRows, self.store().load, self.file("rows.csv", f"a;b;{wrong}\n"), decimal=read_as,
                                  **options)

    def test_numbers_that_python_alone_reads(self):
        """And such as would take a year, or all memory."""
        for text in ("1_0", "\u0661\u0662", "1e-99999999", "0e-999999999", "1e-401", "1e99999999999999999999", "0x10", "1 0",
                     "Infinity"):
            for units in (Units(100), Units(100, rounding="half-even"), Units(1, rounding="half-even")):
                self.assertRaisesRegex(ValueError, "a weight is a decimal number", units._weight_to_program, text)


class NoValues(Case):
    """What isn't one text for each name is refused, and what to do is told."""

    def refused(self, told: str, data, columns: Columns = Columns()) -> None:
        store = self.store()
        with warnings.catch_warnings():
            warnings.simplefilter("ignore", misteluk.errors.LeftOut)
            self.assertRaisesRegex(misteluk.errors.FeedFault, told, store.load, data, by="set", columns=columns)
        self.assertEqual(store.stat().vertices, 0)

    def test_whole_texts(self):
        for column in ("ann", b"ann", bytearray(b"ann"), {"ann"}, frozenset({"ann"}), {"ann": 1}, 7, None):
            told = f"columns: the column 'source' is {type(column).__name__}, .*: give a list or array"
            self.refused(told, {"source": column, "target": ["b"]})
        store = self.store()
        store.load({"source": ("ann",), "target": iter(["bob"])}, by="set")
        self.assertEqual(list(store.open().successors("ann", "link")), ["bob"])

    def test_bytes(self):
        told = r": b'ab': bytes are no text: decode them"
        self.refused("rows:2" + told, [("a", "b"), (b"ab", "c")])
        self.refused("rows:1" + told, [("a", b"ab")])
        self.refused("rows:2" + told, [("a", "b"), ("c", b"ab", 1)][:1] + [("c", b"ab")])
        self.refused("rows:1" + told, [{"source": b"ab", "target": "b"}])
        self.refused("columns:2" + told, {"source": ["a", b"ab"], "target": ["b", "c"]})
        self.refused("rows:1: bytearray", [("a", bytearray(b"ab"))])
        self.refused("rows:1" + told, [("a", "b", b"ab")])

    @unittest.skipUnless(optional("networkx"), "networkx is not there")
    def test_bytes_of_graphs(self):
        import networkx
        self.refused("graph g: node b'ab': bytes are no text", networkx.DiGraph([("a", b"ab")], name="g"))
        graph = networkx.DiGraph(name="g")
        graph.add_edge("a", "b", kind=b"ab")
        self.refused("graph g:1: b'ab': bytes are no text", graph)

    @unittest.skipUnless(optional("numpy"), "numpy is not there")
    def test_arrays(self):
        import numpy
        names, masked = numpy.array([b"ab", b"c"]), numpy.ma.array(["a", "b"], mask=[True, False])
        self.refused("columns:1: .*b'ab'.*: bytes are no text: .*numpy.char.decode", {"source": names, "target": ["x", "y"]})
        self.refused("column 'source' is a masked array: leave its masked rows out", {"source": masked, "target": ["x", "y"]})
        self.refused("column 'target' is a masked array", {"source": ["x", "y"], "target": numpy.ma.array(["a", "b"])})
        self.refused("rows: this is a masked array", numpy.ma.array([["a", "b"]], mask=[[True, False]]))
        self.refused(r"column 'source' is an array of 2 dimensions: give each column by itself, as array\[:, 0\]",
                     {"source": numpy.array([["a", "b"], ["c", "d"]]), "target": ["x", "y"]})
        self.refused("column 'source' is an array of 0 dimensions", {"source": numpy.array("a"), "target": ["x"]})
        self.refused("rows:1: .*an array where one value stands", numpy.array([[["a", "b"], ["c", "d"]]]))
        self.refused("columns:1: .*an array where one value stands", {"source": [numpy.array(["a", "b"])], "target": ["x"]})
        store = self.store()
        store.load(numpy.array([["a", "b"], ["c", "d"]]), by="set")
        self.assertEqual([row[1:3] for row in store.open().edges()], [("a", "b"), ("c", "d")])
        with self.assertRaises(misteluk.BadRows) as told:
            self.store().load({"source": list(masked), "target": ["x", "y"]}, by="set")
        self.assertEqual([(it.place.line, it.field) for it in told.exception.faults], [(1, "source")])

    @unittest.skipUnless(optional("pandas"), "pandas is not there")
    def test_frames(self):
        import pandas
        frame = pandas.DataFrame({"source": ["a", b"ab"], "target": ["x", "y"]})
        self.refused(r"frame:2: b'ab': bytes are no text: .*frame\[column\].str.decode", frame)


if __name__ == "__main__":
    unittest.main()
