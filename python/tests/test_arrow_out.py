"""Edges and tables as Arrow streams: who takes one shares the session's numbers, and releases it at any time, in any thread."""
import ctypes
import gc
import os
import pathlib
import pickle
import subprocess
import sys
import tempfile
import threading
import unittest
import weakref
from array import array
from unittest import mock

import arrow_tables as arrow
from support import HERE, IS_REPOSITORY, NO_REPOSITORY, TOP, Case, optional

import misteluk
from misteluk import Columns, Edges, Store, Units
from misteluk.engine import lending
from misteluk.engine.finding import find_library
from misteluk.errors import LibraryNotFound, NoMemory
from misteluk.feeds import streams

ROWS = [("ana", "Иванов Пётр", 500, "2024-03-04", "k"), ("bob", "ana", "0.07", "2024-03-05", "über"),
        ("ana", "ana", "-1.50", "2024-03-06", "k")]
# What Python's interpreter does not live to see: a batch is read and released when it has ended.
LATE = """
import ctypes, sys
sys.path.insert(0, sys.argv[2])
import arrow_tables as arrow
from misteluk import Store
consumer = ctypes.CDLL(sys.argv[1])
consumer.hold.argtypes = ctypes.c_void_p,
with Store() as store:
    store.insert("k", "a", "b", 7)
    store.insert("k", "b", "a", 35)
    store.commit()
    sys.kept = store.open().edges().__arrow_c_stream__()
    other = store.open().degrees().__arrow_c_schema__()
consumer.hold(arrow.pointer_of(sys.kept, arrow.STREAM))
consumer.let_go_at_the_end()
print("end of Python", flush=True)
"""


def read(table):
    """A table's columns by name, as feeds read them."""
    names, values, _ = streams.read(table, Columns(1, 2, 3, 4, 5))
    return {names[at]: list(it) for at, it in values.items()}


class Out(Case):
    @classmethod
    def setUpClass(cls):
        room = tempfile.TemporaryDirectory()
        cls.addClassCleanup(room.cleanup)
        cls.consumer = arrow.consumer_in(pathlib.Path(room.name))

    def setUp(self):
        super().setUp()
        if self.consumer is None:
            self.skipTest("no compiler is here")

    def bank(self):
        store = self.store(units=Units(100, "iso"))
        store.load(ROWS, by="add", columns=Columns(1, 2, 5, 3, 4))
        return store

    def place(self, capsule):
        return arrow.pointer_of(capsule, arrow.STREAM)

    def consumed(self, table, turn=0):
        sums = arrow.Sums()
        capsule = table.__arrow_c_stream__()
        self.assertEqual(self.consumer.consume(self.place(capsule), turn, ctypes.byref(sums)), 0)
        return sums

    def sums_of(self, edges):
        """What a consumer has to find: the sums of the numbers, and of the bytes of a column's dictionary."""
        size = lambda names: sum("".join(names).encode())  # noqa: E731
        return [sum(it) for it in edges.columns.values()], [size(edges.kinds), *2 * [size(edges.names)], 0, 0, 0]

    def test_edges(self):
        """By the consumer in C, in each of its orders; of edges of each sort, and of none."""
        whole = self.store("insert k a b 5 1", "insert l b c -7 2", "insert k c a 0 3")
        for session in (self.bank().open(), whole.open()):
            edges = session.edges()
            for it in (edges, edges[1:], edges.take([1]), edges[:0], session.out_edges(edges.names[0])):
                for turn in range(6):
                    sums = self.consumed(it, turn)
                    self.assertEqual((sums.rows, list(sums.numbers)[:6], list(sums.bytes)[:6]), (len(it), *self.sums_of(it)))
        none = Store()
        self.addCleanup(none.close)
        self.assertEqual(self.consumed(none.open().edges()).rows, 0)

    def test_schema(self):
        """Formats, names and metadata, word by word."""
        def told(table):
            capsule = table.__arrow_c_schema__()
            schema = streams.Schema.from_address(arrow.pointer_of(capsule, arrow.SCHEMA))
            parts = [it.contents for it in schema.children[:schema.n_children]]
            found = [(it.name.decode(), it.format.decode(), it.dictionary.contents.format.decode() if it.dictionary else None,
                      it.flags, streams._metadata(it.metadata)) for it in parts]
            return schema.format, found
        ends = [(it, "i", "U", 0, {}) for it in ("kind", "source", "target")]
        cents = {"misteluk.weight_scale": "100"}
        session, plain = self.bank().open(), self.store("insert k a b 5 1").open()
        self.assertEqual(told(session.edges()), (b"+s", [*ends, ("weight", "l", None, 0, cents), *(
            (it, "tsu:UTC", None, 0, {}) for it in ("first", "recent"))]))
        self.assertEqual(told(plain.edges()), (b"+s", [*ends, *((it, "l", None, 0, {}) for it in ("weight", "first", "recent"))]))
        name = ("name", "U", None, 0, {})
        self.assertEqual(told(session.degrees())[1], [name, ("out", "I", None, 0, {}), ("into", "I", None, 0, {}),
                                                      ("weight_out", "l", None, 0, cents)])
        self.assertEqual(told(plain.components())[1], [name, ("label", "i", "U", 0, {})])
        self.assertEqual(told(plain.flows(plain))[1][3:], [("weight_out", "l", None, 0, {}), ("weight_in", "l", None, 0, {})])

    def test_tables(self):
        session = self.bank().open()
        for table in (session.levels("ana"), session.cores(), session.components(), session.weights_in(), session.degrees(),
                      session.degrees(among=["bob", "ana"]), session.flows(session)):
            found, rows = read(table), table.to_dict()
            self.assertEqual(found.pop("name"), list(rows))
            values = [tuple(vars(it).values()) if hasattr(it, "__dict__") else (it,) for it in rows.values()]
            self.assertEqual(list(zip(*found.values())), values)
            self.assertEqual(self.consumed(table).rows, len(rows))
        ends = [(*ends, edge.weight, edge.first) for *ends, edge in session.edges()]
        self.assertEqual(list(zip(*read(session.edges()).values())), ends)
        self.assertEqual(len(ends), 3)
        copy = pickle.loads(pickle.dumps(session.levels("ana")))
        self.assertEqual(read(copy), read(session.levels("ana")))
        self.assertEqual(read(pickle.loads(pickle.dumps(session.edges()))), read(session.edges()))
        self.refused(TypeError, "the column 'weight_out' of a table that was pickled",
                     pickle.loads(pickle.dumps(session.degrees())).__arrow_c_stream__)
        self.refused(TypeError, "was made of rows", misteluk.Answer({"a": 1}).__arrow_c_stream__)

    def test_numbers_are_shared(self):
        """Each column of a batch is where the session has it, and keeps its place there."""
        edges = self.bank().open().edges()
        capsule = edges.__arrow_c_stream__()
        self.assertEqual(self.consumer.hold(self.place(capsule)), 0)
        self.assertEqual([self.consumer.held_place(at) for at in range(6)], [it.buffer_info()[0] for it in edges._columns])
        self.assertRaises(BufferError, edges._columns[3].append, 1)
        self.consumer.let_go()

    def test_a_batch_outlives_the_store(self):
        """Its numbers are there when session, store and all of Python's names are gone, and are freed at a later call."""
        store = self.bank()
        edges = store.open().edges()
        total, gone = sum(edges.weight), weakref.ref(edges._columns[3])
        capsule = edges.__arrow_c_stream__()
        self.consumer.hold(self.place(capsule))
        store.close()
        del edges, capsule, store
        gc.collect()
        self.assertIsNotNone(gone())
        self.assertEqual(self.consumer.held_sum(3), total)
        self.consumer.let_go()
        self.assertIsNotNone(gone())
        self.store("insert k a b 1 1")
        gc.collect()
        self.assertIsNone(gone())

    def test_capsules_that_nobody_reads(self):
        column = array("q", [1, 2])
        edges = Edges(("k",), ("a", "b"), Units(), [array("I", [0, 0]), array("I", [0, 1]), array("I", [1, 0]), column,
                                                     array("Q", [1, 2]), array("Q", [1, 2])])
        gone = weakref.ref(column)
        for _ in range(200):
            edges.__arrow_c_stream__(), edges.__arrow_c_schema__(), edges.__arrow_c_stream__(None)
        half = edges.__arrow_c_stream__()
        stream = streams.Stream.from_address(self.place(half))
        streams._ask(stream, stream.get_schema, schema := streams.Schema())
        del half, edges, column, stream
        lender = lending.lender_of(find_library())
        lender.give_back()
        self.assertIsNotNone(gone())  # (the schema has all of it)
        streams._release(schema)
        lender.give_back()
        self.assertIsNone(gone())

    def test_threads(self):
        edges, faults = self.bank().open().edges(), []

        def work():
            try:
                for turn in range(40):
                    self.assertEqual(self.consumed(edges, turn).rows, 3)
            except BaseException as fault:
                faults.append(fault)
        threads = [threading.Thread(target=work) for _ in range(4)]
        for it in threads:
            it.start()
        for it in threads:
            it.join()
        self.assertEqual(faults, [])
        lending.lender_of(find_library()).give_back()
        self.assertEqual(sys.getrefcount(edges._columns[3]), 2)

    def test_the_end_of_python(self):
        """A batch is read and released in another thread when the interpreter has ended, and capsules end with it."""
        words = [sys.executable, "-c", LATE, self.consumer._name, HERE]
        done = subprocess.run(words, stdout=subprocess.PIPE, stderr=subprocess.PIPE, text=True, timeout=120,
                              env={**os.environ, "PYTHONPATH": str(HERE.parent)})
        self.assertEqual((done.returncode, done.stdout, done.stderr), (0, "end of Python\nafter the end: 42\n", ""))

    def test_a_fork(self):
        """A fork may release what it has of its parent, which keeps its own."""
        edges = self.bank().open().edges()
        capsule = edges.__arrow_c_stream__()
        process = os.fork()
        if not process:
            sums = arrow.Sums()
            code = self.consumer.consume(self.place(capsule), 1, ctypes.byref(sums))
            os._exit(0 if (code, sums.rows) == (0, 3) else 1)
        self.assertEqual(os.waitpid(process, 0)[1], 0)
        sums = arrow.Sums()
        self.assertEqual((self.consumer.consume(self.place(capsule), 1, ctypes.byref(sums)), sums.rows), (0, 3))

    def test_what_is_missing(self):
        edges = self.bank().open().edges()
        before = sys.getrefcount(edges._columns[3])
        lender = lending.lender_of(find_library())
        for name, call in (("stream", edges.__arrow_c_stream__), ("schema", edges.__arrow_c_schema__)):
            with mock.patch.object(lender.library, f"misteluk_arrow_{name}", lambda *_: None):
                self.refused(NoMemory, "no memory for a stream", call)
        gc.collect()
        lender.give_back()
        self.assertEqual(sys.getrefcount(edges._columns[3]), before)
        made = arrow.compiled(self.room / "other.so", "-fPIC", "-shared", HERE / "shim.c")
        with mock.patch.dict(os.environ, {"MISTELUK_LIBRARY": str(made)}):
            self.refused(LibraryNotFound, "no library can be loaded", edges.__arrow_c_stream__)
        with mock.patch.dict(lending.FUNCTIONS, {"to_come": (None, [])}):
            self.refused(LibraryNotFound, "has no function misteluk_arrow_to_come", lambda: lending.Lender(find_library()))


@unittest.skipUnless(IS_REPOSITORY, NO_REPOSITORY)
class Memory(Case):
    """The library's part in C by itself, without Python, under a tool that watches memory."""

    HOW = ("-fsanitize=address,undefined", f"-I{TOP / 'include'}")

    @classmethod
    def setUpClass(cls):
        room = tempfile.TemporaryDirectory()
        cls.addClassCleanup(room.cleanup)
        cls.alone = pathlib.Path(room.name, "alone.o")
        try:
            if not arrow.compiled(cls.alone, *cls.HOW, "-DALONE", "-c", HERE / "arrow_consumer.c"):
                raise unittest.SkipTest("no compiler is here")
        except subprocess.CalledProcessError:
            raise unittest.SkipTest("the compiler has no AddressSanitizer") from None

    def watched(self, old="", new=""):
        """The status of the consumer alone over arrow.c, in which one text is replaced, and what it says."""
        text = (TOP / "c/arrow.c").read_text(encoding="utf-8")
        self.assertTrue(not old or text.count(old) == 1, old)
        (self.room / "arrow.c").write_text(text.replace(old, new) if old else text, encoding="utf-8")
        arrow.compiled(self.room / "arrow.o", *self.HOW, "-Dmalloc=some_memory", "-c", self.room / "arrow.c")
        made = arrow.compiled(self.room / "made", *self.HOW, self.alone, self.room / "arrow.o")
        done = subprocess.run([made], stdout=subprocess.PIPE, stderr=subprocess.STDOUT, text=True, timeout=120)
        return done.returncode, done.stdout

    def test_nothing_is_lost_or_used_late(self):
        self.assertEqual(self.watched(), (0, "200 returned\n"))

    def test_faults_are_found(self):
        """A use that isn't counted, of a batch and of what it lends; one that never ends; and memory that is kept."""
        for old, new, told in (
                ("own->dictionary = dictionary;", "own->dictionary = dictionary, made->tree.uses--;", "heap-use-after-free"),
                ("own->dictionary = texts;", "own->dictionary = texts, made->tree.uses--;", "heap-use-after-free"),
                ("columns[loan->count];\n    __atomic_add_fetch(&loan->uses, 1, __ATOMIC_RELAXED);", "columns[loan->count];", ""),
                ("    free(tree);\n    leave_loan(loan);", "    free(tree);\n    (void)loan;", ""),
                ("    free(tree);\n", "", "LeakSanitizer")):
            status, found = self.watched(old, new)
            self.assertNotEqual(status, 0, old)
            self.assertIn(told, found, old)


class Others(Case):
    """Whoever reads Arrow, where it is installed."""

    def rows(self):
        store = self.store(units=Units(100, "iso"))
        store.load(ROWS, by="add", columns=Columns(1, 2, 5, 3, 4))
        edges = store.open().edges()
        kind, source, target = ([names[at] for at in it] for it, names in (
            (edges.kind, edges.kinds), (edges.source, edges.names), (edges.target, edges.names)))
        return edges, list(zip(kind, source, target, edges.weight, edges.units._all_times_to_user(edges.recent)))

    @unittest.skipUnless(optional("osgeo"), "GDAL's Python isn't there")
    def test_gdal(self):
        """GDAL's reader over our stream: its own object of a stream is emptied, and has ours."""
        from osgeo import gdal_array, ogr
        source = ogr.GetDriverByName("Memory").CreateDataSource("x")
        layer = source.CreateLayer("none", geom_type=ogr.wkbNone)
        edges, _ = self.rows()
        theirs, capsule = layer.GetArrowStream(), edges.__arrow_c_stream__()
        place, own = int(theirs.this), arrow.pointer_of(capsule, arrow.STREAM)
        streams._release(streams.Stream.from_address(place))
        ctypes.memmove(place, own, ctypes.sizeof(streams.Stream))
        streams.Stream.from_address(own).release = None
        schema, batch = theirs.GetSchema(), theirs.GetNextRecordBatch()
        self.assertEqual((batch.GetLength(), schema.GetChildrenCount()), (3, 6))
        found = gdal_array._RecordBatchAsNumpy(batch._getPtr(), schema._getPtr(), batch)
        self.assertEqual({name: it.astype("int64").tolist() for name, it in found.items()},
                         {name: list(it) for name, it in edges.columns.items()})
        self.assertEqual([it.__array_interface__["data"][0] for it in found.values()],
                         [it.buffer_info()[0] for it in edges._columns])
        self.assertIsNone(theirs.GetNextRecordBatch())

    @unittest.skipUnless(optional("pyarrow"), "pyarrow isn't there")
    def test_pyarrow(self):
        import pyarrow
        edges, wanted = self.rows()
        table = pyarrow.table(edges)
        table.validate(full=True)
        self.assertEqual([(*list(it.values())[:4], it["recent"]) for it in table.to_pylist()], wanted)
        with Store(units=edges.units) as store:
            store.load(table, by="set", columns=Columns(kind="kind", weight="weight", time="recent"))
            self.assertEqual(sorted(store.open().edges()), sorted(edges))

    @unittest.skipUnless(optional("polars"), "polars isn't there")
    def test_polars(self):
        import polars
        edges, wanted = self.rows()
        frame = polars.DataFrame(edges)
        self.assertEqual([(*it[:4], it[5]) for it in frame.rows()], wanted)
        with Store(units=edges.units) as store:
            weights = frame.with_columns(weight=frame["weight"] / 100)  # (polars keeps no metadata)
            store.load(weights, by="set", columns=Columns(kind="kind", weight="weight", time="recent"))
            self.assertEqual([it[3].weight for it in sorted(store.open().edges())], [it[3].weight for it in sorted(edges)])

    @unittest.skipUnless(optional("duckdb"), "duckdb isn't there")
    def test_duckdb(self):
        import duckdb
        edges, wanted = self.rows()
        found = duckdb.sql("select kind, source, target, weight from edges").fetchall()
        self.assertEqual(found, [it[:4] for it in wanted])


if __name__ == "__main__":
    unittest.main()
