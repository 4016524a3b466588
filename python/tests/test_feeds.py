"""Data in: what each form of file comes to, what it is counted as, and what is told before anything is sent."""
import csv
import gzip
import io
import os
import random
import time
import unittest
from contextlib import redirect_stderr
from unittest import mock

from support import Case, feed_of, optional

import misteluk
from misteluk import Columns, Commit, Edge
from misteluk.feeds.delimited import delimited
from misteluk.feeds.feed import Feed
from misteluk.feeds import feed as feeds
from misteluk.values.units import Units

TRANSFERS = "from,to,amount,when\nana,funnel,980,1\nben,funnel,950,1\nana,funnel,20,5\n"
OF_TRANSFERS = Columns("from", "to", None, "amount", "when", "transfer")


class Feeds(Case):
    def rows(self, wanted: str, name: str, text: str, **options) -> None:
        """Whether the file has these rows: a line each, its fields parted by a space."""
        feed = feed_of(self.file(name, text), **options)
        self.assertEqual("\n".join(" ".join(map(str, it)) for it in feed.rows), wanted)

    def test_delimited(self):
        self.rows("2 transfer ana funnel 980 1\n3 transfer ben funnel 950 1\n4 transfer ana funnel 20 5", "a.csv", TRANSFERS,
                  columns=OF_TRANSFERS)
        self.rows("2 k a b 1 0", "a.tsv", "\ufeffx\ty\nb\ta\n", columns=Columns("y", "x", default_kind="k"))
        self.rows("1 a b c 7 9\n3 d e f 8 9", "a.txt", "b;c;a;7;9\n\ne;f;d;8;9\n", columns=Columns(1, 2, 3, 4, 5))
        self.rows('1 link a,b c 1 0', "a", '"a,b",c\n', columns=Columns(1, 2))
        self.rows("2 link b c 1 0", "b", "a|b\nb|c\n", columns=Columns(1, 2), header=True)
        self.rows("2 link b c 1 0", "c.csv", "a b,c\nb,c\n", columns=Columns("a b", "c"), delimiter=",")

    def test_quotes_and_ends_of_lines(self):
        one_two = Columns(1, 2)
        self.rows("1 link a b 1 0\n3 link c d 1 0", "a.csv", "a,b\r\n\r\nc,d\r\n", columns=one_two)
        self.rows('2 link a\nb c 1 0\n3 link e"f g 1 0', "b.csv", '"a\nb",c\n"e""f",g', columns=one_two)
        self.rows("1 link a é 1 0\n2 link c  1 0", "c.csv", "a;é;1\nc;;2", columns=one_two)
        self.rows("1 link a a 1 0\n3 link b b 1 0", "d.csv", "a\n\nb\n", columns=Columns(1, 1))

    def read_row_by_row(self, path: str, sign: str, least: int) -> list:
        """The file's rows by Python's csv, one after another, blank lines left out and missing fields empty."""
        with open(path, encoding="utf-8", newline="") as file:
            reader = csv.reader(file, delimiter=sign)
            return [(reader.line_num, *row, *[""] * (least - len(row))) for row in reader if row]

    def test_any_file_is_read_as_csv_reads_it(self):
        draw = random.Random(5)
        for _ in range(120):
            sign = draw.choice(",;\t|")
            tidy = draw.random() < 0.3
            pieces = ["a", "b", "1", " ", "é"] if tidy else ["a", "b", "é", '"', '"', "\n", "\r", "\r\n", "x" + sign, '""']
            width = draw.randrange(2, 5)
            ends = draw.choice(["\n", "\r\n", "\r"])
            lines = [sign.join("".join(draw.choices(pieces, k=draw.randrange(4))) for _ in range(
                width if tidy or draw.random() < 0.8 else draw.randrange(6))) for _ in range(draw.randrange(1, 9))]
            path = self.file_as_it_is(ends.join([sign.join("pq" * (width - 1)), *lines]) + draw.choice(["", ends]))
            wanted = [(line, "link", *row[:2], "1", "0") for line, *row in self.read_row_by_row(path, sign, 2)]
            for size in (1, 2, 3, 1_024):
                with mock.patch.object(feeds, "ROWS_AT_ONCE", size):
                    feed = delimited(path, Columns(1, 2), delimiter=sign)
                    self.assertEqual(list(feed.rows), wanted)

    def file_as_it_is(self, text: str) -> str:
        (self.room / "f.csv").write_bytes(text.encode())
        return str(self.room / "f.csv")

    def test_snap(self):
        self.rows("3 link 0 11 1 0\n4 link 0 12 1 0", "a.txt", "# Directed graph\n# FromNodeId\tToNodeId\n0\t11\n0 12\n")
        self.rows("1 msg 1 2 1 1082040961", "b", "1 2 1082040961\n", format="snap", third="time",
                  columns=Columns(default_kind="msg"))
        self.rows("1 link 1 2 5 0", "c", "1 2 5\n", format="snap", third="weight")

    def test_matrix_market(self):
        head = "%%MatrixMarket matrix coordinate "
        self.rows("4 link 1 2 5 0\n5 link 2 2 -1 0", "a.mtx", head + "integer general\n% a comment\n2 2 2\n1 2 5\n2 2 -1\n")
        self.rows("3 link 2 1 1 0\n3 link 1 2 1 0\n4 link 2 2 1 0", "b.mtx", head + "pattern symmetric\n2 2 2\n2 1\n2 2\n")
        self.rows("3 link 2 1 3 0\n3 link 1 2 -3 0", "c.mtx", head + "real skew-symmetric\n2 2 1\n2 1 3.0\n")

    def test_gzip(self):
        path = self.room / "a.csv.gz"
        path.write_bytes(gzip.compress(TRANSFERS.encode()))
        self.assertEqual(len(list(feed_of(str(path), columns=OF_TRANSFERS).rows)), 3)

    def test_names_with_escapes(self):
        feed = Feed("f", [(1, "k", "A b", "50%", "1", "0"), (2, "k", "é", "*", "1", "0")])
        self.assertEqual(list(feeds.turned(feed, names="escape").rows), [
            (1, "k", "A%20b", "50%25", "1", "0"), (2, "k", "%C3%A9", "*", "1", "0")])
        self.assertIs(feeds.turned(feed), feed)
        with self.assertRaisesRegex(ValueError, "names is 'plain' or 'escape'"):
            feeds.turned(feed, names="as they are")

    def test_a_date_without_a_zone_is_in_utc(self):
        self.addCleanup(time.tzset)
        with mock.patch.dict(os.environ, {"TZ": "EST5EDT"}):
            time.tzset()
            for text in ("1970-01-02", "1970-01-02T00:00:00Z"):
                self.assertEqual(Units(times="iso")._time_to_program(text), "86400000000")

    def fault(self, told: str, name: str, text: str, **options) -> None:
        with self.assertRaises(misteluk.errors.FeedFault) as fault:
            list(feed_of(self.file(name, text), **options).rows)
        self.assertIn(told, str(fault.exception))

    def test_files_of_another_form(self):
        self.fault("a.csv: no column 'too'; the header has 'from', 'to', 'amount', 'when'. Say which", "a.csv", TRANSFERS,
                   columns=Columns("from", "too"))
        self.fault("a.csv:1: 1 fields, where the columns need 2", "a.csv", "a b\nc,d\n", columns=Columns(1, 2))
        for text, header, why in (("a,b\n", False, "name them by number (from 1)"), ("\n", None, "name them by number (from 1)"),
                                  ("", None, "the file is empty")):
            self.fault(f"a.csv: columns are named, and there is no header: {why}", "a.csv", text, header=header)
        self.fault("a.txt:2: 1 fields, where an edge list has 2", "a.txt", "# x\n7\n")
        self.fault("a.mtx:1: no line `%%MatrixMarket", "a.mtx", "1 2 3\n")
        self.fault("is complex and hermitian", "a.mtx", "%%MatrixMarket matrix coordinate complex hermitian\n1 1 0\n")
        self.fault("1 entries, where its sizes say 2", "a.mtx", "%%MatrixMarket matrix coordinate pattern general\n2 2 2\n1 2\n")

    def test_a_delimiter_is_one_sign(self):
        path = self.file("a.csv", "a;b\n")
        for it in ("xx", "\\t", "\n", '"'):
            for call in (lambda: feed_of(path, columns=Columns(1, 2), delimiter=it),
                         lambda: self.store().follow(path, by="set", columns=Columns(1, 2), delimiter=it, until_end=True)):
                with self.assertRaisesRegex(ValueError, "delimiter is one sign, as ; or a tab") as fault:
                    call()
                self.assertIn(f"and not {it!r}", str(fault.exception))

    def test_bytes_that_are_no_text(self):
        (self.room / "a.csv").write_bytes(b"a,b\n\xffx,?\n")
        found = misteluk.survey(str(self.room / "a.csv"), by="set", columns=Columns(1, 2))
        self.assertEqual((found.rows, found.bad), (2, 1))
        self.assertIn("a.csv:2: BadName: source '\\udcffx'", str(found.faults[0]))


class Loads(Case):
    def test_set_and_add(self):
        path = self.file("a.csv", TRANSFERS)
        for by, weight in (("set", 20), ("add", 1000)):
            store = self.store()
            loaded = store.load(path, by=by, columns=OF_TRANSFERS)
            self.assertEqual(loaded.commit, Commit(1, 2, 1, 0, 0, 0, 1, 0))
            self.assertEqual(store.open().edge("transfer", "ana", "funnel"), Edge(weight, 1, 5))
        with self.assertRaisesRegex(ValueError, "by is 'set'"):
            store.load(path, by="sum")
        found = misteluk.survey(path, by="set", columns=OF_TRANSFERS)
        with self.assertRaisesRegex(ValueError, "the survey was made to set, and the load is to add"):
            store.load(found, by="add")

    def counted(self, wanted: str, rows: str, batch: int = 4096) -> None:
        """Whether rows `source target`, parted by commas, are counted so: names, edges, blocks, blocks needed."""
        feed = Feed("f", [(at, "k", *it.split(), "1", "0") for at, it in enumerate(rows.split(","), 1)])
        found = misteluk.survey(feed, by="add", batch=batch)
        self.assertEqual(f"{found.vertices} {found.edges} {found.blocks} {found.needed}", wanted)

    def test_what_is_counted(self):
        self.counted("2 1 1 2", "a b,a b")
        self.counted("34 33 2 33", ",".join(f"a b{it}" for it in range(33)))
        self.counted("33 32 1 32", ",".join(f"a b{it}" for it in range(32)))
        self.counted("34 33 33 33", ",".join(f"b{it} a" for it in range(33)))
        # Batches of ten: behind three of them 30 blocks are used, and three operations are left; the third needs 20 and 10.
        self.counted("34 33 33 33", ",".join(f"b{it} a" for it in range(33)), 10)
        self.counted("34 33 2 11", ",".join(f"a b{it}" for it in range(33)), 10)

    def test_what_each_batch_needs(self):
        """Beside a count of each batch, row by row; every third row can't be taken, and batches are full all the same."""
        draw = random.Random(3)
        for _ in range(60):
            rows = [(at, "k" if draw.random() < 0.9 else "l", f"s{draw.randrange(4)}", f"t{draw.randrange(150)}", "1",
                     "x" if at % 3 == 0 else "7") for at in range(1, draw.randrange(2, 400))]
            batch = draw.choice([1, 7, 40, 400])
            with mock.patch.object(feeds, "ROWS_AT_ONCE", draw.choice([1, 3, 50, 1_024])):
                found = misteluk.survey(Feed("f", rows), by="add", batch=batch)
            right = [it for it in rows if it[5] == "7"]
            parts = [right[at:at + batch] for at in range(0, len(right), batch)]
            self.assertEqual([list(it.lines) for it in found.parts], [[it[0] for it in part] for part in parts])
            needed = [self.blocks_of(right[:at * batch]) + len(part) for at, part in enumerate(parts)]
            self.assertEqual((found.needed, found.blocks), (max(needed, default=0), self.blocks_of(right)))
            used = draw.randrange(40)
            beside = [max(self.blocks_of(right[:at * batch]), used) + len(part) for at, part in enumerate(parts)]
            self.assertEqual(found._needed_beside(used), max(beside, default=0))
            self.assertEqual((found.rows, found.bad), (len(rows), len(rows) - len(right)))
            self.assertEqual(found.times, (7, 7) if right else (0, 0))

    def blocks_of(self, rows: list) -> int:
        """For each kind and source its targets divided by 32, rounded up."""
        targets = {}
        for _, kind, source, target, *_ in rows:
            targets.setdefault((kind, source), set()).add(target)
        return sum((len(it) + 31) // 32 for it in targets.values())

    def test_the_blocks_that_are_counted_are_needed(self):
        feed = [(it, "k", f"s{it % 7}", f"t{it * it % 50}", "1", "0") for it in range(300)]
        found = misteluk.survey(Feed("f", feed), by="add", batch=20)
        store = self.store(blocks=found.needed)
        store.load(found, by="add")
        self.assertEqual((store.stat().used, store.stat().edges, store.stat().vertices),
                         (found.blocks, found.edges, found.vertices))
        with self.assertRaisesRegex(misteluk.errors.PoolEmpty, f"needs at least {found.needed} blocks in batches of 20") as told:
            self.store(blocks=found.needed - 1).load(found, by="add")
        self.assertEqual(told.exception.needed, found.needed)

    def test_bad_rows(self):
        path = self.file("a.csv", "s,t,w\na,b,1\n,b,1\na,b,1.5\n,b,2\na,b,9999999999999\nb,c,2\nb\n")
        columns = Columns("s", "t", weight="w")
        store = self.store()
        with self.assertRaises(misteluk.BadRows) as told:
            store.load(path, by="add", columns=columns)
        self.assertEqual((told.exception.count, told.exception.rows, store.stat().version), (5, 7, 0))
        self.assertEqual([it.place.line for it in told.exception.faults], [3, 4, 5, 6, 8, 8])
        self.assertEqual([it.word for it in told.exception.faults],
                         ["BadName", "BadWeight", "BadName", "BadWeight", "BadName", "BadWeight"])
        self.assertIn("\n  In all 2 BadName source, 3 BadWeight amount, 1 BadName target\n", str(told.exception))
        self.assertIn("a.csv:8: BadName: target '': a name has at least one byte", str(told.exception))
        self.assertIn("can be loaded without them: skip_bad=True", str(told.exception))
        self.assertIn("a.csv:4: BadWeight: amount '1.5': a weight is a whole number", str(told.exception))
        loaded = store.load(path, by="add", columns=columns, skip_bad=True)
        self.assertEqual((loaded.commit.inserted, store.stat().edges), (2, 2))
        self.assertIn("5 bad rows passed over", str(loaded))

    def test_rows_that_need_quotes_are_taken_among_plain_ones(self):
        rows = [(1, "k", "a", "b", "1", "0"), (2, "k", 'a,"', "b", "+1", "0"), (3, "k", 'a,"', "b", "1", "0"),
                (4, "k", "c", "d", "1", "0\n")]
        found = misteluk.survey(Feed("f", rows), by="set")
        self.assertEqual([it.text for it in found.parts], [b'i,k,a,b,1,0\ni,k,"a,""",b,1,0\n'])
        self.assertEqual((found.bad, [it.place.line for it in found.faults]), (2, [2, 4]))

    def test_what_is_counted_is_told_in_short(self):
        """A prompt or a notebook shows what a call returns: a line, and not the feed's records."""
        store = self.store()
        loaded = store.load(self.file("a.csv", TRANSFERS), by="add", columns=OF_TRANSFERS)
        self.assertRegex(repr(loaded), r"^<Loaded 5 records in \d+\.\d s, \d+ a second; 2 edges inserted, 1 updated; version 1>$")
        self.assertIn("a.csv: 3 rows, 3 names, 1 kind, 2 edges in 2 blocks; 1 batch needs 3 blocks>", repr(loaded.survey))
        self.assertEqual(repr(loaded.survey.parts), "[<Part of 3 records>]")

    def test_no_more_batches_are_told_than_are_made(self):
        """What several batches need is told for their size: a load in this process makes larger ones, so fewer."""
        found = misteluk.survey(Feed("f", [(it, "k", f"v{it}", "hub", "1", "0") for it in range(1, 5_001)]), by="set")
        self.assertIn(" in 5000 blocks; batches of 4096 need 5000 blocks", str(found))
        store = self.store(blocks=10_000)
        self.assertEqual(store.load(found, by="set").commit.batches, 1)
        self.assertIn(" in 0 blocks; 0 batches need 0 blocks", str(misteluk.survey(Feed("f", []), by="set")))

    def test_weights_that_would_leave_their_limits_are_told(self):
        loaded = self.store().load(Feed("f", [(1, "k", "a", "b", "1099511627776", "0")] * 2), by="add")
        self.assertIn("1 amounts NOT added", str(loaded))

    def over(self, told: str, rows: list, **options) -> None:
        store = self.store()
        with self.assertRaises(misteluk.errors.OverLimit) as fault:
            store.load(Feed("f", rows), by="set", **options)
        self.assertIn(told, str(fault.exception))
        self.assertEqual(store.stat().version, 0)

    def test_blocks_in_use_are_counted_before_anything_is_sent(self):
        store = self.store(*(f"insert k s{it} t 1 1" for it in range(10)), blocks=16)
        told = "needs at least 17 blocks in batches of 7, and the store was made with 16"
        with self.assertRaisesRegex(misteluk.errors.PoolEmpty, told):
            store.load(Feed("f", [(1, "k", "s1", "t", "1", "0")] * 7), by="add")
        self.assertEqual(store.stat().version, 1)
        self.assertEqual(store.load(Feed("f", [(1, "k", "s1", "t", "1", "0")] * 6), by="add").commit.version, 2)

    def test_pending_operations_are_not_mixed_in(self):
        store = self.store()
        store.insert("k", "a", "b")
        with self.assertRaisesRegex(misteluk.errors.Uncommitted, "1 operations are pending"):
            store.load(Feed("f", []), by="set")
        store.discard()
        self.assertIsNone(store.load(Feed("f", []), by="set").commit)

    def test_steps(self):
        store, seen = self.store(), []
        found = misteluk.survey(Feed("f", [(it, "k", "a", "b", "1", str(it)) for it in range(6)]), by="add", batch=2)
        for receipt in store.load_in_steps(found):
            with store.open() as session:
                seen.append((receipt.version, session.edge("k", "a", "b")))
        self.assertEqual(seen, [(1, Edge(2, 0, 1)), (2, Edge(4, 0, 3)), (3, Edge(6, 0, 5))])
        self.assertEqual(found.times, (0, 5))

    def test_progress(self):
        with redirect_stderr(io.StringIO()) as told:
            misteluk.survey(Feed("f", [(1, "k", "a", "b", "1", "0")] * 9000), by="add", progress=True)
        if optional("tqdm"):
            self.assertIn("reading f: 9000 records", told.getvalue())


class Absent(Case):
    def test_pandas_is_named_where_it_is_missing(self):
        with mock.patch.dict("sys.modules", {"pandas": None}):
            with self.assertRaisesRegex(misteluk.errors.Missing, "apt-get install python3-pandas"):
                self.store().open().cores().to_pandas()


if __name__ == "__main__":
    unittest.main()
