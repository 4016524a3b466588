"""How files write numbers, dates and text, standard input, and what advice is told where rows are refused."""
import re
import subprocess
import sys
import unittest
from datetime import datetime, timezone

from support import HERE, Case, feed_of

import misteluk
from misteluk import Columns, Units
from misteluk.feeds.feed import Feed
from misteluk.feeds import advice, notations

ONE_TO_FOUR = Columns(1, 2, weight=3, time=4)


class Notations(Case):
    def test_a_decimal_comma(self):
        right = {"12,50": "12.50", "-0,5": "-0.5", "1.234,50": "1234.50", "1.234.567": "1234567", "12 345 678,9": "12345678.9",
                 "1'234,5": "1234.5", "\u00a07": "7", "+3": "+3", "1\u202f234,50": "1234.50"}
        self.assertEqual({it: notations.with_point(it) for it in right}, right)
        for doubtful in ("1.234", "12.50", "1,234.50", "1.23,4", "1,2,3", "1.234'567,0", "x", "1e3", ",5", "5,"):
            told = notations.with_point(doubtful)
            self.assertEqual(told, f"{doubtful} (where decimals stand behind a comma)")
        self.assertEqual(notations.with_point(""), "")

    def test_dates(self):
        for form, written in (("dd.mm.yyyy", "5.3.2024"), ("dd.mm.yyyy", "05.03.2024"), ("dd/mm/yyyy", "05/03/2024"),
                              ("mm/dd/yyyy", "03/05/2024"), ("dd.mm.yyyy", "2024-03-05")):
            self.assertEqual(notations.Notation(dates=form).date_of(written), "2024-03-05")
        self.assertEqual(notations.Notation(dates="dd.mm.yyyy").date_of("05.03.2024 12:30:05"), "2024-03-05 12:30:05")
        for wrong in ("31.02.2024", "05.13.2024", "05/03/2024", "05.03.24", "5.3", "", "05.03.20245"):
            self.assertEqual(notations.Notation(dates="dd.mm.yyyy").date_of(wrong), wrong)

    def test_numbers_since_1970(self):
        """5 March 2024 begins 1709596800 seconds behind 1970: 19,787 days of 86,400."""
        for unit, number, told in (("seconds", "1709596800", ""), ("milliseconds", "1709596800123", ".123000"),
                                   ("microseconds", "1709596800000001", ".000001"), ("seconds", "1709596800.25", ".250000"),
                                   ("milliseconds", "1709596800123.0040", ".123004"), ("seconds", " 1709596800.0", "")):
            self.assertEqual(notations.date_since(number, unit), f"2024-03-05T00:00:00{told}+00:00")
        self.assertEqual(notations.date_since("0", "milliseconds"), "1970-01-01T00:00:00+00:00")
        for other in ("1709596800123", "-1", "1e9", "2024-03-05", "", "99999999999999999999"):  # (the first is beyond 9999)
            self.assertEqual(notations.date_since(other, "seconds"), other)
        for finer in ("1709596800.0000001", "0.000000000000001"):
            self.assertIn("it has more than microseconds, which would be cut off", notations.date_since(finer, "seconds"))

    def test_milliseconds_are_not_cut_off(self):
        """As numbers, as numbers that are dates, and as dates: the last two give the same edges."""
        rows = "a;b;1;{}\na;b;1;{}\n"
        numbers, dates = (1709596800123, 1709596800999), ("2024-03-05T00:00:00.123", "2024-03-05T00:00:00.999Z")
        first, last = (datetime(2024, 3, 5, 0, 0, 0, it, tzinfo=timezone.utc) for it in (123_000, 999_000))
        for given, options, wanted, until in ((numbers, {}, numbers, 1709596800998), (
                numbers, {"dates": "milliseconds"}, (first, last), "2024-03-05T00:00:00.998"),
                (dates, {"units": Units(times="iso")}, (first, last), "2024-03-05T00:00:00.998")):
            store = self.store()
            store.load(self.file("ms.csv", rows.format(*given)), by="add", columns=ONE_TO_FOUR, delimiter=";", **options)
            with store.open() as session:
                self.assertEqual(session.edge("link", "a", "b")[1:], wanted)
                self.assertEqual((session.degrees(until=until)["a"].out, session.degrees(since=wanted[1])["a"].out), (0, 1))
        with self.assertRaisesRegex(misteluk.BadRows, "123.0004 .in milliseconds; it has more than microseconds"):
            self.store().load([("a", "b", 1, "1709596800123.0004")], by="add", dates="milliseconds")

    def test_what_there_is_not(self):
        for told, options in (("decimal is '.' or ','", {"decimal": ";"}), ("dates is 'dd.mm.yyyy'", {"dates": "d.m.y"}),
                              ("there is no encoding 'utf-9'", {"encoding": "utf-9"})):
            with self.assertRaisesRegex(ValueError, told):
                misteluk.survey(self.file("a.csv", "a,b\n"), by="set", columns=Columns(1, 2), **options)
        with self.assertRaisesRegex(ValueError, "decimal is for files"):
            misteluk.survey([("a", "b", 1.5)], by="set", decimal=",")

    def test_an_edge_list_in_utf_16(self):
        (self.room / "a.txt").write_bytes("# x\na b\n".encode("utf-16"))
        feed = feed_of(str(self.room / "a.txt"), encoding="utf-16")
        self.assertEqual(list(feed.rows), [(2, "link", "a", "b", "1", "0")])


class Advice(Case):
    def told(self, text: str, columns: Columns = ONE_TO_FOUR, **options) -> str:
        (self.room / "a.csv").write_bytes(text.encode("latin-1"))
        with self.assertRaises(misteluk.BadRows) as fault:
            self.store().load(str(self.room / "a.csv"), by="add", columns=columns, delimiter=";", **options)
        return str(fault.exception)

    def test_sums_of_floats(self):
        """Where rows are no file's, and weights have parts."""
        sums = "Sums of floats have more digits than were added: round them before, as by frame.round(2)"
        for encoding, scale, value, told in ((None, 100, "0.30000000000000004", sums), (None, 2, "0.30000000000000004", sums),
                                             (None, 1, "0.30000000000000004", ""), ("utf-8", 100, "0.30000000000000004", ""),
                                             (None, 100, "0.305", ""), (None, 100, "0.125000000", "")):
            self.assertEqual(advice._of_weight(value, advice.Reading(encoding, None, Units(scale)), 0), told, (encoding, scale))

    def test_it_is_by_what_stands_there(self):
        told = "read by decimal=',' and Units(weight_scale=100) (--decimal , --weight-scale 100)"
        self.assertIn(told, self.told("a;b;12,50;1\n"))
        self.assertIn("say its encoding, as encoding='cp1252'", self.told("M\u00fcller;b;1.5;1\n"))
        told = self.told("a;b;1;05.03.2024\n", units=Units(times="iso"))
        self.assertIn("read by what they are: dates='dd.mm.yyyy' (--dates)", told)
        self.assertIn("dates='dd/mm/yyyy', dates='mm/dd/yyyy' (--dates)", self.told("a;b;1;05/03/2024\n"))
        self.assertIn("what they are: dates='mm/dd/yyyy' (--dates)", self.told("a;b;1;12/31/2024 10:30:00\n"))
        self.assertIn("they count: dates='milliseconds', dates='microseconds' (--dates)", self.told("a;b;1;1709596800123\n",
                                                                                                units=Units(times="iso")))
        self.assertIn("they count: dates='seconds', dates='milliseconds'", self.told("a;b;1;1709596800.25\n"))
        self.assertIn("what they are: dates='mm/dd/yyyy' (--dates)", self.told("a;b;1;12/31/2024\n", dates="dd/mm/yyyy"))

    def test_a_scale_is_one_that_helps(self):
        """The least one with two decimals or more by which each weight is whole; none where there is none."""
        for weights, scale in (("12.5", 100), ("12.50", 100), ("12.505", 1_000), ("1.5 0.0001 2", 10_000), ("0.1 seven", 100)):
            told = self.told("".join(f"a;b;{it};1\n" for it in weights.split()))
            self.assertEqual(re.findall(r"weight_scale=\d+", told), [f"weight_scale={scale}"])
            self.assertNotIn("BadWeight amount", told.replace("BadWeight: amount", ""))
            taken = "".join(f"a;b;{it};1\n" for it in weights.split() if it != "seven")
            (self.room / "a.csv").write_text(taken)
            self.store().load(self.room / "a.csv", by="add", columns=ONE_TO_FOUR, delimiter=";", units=Units(weight_scale=scale))
        told = self.told("a;b;1,5;1\na;b;1,505;1\n")
        self.assertEqual(set(re.findall(r"weight_scale=\d+", told)), {"weight_scale=1000"})
        self.assertIn("read by decimal=',' (--decimal ,)", self.told("a;b;1,5;1\n", units=Units(weight_scale=100)))
        with self.assertRaisesRegex(misteluk.errors.BadWeight, r"Units\(weight_scale=1000\) "):
            self.store().insert("k", "a", "b", 0.125)

    def none(self, word: str, *rows: str, **options) -> None:
        """Whether each of the rows, alone in a file, is told of without such advice."""
        for it in rows:
            self.assertNotIn(word, self.told(f"{it}\n", **options), it)

    def test_none_that_was_followed_or_can_not_help(self):
        self.none("weight_scale", "a;b;seven;1", "a;b;1e3;1", "a;b;nan;1", "a;b;1.2.3;1", "a;b;+5;1", "a;b;99999999999999;1",
                  "a;b;0.1234567890123;1", "a;b;99999999999.5;1", "a;b;1,2,3;1", "a;b;0,1234567890123;1")
        self.none("decimal=", "a;b;1,234;1", "a;b;1,2,3;1", units=Units(weight_scale=100))
        self.none("times=", "a;b;1;soon", "a;b;1;-5", "a;b;1;2024-02-30", "a;b;1;1969-12-31", "a;b;1;99999999999999999999")
        self.none("dates=", "a;b;1;31.02.2024", "a;b;1;05.13.2024", "a;b;1;soon", "a;b;1;1e9", units=Units(times="iso"))
        self.none("cp1252'", "M\u0081;b;1.5;1", encoding="windows-1252")
        with self.assertRaises(misteluk.BadRows) as fault:
            self.store().load([("a", "b", "1,5")], by="add")
        self.assertNotIn("decimal", str(fault.exception))

    def test_an_amount_stands_as_its_file_has_it(self):
        """A comma stays one: 5.005 would be another number there."""
        for amount, told in (("5,005", "5,005"), ("-1.234,505", "-1234,505")):
            self.assertIn(f"amount '{told}': a weight has at most 2 decimals here",
                          self.told(f"a;b;{amount};1\n", decimal=",", units=Units(weight_scale=100)))
        self.assertIn("amount '5.005': a weight has", self.told("a;b;5.005;1\n", units=Units(weight_scale=100)))
        told = self.told("a;b;5,5;1\n", decimal=",")
        self.assertIn("amount '5,5': a weight is a whole number, of", told)
        self.assertIn("Units(weight_scale=100) (--weight-scale 100)", told)
        path = self.file("a.csv", "a;b;5,005;1\n")
        with self.assertRaisesRegex(misteluk.BadRows, "amount '5,005'"):
            list(self.store().follow(path, by="add", columns=ONE_TO_FOUR, decimal=",", units=Units(100), until_end=True))

    def test_floats_that_were_worked_out(self):
        """Amounts of a frame that aren't round any more; those of a file, and a third decimal, aren't of that sort."""
        for amount, is_told in ((1.1 + 2.2, True), (69_215.979_999_999_98, True), (1.505, False), ("seven", False)):
            with self.assertRaises(misteluk.BadRows) as fault:
                self.store().load([("a", "b", amount)], by="add", units=Units(weight_scale=100))
            self.assertEqual("round them before, as by frame.round(2)" in str(fault.exception), is_told, amount)
        self.none("round them", "a;b;3.3000000000000003;1", units=Units(weight_scale=100))
        self.store().load([("a", "b", round(1.1 + 2.2, 2))], by="add", units=Units(weight_scale=100))

    def test_a_header_where_columns_are_numbers(self):
        told = "\n  Line 1 may be a header, which is no row: header=True (--header)"
        for options in ({}, {"units": Units(weight_scale=100), "decimal": ","}, {"units": Units(times="iso")}):
            self.assertEqual(self.told("from;to;amount;time of day\na;b;1;2024-05-01\n", **options).count(told), 1)
        self.none("header", "a;b;1.5x;1", "a;b;-;1", "a;b;;1")
        self.assertNotIn("header", self.told("a;b;1;1\na;b;seven;1\n"))
        self.none("header", "a;b;seven;1", header=False)
        rows = misteluk.survey(self.file("h.csv", "from;to;amount;day\na;b;1;1\n"), by="add", columns=ONE_TO_FOUR, header=True)
        self.assertEqual((rows.rows, rows.bad), (1, 0))

    def test_a_day_that_there_is_not(self):
        """A file of such dates is told of their form, and not of that of ISO 8601 alone."""
        told = "\n  A time is read as dd.mm.yyyy here, a day that there is, or as 2024-05-01"
        for it in ("31.02.2024", "1.1.24", "soon"):
            self.assertIn(told, self.told(f"a;b;1;{it}\n", dates="dd.mm.yyyy", header=False))
        self.none("is read as", "a;b;1;31.02.2024", units=Units(times="iso"))
        self.none("is read as", "a;b;1;soon", dates="seconds")
        self.none("is read as", "a;b;seven;1.1.2024", "a;b;1;31/01/2024", dates="dd.mm.yyyy")
        path = self.file("a.csv", "a;b;1;31.02.2024\n")
        with self.assertRaises(misteluk.BadRows) as fault:
            list(self.store().follow(path, by="add", columns=ONE_TO_FOUR, dates="dd.mm.yyyy", until_end=True))
        self.assertIn(told, str(fault.exception))

    def test_none_for_a_call_that_it_can_not_help(self):
        store = self.store(seats=16)
        for call, word in ((lambda: store.insert("k", "a", "b", "seven"), "weight_scale"), (lambda: store.expire(-1), "times="),
                           (lambda: store.insert("k", "a", "b", 1, "soon"), "times="), (lambda: store._open(16), "seats="),
                           (lambda: store.insert("k", "", "b"), "Any text"),
                           (lambda: self.store(units=Units(weight_scale=100)).insert("k", "a", "b", "1.505"), "(--weight-scale")):
            with self.assertRaises(misteluk.Refused) as fault:
                call()
            self.assertNotIn(word, str(fault.exception))
        with self.assertRaisesRegex(misteluk.errors.BadSlot, "seats=, or --seats; 16 at most"):
            self.store(seats=2)._open(15)
        held = [store.open() for _ in range(16)]
        with self.assertRaises(misteluk.errors.NoSeat) as told:
            store.open()
        self.assertEqual((str(told.exception), len(held)), ("all 16 seats hold sessions: close one", 16))

    def advised(self, store, advice, **options) -> None:
        with self.assertRaises(misteluk.errors.PoolEmpty) as told:
            store.commit(collect=False, **options)
        self.assertEqual(told.exception.advice, advice)

    def test_none_of_a_feed_that_was_followed(self):
        told = self.told(";b;1;1\na;b;;1\na;b;1;\n")
        for it in ("weight_scale", "times=", "escape"):
            self.assertNotIn(it, told)
        self.assertNotIn("dates=", self.told("a;b;1;31.02.2024\n", dates="dd.mm.yyyy"))
        told = self.told("a;b;1.234;1\n", decimal=",", units=Units(weight_scale=100))
        self.assertIn("'1.234 (where decimals stand behind a comma)'", told)
        self.assertNotIn("decimal=", told)
        self.assertNotIn("weight_scale", told)

    def test_all_kinds_of_faults_in_one_run(self):
        """Forty rows of one fault, and behind them one row of two others: each is told with its place."""
        rows = [(it, "k", "a", "b", "x", "0") for it in range(1, 41)]
        rows += [(41, "k", "a", "", "1", "y"), (42, "k", "a", "b", "1", "0")]
        with self.assertRaises(misteluk.BadRows) as fault:
            self.store().load(Feed("f", rows), by="set")
        self.assertEqual([it.place.line for it in fault.exception.faults], [*range(1, 11), 41, 41])
        self.assertEqual(fault.exception.fault_counts, {"BadWeight weight": 40, "BadName target": 1, "BadTime time": 1})
        self.assertEqual((fault.exception.count, fault.exception.rows), (41, 42))
        told = "\n  and 30 more rows\n  In all 40 BadWeight weight, 1 BadName target, 1 BadTime time\n"
        self.assertIn(told, str(fault.exception))

    def test_blocks(self):
        """Twenty edges of twenty sources take a block each, and a batch of n asks for n more."""
        rows = [("a%d" % it, "b") for it in range(20)]
        with self.assertRaises(misteluk.errors.PoolEmpty) as fault:
            self.store(blocks=16).load(rows, by="set")
        self.assertIn("Make the store with blocks=20 or more; smaller batches don't help", fault.exception.advice)
        with self.assertRaises(misteluk.errors.PoolEmpty) as fault:
            self.store(blocks=22).load(rows * 2, by="set", batch=30)
        self.assertIn("Make the store with blocks=30 or more; a batch", fault.exception.advice)
        self.assertIn("batches of 2 fit (batch=2, --batch 2)", fault.exception.advice)
        self.assertEqual(self.store(blocks=22).load(rows * 2, by="set", batch=2).commit.inserted, 20)


class StandardInput(Case):
    def run_it(self, *words: str, given: bytes) -> "subprocess.CompletedProcess[bytes]":
        return subprocess.run([sys.executable, "-m", "misteluk", *words], input=given, cwd=HERE.parent, stdout=subprocess.PIPE,
                              stderr=subprocess.STDOUT, timeout=60)

    def test_a_feed_from_a_pipe(self):
        text = b"from,to,n\n" + b"".join(b"a%d,b,2\n" % it for it in range(3_000))
        done = self.run_it("load", "-", "--add", "--source", "from", "--target", "to", "--weight", "n", given=text)
        self.assertEqual(done.returncode, 0, done.stdout)
        self.assertIn(b"standard input: 3000 rows, 3001 names, 1 kind, 3000 edges in 3000 blocks", done.stdout)
        done = self.run_it("load", "-", "--set", "--format", "snap", "--dry-run", given=b"# x\n1 2\n1 3 4 5\n")
        self.assertIn(b"misteluk: standard input:3: 4 fields, where an edge list has 2", done.stdout)

    def test_faults_have_their_line(self):
        done = self.run_it("load", "-", "--set", "--source", "1", "--target", "2", given=b"a,b\nc,\n")
        self.assertIn(b"standard input:2: BadName: target ''", done.stdout)
        done = self.run_it("load", "-", "--set", "--interactive", given=b"")
        self.assertIn(b"misteluk: --interactive reads standard input, which is the file here", done.stdout)

    def test_options_of_the_command(self):
        given = "M\u00fcller;b;1,50;05.03.2024\n".encode("latin-1")
        done = self.run_it("load", "-", "--add", "--source", "1", "--target", "2", "--weight", "3", "--time", "4", "--encoding",
                           "latin-1", "--decimal", ",", "--dates", "dd.mm.yyyy", "--weight-scale", "100", "--names", "escape",
                           "--levels", "M%C3%BCller", given=given)
        self.assertIn(b"levels from M%C3%BCller: 2 reached", done.stdout)


if __name__ == "__main__":
    unittest.main()
