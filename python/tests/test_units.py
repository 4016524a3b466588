"""Weights as decimals and times as dates. Values are worked out by hand: 2024-03-04 is 19,786 days behind 1970-01-01, since 54
years with 13 leap days have 19,723 days, and 31 + 29 + 3 days come behind them."""
import unittest
from datetime import date, datetime, timedelta, timezone
from decimal import Decimal

from support import Case, CommandCase, words_of

import misteluk
from misteluk import Columns, Degree, Edge, Store, errors
from misteluk.feeds.feed import Feed
from misteluk.values import units
from misteluk.values.units import Units

DAY = 86_400 * 10 ** 6
FOURTH = 19_786 * DAY
CENTS = Units(100, "iso")


def utc(*parts: int) -> datetime:
    return datetime(*parts, tzinfo=timezone.utc)


class Weights(Case):
    def test_to_the_program(self):
        for text, parts in (("12.50", "1250"), ("12.5", "1250"), ("1e2", "10000"), (" -0.01 ", "-1"), ("0", "0"), ("-0.00", "0"),
                            ("10995116277.76", "1099511627776"), ("-10995116277.76", "-1099511627776")):
            self.assertEqual(CENTS._weight_to_program(text), parts)
        self.assertEqual(Units(8)._weight_to_program("0.375"), "3")
        self.assertEqual(Units()._weight_to_program("12.5"), "12.5")

    def test_what_is_no_whole_number_of_parts(self):
        for text, told in (("12.505", "at most 2 decimals here"), ("x", "a decimal number"), ("", "a decimal number"),
                           ("nan", "a decimal number"), ("-Infinity", "a decimal number"), ("1e-30", "at most 2 decimals here"),
                           ("10995116277.77", "from -10995116277.76 to 10995116277.76"), ("1e999999999", "a weight is from"),
                           ("1." + "0" * 500, "a decimal number")):
            with self.assertRaisesRegex(ValueError, told):
                CENTS._weight_to_program(text)
        for scale, text, told in ((10, "0.05", "a weight has at most 1 decimal here (weight_scale 10)"),
                                  (8, "0.1", "a weight is a whole number of parts, of which one has 8 (weight_scale)")):
            with self.assertRaises(ValueError) as fault:
                Units(scale)._weight_to_program(text)
            self.assertEqual(str(fault.exception), told)

    def test_rounding(self):
        """To the nearest part; of two equally near ones to the even one, as bankers do."""
        half_even = Units(100, rounding="half-even")
        for text, parts in (("0.30000000000000004", "30"), ("12.345", "1234"), ("12.355", "1236"), ("12.3450001", "1235"),
                            ("-12.345", "-1234"), ("-12.355", "-1236"), ("0.004", "0"), ("-0.004", "0"), ("1e-30", "0"),
                            ("12.5", "1250"), ("10995116277.76", "1099511627776")):
            self.assertEqual(half_even._weight_to_program(text), parts, text)
        for text in ("10995116277.77", "x", "nan", ""):
            self.assertRaises(ValueError, half_even._weight_to_program, text)
        whole = Units(rounding="half-even")
        self.assertEqual([whole._weight_to_program(it) for it in ("12", "12.5", "13.5", "-0.5")], ["12", "12", "14", "0"])
        with self.assertRaisesRegex(ValueError, "rounding is 'half-even' or None, and not 'up'"):
            Store(units=Units(rounding="up"))

    def test_a_store_that_rounds(self):
        store = self.store(units=Units(weight_scale=100, rounding="half-even"))
        with self.assertRaises(misteluk.errors.BadWeight):
            self.store(units=Units(weight_scale=100)).add("k", "a", "b", 0.1 + 0.2)
        store.add("k", "a", "b", 0.1 + 0.2)
        store.commit()
        store.load([("a", "c", 2.675), ("a", "d", 0.125)], by="set")
        session = store.open()
        self.assertEqual(session.edge("k", "a", "b").weight, Decimal("0.30"))
        self.assertEqual([it.weight for it in session.successors("a", "link").values()], [Decimal("2.68"), Decimal("0.12")])
        rows = self.file("rows.csv", "a,b,0.125\n")
        self.assertEqual(misteluk.survey(rows, by="set", columns=Columns(1, 2, weight=3), units=Units(weight_scale=100)).bad, 1)
        self.assertEqual(misteluk.survey(rows, by="set", columns=Columns(1, 2, weight=3),
                                         units=Units(100, rounding="half-even")).bad, 0)

    def test_a_load_that_rounds(self):
        """Its own rows alone: what the store takes beside them, and another load, are as exact as before."""
        store, rows = self.store(units=Units(weight_scale=100)), self.file("rows.csv", "a,b,0.125\n")
        how = {"by": "add", "columns": Columns(1, 2, weight=3)}
        self.assertRaises(misteluk.BadRows, store.load, rows, **how)
        store.load(rows, units=Units(rounding="half-even"), **how)
        self.assertRaises(misteluk.errors.BadWeight, store.add, "link", "a", "b", "0.125")
        self.assertRaises(misteluk.BadRows, store.load, rows, **how)
        self.assertEqual(store.open().edge("link", "a", "b").weight, Decimal("0.12"))
        with self.assertRaisesRegex(ValueError, "rounding is 'half-even' or None, and not 'up'"):
            store.load(rows, units=Units(rounding="up"), **how)

    def test_to_the_user(self):
        told = CENTS._weight_to_user(3 * 10 ** 40)
        self.assertEqual((type(told), str(told)), (Decimal, "3" + "0" * 38 + ".00"))
        self.assertEqual((Units()._weight_to_user(7), CENTS._all_weights_to_user([1, 1])), (7, [Decimal("0.01")] * 2))

    def test_no_units(self):
        for wrong in ((0,), (-1,), (3,), (1 << 41,), (1, "days"), (1, "iso", "cents")):
            with self.assertRaises(ValueError):
                Units(*wrong)


class Times(Case):
    def test_what_stands_for_a_time(self):
        """Beside dates (see test_dates.py): 0 for what has none, and the greatest time for the end of a window that has none."""
        for text, micros in (("2024-03-04", FOURTH), ("0", 0), (str(date(2024, 3, 4)), FOURTH),
                             (str(utc(2024, 3, 4, 0, 0, 1)), FOURTH + 10 ** 6)):
            self.assertEqual(CENTS._time_to_program(text), str(micros), text)
            self.assertEqual(CENTS._time_to_user(micros), utc(1970, 1, 1) + timedelta(microseconds=micros))
        self.assertEqual(CENTS._time_to_program("2024-03-04", is_end=True), str(FOURTH + DAY - 1))
        self.assertEqual(CENTS._time_to_program(str((1 << 63) - 1), is_end=True), str((1 << 63) - 1))

    def test_plain_times_stay(self):
        self.assertEqual((Units(100)._time_to_program("7"), Units(100)._time_to_user(7)), ("7", 7))


class Stores(Case):
    def cents(self, **options) -> Store:
        return self.store(**{"units": Units(weight_scale=100, times="iso"), **options})

    def filled(self, **options) -> Store:
        """Two payments of ana to bob, 0.1 and 0.2, on the fourth and the fifth; one of bob to cyd of 12.50, a day later."""
        store = self.cents(**options)
        store.add("k", "ana", "bob", 0.1, "2024-03-04T00:00:00.250")
        store.add("k", "ana", "bob", Decimal("0.2"), date(2024, 3, 5))
        store.insert("k", "bob", "cyd", "12.50", utc(2024, 3, 6, 23, 0, 0, 1))
        store.commit()
        return store

    def test_answers(self):
        session = self.filled().open()
        first = Edge(Decimal("0.30"), utc(2024, 3, 4, 0, 0, 0, 250_000), utc(2024, 3, 5))
        second = Edge(Decimal("12.50"), *[utc(2024, 3, 6, 23, 0, 0, 1)] * 2)
        self.assertEqual(session.edge("k", "ana", "bob"), first)
        self.assertEqual(str(session.edge("k", "ana", "bob").weight), "0.30")
        self.assertEqual(session.get_edges([("k", "bob", "cyd"), ("k", "cyd", "bob")]), [second, None])
        self.assertEqual(session.degrees(), {"ana": Degree(1, 0, Decimal("0.3")), "bob": Degree(1, 1, Decimal("12.5")),
                                             "cyd": Degree(0, 1, 0)})
        self.assertEqual(sum(it.weight_out for it in session.degrees().values()), Decimal("12.80"))
        self.assertEqual((session.predecessors("bob"), session.successors("bob")), ({"ana": first}, {"cyd": second}))

    def test_windows(self):
        session = self.filled().open()
        for since, until, wanted in (("2024-03-05", "2024-03-05", {"ana"}), ("2024-03-05", "2024-03-06", {"ana", "bob"}),
                                     (utc(2024, 3, 5, 0, 0, 0, 1), date(2024, 3, 6), {"bob"}), (0, "2024-03-04", set()),
                                     ("2024-03-06", "2024-03-06T23:00", set()), (date(2024, 3, 6), (1 << 63) - 1, {"bob"})):
            found = {name for name, it in session.degrees(since=since, until=until).items() if it.out}
            self.assertEqual(found, wanted, (since, until))
            self.assertEqual(bool(session.successors("ana", since=since, until=until)), "ana" in wanted)
            self.assertEqual("cyd" in session.levels("bob", since=since, until=until), "bob" in wanted)
            self.assertEqual(session.components(since=since, until=until)["cyd"] != "cyd", "bob" in wanted)
            self.assertEqual(max(session.cores(since=since, until=until).values()), int(bool(wanted)))
        self.assertEqual("degrees(since='2024-03-05', until='2024-03-06')",
                         session.degrees(since="2024-03-05", until="2024-03-06").request)
        with self.assertRaisesRegex(misteluk.errors.BadWindow, "since 2024-03-06 is after until 2024-03-05"):
            session.degrees(since="2024-03-06", until="2024-03-05")

    def test_floats(self):
        session = self.filled(units=Units(weight_scale=100, times="iso", decimals="float")).open()
        self.assertEqual((session.edge("k", "ana", "bob").weight, session.degrees()["bob"].weight_out), (0.3, 12.5))

    def test_what_is_told_where_it_is_no_unit(self):
        store, session = self.cents(), None
        for call, word, told in (
                (lambda: store.insert("k", "a", "b", "12.505"), misteluk.errors.BadWeight,
                 "weight '12.505': a weight has at most 2 decimals"),
                (lambda: store.add("k", "a", "b", 0.001), misteluk.errors.BadWeight, "amount '0.001'"),
                (lambda: store.insert("k", "a", "b", 1, 5), misteluk.errors.BadTime, "time '5': a time is a date here"),
                (lambda: store.insert("k", "a", "b", 1, "2024-03-04T00:00:00.0000001"), errors.BadTime, "would be cut off"),
                (lambda: store.expire("soon"), misteluk.errors.BadTime, "time 'soon'"),
                (lambda: store.open().degrees(since="soon"), misteluk.errors.BadTime, "since 'soon'"),
                (lambda: store._open(1).levels("a", until=7), misteluk.errors.BadTime, "until '7'")):
            self.assertNotIn("weight_scale=100", self.refused(word, told, call))
        self.assertEqual((store.pending, session), (0, None))

    def test_without_units_all_stays_whole(self):
        store = self.store("insert k a b 1250 7")
        self.assertEqual(repr(store.open().edge("k", "a", "b")), "Edge(weight=1250, first=7, recent=7)")
        with self.assertRaisesRegex(misteluk.errors.BadWeight, "weight_scale=100"):
            store.insert("k", "a", "b", "12.5")
        with self.assertRaisesRegex(misteluk.errors.BadTime, "times='iso'"):
            store.insert("k", "a", "b", 1, "2024-03-04")

    def test_what_is_lost_is_told_in_units(self):
        with self.assertRaises(misteluk.errors.Uncommitted) as told:
            with Store(units=Units(weight_scale=100, times="iso")) as store:
                store.insert("k", "a", "b", 12.5, "2024-03-04")
        self.assertEqual(told.exception.operations, ["i,k,a,b,12.50,2024-03-04 00:00:00+00:00\n"])


class Loads(Case):
    FEED = [(1, "k", "a", "b", "12.50", "2024-03-04"), (2, "k", "a", "b", "0.05", "2024-03-04T00:00:00.001")]

    def rows(self, *rows) -> Feed:
        return Feed("f", list(rows or self.FEED))

    def test_a_load_says_the_units(self):
        store = self.store()
        store.load(self.rows(), by="add", units=Units(weight_scale=100, times="iso"))
        self.assertEqual(store.units, CENTS)
        self.assertEqual(store.open().edge("k", "a", "b"), Edge(Decimal("12.55"), utc(2024, 3, 4), utc(2024, 3, 4, 0, 0, 0,
                                                                                                       1_000)))
        store.load(self.rows(), by="add")
        self.assertEqual(store.open().edge("k", "a", "b").weight, Decimal("25.10"))

    def test_units_that_differ(self):
        found = misteluk.survey(self.rows(), by="add", units=Units(weight_scale=100, times="iso"))
        plain = misteluk.survey(self.rows((1, "k", "a", "b", "1", "1")), by="add")
        told = self.store("insert k a b 1 1")
        for store, feed, options in ((self.store(units=Units(10, times="iso")), found, {}), (self.store(units=Units(100)),
                                                                                             found, {}),
                                     (told, found, {}), (self.store(units=Units(weight_scale=100, times="iso")), plain, {}),
                                     (self.store(units=Units(weight_scale=100)), self.rows(), {"units": Units(times="iso")}),
                                     (self.store(units=Units(times="iso")), self.rows(), {"units": Units(weight_scale=100)})):
            before = store.stat()
            with self.assertRaisesRegex(ValueError, "the store's units are weight_scale="):
                store.load(feed, by="add", **options)
            self.assertEqual(store.stat(), before)
        floats = self.store(units=Units(weight_scale=100, times="iso", decimals="float"))
        floats.load(found, by="add")
        self.assertEqual(repr(floats.open().degrees()["a"].weight_out), "12.55")
        self.assertEqual(self.store().load(found, by="add", units=Units(weight_scale=100, times="iso")).commit.version, 1)

    def test_an_expiry_says_that_there_are_no_units(self):
        store = self.store()
        store.expire(5)
        store.commit()
        with self.assertRaisesRegex(ValueError, "the store's units are weight_scale=1, times='number'"):
            store.load(self.rows(), by="add", units=Units(weight_scale=100, times="iso"))

    def test_a_load_that_fails_says_no_units(self):
        store = self.store()
        with self.assertRaises(misteluk.BadRows):
            store.load(self.rows((1, "k", "a", "b", "x", "0")), by="add", units=Units(weight_scale=100))
        store.insert("k", "a", "b", 7)
        store.commit()
        self.assertEqual((store.units, store.open().edge("k", "a", "b").weight), (Units(1, "number"), 7))

    def test_bad_rows(self):
        rows = [(1, "k", "a", "b", "12.505", "0"), (2, "k", "é", "b", "1", "2024-03-04T00:00:00.0000001"),
                (3, "k", "a", "b", "1", "7"), (4, "k", "a", "b", "1.50", "2024-03-04"), (5, "k", "", "b", "1", "0")]
        with self.assertRaises(misteluk.BadRows) as told:
            self.store().load(self.rows(*rows), by="add", units=Units(weight_scale=100, times="iso"))
        self.assertEqual([(it.place.line, it.field, it.fault.value) for it in told.exception.faults],
                         [(1, "amount", "12.505"), (2, "time", "2024-03-04T00:00:00.0000001"), (3, "time", "7"), (5, "source",
                                                                                                                  "")])
        self.assertNotIn("weight_scale=100", str(told.exception))
        found = misteluk.survey(self.rows(*rows), by="add", units=Units(weight_scale=100, times="iso"))
        self.assertEqual((found.bad, [it.text for it in found.parts]), (4, [b"a,k,a,b,150,%d\n" % FOURTH]))
        self.assertEqual(found.times, (utc(2024, 3, 4), utc(2024, 3, 4)))

    def test_columns_that_are_not_there(self):
        """A row without a weight or a time has a weight of 1, and the time 0."""
        store = self.store(units=Units(weight_scale=100, times="iso"))
        path = self.room / "f.csv"
        path.write_text("a,b\n")
        store.load(str(path), by="set", columns=Columns(1, 2))
        self.assertEqual(store.open().edge("link", "a", "b"), Edge(Decimal(1), utc(1970, 1, 1), utc(1970, 1, 1)))


class Banks(Case):
    """A bank's file: semicolons, decimal commas, IBANs with spaces, names in Cyrillic and Chinese, dates as 04.03.2024."""

    IBAN, IVANOV, WANG = "NL91 ABNA 0417 1643 00", "Иванов Пётр Сергеевич", "王小明"
    TEXT = (f"Дата;Плательщик;Получатель;Сумма\n04.03.2024;{IVANOV};{IBAN};1.234,50\n"
            f"05.03.2024 10:30:00,250;{IBAN};{WANG};12,05\n05.03.2024;{IVANOV};{IBAN};0,5\n")

    def test_from_end_to_end(self):
        for encoding, wang in (("cp1251", "Ван"), ("utf-8", self.WANG)):
            path = self.room / "bank.csv"
            path.write_bytes(self.TEXT.replace(self.WANG, wang).encode(encoding))
            with self.assertRaisesRegex(ValueError, "the store's units are"):
                self.store(units=Units(weight_scale=100)).load(path, by="add", dates="dd.mm.yyyy")
            store = self.store()
            store.load(path, by="add", units=Units(weight_scale=100), dates="dd.mm.yyyy", decimal=",", encoding=encoding,
                       columns=Columns("Плательщик", "Получатель", None, "Сумма", "Дата", "платёж"))
            session = store.open()
            wanted = Edge(Decimal("1235"), utc(2024, 3, 4), utc(2024, 3, 5))
            self.assertEqual(session.edge("платёж", self.IVANOV, self.IBAN), wanted)
            self.assertEqual(session.edge("платёж", self.IBAN, wang).recent, utc(2024, 3, 5, 10, 30, 0, 250_000))
            self.assertEqual(session.levels(self.IVANOV), {self.IVANOV: 0, self.IBAN: 1, wang: 2})
            self.assertEqual(str(session.degrees("платёж", until="2024-03-05")[self.IBAN].weight_out), "12.05")


class Commands(CommandCase):

    def file_of_cents(self) -> str:
        return self.file("c.csv", "from,to,n,t\na,b,12.50,2024-03-04\na,c,0.05,2024-03-05T10:00:00.5\nc,a,2,2024-03-06\n")

    def test_load(self):
        columns = ("--source", "from", "--target", "to", "--weight", "n", "--time", "t", "--add")
        cents = ("load", self.file_of_cents(), *columns, "--weight-scale", "100", "--times", "iso")
        status, out, err = self.run_it(*cents, "--ask", "degrees", "--by", "weight_out", "--since", "2024-03-05", "--until",
                                       "2024-03-06")
        self.assertEqual((status, err, out.splitlines()[2:]), (0, "", [
            "degrees: 3 names, greatest by weight_out", "  c out 1 in 1 weight 2.00", "  a out 1 in 1 weight 0.05",
            "  b out 0 in 0 weight 0.00"]))
        self.assertEqual(self.run_it(*cents, "--ask", "degrees", "--since", "soon")[::2][0], 1)
        eighths = ("load", self.file("eighths.csv", "a,b,0.125\n"), "--set", "--source", 1, "--target", 2, "--weight", 3,
                   "--weight-scale", 100, "--ask", "edge link a b")
        self.assertEqual(self.run_it(*eighths)[0], 1)
        self.assertIn("edge link a b: weight 0.12 first 0", self.run_it(*eighths, "--rounding", "half-even")[1])
        self.assertIn("since 'soon': a time is a date here", self.run_it(*cents, "--ask", "degrees", "--since", "soon")[2])
        script = self.room / "s.csv"
        self.run_it(*cents, "--script", script)
        self.assertEqual(script.read_text().splitlines()[0], f"a,link,a,b,1250,{FOURTH}")
        self.assertEqual(words_of(script.read_bytes()), {})
        out = self.run_it(*cents[:-4], "--times", "iso", "--dry-run", "--skip-bad")[1]
        self.assertIn("c.csv:2: BadWeight: amount '12.50'", out)


if __name__ == "__main__":
    assert units.PLAIN.are_plain
    unittest.main()
