"""Dates in each way in: as texts, lists, arrays, frames, files and posts, they are taken or refused alike, on every Python.

Microseconds are worked out by hand: 5 March 2024 is 19,787 days behind 1970-01-01, since 54 years with 13 leap days have 19,723
days, and 31 + 29 + 4 days come behind them; 10:30:05 is 37,805 seconds into a day, and five hours are 18,000."""
import unittest
from datetime import date, datetime, timedelta, timezone
from unittest import mock

from support import Case, optional
from serving import ServeCase

import misteluk
from misteluk import Columns, Store, Units
from misteluk.values import dates, fields

SECOND, DAY = 10 ** 6, 86_400 * 10 ** 6
FIFTH = 19_787 * DAY
MORNING = FIFTH + 37_805 * SECOND
FIVE = timezone(timedelta(hours=5))
# Each date, and its microseconds since 1970.
DATES = (
    ("1970-01-01", 0), ("1970-01-01T00:00", 0), ("2024-03-05", FIFTH), ("2024-03-05T00:00", FIFTH),
    ("2024-02-29", FIFTH - 5 * DAY), ("2024-03-05 10:30", MORNING - 5 * SECOND), ("2024-03-05T10:30:05", MORNING),
    ("2024-03-05 10:30:05", MORNING), ("2024-03-05T10:30:05Z", MORNING), ("2024-03-05T10:30:05+00:00", MORNING),
    ("2024-03-05T10:30:05-00:00", MORNING), ("2024-03-05T10:30:05+05:00", MORNING - 18_000 * SECOND),
    ("2024-03-05 10:30:05-05:00", MORNING + 18_000 * SECOND), ("2024-03-05T10:30+05:00", MORNING - 18_005 * SECOND),
    ("2024-03-05T10:30:05-05:30", MORNING + 19_800 * SECOND), ("2024-03-05T10:30:05+23:59", MORNING - 86_340 * SECOND),
    ("2024-03-05+05:00", FIFTH - 18_000 * SECOND), ("2024-03-05-05:00", FIFTH + 18_000 * SECOND), ("2024-03-05Z", FIFTH),
    ("2024-03-05T10:30:05.5", MORNING + 500_000), ("2024-03-05T10:30:05,25Z", MORNING + 250_000),
    ("2024-03-05T10:30:05.000001", MORNING + 1), ("2024-03-05 10:30:05.123456000", MORNING + 123_456),
    ("2024-03-05T10:30:05.250+05:00", MORNING + 250_000 - 18_000 * SECOND), (" 2024-03-05 ", FIFTH),
    ("9999-12-31T23:59:59.999999", 253_402_300_800 * SECOND - 1))
NO_DATES = (
    "20240305", "2024-W10", "2024-W10-2", "2024W10", "2024-065", "2024-03", "2024", "2024-3-5", "24-03-05", "2024/03/05",
    "2024-03-05T10", "2024-03-05T1030", "2024-03-05T103000", "20240305T1030", "2024-03-05T10:30:5", "2024-03-05x10:30",
    "2024-03-05  10:30", "2024-03-05t10:30", "2024-03-05T10:30z", "2024-03-05T", "2024-03-05T24:00", "2024-03-05T10:60",
    "2024-03-05T10:30:60", "2024-03-05T10:30:05.", "2024-03-05T10:30.5", "2024-03-05T10:30+5", "2024-03-05T10:30+05",
    "2024-03-05T10:30+0500", "2024-03-05T10:30+24:00", "2024-03-05T10:30+05:60", "2024-03-05T10:30+05:00:30",
    "2024-03-05T10:30 +05:00", "2024-03-05 +05:00", "2024-03-05T10:30 UTC", "2023-02-29", "2024-13-01", "2024-00-10",
    "2024-04-31", "0000-01-01", "\u0662\u0660\u0662\u0664-03-05", "2024-03-05T1\u0660:30", "soon", "1709596800", "-1", "")
BEYOND = (("1969-12-31", "not before 1970"), ("1970-01-01+00:01", "not before 1970"), ("1970-01-01T00:00+00:01", "not before"),
          ("9999-12-31T23:59-00:01", "1970 to 9999"), ("9999-12-31T23:59:59-00:01", "1970 to 9999"),
          ("2024-03-05T10:30:05.0000001", "at most microseconds"), ("2024-03-05T10:30:05.123456001Z", "at most microseconds"))
REFUSED = (*NO_DATES, *(text for text, _ in BEYOND))
OF_ALL = Columns("source", "target", weight="weight", time="time")


def moment(text: str) -> datetime:
    """The date as a `datetime`, with the zone that it says: by its parts, so that no reader of Python's is asked."""
    zone = timezone.utc if text.endswith("Z") else None
    if text[-6] in "+-":
        offset = timedelta(hours=int(text[-5:-3]), minutes=int(text[-2:]))
        text, zone = text[:-6], timezone(-offset if text[-6] == "-" else offset)
    return datetime(*map(int, text[:10].split("-")), *map(int, text[11:19].split(":")), tzinfo=zone)


class Table(Case):
    """The tables beside the reader itself, also by its quick way."""

    def test_dates(self):
        for text, wanted in DATES:
            with self.subTest(text):
                self.assertEqual(dates.microseconds_of(text), wanted)
                quick = dates.all_microseconds([text, "2024-03-05"])
                is_plain = text == text.strip() and not set("Z.,+") & set(text) and text.count("-") == 2
                self.assertEqual(None if quick is None else list(quick), [wanted, FIFTH] if is_plain else None)

    def test_what_is_no_date(self):
        for text in REFUSED:
            with self.subTest(text):
                told = dict(BEYOND).get(text, "a time is a date here, as 2024-05-01 or 2024-05-01T12:00:00.250.02:00")
                self.assertRaisesRegex(ValueError, told, dates.microseconds_of, text)
                self.assertIsNone(dates.all_microseconds([text]))
        self.assertIsNone(dates.all_microseconds(["2024-03-05\n2024-03-06"]))

    def test_ends(self):
        """Of a window: a day's last microsecond, by the day's own zone; a moment is itself."""
        for text, wanted in (("2024-03-05", FIFTH + DAY - 1), ("2024-03-05Z", FIFTH + DAY - 1),
                             ("2024-03-05+05:00", FIFTH + DAY - 18_000 * SECOND - 1),
                             ("2024-03-05-05:00", FIFTH + DAY + 18_000 * SECOND - 1), ("2024-03-05T00:00", FIFTH),
                             ("2024-03-05T00:00+05:00", FIFTH - 18_000 * SECOND), ("1970-01-01+05:00", 68_400 * SECOND - 1),
                             ("9999-12-31", 253_402_300_800 * SECOND - 1)):
            self.assertEqual(dates.microseconds_of(text, is_end=True), wanted, text)
        self.assertRaisesRegex(ValueError, "1970 to 9999", dates.microseconds_of, "9999-12-31-05:00", is_end=True)


# Those with a time of day in whole seconds, or in minutes and a zone.
MOMENTS = [(moment(text), wanted) for text, wanted in DATES if len(text) > 18 and not set(".,") & set(text)]


class Dates(Case):
    def dated(self, **options) -> Store:
        return self.store(units=Units(times="iso"), **options)

    def must_be(self, wanted: int, store: Store, told: object) -> None:
        with store.open() as session:
            self.assertEqual(session.edges().recent.tolist(), [wanted], told)

    def must_take(self, way, values=DATES) -> None:
        """Whether a way in takes each of the values as its microseconds."""
        for value, wanted in values:
            store = self.dated()
            way(store, value)
            if store.pending:
                store.commit()
            self.must_be(wanted, store, value)

    def must_refuse(self, way, values=REFUSED) -> None:
        for value in values:
            store = self.dated()
            with self.assertRaises((misteluk.errors.BadTime, misteluk.BadRows), msg=repr(value)) as told:
                way(store, value)
            word = r"^BadTime" if isinstance(told.exception, misteluk.errors.BadTime) else r"BadTime: time"
            self.assertRegex(str(told.exception), word)
            self.assertEqual((store.pending, store.stat().edges), (0, 0), value)

    def both(self, way) -> None:
        self.must_take(way)
        self.must_refuse(way)

    def test_operations(self):
        self.both(lambda store, text: store.add("k", "a", "b", 1, text))
        self.both(lambda store, text: store.insert("Иван Петров", "a", "b", 1, text))  # (by the slow way)

    def test_an_expiry(self):
        """Of an edge of that moment, and of one a microsecond older: the older one alone goes."""
        for text, wanted in DATES[2:]:
            store = self.dated()
            for name, time in (("old", wanted - 1), ("new", wanted)):
                store.add("k", "a", name, 1, datetime(1970, 1, 1) + timedelta(microseconds=time))
            store.expire(text)
            self.assertEqual(store.commit().expired, 1, text)

    def test_rows_and_columns(self):
        self.both(lambda store, text: store.load([("a", "b", 1, text)], by="add"))
        self.both(lambda store, text: store.load([{"source": "a", "target": "b", "weight": 1, "time": text}], by="add",
                                                 columns=OF_ALL))
        self.both(lambda store, text: store.load({"source": ["a"], "target": ["b"], "weight": [1], "time": [text]}, by="add",
                                                 columns=OF_ALL))

    def test_beside_others(self):
        """The plain ones of a load are as they are where one of another form stands beside them."""
        for text, wanted in DATES:
            store = self.dated()
            store.load([("a", "b", 1, "2024-03-05"), ("a", "c", 1, text), ("a", "d", 1, "2024-03-05T10:30:05")], by="add")
            with store.open() as session:
                self.assertEqual(sorted(session.edges().recent.tolist()), sorted([FIFTH, wanted, MORNING]), text)

    def test_files(self):
        def load(store, text):
            path = self.room / "rows.csv"
            path.write_text(f"a;b;1;{text}\n", encoding="utf-8")
            store.load(path, by="add", columns=Columns(1, 2, weight=3, time=4), delimiter=";")
        self.both(load)
        if optional("numpy"):
            with mock.patch.object(fields, "MANY", 0):
                self.both(load)

    def test_files_of_another_form(self):
        """Behind a day that is written otherwise the time of day is of the one form, too."""
        def load(store, text):
            path = self.file("rows.csv", f"a;b;1;{text}\n")
            store.load(path, by="add", columns=Columns(1, 2, weight=3, time=4), delimiter=";", dates="dd.mm.yyyy")
        self.must_take(load, (("5.3.2024", FIFTH), ("05.03.2024 10:30:05", MORNING), ("05.03.2024T10:30:05+05:00",
                                                                                      MORNING - 18_000 * SECOND)))
        self.must_refuse(load, ("05.03.2024 10", "05.03.2024 1030", "05.03.2024 24:00", "05.03.2024 10:30 +05:00", "20240305"))

    def test_moments_of_python(self):
        """A `datetime` with and without a zone, in whole seconds and finer; a `date` is its day's beginning."""
        self.assertEqual(len(MOMENTS), 10)
        odd = timezone(-timedelta(minutes=44, seconds=30))
        values = [*MOMENTS, (datetime(2024, 3, 5, 10, 30, 5, 250_000, FIVE), MORNING + 250_000 - 18_000 * SECOND),
                  (datetime(2024, 3, 5, 10, 30, 5, tzinfo=odd), MORNING + 2_670 * SECOND), (date(2024, 3, 5), FIFTH)]
        self.must_take(lambda store, it: store.add("k", "a", "b", 1, it), values)
        self.must_take(lambda store, it: store.load([("a", "b", 1, it)], by="add"), values)

    @unittest.skipUnless(optional("numpy"), "numpy is not there")
    def test_arrays(self):
        import numpy

        def load(store, column):
            store.load({"source": ["a"], "target": ["b"], "weight": [1], "time": column}, by="add", columns=OF_ALL)
        self.both(lambda store, text: load(store, numpy.array([text])))
        self.both(lambda store, text: load(store, numpy.array([text], dtype=object)))
        for unit, wanted in (("D", FIFTH), ("h", FIFTH + 36_000 * SECOND), ("m", MORNING - 5 * SECOND), ("s", MORNING),
                             ("ms", MORNING), ("us", MORNING + 1), ("ns", MORNING + 1)):
            value = numpy.datetime64("2024-03-05T10:30:05" + (".000001" if unit in ("us", "ns") else ""), unit) \
                if unit not in "Dhm" else numpy.datetime64("2024-03-05T10:30", "m").astype(f"datetime64[{unit}]")
            self.must_take(lambda store, it: load(store, numpy.array([it])), [(value, wanted)])
            self.must_take(lambda store, it: store.add("k", "a", "b", 1, it), [(value, wanted)])
        for wrong in (numpy.datetime64("2024-03-05T10:30:05.000001001"), numpy.datetime64("2024-03"), numpy.datetime64("2024"),
                      numpy.datetime64("NaT")):
            self.must_refuse(lambda store, it: load(store, numpy.array([it])), [wrong])
            self.must_refuse(lambda store, it: store.add("k", "a", "b", 1, it), [wrong])

    @unittest.skipUnless(optional("pandas"), "pandas is not there")
    def test_frames(self):
        import pandas

        def load(store, column):
            frame = pandas.DataFrame({"source": ["a"], "target": ["b"], "weight": [1], "time": column})
            store.load(frame, by="add", columns=OF_ALL)
        self.both(lambda store, text: load(store, [text]))
        self.both(lambda store, text: load(store, pandas.array([text], dtype="string")))
        self.both(lambda store, text: load(store, pandas.Categorical([text])))
        stamps = [(pandas.Timestamp(it), wanted) for it, wanted in MOMENTS]
        stamps += [(pandas.Timestamp("2024-03-05T10:30:05.000001"), MORNING + 1),
                   (pandas.Timestamp("2024-07-05T10:30:05", tz="Europe/Berlin"), MORNING + 122 * DAY - 7_200 * SECOND)]
        self.must_take(lambda store, it: load(store, [it]), stamps)
        self.must_take(lambda store, it: store.add("k", "a", "b", 1, it), stamps)
        for wrong in (pandas.Timestamp("2024-03-05T10:30:05.000001001"), pandas.NaT):
            self.must_refuse(lambda store, it: load(store, [it]), [wrong])
            self.must_refuse(lambda store, it: store.add("k", "a", "b", 1, it), [wrong])

    def test_windows(self):
        """An edge at a window's last microsecond is in it, and one a microsecond later isn't; the same of its beginning."""
        until = [("2024-03-05", FIFTH + DAY - 1), ("2024-03-05+05:00", FIFTH + DAY - 18_000 * SECOND - 1),
                 ("2024-03-05T00:00", FIFTH), ("2024-03-05T10:30:05+05:00", MORNING - 18_000 * SECOND),
                 (date(2024, 3, 5), FIFTH + DAY - 1), (datetime(2024, 3, 5), FIFTH),
                 (datetime(2024, 3, 5, 10, 30, 5, tzinfo=FIVE), MORNING - 18_000 * SECOND)]
        numpy, pandas = optional("numpy"), optional("pandas")
        if numpy:
            until += [(numpy.datetime64("2024-03-05"), FIFTH + DAY - 1), (numpy.datetime64("2024-03-05T00", "h"), FIFTH)]
        until += [(pandas.Timestamp(2024, 3, 5), FIFTH)] if pandas else []
        for said, end in until:
            store = self.dated()
            for name, time in (("in", end), ("out", end + 1)):
                store.add("k", "a", name, 1, datetime(1970, 1, 1) + timedelta(microseconds=time))
            store.commit()
            session = store.open()
            self.assertEqual(sorted(session.successors("a", until=said)), ["in"], said)
            begin = said if "datetime" in type(said).__name__ or "T" in str(said) else None
            if begin is not None and end in (FIFTH, MORNING - 18_000 * SECOND):
                self.assertEqual(len(session.successors("a", since=begin)), 2, said)
        for wrong in ("20240305", "2024-W10", "2024-03-05T10", datetime(1969, 12, 31)):
            self.assertRaisesRegex(misteluk.errors.BadTime, "until '", session.degrees, until=wrong)


class Posts(ServeCase):
    def way(self, kind: str, target: str, text: str):
        if kind == "json":
            return self.post("/v1/rows", {"rows": [["add", "k", "a", target, 1, text]]})
        return self.ask("/v1/rows", "POST", f'add,k,a,{target},1,"{text}"\n'.encode(), Content_Type="text/csv")

    def test_dates(self):
        for way in ("json", "csv"):
            store = self.serve(units=Units(times="iso")).store
            for at, (text, wanted) in enumerate(DATES):
                self.assertEqual(self.way(way, f"t{at}", text).status, 200, text)
                with store.open() as session:
                    self.assertEqual(session.edges().recent.tolist()[-1], wanted, text)
            for text in REFUSED:
                told = self.way(way, "b", text)
                self.assertEqual((told.status, told.json["error"]), (400, "BadTime"), text)
            self.assertEqual(store.stat().edges, len(DATES))

    def test_a_zone_in_an_address(self):
        """There + is a space, so that a zone would be a time of day."""
        self.serve(units=Units(times="iso"))
        self.post("/v1/rows", {"rows": [["add", "k", "a", "b", 1, "2024-03-05T02:00"]]})
        for until, edges in (("2024-03-05T10:30%2B05:00", 1), ("2024-03-05%2B05:00", 1), ("2024-03-05+01%3A00", 0),
                             ("2024-03-04%2B01:00", 0)):
            self.assertEqual(sum(row[1] for row in self.rows_of(f"/v1/degrees?until={until}")), edges, until)
        found = self.ask("/v1/degrees?kind=k&until=2024-03-05+05:00")
        self.assertEqual(found.status, 400)
        self.assertIn("write %2B before a zone", found.json["reason"])


if __name__ == "__main__":
    unittest.main()
