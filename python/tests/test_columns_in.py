"""Columns of values that are taken at once hold what they hold where each value is a text of its own: rows, faults and counts."""
import random
import unittest
from contextlib import contextmanager
from datetime import datetime, timedelta, timezone
from decimal import Decimal
from unittest import mock

from support import Case, optional

import misteluk
from misteluk import Columns, Units, survey
from misteluk.feeds import objects, surveys
from misteluk.values import given, units

numpy, pandas = optional("numpy"), optional("pandas")
COLUMNS = Columns("source", "target", kind="kind", weight="weight", time="time")
UNITS = ({}, *({"units": it} for it in (
    Units(100), Units(100, rounding="half-even"), Units(rounding="half-even"), Units(8), Units(times="iso"),
    Units(1_000, "iso", rounding="half-even"))))
ROWS, DAY = 60, timedelta(days=1)
WORDS = ("ana", "bob", "c,d", "Ж ж", "x" * 65, "~~" + "A" * 20, "e f")
MOMENTS = [datetime(1970, 1, 1), datetime(2024, 3, 5, 12, 30), datetime(2024, 3, 5, 23, 59, 59, 250_000), datetime(2100, 1, 1)]
ZONE = timezone(timedelta(hours=5, minutes=30))


@contextmanager
def way(is_fast):
    """Has rows taken at once, a few times 16, or as texts."""
    with mock.patch.object(given, "numpy_for", lambda *_: numpy if is_fast else None), \
            mock.patch.object(objects, "GIVEN_AT_ONCE", 48), mock.patch.object(surveys, "ROWS_AT_ONCE", 16):
        yield


def texts(made):
    return [made.choice(WORDS[:made.choice((3, 3, 7))]) for _ in range(ROWS)]


def whole_numbers(made):
    least, most = made.choice(((0, 40), (-5, 5), (10 ** 6, 10 ** 6 + 90), (0, 2 ** 62), (2 ** 40 - 2, 2 ** 40 + 1)))
    return [made.randint(least, most) for _ in range(ROWS)]


def amounts(made):
    """Floats: with two or three decimals, halves of a hundredth, and such as are no decimal number of few."""
    form = made.choice((lambda: made.randrange(-900, 900) / 100, lambda: made.randrange(-9000, 9000) / 1000,
                        lambda: (2 * made.randrange(90_000) + 1) / 200, lambda: float(made.randrange(50)), lambda: made.random(),
                        lambda: made.choice((-0.0, 1e-320, 1e12, 1.1e12, 2.0 ** 40, 1e300, 0.1 + 0.2))))
    return [form() for _ in range(ROWS)]


def of_lists(made, values):
    """Values as a list, now and then with one that is none, or is another thing."""
    values = list(values)
    for _ in range(made.choice((0, 0, 1, 3))):
        values[made.randrange(ROWS)] = made.choice((None, float("nan"), "", "nobody", 7, 2.5, Decimal("0.5"), "-", MOMENTS[1]))
    return values


def decimals(made):
    found = [Decimal(made.randrange(-9000, 9000)).scaleb(-made.choice((0, 1, 2, 2, 2, 3))) for _ in range(ROWS)]
    if made.random() < 0.3:
        found[made.randrange(ROWS)] = Decimal(made.choice(("NaN", "Infinity", "1E+3", "1E-500", "0E-500", "1E+500", "12.5E-1",
                                                          "0." + "3" * 80, "1099511627776", "1099511627776.01", "sNaN")))
    return found


def moments(made):
    found = [made.choice(MOMENTS) + made.randrange(3) * DAY for _ in range(ROWS)]
    return [it.replace(tzinfo=made.choice((None, timezone.utc))) for it in found] if made.random() < 0.5 else found


def dates_of_numpy(made):
    unit = made.choice(("D", "h", "m", "s", "ms", "us", "ns", "M"))
    found = numpy.array(moments_of(made), dtype="datetime64[us]").astype(f"datetime64[{unit}]")
    if made.random() < 0.3:
        found[made.randrange(ROWS)] = made.choice((numpy.datetime64("NaT"), numpy.datetime64("1960-01-01T00:00")))
    if unit == "ns" and made.random() < 0.5:
        found[made.randrange(ROWS)] += numpy.timedelta64(1, "ns")
    return found


def moments_of(made):
    return [made.choice(MOMENTS) + made.randrange(3) * DAY for _ in range(ROWS)]


def any_column(made, form=None):
    """A column of this form, or of any."""
    form = made.randrange(17) if form is None else form
    if form < 4:
        return of_lists(made, made.choice((texts, whole_numbers, amounts, decimals))(made))
    if form == 4:
        return numpy.array(texts(made))
    if form == 5:
        return numpy.array(whole_numbers(made)).astype(made.choice(("i8", "u8", "i4", "u1")))
    if form == 6:
        with numpy.errstate(over="ignore"):
            return numpy.array(amounts(made)).astype(made.choice(("f8", "f8", "f4")))
    if form == 7:
        return pandas.Series(of_lists(made, texts(made)), dtype="category")
    if form == 8:
        return pandas.Series(of_lists(made, texts(made)))
    if form == 9:
        return pandas.Series([it if made.random() < 0.99 else pandas.NA for it in texts(made)], dtype="string")
    if form == 10:
        return pandas.Series([it % 2 ** 62 if made.random() < 0.99 else pandas.NA for it in whole_numbers(made)], dtype="Int64")
    if form == 11:
        return of_lists(made, moments(made))
    if form == 12:
        return of_lists(made, [it.date() for it in moments_of(made)])
    if form == 13:
        return dates_of_numpy(made)
    if form == 14:
        return pandas.Series(numpy.array(moments_of(made), dtype="datetime64[ns]"))
    if form == 15:
        return pandas.Series(moments_of(made)).dt.tz_localize(made.choice((timezone.utc, ZONE)))
    return numpy.array([made.random() < 0.5 for _ in range(ROWS)])


def right_table(made, has_dates):
    """A table whose rows are all right."""
    names = [made.choice("abc") for _ in range(ROWS)]
    found = {it: made.choice((names, numpy.array(names), numpy.arange(ROWS) % 7, pandas.Series(names, dtype="category")))
             for it in ("source", "target", "kind")}
    weights = [made.randrange(-9, 9) for _ in range(ROWS)]
    found["weight"] = made.choice((weights, numpy.array(weights, dtype="f8"), list(map(Decimal, weights)),
                                   list(map(str, weights))))
    found["time"] = made.choice((moments_of(made), numpy.array(moments_of(made), dtype="datetime64[ms]"))) if has_dates else \
        made.choice(([made.randrange(9) for _ in range(ROWS)], numpy.arange(ROWS, dtype="f8")))
    return found


def table(made):
    """A table whose columns are mostly of the forms that are right there."""
    found = {it: numpy.array((whole_numbers if made.random() < 0.3 else texts)(made)) for it in ("source", "target")}
    found["kind"] = made.choice((["k"] * ROWS, [made.choice("kl") for _ in range(ROWS)],
                                 pandas.Series(["m"] * ROWS, dtype="category")))
    found["weight"] = made.choice((whole_numbers, amounts, decimals))(made)
    found["time"] = made.choice((lambda: [made.randrange(99) for _ in range(ROWS)], lambda: dates_of_numpy(made),
                                 lambda: moments(made)))()
    for _ in range(made.choice((0, 1, 2))):
        found[made.choice(list(found))] = any_column(made)
    if made.random() < 0.4:
        return pandas.DataFrame({name: getattr(it, "array", it) for name, it in found.items()},
                                index=[f"row {it}" for it in range(ROWS)] if made.random() < 0.5 else None)
    return found


def told(call):
    """What a survey holds, or what is raised."""
    try:
        found = call()
    except (misteluk.StoreError, ValueError) as fault:
        return f"{type(fault).__name__}: {fault}"
    rows = [row for part in found.parts for row in part.columns.rows()]
    faults = [(str(it), it.advice, it.place, it.fault) for it in found.faults]
    return (rows, [line for part in found.parts for line in part.lines], found.rows, found.vertices, found.kinds, found.bad,
            faults,
            found.fault_counts, found.last_bad, found.edges)


@unittest.skipUnless(numpy and pandas, "numpy and pandas are not there")
class Tables(Case):
    def both(self, data, **options):
        """What both ways tell, and what they write of rows that are skipped."""
        found = []
        for is_fast in (False, True):
            path = self.room / f"rejects{len(list(self.room.iterdir()))}.csv"
            with way(is_fast):
                found.append((told(lambda path=path: survey(data, by="add", batch=23, columns=COLUMNS, rejects=path,
                                                             progress=False, **options)), path.read_text()))
        return found

    def test_random_tables(self):
        """Numbers, texts, dates and other things, in arrays, lists, frames and categoricals, with rows that are bad."""
        counts = {"right": 0, "bad": 0, "raised": 0}
        for seed in range(90):
            made = random.Random(seed)
            options = made.choice(UNITS)
            data = table(made) if seed % 3 else right_table(made, options.get("units", misteluk.Units()).has_dates)
            plain, fast = self.both(data, **options)
            self.assertEqual(fast, plain, (seed, options))
            counts["raised" if isinstance(plain[0], str) else "bad" if plain[0][5] else "right"] += 1
        self.assertGreater(min(counts["right"], counts["bad"]), 29, counts)

    def test_each_form_in_each_place(self):
        made = random.Random(5)
        for place in ("source", "kind", "weight", "time"):
            for at in range(17):
                made.seed(at)
                data = {"source": ["a"] * ROWS, "target": numpy.arange(ROWS), "kind": ["k"] * ROWS, "weight": [1] * ROWS,
                        "time": numpy.zeros(ROWS, dtype="i8"), place: any_column(made, at)}
                plain, fast = self.both(data, **UNITS[at % len(UNITS)])
                self.assertEqual(fast, plain, (place, at))

    def test_dates_of_each_unit(self):
        """With one that is none, is before 1970, ends a year that no date has, or is finer than a microsecond."""
        whole = numpy.array(["2024-03-05T00:00"] * ROWS, dtype="datetime64[us]")
        for unit in ("D", "h", "m", "s", "ms", "us", "ns", "M", "25s"):
            for strange in (None, "NaT", "1969-12-31", "2262-04-11" if unit == "ns" else "9999-12-31",
                            "2262-04-11" if unit == "ns" else "10000-01-01", 1):
                dates = whole.astype(f"datetime64[{unit}]")
                if strange == 1:
                    dates[3] += 1
                elif strange:
                    dates[3] = numpy.datetime64(strange)
                data = {"source": ["a"] * ROWS, "target": ["b"] * ROWS, "kind": ["k"] * ROWS, "weight": [1] * ROWS, "time": dates}
                for options in ({}, {"units": Units(times="iso")}):
                    plain, fast = self.both(data, **options)
                    self.assertEqual(fast, plain, (unit, strange, options))

    def test_categoricals_in_which_values_are_missing(self):
        """Such a row is bad, and no category stands for it; one that no row has is no name."""
        for place in ("source", "kind"):
            for missing in ((), (3,), (0, 20, 59)):
                values = pandas.Series([None if it in missing else "ab"[it % 2] for it in range(ROWS)])
                column = values.astype(pandas.CategoricalDtype(["z", "b", "a", "last"]))
                data = {"source": ["s"] * ROWS, "target": ["t"] * ROWS, "kind": ["k"] * ROWS, "weight": [1] * ROWS,
                        "time": [0] * ROWS, place: column}
                plain, fast = self.both(data)
                self.assertEqual(fast, plain, (place, missing))
                self.assertEqual((fast[0][3], fast[0][5]), (3 if place == "source" else 2, len(missing)))

    def test_they_are_taken_at_once(self):
        """No text is made of rows that are right: only of each name."""
        count, asked = 3_000, []
        targets = pandas.Series([f"t{it % 9}" for it in range(count)], dtype="category")
        data = {"source": numpy.arange(count) % 70, "target": targets,
                "kind": ["k"] * count, "weight": numpy.arange(count) / 100,
                "time": numpy.arange(count).astype("datetime64[s]")}
        with mock.patch.object(objects, "texts_of", lambda *it, real=objects.texts_of: (asked.append(len(it[0])), real(*it))[1]):
            found = survey(data, by="add", columns=COLUMNS, units=Units(weight_scale=100, times="iso"), progress=False)
        self.assertEqual((found.rows, found.bad, found.vertices, asked), (count, 0, 79, [9]))

    def test_amounts_are_what_they_are_printed_as(self):
        """Each float that is taken at once has the parts that its text has; those near a half are rounded by it."""
        made = random.Random(9)
        values = [*(made.randrange(10 ** 7) / 1000 for _ in range(2_000)), *((2 * it + 1) / 200 for it in range(2_000)),
                  *((made.getrandbits(40) * 2 + 1) / made.choice((20, 200, 2_000)) for _ in range(1_000)),
                  *(made.uniform(-9e9, 9e9) for _ in range(1_000)), 1.005, 2.675, 0.145, -1.015, 1.015]
        count = 0
        for of in (units.Units(100, rounding="half-even"), units.Units(10, rounding="half-even"),
                   units.Units(rounding="half-even"), units.Units(1_000), units.Units(100)):
            column = given.Floats(numpy, numpy.array(values), lambda some, _: list(map(repr, some.tolist())), numpy.array(values))
            wanted = of._weights_of(list(map(repr, values)))
            for at in range(0, len(values), 4):
                found = column.weights(slice(at, at + 4), of)
                count += found is not None
                self.assertEqual(wanted[at:at + 4] if found is None else found.tolist(), wanted[at:at + 4], (values[at], of))
        self.assertGreater(count, 3_000)


if __name__ == "__main__":
    unittest.main()
