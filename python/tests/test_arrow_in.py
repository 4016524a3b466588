"""Tables that give Arrow streams as feeds: each column is taken as a list of the same values is, with the same faults by row."""
import ctypes
import itertools
import random
import re
import unittest
from contextlib import contextmanager
from datetime import date, datetime, timedelta, timezone
from decimal import Decimal
from unittest import mock

import arrow_tables as arrow
from arrow_tables import Made
from support import Case, optional

from misteluk import Columns, Store, Units, survey
from misteluk.errors import FeedFault
from misteluk.feeds import objects, streams, surveys
from misteluk.values import given

numpy, ogr = optional("numpy"), optional("osgeo") and optional("osgeo.ogr") and __import__("osgeo.ogr").ogr
COLUMNS = Columns(kind="kind", weight="weight", time="time")
EPOCH = datetime(1970, 1, 1, tzinfo=timezone.utc)
NAMES = ("ana", "bob", "Иванов Пётр", "x" * 70, "", "a, b", "twelve bytes", "thirteen byte")


@contextmanager
def way(is_fast):
    """Has rows taken at once, a few times 4, or as texts."""
    with mock.patch.object(given, "numpy_for", lambda *_: numpy if is_fast else None), \
            mock.patch.object(objects, "GIVEN_AT_ONCE", 8), mock.patch.object(surveys, "ROWS_AT_ONCE", 4):
        yield


def some_texts(made, count):
    values = [made.choice(NAMES[:made.choice((4, 4, 8))]) for _ in range(count)]
    return made.choice((values, values, [made.choice((it, it, it, None)) for it in values]))


def text_column(made, count):
    values = some_texts(made, count)
    return made.choice((lambda: arrow.texts("u", values), lambda: arrow.texts("U", values), lambda: arrow.views(values),
                        lambda: arrow.dictionary(made.choice("cCsSiIlL"), values),
                        lambda: arrow.dictionary("i", values, has_gaps=True)))()


def some_weights(made, count):
    """A column of weights, and the list that stands for it."""
    form = made.choice("cCsSiIlLfgd")
    if form == "d":
        values = [Decimal(made.randrange(-10 ** 6, 10 ** 6)).scaleb(-2) for _ in range(count)]
        return arrow.decimals(38, 2, made.choice((32, 64, 128, 256)), values), values
    least = 0 if form.isupper() else -100
    values = [made.randrange(least, 100) / made.choice((1, 1, 4)) if form in "fg" else made.randrange(least, 100)
              for _ in range(count)]
    values = made.choice((values, values, [made.choice((it, it, None)) for it in values]))
    return arrow.numbers(form, values), values


def plain(found, name):
    """What a survey found, without the feed's name."""
    faults = [re.sub(rf"^{name}:", "", str(it)) for it in found.faults]
    return found.rows, found.bad, found.vertices, found.kinds, found.fault_counts, faults


class Forms(Case):
    def both(self, table, values, units=None, columns=COLUMNS):
        """A table's survey is that of lists, taken at once and as texts, and so is what is loaded; and all was released."""
        for is_fast in (False, True) if numpy else (False,):
            with way(is_fast):
                found, wanted = (survey(it, by="add", columns=columns, units=units) for it in (table, values))
            self.assertEqual(plain(found, "table"), plain(wanted, "columns"))
            self.assertEqual([it.columns[:6] for it in found.parts], [it.columns[:6] for it in wanted.parts])
            self.assertEqual(table.left, 0)

    def test_any(self):
        made = random.Random(23)
        for _ in range(60):
            count = made.choice((1, 5, 40))
            columns = {it: text_column(made, count) for it in ("source", "target", "kind")}
            columns["weight"], weights = some_weights(made, count)
            times = [made.randrange(100) for _ in range(count)]
            columns["time"] = arrow.numbers(made.choice("lLg"), times)
            values = {name: list(it.values) for name, it in columns.items()}
            values["weight"] = weights
            table = Made(columns, batch=made.choice((1, 3, 100)), before=made.choice((0, 0, 1, 9)))
            self.both(table, values, made.choice((None, Units(100))))

    def dated(self, column, values):
        count = len(values)
        ends = {"source": arrow.texts("u", ["a"] * count), "target": arrow.texts("u", [f"b{it}" for it in range(count)])}
        table = Made({**ends, "kind": arrow.texts("u", ["k"] * count), "weight": arrow.numbers("i", [1] * count), "time": column},
                     before=2)
        lists = {name: list(it.values) for name, it in table.columns.items()}
        self.both(table, {**lists, "time": values}, Units(times="iso"))
        found = survey(table, by="add", columns=COLUMNS, units=Units(times="iso"))
        return [int(it) for part in found.parts for it in part.columns.times], texts_of(found)

    def test_moments(self):
        """Of each unit, with a zone and without; a day; before 1970, and in years that no date has."""
        wanted = [EPOCH + timedelta(seconds=it) for it in (0, 86_400, 1_709_553_600, 253_402_300_799)]
        for form, scale in (("s", 1), ("m", 10 ** 3), ("u", 10 ** 6), ("n", 10 ** 9)):
            for zone in ("", "UTC", "Europe/Berlin", "+05:30"):
                values = [int(it.timestamp()) * scale for it in wanted if form != "n" or it.year < 2200]
                times, faults = self.dated(arrow.numbers(f"ts{form}:{zone}", [*values, None]), [*wanted[:len(values)], None])
                self.assertEqual(times, [it * 10 ** 6 // scale for it in values])
                self.assertEqual(faults, ["time"])
        days = [0, 1, 19_787, 2_932_896, None]
        told = [None if it is None else date(1970, 1, 1) + timedelta(days=it) for it in days]
        for column in (arrow.numbers("tdD", days), arrow.numbers("tdm", [it and it * 86_400_000 for it in days])):
            self.assertEqual(self.dated(column, told), ([it * 86_400 * 10 ** 6 for it in days[:4]], ["time"]))
        early = EPOCH - timedelta(seconds=1)
        self.assertEqual(self.dated(arrow.numbers("tss:UTC", [-1, 5]), [early, EPOCH + timedelta(seconds=5)])[1],
                         ["a date is not before 1970"])
        for far in (10 ** 12, -10 ** 12, 1 << 62):
            _, faults = self.dated(arrow.numbers("tss:", [far]), [f"{far} seconds since 1970"])
            self.assertEqual(len(faults), 1)

    def test_nanoseconds(self):
        """A thousand are a microsecond; what is left over is refused, and isn't cut off."""
        times, faults = self.dated(arrow.numbers("tsn:UTC", [1_000, 1_709_553_600_000_001_000]),
                                   [EPOCH + timedelta(microseconds=1), EPOCH + timedelta(seconds=1_709_553_600, microseconds=1)])
        self.assertEqual((times, faults), ([1, 1_709_553_600_000_001], []))
        _, faults = self.dated(arrow.numbers("tsn:", [1_000, 1_709_553_600_000_000_001]),
                               [EPOCH + timedelta(microseconds=1), "2024-03-04 12:00:00.000000001"])
        self.assertEqual(faults, ["a date has at most microseconds, and what is beyond them would be cut off"])

    def weighed(self, column, units):
        """The weights that are taken, and the reasons against others."""
        ends = {it: arrow.texts("u", [f"{it}{at}" for at in range(len(column.values))]) for it in ("source", "target")}
        found = survey(Made({**ends, "amount": column}), by="add", columns=Columns(weight="amount"), units=units)
        return [it for part in found.parts for it in part.columns.weights], texts_of(found)

    def test_weights(self):
        cents = Units(100)
        self.assertEqual(self.weighed(arrow.numbers("f", [0.1, 2.5, -0.07]), cents), ([10, 250, -7], []))
        self.assertEqual(self.weighed(arrow.numbers("g", [0.1, 2.5, 0.125]), cents)[0], [10, 250])
        self.assertEqual(self.weighed(arrow.numbers("L", [1, (1 << 64) - 1]), cents)[0], [100])
        self.assertEqual(self.weighed(arrow.decimals(76, 30, 256, [Decimal("1.5"), Decimal("-0.010")]), cents), ([150, -1], []))
        exact = Decimal("1.000000000000000000000000000001")
        self.assertEqual(self.weighed(arrow.decimals(76, 30, 256, [exact]), cents)[0], [])
        self.assertEqual(self.weighed(arrow.numbers("l", [100, 250, None], parts_of_one("100")), cents)[0], [100, 250])
        self.assertEqual(self.weighed(arrow.numbers("l", [100, 250], parts_of_one("100")), Units(1_000))[0], [1_000, 2_500])
        self.assertEqual(self.weighed(arrow.numbers("l", [100, 250], parts_of_one("100")), Units())[0], [1])

    def test_columns(self):
        """Those that nobody wants may be of any type; one that is wanted is refused by its name."""
        columns = {"from": arrow.texts("u", ["a", "b"]), "to": arrow.views(["a", "b"]),
            "shape": arrow.Column("z", lambda some: arrow.Part([None, b"", b""]), ["", ""]),
            "gone": arrow.Column("n", lambda some: arrow.Part([]), [None, None])}
        with Store() as store:
            self.assertEqual(store.load(Made(columns), by="add", columns=Columns("from", "to")).survey.rows, 2)
            self.assertEqual(store.load(Made(columns), by="add", columns=Columns(1, 2)).survey.rows, 2)
            for wanted, told in ((Columns("from", "shape"), "table: the column 'shape' is of Arrow's type 'z'"),
                                 (Columns("from", "there"), "table: no column 'there'"),
                                 (Columns(1, 5), "table:1: 4 fields, where the columns need 5")):
                table = Made(columns)
                self.refused(FeedFault, told, lambda table=table, wanted=wanted: store.load(table, by="add", columns=wanted))
                self.assertEqual(table.left, 0)
            found = survey(Made(columns), by="add", columns=Columns("from", "gone"))
            self.assertEqual((found.bad, found.fault_counts), (2, {"BadName target": 2}))
            self.assertEqual(store.load(Made({it: arrow.texts("u", []) for it in ("source", "target")}), by="add").survey.rows, 0)

    def test_streams_that_fail(self):
        ends = {it: arrow.texts("u", list("abcde")) for it in ("source", "target")}
        for how, told in (({"fails": 1}, "table: the stream fails by 28: the disk is full"),
                          ({"gaps": True}, "table: the stream has rows that aren't there"),
                          ({"form": "u"}, "table: a stream of Arrow's type 'u'"),
                          ({"name": b"arrow_schema"}, "table: Made.__arrow_c_stream__ gives no stream")):
            table = Made(ends, batch=2, **how)
            with Store() as store:
                self.refused(FeedFault, told, lambda table=table, store=store: store.load(table, by="add"))
                self.assertEqual(store.stat().vertices, 0)
            self.assertEqual(table.left, 1 if "name" in how else 0)  # (a stream that nobody could take)
        again = mock.Mock(spec=["__arrow_c_stream__"], __arrow_c_stream__=mock.Mock(return_value=Made(ends).__arrow_c_stream__()))
        survey(again, by="add")
        self.refused(FeedFault, "table: the stream was read already", lambda: survey(again, by="add"))
        self.refused(FeedFault, "table: no column 'source'", lambda: survey(Made({}), by="add"))


def texts_of(found):
    """The reasons of faults; of a missing value its field."""
    return [it.field if not it.fault.value else it.reason for it in found.faults]


def parts_of_one(scale):
    """Metadata that says how many parts make 1."""
    key, value = b"misteluk.weight_scale", scale.encode()
    size = lambda it: len(it).to_bytes(4, "little")  # noqa: E731
    return (1).to_bytes(4, "little") + size(key) + key + size(value) + value


class Edges(Case):
    def test_there_and_back(self):
        """Edges of a store load into another one, with their weights and dates, whatever parts it counts."""
        units = Units(100, "iso")
        with Store(units=units) as store:
            store.load([("ana", "Иванов", "0.05", "2024-03-04T12:00:00.250", "k"), ("bob", "ana", -7, "2024-03-05", "über")],
                       by="add", columns=Columns(1, 2, 5, 3, 4))
            with store.open() as session:
                wanted, table = sorted(session.edges()), session.edges()
                for other in (units, Units(1_000, "iso")):
                    with Store(units=other) as copy:
                        copy.load(table, by="set", columns=Columns(kind="kind", weight="weight", time="recent"))
                        self.assertEqual([(*ends, *edge) for *ends, edge in sorted(copy.open().edges())],
                                         [(*ends, *edge) for *ends, edge in wanted])


@unittest.skipUnless(ogr, "GDAL's Python isn't there")
class Gdal(Case):
    def test_a_layer(self):
        """GDAL's own streams, in batches of 1, 2 and 100 rows."""
        from osgeo import ogr
        ogr.UseExceptions()
        source = ogr.GetDriverByName("Memory").CreateDataSource("x")
        layer = source.CreateLayer("transfers", geom_type=ogr.wkbNone)
        for name, kind in (("from", ogr.OFTString), ("to", ogr.OFTString), ("amount", ogr.OFTInteger64), ("share", ogr.OFTReal),
                           ("small", ogr.OFTInteger), ("day", ogr.OFTDate), ("at", ogr.OFTDateTime)):
            layer.CreateField(ogr.FieldDefn(name, kind))
        moments = ["2024/03/04 12:00:00", None, "2024/03/05 00:00:00", "2024/03/06 01:02:03"]
        for row in zip(("ana", "bob", "Иванов", "ana"), ("bob", "ана", "x" * 70, "ana"), (5, 7, 1 << 39, None),
                       (0.5, 1.5, -1.0, 2.25), (1, -2, None, 4), ("2024/03/04", "1970/01/01", "2024/03/05", None), moments):
            feature = ogr.Feature(layer.GetLayerDefn())
            for at, it in enumerate(row):
                feature.SetFieldNull(at) if it is None else feature.SetField(at, it)
            layer.CreateFeature(feature)
        for batch in (1, 2, 100):
            def read(*ends, batch=batch, **others):
                return streams.read(OfLayer(layer, batch), Columns(*ends, **others))[1].values()
            names, others, shares = read("from", "to", weight="share")
            self.assertEqual((names, others), (["ana", "bob", "Иванов", "ana"], ["bob", "ана", "x" * 70, "ana"]))
            self.assertEqual(shares, [0.5, 1.5, -1.0, 2.25])
            self.assertEqual(list(read("from", "amount", weight="small"))[1:], [[5, 7, 1 << 39, None], [1, -2, None, 4]])
            days, times = itertools.islice(read("from", "day", time="at"), 1, None)
            self.assertEqual([it and str(it)[:10] for it in days], ["2024-03-04", "1970-01-01", "2024-03-05", None])
            self.assertEqual([it and str(it)[:19].replace("-", "/") for it in times], moments)
            with Store(units=Units(100)) as store:
                loaded = store.load(OfLayer(layer, batch), by="add", columns=Columns("from", "to", weight="share"))
                self.assertEqual((loaded.survey.rows, store.open().edge("link", "bob", "ана").weight), (4, Decimal("1.5")))


class OfLayer:
    """A layer of GDAL, which has `__arrow_c_stream__` itself in later releases."""

    def __init__(self, layer, batch):
        self.layer, self.batch = layer, batch

    def __arrow_c_stream__(self, requested_schema=None):
        with open("/proc/self/maps", encoding="utf-8") as file:
            path = next(line.split()[-1] for line in file if "libgdal.so" in line)
        call = ctypes.CDLL(path).OGR_L_GetArrowStream
        call.argtypes, call.restype = (ctypes.c_void_p,) * 3, ctypes.c_bool
        self.stream = (ctypes.c_void_p * 5)()
        options = (ctypes.c_char_p * 3)(f"MAX_FEATURES_IN_BATCH={self.batch}".encode(), b"INCLUDE_FID=NO", None)
        if not call(int(self.layer.this), ctypes.addressof(self.stream), options):
            raise AssertionError("GDAL gives no stream")
        return arrow.capsule_of(ctypes.addressof(self.stream), arrow.STREAM, None)


if __name__ == "__main__":
    unittest.main()
