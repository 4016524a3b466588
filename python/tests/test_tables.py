"""Plain rows of values, each worked out by hand: lengths of time, parts of weights, ties, and what a difference sees."""
import gzip
from dataclasses import replace
import unittest
from datetime import timedelta
from decimal import Decimal
from itertools import chain
from unittest import mock

from support import Case, optional

from misteluk import Columns, Edge
from misteluk.errors import PoolEmpty
from misteluk.feeds import limits
from misteluk.feeds.loading import Loaded
from misteluk.feeds.opening import form_of
from misteluk.feeds.spans import kept_time, seconds_of, span
from misteluk.values.answers import Commit
from misteluk.values.diff import places_at_once, places_of
from misteluk.values.units import Units

numpy = optional("numpy")
# Each length of time, and its microseconds.
SPANS = (("0s", 0), ("1ms", 1_000), ("0.5ms", 500), ("500ms", 500_000), ("1s", 1_000_000), ("1.5s", 1_500_000),
         ("0.000001s", 1), ("6s", 6_000_000), ("1m", 60_000_000), ("10m", 600_000_000), ("0.5m", 30_000_000),
         ("1h", 3_600_000_000), ("1.5h", 5_400_000_000), ("12h", 43_200_000_000), ("24h", 86_400_000_000),
         ("1d", 86_400_000_000), ("14d", 1_209_600_000_000), ("0.25d", 21_600_000_000), ("1w", 604_800_000_000),
         ("2w", 1_209_600_000_000))
NO_SPANS = ("", "1", "s", "m", "1x", "1M", "1S", "1min", "1 s", " 1s", "-1s", "+1s", "1e3s", "1.s", ".5s", "1,5s", "1s1m",
            "\u0661s", "0.0005ms", "0.0000001s", "999999999999w")
# By scale, parts of a weight and the number that they are.
PARTS = {100: ((-1, "-0.01"), (1, "0.01"), (-5, "-0.05"), (-10, "-0.10"), (-99, "-0.99"), (-100, "-1.00"), (-101, "-1.01"),
               (-12_345, "-123.45"), (0, "0.00"), (9, "0.09"), (10, "0.10"), (100, "1.00"), (12_345, "123.45"),
               (1 << 40, "10995116277.76"), (-(1 << 40), "-10995116277.76")),
         10: ((-1, "-0.1"), (1, "0.1"), (-9, "-0.9"), (-10, "-1.0"), (-11, "-1.1"), (105, "10.5")),
         1000: ((-1, "-0.001"), (-10, "-0.010"), (-999, "-0.999"), (-1_001, "-1.001"), (1_234, "1.234")),
         8: ((-1, "-0.125"), (1, "0.125"), (-3, "-0.375"), (-8, "-1.000"), (-9, "-1.125"), (15, "1.875")),
         1: ((-1, "-1"), (0, "0"), (7, "7"))}
# By scale, numbers and the parts that they are rounded to: of two equally near ones the even one.
HALVES = {100: (("0.005", 0), ("0.015", 2), ("0.025", 2), ("0.035", 4), ("0.985", 98), ("0.995", 100), ("1.005", 100),
                ("1.015", 102), ("0.0049", 0), ("0.0051", 1), ("0.0149", 1), ("0.0151", 2), ("0.014", 1), ("0.016", 2)),
          10: (("0.05", 0), ("0.15", 2), ("0.25", 2), ("0.35", 4), ("0.249", 2), ("0.251", 3)),
          8: (("0.0625", 0), ("0.1875", 2), ("0.3125", 2), ("0.4375", 4), ("0.1", 1), ("0.2", 2)),
          1: (("0.5", 0), ("1.5", 2), ("2.5", 2), ("3.5", 4), ("0.49", 0), ("0.51", 1), ("1.49", 1), ("2.51", 3))}


class Spans(unittest.TestCase):
    def test_lengths(self):
        for text, micros in SPANS:
            self.assertEqual(span(text), timedelta(microseconds=micros), text)
            self.assertAlmostEqual(seconds_of(text) * 10 ** 6, micros, 3, text)
            self.assertEqual(kept_time(text, Units(times="iso")), micros, text)

    def test_what_is_no_length(self):
        for text in NO_SPANS:
            self.assertRaises(ValueError, span, text)
            self.assertRaises(ValueError, kept_time, text, Units(times="iso"))

    def test_seconds(self):
        for said, seconds in ((2, 2), ("2", 2), ("2.5", 2.5), (0.25, 0.25), (timedelta(milliseconds=250), 0.25), (0, 0),
                              (timedelta(minutes=1), 60)):
            self.assertEqual(seconds_of(said), seconds, said)
        for wrong in (-1, "-1", 1e9, float("nan"), float("inf"), timedelta(seconds=-1), "2x", ""):
            self.assertRaises(ValueError, seconds_of, wrong)

    def test_what_is_kept(self):
        """In the times' own unit: microseconds of dates, and else a whole number."""
        for keep, units, wanted in ((None, Units(), None), (5, Units(), 5), ("5", Units(), 5), (5.0, Units(), 5), (0, Units(), 0),
                                    (timedelta(days=1), Units(times="iso"), 86_400_000_000)):
            self.assertEqual(kept_time(keep, units), wanted, keep)
        for keep, units in ((5.5, Units()), ("5.5", Units()), (-1, Units()), (float("nan"), Units()), ("1d", Units()),
                            (timedelta(days=1), Units()), (5, Units(times="iso")), ("5", Units(times="iso")),
                            (timedelta(days=-1), Units(times="iso"))):
            self.assertRaises(ValueError, kept_time, keep, units)


class Parts(Case):
    def test_to_the_user(self):
        """Each part as it is written, its sign before a zero too."""
        for scale, rows in PARTS.items():
            units = Units(scale)
            for parts, text in rows:
                self.assertEqual(str(units._weight_to_user(parts)), text)
                if scale > 1:
                    self.assertEqual(str(replace(units, decimals="float")._weight_to_user(parts)), str(float(text)))
            column = [parts for parts, _ in rows]
            self.assertEqual(list(map(str, units._all_weights_to_user(column))), [text for _, text in rows])

    def test_to_the_program(self):
        """Alone, and many at once, by the quick way and by the slow one, which one of another form makes all take."""
        for scale, rows in PARTS.items():
            units, texts, column = Units(scale), [text for _, text in rows], [parts for parts, _ in rows]
            self.assertEqual([int(units._weight_to_program(it)) for it in texts], column)
            self.assertEqual(list(units._weights_of(texts)), column)
            self.assertEqual(list(units._weights_of([*texts, "x"])), [*column, None])

    def test_answers(self):
        store = self.store(units=Units(weight_scale=100))
        rows = [(parts, text) for parts, text in PARTS[100] if parts]
        for at, (_, text) in enumerate(rows):
            store.insert("k", f"s{at}", "t", text)
        store.commit()
        with store.open() as session:
            for at, (parts, text) in enumerate(rows):
                self.assertEqual(str(session.edge("k", f"s{at}", "t").weight), text)
                self.assertEqual(str(session.degrees()[f"s{at}"].weight_out), text)
            self.assertEqual(session.edges().weight.tolist(), [parts for parts, _ in rows])

    def test_rounding(self):
        """Of negative numbers as of positive ones."""
        for scale, rows in HALVES.items():
            units = Units(scale, rounding="half-even")
            for text, parts in chain(rows, ((f"-{text}", -parts) for text, parts in rows)):
                self.assertEqual(units._weight_to_program(text), str(parts), (scale, text))
                self.assertEqual(list(units._weights_of([text, "1"])), [parts, scale], (scale, text))

    def test_rounding_in_each_way(self):
        rows = [*HALVES[100], *((f"-{text}", -parts) for text, parts in HALVES[100])]
        wanted, columns = [parts for _, parts in rows], Columns(1, 2, weight=3)
        text = "".join(f"s{at},t,{text}\n" for at, (text, _) in enumerate(rows))
        ways = (lambda store: [store.add("link", f"s{at}", "t", float(text)) for at, (text, _) in enumerate(rows)],
                lambda store: [store.add("link", f"s{at}", "t", Decimal(text)) for at, (text, _) in enumerate(rows)],
                lambda store: store.load([(f"s{at}", "t", float(text)) for at, (text, _) in enumerate(rows)], by="add"),
                lambda store: store.load(self.file("rows.csv", text), by="add", columns=columns))
        for way in ways:
            store = self.store(units=Units(weight_scale=100, rounding="half-even"))
            way(store)
            store.commit()
            with store.open() as session:
                found = [int(session.edge("link", f"s{at}", "t").weight * 100) for at in range(len(rows))]
            self.assertEqual(found, wanted)


class Ties(Case):
    # Of weight 5 are a, c and e; of the first time 2 are b, c and d, and of the recent time 9 are a, d and e.
    ROWS = (("a", 5, 1, 9), ("b", 3, 2, 8), ("c", 5, 2, 7), ("d", 4, 2, 9), ("e", 5, 1, 9), ("f", -5, 3, 3))

    def test_tables(self):
        store = self.store(*(f"insert k {source} {target} {weight}" for source, target, weight in (
            ("a", "x", 2), ("b", "x", 2), ("c", "x", 1), ("c", "y", 1), ("d", "z", 1), ("e", "z", 7))))
        with store.open() as session:
            degrees = session.degrees()
            self.assertEqual(list(degrees), ["a", "x", "b", "c", "y", "d", "z", "e"])
            for by, wanted in (("out", "cabdexyz"), ("into", "xzyabcde"), ("weight_out", "eabcdxyz")):
                self.assertEqual("".join(name for name, _ in degrees.top(8, by)), wanted, by)
                self.assertEqual("".join(name for name, _ in degrees.top(3, by)), wanted[:3], by)
            self.assertEqual(session.components().top(2), [("a", 5), ("d", 3)])

    def test_components_of_one_size(self):
        with self.store("insert k c d 1", "insert k a b 1", "insert k e f 1", "insert k e g 1").open() as session:
            self.assertEqual(session.components().top(3), [("e", 3), ("c", 2), ("a", 2)])


class Differences(Case):
    def test_each_field(self):
        """An edge has changed where its weight, its first or its recent time alone is another one."""
        for field, before, after in (
                ("weight", ("insert k a b 5 3",), ("insert k a b 6 3",)),
                ("recent", ("insert k a b 5 3",), ("insert k a b 5 4",)),
                ("first", ("insert k a b 5 3", "insert k a b 5 4"), ("remove k a b", "insert k a b 5 4")),
                ("", ("insert k a b 5 3",), ("insert k a b 5 3",))):
            store = self.store(*before)
            earlier = store.open()
            self.feed(store, *after)
            later = store.open()
            diff, one, other = earlier.diff(later), earlier.edge("k", "a", "b"), later.edge("k", "a", "b")
            self.assertEqual([it for it in Edge._fields if getattr(one, it) != getattr(other, it)], [field] if field else [])
            self.assertEqual([(it.before, it.after) for it in diff.changed], [(one, other)] if field else [], field)
            self.assertEqual((len(diff.gone), len(diff.new)), (0, 0))
            changed, both = [0] * bool(field), (earlier.edges(), later.edges())
            for found in (places_of(*both), *([places_at_once(numpy, *both)] if numpy else [])):
                self.assertEqual(list(map(list, found)), [[], [], changed, changed], field)


class Loads(Case):
    def test_what_a_load_tells(self):
        for commit, bad, records, seconds, told in (
                (None, 0, 0, 0.0, "0 records in 0.0 s, 0 a second; 0 edges inserted, 0 updated; version 0"),
                (Commit(3, 5, 2, 1, 1, 0), 0, 10, 2.0, "10 records in 2.0 s, 5 a second; 5 edges inserted, 2 updated; version 3"),
                (Commit(3, 5, 2, 1, 1, 4), 6, 10, 4.0, "10 records in 4.0 s, 2 a second; 5 edges inserted, 2 updated; version 3; "
                 "6 bad rows passed over; 4 amounts NOT added or set, since weights would leave their limits")):
            found = Loaded(commit, mock.Mock(bad=bad, feed="f", rows=9), records, seconds, 1.0)
            self.assertEqual((str(found), repr(found), found.bad), (told, f"<Loaded {told}>", bad))
            html = found._repr_html_()
            self.assertEqual(("inserted" in html, f"{seconds:.1f}" in html), (commit is not None, True))

    def test_a_feed_s_form(self):
        """By its name, and of a text by its first sign."""
        for name, form in (("-", "delimited"), ("a.csv", "delimited"), ("a.tsv.gz", "delimited"), ("a", "delimited"),
                           ("a.mtx", "matrix"), ("a.mtx.gz", "matrix"), ("mtx", "delimited"), ("a.gz", "delimited")):
            self.assertEqual(form_of(name, "utf-8"), form, name)
        for text, form in (("# x\n1 2\n", "snap"), ("1 2\n", "delimited"), ("", "delimited"), (" # x\n", "delimited")):
            packed = self.room / "b.txt.gz"
            packed.write_bytes(gzip.compress(text.encode()))
            self.assertEqual([form_of(it, "utf-8") for it in (self.file("a.txt", text), packed)], [form, form], text)

    def test_smaller_batches(self):
        """They help where a batch has room, of 4,096 operations at most, and so many batches may be."""
        fit = "a batch needs as many free blocks as it has operations: batches of {0} fit (batch={0}, --batch {0})"
        none = "smaller batches don't help: the edges need nearly all blocks, or more than there are"
        most = 65_536
        for rows, bad, blocks, used, told in (
                (10, 0, 20, 19, fit.format(1)), (10, 0, 20, 20, none), (10, 0, 20, 21, none), (10, 0, 20, 18, fit.format(2)),
                (10, 0, 4_097, 0, fit.format(4_096)), (10, 0, 4_096, 1, fit.format(4_095)), (most, 0, 1, 0, fit.format(1)),
                (most + 1, 0, 1, 0, none), (most + 1, 1, 1, 0, fit.format(1)), (2 * most, 0, 2, 0, fit.format(2)),
                (2 * most + 1, 0, 2, 0, none)):
            self.assertEqual(limits._smaller(mock.Mock(rows=rows, bad=bad), blocks, used), told)

    def test_too_little_room(self):
        """How many blocks are free and how many are needed, and what helps: more of them, fewer in use, or smaller batches."""
        fit = "a batch needs as many free blocks as it has operations: batches of 4 fit (batch=4, --batch 4)"
        more = "Make the store with blocks=90 or more"
        for used, most, told in ((0, 90, more), (5, 90, more), (0, 89, "Free blocks first"),
                                 (5, 89, "Make it empty, or free blocks first")):
            store, found = mock.Mock(blocks=64, **{"_engine.most_blocks": most}), mock.Mock(
                rows=10, bad=0, vertices=3, kinds=["k"], blocks=60, _room=7, _largest=9, feed="f")
            found._surely_fits.return_value, found._needed_beside.return_value = False, 90
            with self.assertRaisesRegex(PoolEmpty, "f needs at least 90 blocks in batches of 9, and the store was made with 64; "
                                        "nothing was sent") as caught:
                limits.check_room(store, found, used)
            store._engine.fit.assert_called_once_with(3, 1, used + 7)
            self.assertEqual((caught.exception.needed, caught.exception.free, caught.exception.advice),
                             (90, 64 - used, f"{told}; {fit}"))
            for found._surely_fits.return_value, found._needed_beside.return_value in ((True, 90), (False, 64)):
                limits.check_room(store, found, used)


if __name__ == "__main__":
    unittest.main()
