"""Files whose fields numpy reads at once hold what they hold where each field is a text of its own."""
import csv
import io
import random
import unittest
from array import array
from unittest import mock

from support import Case, optional

from misteluk import Columns, survey
from misteluk.feeds import delimited, feed
from misteluk.values import fields

COLUMNS = Columns(1, 2, weight=3, time=4)
# Fields that are right, and such as the quick way leaves to the slow one, or as are refused.
RIGHT = (("a", "b", "1", "0"), ("ab", "a", "-7", "12"), ("x" * 64, "y" * 63, "0042", "9" * 18), ("~", "!", "-0", "00"))
STRANGE = (*(("a", "b", it, "0") for it in ("", "-", "1-", "1.5", "9" * 13, "+1", " 1", "1_0")),
           *(("a", "b", "1", it) for it in ("", "-1", "9" * 19)),
           *((it, "b", "1", "0") for it in ("", "a\0", "a b", "~~" + "A" * 20, "x" * 65, "\u00e9", '"a"')),
           ("a", "b", "1"), ("a", "b", "1", "0", "5"), ())


def told(found):
    """What a survey holds: its operations, and what is wrong with others."""
    rows = [row for part in found.parts for row in part.columns.rows()]
    return rows, [line for part in found.parts for line in part.lines], found.bad, list(map(str, found.faults)), found.kinds


@unittest.skipUnless(optional("numpy"), "numpy is not there")
class OfAFile(Case):
    def read(self, text, many, at_once):
        path = self.room / "rows.csv"
        path.write_bytes(text.encode())
        with mock.patch.object(fields, "MANY", many), mock.patch.object(feed, "AT_ONCE", at_once):
            try:
                return told(survey(path, by="add", columns=COLUMNS, batch=7, progress=False))
            except Exception as fault:
                return repr(fault)

    def must_agree(self, text):
        wanted = self.read(text, 1 << 30, 1 << 20)
        for at_once in (1, 40, 1 << 20):
            self.assertEqual(self.read(text, 0, at_once), wanted, (text, at_once))
        return wanted

    def test_right_and_strange_fields(self):
        """Also where the quick way is taken for some of the lines alone, and where a text ends amid them."""
        made = random.Random(3)
        quick = []
        with mock.patch.object(fields.Fields, "numbered", lambda self, *of, real=fields.Fields.numbered: (
                quick.append(1), real(self, *of))[1]):
            for _ in range(120):
                some = [*made.choices(RIGHT, k=made.randrange(1, 9)), *made.choices(STRANGE, k=made.choice((0, 0, 1, 2)))]
                made.shuffle(some)
                end = made.choice(("\n", "\r\n"))
                self.must_agree(end.join(map(",".join, some)) + made.choice(("", end)))
        self.assertGreater(len(quick), 200)

    def test_each_strange_one(self):
        for it in STRANGE:
            with self.subTest(it):
                self.must_agree("\n".join(map(",".join, (*RIGHT, it, *RIGHT))))

    def test_a_quoted_field_that_goes_on(self):
        self.must_agree('a,b,1,0\n"a\nc",b,1,0\na,b,1,0\n')

    def differ(self, seeds):
        """How many files have other rows than Python's `csv` gives, and of how many texts quotes were taken off at once."""
        count, quick, right = 0, [], fields._unquote
        with mock.patch.object(fields, "MANY", 0), mock.patch.object(fields, "_unquote", lambda *of: (
                quick.append(right(*of)) or quick[-1])):
            for seed in seeds:
                made = random.Random(seed)
                sign, end = made.choice(",;\t|"), made.choice(("\n", "\n", "\r\n", "\r"))
                pieces = made.choice((("a", "b c", ""), ("a", "b", f'"x{sign}y"', '""', '"é"'), ("é", '"1"', '"Ж"', "ab"),
                                      ("a", "é", '"', '""', "\n", "\r\n", "\r", sign, '"a"', '"\n"')))
                lines = [sign.join(made.choice(("", *pieces)) + made.choice(("", "", *pieces)) * (made.random() < 0.1)
                                   for _ in range(2 if made.random() < 0.97 else made.randrange(5)))
                         for _ in range(made.choice((1, 4, 12)))]
                text = made.choice(("", "", "\ufeff")) + end.join([f"p{sign}q", *lines]) + made.choice(("", end, end * 2))
                count += self.rows(text, sign, made.choice((1, 20, 1 << 20))) != self.by_csv(text, sign)
        return count, sum(quick)

    def rows(self, text, sign, at_once):
        path = self.room / "rows.csv"
        path.write_bytes(text.encode())
        with mock.patch.object(feed, "AT_ONCE", at_once):
            return list(delimited.delimited(path, Columns(1, 2), delimiter=sign).rows)

    def by_csv(self, text, sign):
        """The same by Python's csv, one after another, blank lines left out and missing fields empty."""
        reader = csv.reader(io.StringIO(text.removeprefix("\ufeff"), newline=""), delimiter=sign)
        return [(reader.line_num, "link", *[*row, ""][:2], "1", "0") for row in reader if row]

    def test_any_file_is_read_as_csv_reads_it(self):
        count, quick = self.differ(range(600))
        self.assertEqual(count, 0)
        self.assertGreater(quick, 60)

    def test_faults_of_quotes_are_found(self):
        def always(numpy, data, begins, ends):
            is_quoted = data[begins] == ord('"')
            begins += is_quoted
            ends -= is_quoted
            return True
        for name, fault in (("_unquote", always), ("_unquote", lambda *_: True), ("CODEC", ("utf-8", "replace")),
                            ("CODEC", ("utf-16", "surrogatepass"))):
            with self.subTest(name), mock.patch.object(fields, name, fault):
                try:
                    found = any(self.differ([it])[0] for it in range(60)) if name == "_unquote" else self.texts_differ()
                except UnicodeError:  # (a text was cut amid a letter)
                    found = True
                self.assertTrue(found)

    def texts_differ(self):
        """Whether a name that isn't in ASCII, or bytes that are no text, become others."""
        path = self.room / "rows.csv"
        path.write_bytes("é,Ж\n".encode() + b"\xff\xc3,b\n")
        with mock.patch.object(fields, "MANY", 0):
            found = [it[2:4] for it in delimited.delimited(path, Columns(1, 2)).rows]
        return found != [("é", "Ж"), ("\udcff\udcc3", "b")]

    def test_texts_that_are_not_in_ascii(self):
        self.assertFalse(self.texts_differ())

    def test_texts_that_are_mixed_to_one(self):
        """A sum that all have leaves each to stand for itself."""
        with mock.patch.object(fields, "MIX", 0):
            self.must_agree("\n".join(map(",".join, RIGHT * 3)))

    def test_texts_of_which_the_first_is_not_known(self):
        with mock.patch.object(fields, "_firsts", lambda *_: None):
            self.must_agree("\n".join(map(",".join, RIGHT * 3)))

    def test_a_fault_is_found(self):
        with mock.patch.object(fields, "MOST_BYTES", 8), mock.patch.object(
                fields.Fields, "_words", lambda self, length: iter(())), self.assertRaises(AssertionError):
            self.must_agree("aa,ab,1,0\nab,aa,1,0\n")


@unittest.skipUnless(optional("numpy"), "numpy is not there")
class WithoutNumpy(unittest.TestCase):
    def test_lines_that_are_split_at_once(self):
        """Those that have as many fields each, and no quotes."""
        for text, columns in (("a,b\nc,d\n", [["a", "c"], ["b", "d"]]), ("a,b\r\nc,d", [["a", "c"], ["b", "d"]]),
                              ("a,,b\n", [["a"], [""], ["b"]]), ("\u00e4,b\n", [["\u00e4"], ["b"]]), ("a,b\nc\n", []),
                              ("a,b\nc,d,e\n", []), ("a\nb\n", []), ('a,"b"\nc,d\n', []), ("a,b\rc,d\n", [])):
            with mock.patch.object(delimited, "fields_of", return_value=None):
                self.assertEqual(list(map(list, delimited.even_columns(text, ","))), columns, text)


@unittest.skipUnless(optional("numpy"), "numpy is not there")
class Numbers(unittest.TestCase):
    def some(self, made):
        """Digits of any length, some with a sign, and some with what is none."""
        signs = made.choice(("", "", "-", "0-"))
        found = [made.choice(signs or " ").strip() + "".join(made.choices("0123456789", k=made.randrange(1, 19)))
                 for _ in range(made.choice((1, 2, 6)))]
        if made.random() < 0.3:
            at = made.randrange(len(found[0]) + 1)
            found[0] = found[0][:at] + made.choice("/:-+. a\x00\x7f") + found[0][at:]
        return found if made.random() < 0.95 else ["", *found]

    def plain(self, texts, code, digits):
        """The numbers, one by one; `None` where one is none, or has more signs."""
        without = [it[1:] if it.startswith("-") and code == "q" else it for it in texts]
        if any(not it or set(it) - set("0123456789") for it in without) or max(map(len, texts)) > digits:
            return None
        return array(code, map(int, texts))

    def differ(self, seeds):
        """How many of some columns are read otherwise, and how many have numbers alone."""
        import numpy
        count = right = 0
        for seed in seeds:
            made = random.Random(seed)
            texts, (code, digits) = self.some(made), made.choice((("q", 14), ("q", 12), ("Q", 18)))
            ends = numpy.cumsum([len(it) + 1 for it in texts]) - 1
            text = "".join(f"{it}," for it in texts)
            column = fields.Fields(text, fields.data_of(numpy, text), ends - [len(it) for it in texts], ends)
            wanted = self.plain(texts, code, digits)
            count += column.whole_numbers(code, digits) != wanted
            right += wanted is not None
        return count, right

    def test_they_are_those_of_python(self):
        count, right = self.differ(range(3_000))
        self.assertEqual(count, 0)
        self.assertGreater(right, 500)

    def test_faults_are_found(self):
        for name, fault in (("PAIRS", fields.PAIRS[:2]), ("PAST_NINE", fields.PAST_NINE + 1), ("TOP_BITS", 0x8080_8080),
                            ("ZEROS", fields.ZEROS + 1)):
            with self.subTest(name), mock.patch.object(fields, name, fault):
                self.assertTrue(any(self.differ([it])[0] for it in range(300)))

    def test_firsts(self):
        """Beside a dictionary, also where all are mixed to one number: then a few are known, and of more nothing."""
        import numpy
        made = random.Random(5)
        for at in range(300):
            keys = [numpy.array(made.choices(range(made.choice((1, 3, 90))), k=made.choice((1, 9, 200))), dtype="uint64")]
            keys.append(keys[0] // 7 if at % 2 else numpy.array(made.choices((0, 1 << 63), k=len(keys[0])), dtype="uint64"))
            known = {}
            wanted = [known.setdefault(it, place) for place, it in enumerate(zip(*map(numpy.ndarray.tolist, keys)))]
            self.assertEqual(fields._firsts(numpy, keys).tolist(), wanted)
            with mock.patch.object(fields, "MIX", 0):
                found = fields._firsts(numpy, keys)
            self.assertEqual(found if found is None else found.tolist(), None if len(known) > fields.MOST_TURNS else wanted)


class OfAFeed(unittest.TestCase):
    def test_an_empty_column_has_none(self):
        self.assertIsNone(fields.fields_of("a,b\n", ","))


if __name__ == "__main__":
    unittest.main()
