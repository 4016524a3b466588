"""The rules of records, beside the program, which is their judge."""
import random
import unittest
from array import array

from support import Case, words_of

from misteluk.values import records
from misteluk.values.names import id_of
from misteluk.feeds.terms import Terms
from misteluk.values.units import Units

FROM_THE_RECORD_ALONE = {"BadCommand", "BadFields", "BadName", "BadWeight", "BadTime", "BadSlot"}
NAMES = ["a", "", "*", "**", "~", "!", "a b", "é", '"', ",", 'a"b', "x" * 64, "x" * 65, "\x7f", "a\nb", "error", "0"]
NUMBERS = ["0", "1", "", "-", "-0", "-1", "+1", " 1", "1 ", "1.0", "007", "1099511627776", "1099511627777", "-1099511627776",
           "-1099511627777", "9223372036854775807", "9223372036854775808", "0" * 19, "0" * 20, "1e3", "٣", "15", "2"]


def made(random_: random.Random) -> list:
    """A record that is mostly right."""
    command = random_.choice([*records.FORMATS, "I", "", "commit "]) if random_.random() < 0.9 else random_.choice(NAMES)
    fields = [command]
    for it in records.FORMATS.get(command, ("source",)):
        right = random_.random() < 0.8
        number = it in records.WEIGHT_FIELDS or it in records.TIME_FIELDS or it == "slot"
        fields.append(("1" if number else "a") if right else random_.choice(NUMBERS if number else NAMES))
    return fields[:-1] if random_.random() < 0.05 else fields + ["a"] if random_.random() < 0.05 else fields


class Records(Case):
    def judge(self, wanted: dict, script: bytes) -> None:
        """Whether the words are those of the program, as far as a record alone can tell."""
        told = {at: word for at, word in words_of(script).items() if word in FROM_THE_RECORD_ALONE}
        apart = sorted(it for it in {*told, *wanted} if told.get(it) != wanted.get(it))[:3]
        self.assertEqual([(it, told.get(it), wanted.get(it)) for it in apart], [])

    def test_the_first_fault_is_the_one_that_the_program_tells(self):
        random_ = random.Random(1)
        all_of_them = [made(random_) for _ in range(20_000)]
        faults = {at: records.faults_of(it) for at, it in enumerate(all_of_them, 1)}
        self.assertGreater(len(set(it[0].word for it in faults.values() if it)), 5)
        script = "".join(map(records.record, all_of_them)).encode()
        self.judge({at: it[0].word for at, it in faults.items() if it}, script)

    def test_a_record_is_split_as_it_was_joined(self):
        for fields in (["i", "a,b", 'a"b', "c", "1", "2"], ["r", '"', ",", '","'], ["commit"], ["r", "", "a", ""]):
            self.assertEqual(records.split_record(records.record(fields)), fields)

    def test_names_that_are_seen_at_once(self):
        """To be as they stand are right names, of which a kind is none that isn't one."""
        terms, seen = Terms(), 0
        for it in [*NAMES, "~~", "a~~b", id_of("é"), "a\n"]:
            with self.subTest(it):
                if terms.are_as_they_are([it]):
                    seen += 1
                    self.assertEqual((terms.names.to_program(it), records.kind_reason(it)), (it, None))
                    self.assertEqual(records.are_names([it]), True)
                self.assertEqual(terms.are_as_they_are(["right", it]), it in terms.right)
                self.assertEqual([bool(name) for name in terms.names_of([it, "right"], is_kind=True)],
                                 [bool(it) and it != "*", True])
        self.assertGreater(seen, 2)
        self.assertLessEqual(seen, len(NAMES) + 2)

    def test_numbers_that_are_seen_at_once(self):
        """Each column of texts is told as its texts are, one by one."""
        made = random.Random(4)
        texts = ["0", "1", "-1", "007", "-0", "12345", "1" * 12, "1" * 13, "1" * 19, "0" * 20, "", "-", "--1", "1-", "5-5", "+1",
                 " 1", "1_0", "1.5", "-1.5", ".5", "-.5", "5.", ".", "1.2.3", "1e3", "\u0661", "\u00b2", str(2 ** 40), "99.999",
                 "x"]
        for units in (Units(), Units(100), Units(100, rounding="half-even"), Units(1, rounding="half-even"), Units(8)):
            for _ in range(300):
                column = [made.choice(texts) for _ in range(made.randrange(1, 4))]
                with self.subTest(column, units=units):
                    self.assertEqual(list(units._weights_of(column)), [units._weight_of(it) for it in column])
                    self.assertEqual(list(units._times_of(column)), [units._time_of(it) for it in column])
        dates = ["2024-03-05", "2024-03-05T12:00:00", "2024-03-05 12:00", "2024-03-05T12:00:00.25", "2024-03-05T12:00:00,5", "0",
                 "2024-03-05T12:00:00Z", "2024-03-05T12:00:00+02:00", "1969-12-31", "1970-01-01", "9999-12-31T23:59:59",
                 "20240305", "2024-02-30", "2024-W01-1", " 2024-03-05", "", "x", "2024-03-05T12:00:00.1234567",
                 str(records.MOST_TIME)]
        units = Units(times="iso")
        for column in [*([it] for it in dates), *([made.choice(dates) for _ in range(2)] for _ in range(300)), dates[:2]]:
            with self.subTest(column):
                self.assertEqual(list(units._times_of(column)), [units._time_of(it) for it in column])
        self.assertEqual(list(units._times_of(["1970-01-02", "1970-01-01T00:00:01"])), [86_400_000_000, 1_000_000])
        self.assertEqual(records.whole_numbers(["5", "-7"], "q", 12), array("q", [5, -7]))
        self.assertIsNone(records.whole_numbers(["5", "-7"], "Q", 12))

    def test_what_is_told_of_a_name(self):
        outside = "a name has printable ASCII signs alone, from ! to ~, and this has "
        for name, told in (("a", None), ("", "a name has at least one byte"), ("x" * 64, None), ("a b", f"{outside}a space"),
                           ("x" * 65, "a name has at most 64 bytes, and this has 65"), ("a\u00e9 ", f"{outside}'\u00e9'")):
            self.assertEqual(records.name_reason(name), told)
        self.assertEqual([records.shown("x" * it) for it in (80, 81)], [repr("x" * 80), f"'{'x' * 70}'.. (81 characters)"])


if __name__ == "__main__":
    unittest.main()
