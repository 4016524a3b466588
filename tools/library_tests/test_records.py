"""A batch's records: the text that `stinger run` reads as its operations, worked out by hand, and by Python's `csv`."""
import csv
import io
import random
import unittest
from ctypes import c_uint64, create_string_buffer
from typing import List

from calls import Batch, Code, Desk, interface
from places import library

MOST_WEIGHT, MOST_TIME = 1 << 40, (1 << 63) - 1
NAMES = ["a", "b", "k,", '"', 'say"x"', ",", "!", "~", "z" * 64, "a'b"]
WANTED = b'''i,k,a,b,-5,7
i,"k,","say""x""",",",-1099511627776,0
a,k,b,b,1099511627776,9223372036854775807
r,k,a,""""
x,0
'''


class Records(unittest.TestCase):
    def setUp(self) -> None:
        self.batch = Batch(library())
        self.addCleanup(self.batch.free)

    def fill(self) -> None:
        self.batch.insert(b"k", b"a", b"b", -5, 7)
        self.batch.insert(b"k,", b'say"x"', b",", -MOST_WEIGHT, 0)
        self.batch.add(b"k", b"b", b"b", MOST_WEIGHT, MOST_TIME)
        self.batch.remove(b"k", b"a", b'"')
        self.batch.expire(0)

    def test_each_operation(self) -> None:
        self.assertEqual(self.batch.records(), b"")
        self.fill()
        self.assertEqual(self.batch.records(), WANTED)
        self.assertEqual(len(self.batch), 5)

    def test_room(self) -> None:
        """A text with room for one byte less stays as it is, and one with more stays so behind the records."""
        self.fill()
        length, text = c_uint64(), create_string_buffer(b"?" * (len(WANTED) + 9), len(WANTED) + 9)
        self.assertEqual(self.batch.library.batch_records(self.batch.handle, text, len(WANTED) - 1, length), Code.BAD_LENGTH)
        self.assertEqual((length.value, text.raw), (len(WANTED), b"?" * (len(WANTED) + 9)))
        length.value = 0
        self.assertEqual(self.batch.library.batch_records(self.batch.handle, text, len(text), length), Code.OK)
        self.assertEqual((length.value, text.raw), (len(WANTED), WANTED + b"?" * 9))

    def test_a_batch_that_is_ready(self) -> None:
        """A batch stays in its handle, and has its records, while a desk has it ready; none once it was applied."""
        desk = Desk(library(), 64)
        self.addCleanup(desk.free)
        self.fill()
        self.assertEqual(library().desk_begin(desk.handle, self.batch.handle), Code.OK)
        self.assertEqual(self.batch.records(), WANTED)
        self.assertEqual(library().desk_finish(desk.handle, interface.Counts()), Code.OK)
        desk.apply(self.batch)
        self.assertEqual(self.batch.records(), b"")

    def test_random_batches(self) -> None:
        chance = random.Random(5)
        out = io.StringIO()
        writer = csv.writer(out, lineterminator="\n")
        for _ in range(4_096):
            row = self.drawn(chance)
            writer.writerow(row)
            self.append([it.encode() for it in row])
        self.assertEqual(self.batch.records(), out.getvalue().encode())

    @staticmethod
    def drawn(chance: random.Random) -> List[str]:
        word, (kind, source, target) = chance.choice("iiiarx"), chance.choices(NAMES, k=3)
        time = str(chance.choice([0, 9, 10, MOST_TIME, chance.randrange(MOST_TIME)]))
        if word == "x":
            return [word, time]
        if word == "r":
            return [word, kind, source, target]
        return [word, kind, source, target, str(chance.randrange(-MOST_WEIGHT, MOST_WEIGHT + 1)), time]

    def append(self, row: List[bytes]) -> None:
        word, *fields = row
        if word == b"x":
            self.batch.expire(int(fields[0]))
        elif word == b"r":
            self.batch.remove(*fields)
        else:
            kind, source, target, weight, time = fields
            put = self.batch.insert if word == b"i" else self.batch.add
            put(kind, source, target, int(weight), int(time))


if __name__ == "__main__":
    unittest.main()
