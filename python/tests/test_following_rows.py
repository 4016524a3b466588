"""Rows of a feed that come in pieces are those of the whole text, as Python's `csv` reads them."""
import csv
import io
import os
import random
import unittest
from unittest import mock

from support import Case
from test_following import COLUMNS

from misteluk.feeds.delimited import DelimitedRows
from misteluk.feeds import feed as feeds
from misteluk.feeds.growing import Growing


class Rows(Case):
    def pieces(self, text, made):
        """The rows of a text that comes through a pipe in pieces, each with its line."""
        read, write = os.pipe()
        with os.fdopen(read, "rb") as file:
            source, rows, found, data = Growing(file), DelimitedRows("pieces", COLUMNS, ",", False), [], text.encode()
            while not source.is_at_end:
                more = made.randrange(1, 30)
                if data:
                    os.write(write, data[:more])
                elif write:
                    os.close(write)
                    write = 0
                data = data[more:]
                for block in rows.take(source.text(), source.is_at_end):
                    found += [(line, source, target, weight, time) for line, _, source, target, weight, time in
                              feeds.rows_of(block)]
            source.close()
            return found

    def differ(self):
        """Of how many random texts the rows that come in pieces, or few at a time of a file, aren't those of the text."""
        made, count = random.Random(2), 0
        fields = ("a", "Ж", 'b"c', '"x\ny"', '"p,q"', '"say ""no"""', "", " d ", '"r\r\ns"')
        for _ in range(200):
            ends = made.choice(("\n", "\r\n", "\r"))
            text = ends.join(",".join(made.choices(fields, k=made.choice((4, 4, 4, 5)))) if made.random() < 0.9 else ""
                             for _ in range(made.randrange(1, 12)))
            text = f"a,b,1,2{ends}{text}" + made.choice((ends, ""))
            reader = csv.reader(io.StringIO(text, newline=""))
            wanted = [(reader.line_num, *row[:4]) for row in reader if row]
            with mock.patch.object(feeds, "ROWS_AT_ONCE", made.randrange(1, 5)):
                rows = DelimitedRows("whole", COLUMNS, ",", False)
                whole = [(it[0], *it[2:]) for block in (*rows.take(text, False), *rows.take("", True))
                         for it in feeds.rows_of(block)]
                count += self.pieces(text, made) != wanted or whole != wanted
        return count

    def test_rows_in_pieces(self):
        self.assertEqual(self.differ(), 0)

    def test_rows_in_pieces_find_a_fault(self):
        with mock.patch.object(DelimitedRows, "_rows", lambda self, lines, is_end, real=DelimitedRows._rows: real(
                self, lines, True)):
            self.assertGreater(self.differ(), 20)


if __name__ == "__main__":
    unittest.main()
