"""A feed that a store's file follows in this process: how much of a file a restart reads, over a rotation too, and that what it
reads is what one reading finds, wherever it goes on. Rows that were skipped are written once."""
import argparse
import os
import random
import unittest
from unittest import mock

from journaled import JournalCase

import misteluk
from misteluk import Columns
from misteluk.command.serve import FilesInTurn
from misteluk.feeds import growing, marks
from misteluk.journal.journal import Journal

COLUMNS = Columns(1, 2, weight=3, time=4)
NAMED = Columns("from", "to", weight="sum", kind="what")


def lines(first, last):
    return "".join(f"s{it % 97},t{it},1,{it}\n" for it in range(first, last))


class FollowCase(JournalCase):
    def setUp(self):
        super().setUp()
        self.feed = self.room / "feed.csv"
        # How many bytes were read of feeds.
        self.read = 0

    def counted(self):
        """Counts what is read."""
        real = os.read

        def read(file, size):
            data = real(file, size)
            self.read += len(data)
            return data
        self.read = 0
        return mock.patch.object(growing.os, "read", read)

    def follow(self, store, **options):
        how = {"by": "add", "columns": COLUMNS, "header": False, "until_end": True, "progress": False, "every": 0, **options}
        return store.follow(str(self.feed), **how)

    def edges(self):
        with self.opened() as store, store.open() as session:
            return sorted((*it[:3], it[3].weight) for it in session.edges())


class Seeks(FollowCase):
    def write(self, text, path=None):
        with open(path or self.feed, "a", encoding="utf-8") as file:
            file.write(text)

    def once(self, count):
        edges = self.edges()
        self.assertEqual(({it[3] for it in edges}, len(edges)), ({1}, count))

    def test_a_restart_reads_what_is_new(self):
        """And at most two reads of what is in: the first lines, and what was read ahead."""
        self.write(lines(0, 60_000))
        with self.opened() as store, self.counted():
            rows = [it.rows for it in self.follow(store)]
        self.assertEqual((rows[-1], self.read), (60_000, os.path.getsize(self.feed)))
        more = lines(60_000, 61_000)
        self.write(more)
        with self.opened() as store, self.counted():
            following = self.follow(store)
            self.assertFalse(following._reads_again)
            rows = [it.rows for it in following]
        self.assertEqual(rows[-1], 61_000)
        self.assertGreaterEqual(self.read, len(more))
        self.assertLessEqual(self.read, 2 * growing.MOST_READ + len(more))
        self.once(61_000)

    def test_a_restart_over_a_rotation(self):
        words = argparse.Namespace(file=str(self.feed), every=0.01, keep=None, ahead=None, batch=4096, skip_bad=False,
                                   rejects=None)
        how = {"by": "add", "columns": COLUMNS, "header": False}

        def turn(store, *counts):
            files = FilesInTurn(store, words, how)
            self.addCleanup(files.close)
            for count in counts:
                with files.next() as following:
                    following.on_left = following._source.end
                    while following._place.rows < count:
                        next(following)
                    self.assertEqual(list(following) if count != counts[-1] else [], [])
        self.write(lines(0, 30_000))
        with self.opened() as store:
            turn(store, 30_000)
        new = lines(30_000, 31_000), lines(31_000, 32_000)
        self.write(new[0])
        os.rename(self.feed, f"{self.feed}.1")
        self.write(new[1])
        for _ in range(2):
            with self.opened() as store, self.counted(), mock.patch("misteluk.serve.log.state"):
                turn(store, 31_000, 1_000)
            self.assertLessEqual(self.read, 2 * growing.MOST_READ + len("".join(new)))
            self.once(32_000)

    def test_a_file_that_was_rewritten(self):
        """It is seen at its begin, and at the place to which it was read; also where it is longer than it was."""
        self.write(lines(0, 20_000))
        with self.opened() as store:
            list(self.follow(store))
        data = self.feed.read_text()
        for hurt in ("x" + data[1:], data[:-3] + "7" + data[-2:], f"x,y,1,1\n{data}", data[:-20]):
            self.feed.write_text(hurt + lines(30_000, 30_100) * (len(hurt) >= len(data)))
            with self.opened() as store, self.assertRaisesRegex(misteluk.errors.FeedFault, "was written anew|was cut to"):
                list(self.follow(store))
            self.once(20_000)
        self.feed.write_text(data + lines(20_000, 20_100))
        with self.opened() as store:
            list(self.follow(store))
        self.once(20_100)

    def test_an_encoding_that_tells_no_begin(self):
        """The file is read from its begin, and what is in is passed over."""
        self.feed.write_text(lines(0, 9_000), encoding="utf-16")
        with self.opened() as store:
            list(self.follow(store, encoding="utf-16"))
        with open(self.feed, "a", encoding="utf-16-le") as file:
            file.write(lines(9_000, 9_100))
        with self.opened() as store, self.counted():
            following = self.follow(store, encoding="utf-16")
            self.assertTrue(following._reads_again)
            list(following)
        self.assertEqual(self.read, os.path.getsize(self.feed))
        self.once(9_100)

    def test_which_encodings_tell_one(self):
        for codec, told in (("utf-8-sig", True), ("cp1252", True), ("iso8859-1", True), ("ascii", True), ("cp437", True),
                            ("koi8-r", True), ("utf-16", False), ("utf-16-le", False), ("shift_jis", False), ("gb18030", False),
                            ("euc_jp", False), ("big5", False), ("iso2022_jp", False), ("iso2022_kr", False), ("hz", False),
                            ("utf-7", False)):
            self.assertEqual(marks.is_plain(codec), told, codec)


class Restarts(FollowCase):
    """Restarts anywhere in a file of all that makes places hard: rows of several lines, line ends of both kinds, blank lines,
    signs of several bytes or none of the encoding, a mark of the order of bytes. By reads of few bytes, which end anywhere."""

    def text(self, chance, count):
        end = ["\n", "\r\n"]
        rows = ['from;to;sum;what\n', '"from";to;sum;"what"\r\n', 'from;"to";what;sum\n'][chance.randrange(3)]
        is_other = rows.rstrip().endswith("sum")
        for it in range(count):
            name = chance.choice((f"ä{it}", f'"of\nseveral\r\nlines {it}"', f"plain{it}", f'"a;""{it}"', f"€{it}"))
            rest = f"{it % 3 + 1};k" if not is_other else f"k;{it % 3 + 1}"
            rows += f"{name};to{it % 5};{rest}{chance.choice(end)}{chance.choice(('', '', end[it % 2]))}"
        return rows

    def restarted(self, data, chance, encoding):
        """The edges of a file that grows, whose reading begins anew again and again."""
        done = 0
        while done < len(data):
            done = min(len(data), done + chance.randrange(1, len(data) // 3))
            self.feed.write_bytes(data[:done])
            with self.opened() as store:
                following = self.follow(store, columns=NAMED, header=True, delimiter=";", names="escape", encoding=encoding,
                                        batch=chance.randrange(1, 9), until_end=done == len(data))
                for _ in range(chance.randrange(1, 60)):
                    following._go_on()
                    following._made.clear()
                list(following if done == len(data) else ())
                following.close()
                store.discard()
        return self.edges()

    def test_restarts_anywhere(self):
        chance = random.Random(11)
        for turn, encoding in enumerate(("utf-8", "utf-8-sig", "cp1252", "utf-8", "utf-16", "cp1252") * 2):
            data = self.text(chance, 60).encode(encoding).replace("ä3".encode(encoding), b"\xff\xfe3" if turn % 2 else b"a3", 1)
            self.path = str(self.room / f"graph{turn}.db")
            with mock.patch.object(growing, "MOST_READ", chance.choice((7, 30, 64, 200))):
                found = self.restarted(data, chance, encoding)
            self.path = str(self.room / f"whole{turn}.db")
            self.feed.write_bytes(data)
            with self.opened() as store:
                list(self.follow(store, columns=NAMED, header=True, delimiter=";", names="escape", encoding=encoding))
            self.assertEqual(found, self.edges(), (turn, encoding))
            self.assertEqual(sum(it[3] for it in found), sum(it % 3 + 1 for it in range(60)))

    def test_a_place_that_is_wrong_is_found(self):
        real = growing.Growing.before
        with mock.patch.object(growing.Growing, "before", lambda source, rest: (real(source, rest) or 0) + 1):
            with self.assertRaises((AssertionError, misteluk.errors.StoreError)):
                self.test_restarts_anywhere()


class Skipped(FollowCase):
    """Rows that can't be taken are written before those that came with them are in."""

    def follow_rejects(self, store, **options):
        return self.follow(store, rejects=str(self.room / "bad.csv"), **options)

    def crash(self, rejects=False):
        """A process that ends behind the rows that it wrote, before its batch is in."""
        with self.opened() as store:
            following = self.follow_rejects(store, batch=3)
            for _ in range(2):
                next(following)
            with mock.patch.object(Journal, "append", side_effect=misteluk.errors.NotWritten("the disk is full")):
                self.assertRaises(misteluk.errors.NotWritten, list, following)
            following.close()
            store.discard()

    def test_each_is_written_once(self):
        bad = [it for it in range(1, 40) if it % 4 == 0]
        self.feed.write_text("".join(f"a{it},b,{'x' if it in bad else 1},{it}\n" for it in range(1, 40)))
        for _ in range(3):
            self.crash()
        with self.opened() as store:
            list(self.follow_rejects(store, batch=5))
        written = [int(it.split(",")[4]) for it in (self.room / "bad.csv").read_text().splitlines()]
        self.assertEqual(written, bad)
        self.assertEqual(len(self.edges()), 39 - len(bad))

    def test_where_the_file_was_moved_away(self):
        self.feed.write_text("".join(f"a{it},b,{'x' if it % 4 == 0 else 1},{it}\n" for it in range(1, 40)))
        self.crash()
        os.rename(self.room / "bad.csv", self.room / "mended.csv")
        with self.opened() as store:
            list(self.follow_rejects(store))
        found = [int(it.split(",")[4]) for name in ("mended.csv", "bad.csv")
                 for it in (self.room / name).read_text().splitlines()]
        self.assertEqual(sorted(set(found)), [it for it in range(1, 40) if it % 4 == 0])


if __name__ == "__main__":
    unittest.main()
