"""Rows that can't be taken: they are counted and told, and written to a file from which they are loaded once they are mended.
Times that are too far ahead; files that are written anew while they are followed. Values are worked out by hand."""
import errno
import json
import os
import threading
import unittest
from datetime import datetime, timedelta, timezone
from unittest import mock

from support import Case, CommandCase, as_soon_as

import misteluk
from misteluk import Columns, Rejected, Units, errors
from misteluk.feeds import rejects, surveys
from misteluk.feeds.terms import Terms

ROWS = {"by": "add", "columns": Columns(1, 2, weight=3, time=4), "progress": False}
NO_NUMBER = "amount 'x': a weight is a whole number, of at most 19 digits"
NO_NAME = "target '': a name has at least one byte"
BANK = {"by": "add", "columns": Columns("Payer", "Payee", weight="Sum", time="Day"), "decimal": ",", "dates": "dd.mm.yyyy",
        "units": Units(weight_scale=100), "progress": False}
HEAD = "Day;Payer;Payee;Note;Sum\n"
GOOD = "04.03.2024;ana;bob;;1.234,50\n"


def all_edges(store):
    with store.open() as session:
        return sorted((it[:3], str(it[3].weight), str(it[3].recent)) for it in session.edges())


def shifted(**by):
    """A date so far from now."""
    return (datetime.now(timezone.utc) + timedelta(**by)).isoformat(timespec="seconds")


class Rejects(Case):
    def rows_in(self, name):
        return (self.room / name).read_text()

    def load(self, feed, **options):
        store = self.store(blocks=64, **({"units": Units(times="iso", weight_scale=100)} if "dates" in options else {}))
        return store, store.load(feed, **options)

    def test_the_last_bad_row_is_told(self):
        path = self.file("bad.csv", f"a,b,1,1\nb,,3,3\nc,d,x,4\n{'long' * 99},e,x,5,\"q,\"\"r\"\nd,e,5,5\n")
        found = self.load(path, skip_bad=True, **ROWS)[1]
        self.assertEqual((found.bad, found.last_bad), (3, Rejected(4, NO_NUMBER, f"{'long' * 50} ..")))
        self.file("bad.csv", "a,b,1,1\nb,,3,3\nc,d,x,4\nd,e,5,5\n")
        found = self.load(path, skip_bad=True, **ROWS)[1]
        self.assertEqual((found.bad, found.last_bad), (2, Rejected(3, NO_NUMBER, "c,d,x,4")))
        found = self.load(self.file("good.csv", "a,b,1,1\n"), skip_bad=True, **ROWS)[1]
        self.assertEqual((found.bad, found.last_bad), (0, None))

    def test_rows_that_are_there_already(self):
        """They come again behind what is in, in their order; in a file that was moved away all is looked at."""
        for encoding in ("utf-8", "utf-16"):
            path, text = self.room / f"{encoding}.csv", "a,b\nc,d\ne,f\n"
            kept = rejects.Rejects(path, encoding)
            kept.append(rejects.Lines(1, "", ["a,b\n"]))
            size = kept.size
            kept.append(rejects.Lines(2, "", ["c,d\n", "e,f\n"]))
            for place, rows, more in ((size, ["c,d\n"], ""), (1 << 20, ["a,b\n", "c,d\n"], ""),
                                      (size, ["c,d\n", "e,f\n", "g,h\n"], "g,h\n"), (size, ["a,b\n"], "a,b\n")):
                again, text = rejects.Rejects(path, encoding), text + more
                again.go_on(place)
                again.append(rejects.Lines(1, "", rows))
                self.assertEqual(path.read_text(encoding=encoding), text, (encoding, place, rows))

    def test_what_can_t_be_written_as_it_is(self):
        """A sign that the encoding hasn't has its escape; and standard input may be the file itself."""
        path = self.room / "r.csv"
        rejects.Rejects(path, "latin-1").append(rejects.Lines(1, "", ["\u0416,\u00e4\n"]))
        self.assertEqual(path.read_bytes(), b"\\u0416,\xe4\n")
        before = os.dup(0)
        self.addCleanup(os.close, before)
        self.addCleanup(os.dup2, before, 0)
        with open(path) as file:
            os.dup2(file.fileno(), 0)
        self.assertRaisesRegex(ValueError, "is the feed itself", rejects.Rejects, path, "utf-8", "-")

    def test_how_much_of_a_row_is_told(self):
        for size, told in ((199, "x" * 199), (200, "x" * 200), (201, "x" * 200 + " ..")):
            self.assertEqual(rejects.rejected(3, "why", ["x" * size], ","), Rejected(3, "why", told))

    def test_mended_rows_are_loaded_by_the_same_options(self):
        """The file has the feed's own header, delimiter and rows, with the columns that nobody reads too."""
        rows = [GOOD, "32.03.2024;ana;cat;late;2,00\n", '05.03.2024;bob;"ca;t";"said ""x""";1.5\n', "06.03.2024;bob;dan;;3\n"]
        path = self.file("bank.csv", HEAD + "".join(rows))
        store, found = self.load(path, rejects=str(self.room / "rejects.csv"), **BANK)
        self.assertEqual((found.bad, found.last_bad.line), (2, 4))
        head, first, second = self.rows_in("rejects.csv").splitlines()
        self.assertEqual(head, "Day;Payer;Payee;Note;Sum;line;reason")
        self.assertRegex(first, "^32.03.2024;ana;cat;late;2,00;3;.*time '32.03.2024': ")
        self.assertRegex(second, '^05.03.2024;bob;"ca;t";"said ""x""";1.5;4;.*amount \'1.5 ')
        mended = self.rows_in("rejects.csv").replace("\n32.03", "\n31.03").replace(";1.5;", ";1,5;")
        self.assertEqual(store.load(self.file("rejects.csv", mended), **BANK).bad, 0)
        right = [rows[0], "31.03.2024;ana;cat;late;2,00\n", '05.03.2024;bob;"ca;t";"said ""x""";1,5\n', rows[3]]
        self.assertEqual(all_edges(store), all_edges(self.load(self.file("right.csv", HEAD + "".join(right)), **BANK)[0]))
        self.assertEqual(len(all_edges(store)), 4)

    def test_rows_without_a_header(self):
        """They have none there either, and one that is too short is filled up, so that its line is no weight or time."""
        path = self.file("plain.csv", "a,b,1,1\nc,d\ne,f,1,2\n")
        store = self.load(path, rejects=self.room / "r.csv", **ROWS)[0]
        self.assertEqual(self.rows_in("r.csv").partition(",2,")[0], "c,d,,")
        self.assertEqual(self.rows_in("r.csv").count("\n"), 1)
        store.load(self.file("r.csv", self.rows_in("r.csv").replace("c,d,,,", "c,d,5,7,")), **ROWS)
        self.assertEqual(all_edges(store), [(("link", "a", "b"), "1", "1"), (("link", "c", "d"), "5", "7"),
                                            (("link", "e", "f"), "1", "2")])

    def test_rows_of_an_edge_list_and_of_python(self):
        """They have columns by name there."""
        self.file("list.txt", "# an edge list\na b x\na c 2\n")
        self.load(str(self.room / "list.txt"), by="set", third="weight", rejects=self.room / "r.csv", progress=False)
        self.assertEqual(self.rows_in("r.csv"), "source,target,kind,weight,time,line,reason\n"
                         'a,b,link,x,0,2,"weight \'x\': a weight is a whole number, of at most 19 digits"\n')
        self.load([("a", "b", 1), ("a", None, 2), ("a", "c", 3)], by="set", rejects=self.room / "s.csv", progress=False)
        self.assertEqual(self.rows_in("s.csv"), f"source,target,kind,weight,time,line,reason\na,,link,2,0,2,{NO_NAME}\n")

    def test_bytes_of_no_encoding_stay(self):
        (self.room / "f.csv").write_bytes(b"a,b,1,1\nM\xfcller,b,1,1\n")
        self.load(str(self.room / "f.csv"), rejects=self.room / "r.csv", **ROWS)
        self.assertTrue((self.room / "r.csv").read_bytes().startswith(b"M\xfcller,b,1,1,2,"))

    def test_rows_are_appended(self):
        """Behind those of before, whose last line may have no end, below one header."""
        path = self.file("bank.csv", f"{HEAD}{GOOD}05.03.2024;bob;;;1\n")
        line = f"05.03.2024;bob;;;1;3;{NO_NAME}\n"
        for before, wanted in (("", line), (line, line * 2), (line.rstrip("\n"), line * 2)):
            self.file("r.csv", f"Day;Payer;Payee;Note;Sum;line;reason\n{before}")
            self.load(path, rejects=self.room / "r.csv", **BANK)
            self.assertEqual(self.rows_in("r.csv"), f"Day;Payer;Payee;Note;Sum;line;reason\n{wanted}")

    def test_one_mark_of_the_order_of_bytes(self):
        for encoding in ("utf-16", "utf-8-sig"):
            (self.room / "f.csv").write_text(f"{HEAD}05.03.2024;bób;;;1\n", encoding=encoding)
            for _ in range(2):
                self.load(str(self.room / "f.csv"), rejects=self.room / f"{encoding}.csv", encoding=encoding, **BANK)
            told = (self.room / f"{encoding}.csv").read_text(encoding=encoding)
            line = f"05.03.2024;bób;;;1;2;{NO_NAME}\n"
            self.assertEqual(told, f"Day;Payer;Payee;Note;Sum;line;reason\n{line}{line}")

    def test_files_that_cant_be_written(self):
        path = self.file("bank.csv", f"{HEAD}{GOOD}05.03.2024;bob;;;1\n")
        for fault, told, name in ((ValueError, "is the feed itself", path), (ValueError, "aren't packed", "r.csv.gz"),
                                  (OSError, "No such file", str(self.room / "none" / "r.csv")),
                                  (misteluk.errors.FeedFault, "No space left on device.*line 3 on aren't in", "/dev/full"),
                                  (errors.FeedFault, "has another header", self.file("r.csv", "Day;Payer;line;reason\n"))):
            store = self.store(blocks=64, units=Units(times="iso", weight_scale=100))
            self.assertRaisesRegex(fault, told, store.load, path, rejects=name, **BANK)
            self.assertEqual(store.stat().edges, 0)
        self.assertEqual(self.rows_in("r.csv"), "Day;Payer;line;reason\n")
        found = misteluk.survey(path, **BANK)
        self.assertRaisesRegex(ValueError, "say rejects= where it is made", store.load, found, by="add", rejects="r.csv")

    def test_rows_are_written_whole_or_not(self):
        path = self.file("bad.csv", "a,b,1,1\nb,,3,3\n")
        self.file("r.csv", f"b,,3,3,2,{NO_NAME}\n")

        def half(_, file, data):
            os.write(file, data[:5])
            raise OSError(errno.ENOSPC, "No space left on device")
        with mock.patch.object(rejects.Rejects, "_write", classmethod(half)):
            self.assertRaises(misteluk.errors.FeedFault, self.store().load, path, rejects=self.room / "r.csv", **ROWS)
        self.assertEqual(self.rows_in("r.csv"), f"b,,3,3,2,{NO_NAME}\n")


class FollowedFeeds(Case):
    def follow(self, feed, store=None, **options):
        found = (store or self.store(blocks=1024)).follow(feed, **{**ROWS, "every": 0.01, **options})
        self.addCleanup(found.close)
        return found

    def pipe(self, text=""):
        """A pipe's ends, of which the one is written to."""
        read, write = os.pipe()
        file = os.fdopen(read, "rb")
        self.addCleanup(file.close)
        if text:
            os.write(write, text.encode())
        return file, write

    def test_each_step_tells_of_bad_rows(self):
        path = self.file("f.csv", "a,b,1,1\nb,,3,3\nc,d,x,4\n")
        followed = self.follow(path, rejects=self.room / "r.csv")
        step = next(followed)
        self.assertEqual((step.rows, step.bad, step.last_bad, step.behind), (1, 2, Rejected(3, NO_NUMBER, "c,d,x,4"), 0))
        written = (self.room / "r.csv").read_text()
        self.assertEqual(written, f'b,,3,3,2,{NO_NAME}\nc,d,x,4,3,"{NO_NUMBER}"\n')
        with open(path, "a") as file:
            file.write("e,f,1,1\ng,,1,1\n")
        step = next(followed)
        self.assertEqual((step.rows, step.bad, step.last_bad.line), (2, 3, 5))
        self.assertEqual((self.room / "r.csv").read_text(), f"{written}g,,1,1,5,{NO_NAME}\n")
        self.assertIn("3 bad rows passed over", followed._told)

    def test_what_is_left_to_read(self):
        rows = [f"a,b{it},1,1\n" for it in range(9)]
        with mock.patch("misteluk.feeds.growing.MOST_READ", len(rows[0]) * 4):
            steps = list(self.follow(self.file("f.csv", "".join(rows)), every=0, batch=2, until_end=True))
        self.assertEqual([it.behind for it in steps], [len(rows[0]) * it for it in (5, 5, 1, 1, 0)])
        file, write = self.pipe("a,b,1,1\n")
        os.close(write)
        self.assertEqual([it.behind for it in self.follow(file)], [None])

    def test_what_helps_against_bad_rows(self):
        followed = self.follow(self.file("bad.csv", 'a,b,"1,50",1\n'), until_end=True)
        self.assertRaisesRegex(misteluk.BadRows, r"Amounts as 12,50 are read by decimal=','", next, followed)

    def test_rows_that_were_skipped(self):
        """Who follows apart is told of them at once where no row before them is pending; else they go with the next batch."""
        path, told = self.file("rows.csv", ""), []
        followed = self.follow(path, every=60, skip_bad=True)
        followed.on_skipped = lambda: told.append(followed._place.done)
        for row, wanted in (("a,b,x,1\n", [1]), ("a,b,1,1\n", [1]), ("a,b,x,1\n", [1])):
            with open(path, "a") as file:
                file.write(row)
            for _ in range(2):  # (it is read, and then taken)
                followed._go_on()
            self.assertEqual(told, wanted)
        self.assertEqual((followed._place.done, len(followed._lines)), (3, 1))

    def test_bad_rows_alone_are_written(self):
        """They wait for no commit."""
        file, write = self.pipe("b,,3,3\n")
        followed = self.follow(file, rejects=self.room / "r.csv")
        thread = threading.Thread(target=lambda: list(followed))
        thread.start()
        try:
            as_soon_as(lambda: (self.room / "r.csv").read_text() == f"b,,3,3,1,{NO_NAME}\n", 30)
        finally:
            os.close(write)
            thread.join(60)

    def test_a_file_that_cant_be_written_ends_the_feed(self):
        """What is before the first row that isn't written is in, and nothing behind it."""
        followed = self.follow(self.file("f.csv", "a,b,1,1\nb,c,1,1\nc,,1,1\nd,e,1,1\n"), rejects="/dev/full", until_end=True)
        step = next(followed)
        self.assertEqual((step.rows, step.line, step.bad, step.last_bad), (2, 2, 0, None))
        self.assertRaisesRegex(errors.FeedFault, "No space left on device.*the rows from line 3 on aren't in", next, followed)
        self.assertEqual(followed.store.stat().edges, 2)
        path = self.file("g.csv", "a,b,1,1\n")
        self.assertRaisesRegex(ValueError, "is the feed itself", self.follow, path, rejects=path)
        self.assertRaises(OSError, self.follow, path, rejects=self.room / "none" / "r.csv")

    def test_a_time_too_far_ahead(self):
        """Where edges are kept for a time it is a bad row, and removes nothing; else it is one if a length is said."""
        text = f"a,b,1,{shifted(hours=-2)}\nc,d,1,2255-01-01\ne,f,1,{shifted(hours=20)}\ng,h,1,{shifted(hours=30)}\n"
        path = self.file("f.csv", text)
        (step,) = self.follow(path, keep="14d", units=Units(times="iso"), skip_bad=True, until_end=True)
        self.assertEqual((step.rows, step.bad, step.commit.expired, step.last_bad.line), (2, 2, 0, 4))
        self.assertRegex(step.last_bad.reason, "^time '.*': a time is at most 24 hours ahead of the clock here, and this is "
                         "(29|30) hours ahead")
        followed = self.follow(path, keep="14d", units=Units(times="iso"), until_end=True)
        self.assertEqual(next(followed).rows, 1)
        self.assertRaisesRegex(misteluk.BadRows, r"f.csv:2: BadTime: time '2255-01-01': .* and this is 2\d\d years ahead",
                               next, followed)
        for options, rows in (({}, 4), ({"keep": "14d", "ahead": "2d"}, 3), ({"ahead": "1h"}, 1), ({"ahead": "90000d"}, 4)):
            (step,) = self.follow(path, units=Units(times="iso"), skip_bad=True, until_end=True, **options)
            self.assertEqual(step.rows, rows, options)

    def test_the_last_time_that_is_not_too_far(self):
        count = surveys.Count("f", "add", 9, Terms())
        count.ahead = 10
        with mock.patch.object(surveys, "_now", return_value=100):
            for times, wanted in (([110, 5, None], [110, 5, None]), ([110, 111, None, 5], [110, None, None, 5])):
                self.assertEqual(count._not_too_far(times), wanted)

    def test_numbers_have_no_clock(self):
        path = self.file("f.csv", f"a,b,1,1\nc,d,1,{10 ** 18}\n")
        (step,) = self.follow(path, keep=10 ** 18, skip_bad=True, until_end=True)
        self.assertEqual((step.rows, step.bad), (2, 0))
        for ahead in (5, "1d"):
            self.assertRaisesRegex(ValueError, "ahead is for times that are dates", self.follow, path, ahead=ahead)
        self.assertRaisesRegex(ValueError, "ahead is a length of time, as 14d", self.follow, path, ahead=3,
                               units=Units(times="iso"))

    def test_a_file_that_is_written_anew(self):
        """It isn't read on amid a row, also where it is longer than it was by the next look, or begins as it did."""
        begin, many = "a,b,1,1\n", "".join(f"s{it},t,1,{it}\n" for it in range(1_000))
        for before, after in ((begin, "long,names,5,5\nx,y,1,1\n"), (many, many.replace("s999,", "S999,") + "x,y,1,1\n"),
                              (many, f"x,y,1,1\n{many}")):
            path = self.file("f.csv", before)
            followed = self.follow(path, every=0)
            count = before.count("\n")
            self.assertEqual(next(followed).rows, count)
            with open(path, "r+") as file:  # (in its place, as a program does that cuts it and writes on)
                file.truncate(0)
                file.write(after)
            self.assertRaisesRegex(misteluk.errors.FeedFault, "f.csv was written anew while it was followed", next, followed)
            self.assertEqual(followed.store.stat().edges, count)

    def test_a_file_that_grows_is_the_same(self):
        path, rows = self.file("f.csv", ""), [f"s{it},t,1,{it}\n" for it in range(600)]
        followed, done = self.follow(path, every=0), 0
        for size in (1, 2, 60, 100, 237, 200):
            with open(path, "a") as file:
                file.writelines(rows[done:done + size])
            done += size
            while next(followed).rows < done:
                pass
        self.assertEqual(followed.store.stat().edges, 600)


class Commands(CommandCase):
    """Bad rows are passed over where a file for them is named."""

    WORDS = ("--add", "--source", "1", "--target", "2", "--weight", "3", "--time", "4")

    def test_load(self):
        path, kept = self.file("p.csv", "a,b,1,1\nb,,3,3\nc,d,1,4\n"), self.room / "r.csv"
        for words, told in ((("--dry-run",), "1 bad rows passed over:\n"), ((), "version 1; 1 bad rows passed over\n")):
            status, out, err = self.run_it("load", path, *self.WORDS, "--rejects", kept, *words)
            self.assertEqual((status, err, told in out), (0, "", True), out)
            self.assertEqual(kept.read_text(), f"b,,3,3,2,{NO_NAME}\n")
            kept.unlink()
        self.assertEqual(self.run_it("load", path, *self.WORDS, "--rejects", path)[::2], (
            1, f"misteluk: {path} is the feed itself: have the rows that are skipped written to another file\n"))

    def test_follow(self):
        path, kept = self.file("p.csv", "a,b,1,1\nb,,3,3\nc,d,x,4\n"), self.room / "r.csv"
        status, out, err = self.run_it("follow", path, *self.WORDS, "--until-end", "--json", "--rejects", kept)
        (told,) = map(json.loads, out.splitlines())
        self.assertEqual((status, told["bad"], told["last_bad"], told["behind"]),
                         (0, 2, {"line": 3, "reason": NO_NUMBER, "text": "c,d,x,4"}, 0))
        self.assertIn(f"misteluk: {path}: 1 rows to line 1 are in; 2 bad rows passed over\n", err)
        self.assertEqual(kept.read_text(), f'b,,3,3,2,{NO_NAME}\nc,d,x,4,3,"{NO_NUMBER}"\n')

    def test_follow_with_a_time_too_far_ahead(self):
        path = self.file("p.csv", f"a,b,1,{shifted()}\nb,c,3,{shifted(hours=3)}\nc,d,1,2255-01-01\n")
        for words, rows in ((("--keep", "9d"), 2), (("--ahead", "2h"), 1), ((), 3)):
            status, out, _ = self.run_it("follow", path, *self.WORDS, "--until-end", "--json", "--skip-bad", "--times", "iso",
                                         *words)
            self.assertEqual((status, json.loads(out)["rows"]), (0, rows), words)


if __name__ == "__main__":
    unittest.main()
