"""A file or pipe that grows, by small parts: how long it is waited for, what it gives back, and where its reading ends."""
import gc
import os
import select
import unittest
from unittest import mock

from support import Case

import misteluk
from misteluk import Columns, errors
from misteluk.feeds import growing
from misteluk.feeds.growing import Growing

COLUMNS = Columns(1, 2, weight=3, time=4)


def descriptors():
    return len(os.listdir("/proc/self/fd"))


class SourceCase(Case):
    def source(self, given, **how):
        found = Growing(given, **how)
        self.addCleanup(found.close)
        return found

    def pipe(self):
        """A pipe as a source, and the end that is written to."""
        read, write = os.pipe()
        file, into = os.fdopen(read, "rb"), os.fdopen(write, "wb", buffering=0)
        for it in (file, into):
            self.addCleanup(it.close)
        return self.source(file), into


class Awaited(SourceCase):
    def waited(self, source, seconds, output=None, ready=()):
        """What is waited for, and for how many milliseconds; and whether that tells of a reader who has gone."""
        with mock.patch.object(growing.select, "poll") as poll:
            poll().poll.return_value = list(ready)
            told = source.wait(seconds, output)
            return dict(it.args for it in poll().register.call_args_list), *poll().poll.call_args.args, told

    def test_a_file(self):
        """One that may have more isn't waited for. One that was read to its end is looked at again soon, though nothing tells of
        it; one that was left for another, later."""
        source = self.source(self.file("f.csv", "a,b,1,1\n"))
        bell = {source._bell: select.POLLIN}
        for seconds in (None, 5.0, 0.0):
            self.assertEqual(self.waited(source, seconds), (bell, 0.0, False))
        while source.text():
            pass
        for is_left, most in ((False, 100.0), (True, 500.0)):
            source.is_left = is_left
            for seconds, wanted in ((None, most), (5.0, most), (0.05, 50.0), (0.0, 0.0), (-1.0, 0.0)):
                self.assertEqual(self.waited(source, seconds), (bell, wanted, False))

    def test_a_pipe(self):
        """For as long as is said, or until it has more, while it has writers."""
        source, into = self.pipe()
        both = {source._bell: select.POLLIN, source.descriptor: select.POLLIN}
        for seconds, wanted in ((None, None), (0.25, 250.0), (0.0, 0.0), (-1.0, 0.0)):
            self.assertEqual(self.waited(source, seconds), (both, wanted, False))
        into.close()
        self.assertEqual((source.text(), source.is_at_end), ("", True))
        self.assertEqual(self.waited(source, 0.25), ({source._bell: select.POLLIN}, 250.0, False))

    def test_who_reads_the_output(self):
        source, _ = self.pipe()
        for said, is_gone in ((select.POLLERR, True), (select.POLLHUP, True), (select.POLLERR | select.POLLHUP, True),
                              (select.POLLIN, False), (0, False)):
            watched, _, told = self.waited(source, 1.0, 7, [(7, said)])
            self.assertEqual((watched[7], told), (0, is_gone))
        self.assertEqual(self.waited(source, 1.0, 7, [(source._bell, select.POLLIN)])[2], False)
        self.assertEqual(self.waited(source, 1.0, None, [(0, select.POLLERR)])[2], False)

    def test_what_ends_a_wait(self):
        """The bell, also where it rang before; a pipe's bytes and its end."""
        for act in ("ring", "write", "close"):
            source, into = self.pipe()
            {"ring": source.ring, "write": lambda: into.write(b"a,b\n"), "close": into.close}[act]()
            self.assertIs(source.wait(60.0), False)


class Ends(SourceCase):
    def test_what_is_forgotten_is_given_back(self):
        """The file and the bell, where nobody closed it; and nothing is said of one that was never open."""
        path, before = self.file("f.csv", "a,b\n"), descriptors()
        for _ in range(3):
            Growing(path)
        gc.collect()
        self.assertEqual(descriptors(), before)
        with mock.patch("sys.unraisablehook") as said:
            self.assertRaisesRegex(ValueError, "is packed", Growing, f"{path}.gz")
            self.assertRaises(FileNotFoundError, Growing, f"{path}x")
            gc.collect()
        self.assertEqual((said.call_count, descriptors()), (0, before))

    def test_a_file_that_was_left(self):
        """It ends once it is removed, and then only where nothing came for long."""
        path = self.file("f.csv", "a,b,1,1\n")
        source = self.source(path, path=path)
        later = source._still + growing.REMOVED + 1
        self.assertFalse(source.is_left)
        with mock.patch.object(growing.time, "monotonic", side_effect=lambda: now):
            for is_left in (True, False):
                source.is_left = is_left
                for now in (later, later - 2):
                    self.assertFalse(source._is_gone())
            os.remove(path)
            for now, is_left in ((later, True), (later, False), (later - 2, True)):
                source.is_left = is_left
                self.assertEqual(source._is_gone(), (now, is_left) == (later, True))

    def test_it_is_closed_once(self):
        """The numbers of its descriptors may be another's by then."""
        source = Growing(self.file("f.csv", "a,b\n"))
        source.close()
        read, write = os.pipe()
        source.close()
        source.ring()
        del source
        gc.collect()
        os.write(write, b"x")
        self.assertEqual(os.read(read, 9), b"x")
        for it in (read, write):
            os.close(it)


class BadRows(SourceCase):
    """No row behind the first one that is bad goes in, nor one that was read with it, however few rows a batch has."""

    TEXT = "a,b,1,1\nb,c,2,2\nb,,3,3\nd,e,5,5\nf,g,6,6\nh,i,7,7\nj,k,8,8\n"

    def ended(self, fault, **options):
        for batch in range(1, 6):
            store = self.store(blocks=64)
            with store.follow(self.file("bad.csv", self.TEXT), by="add", columns=COLUMNS, progress=False, until_end=True,
                              batch=batch, **options) as followed:
                self.assertRaises(fault, list, followed)
                self.assertRaises(fault, next, followed)
            with store.open() as session:
                self.assertEqual(([it[1] for it in session.edges()], store.pending), (["a", "b"], 0), batch)

    def test_the_first_one(self):
        self.ended(misteluk.BadRows)

    def test_one_that_can_t_be_kept(self):
        self.ended(errors.FeedFault, rejects="/dev/full")


if __name__ == "__main__":
    unittest.main()
