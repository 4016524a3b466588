"""The files that stand at a path one after another, by small parts: which of those that stood there before are found again, which
are read first, and what a store's file is told of them. What a server does with them test_serve_rotation.py says."""
import contextlib
import gc
import os
import threading
import unittest
import warnings
from unittest import mock

from support import Case, as_soon_as

from misteluk.errors import FeedFault
from misteluk.feeds import rotation
from misteluk.feeds.marks import Mark
from misteluk.feeds.rotation import Succession, earlier, mark_of
from misteluk.feeds.steps import FeedMark, FeedPlace

TEXT = "a,b,1,1\nc,d,1,1\n"


def open_files():
    """The paths of the files that this process has open."""
    found = []
    for it in os.listdir("/proc/self/fd"):
        try:
            found.append(os.readlink(f"/proc/self/fd/{it}"))
        except OSError:  # (that of the listing itself)
            pass
    return sorted(found)


class FilesCase(Case):
    def setUp(self):
        super().setUp()
        self.path, self.kept = os.path.realpath(self.file("log", "new\n")), []

    def known(self, name, turn, read=len(TEXT), left=False, begin=0, of=None, done=2):
        """Notes what a store's file knows of a file of this name that was read so far."""
        with open(self.room / name, "rb") as file:
            mark = Mark.of(file.fileno(), begin, max(read - begin, 0)) if read else ""
            it = FeedMark.of(of or self.path, os.fstat(file.fileno()), begin)._replace(turn=turn)
        self.kept.append(it._replace(place=FeedPlace(rows=done, read=read, mark=mark, done=done, left=left)))
        return self.kept[-1]

    @property
    def feeds(self):
        return {str(at): it.written(it.place) for at, it in enumerate(self.kept)}

    @contextlib.contextmanager
    def all_closed(self):
        """Whether each file that is opened within is closed within, and not left to Python."""
        before = open_files()
        with warnings.catch_warnings(), mock.patch("sys.unraisablehook") as said:
            warnings.simplefilter("error", ResourceWarning)
            yield before
            gc.collect()
        self.assertEqual((open_files(), said.call_args_list), (before, []))


class Earlier(FilesCase):
    def names(self):
        found = earlier(self.path, self.feeds)
        told = [(os.path.basename(it.found), it.name, it.file.tell(), it.mark.turn, it.has_more) for it in found]
        for it in found:
            it.file.close()
        return told

    def test_what_is_found(self):
        """Those that are there by another name, in their turn, where they have what was read of them; each at its begin."""
        self.assertEqual(earlier(self.path, {}), [])
        for name in ("log.2", "log.1", "elsewhere", "rewritten", "removed"):
            self.file(name, TEXT + "e,f,1,1\n" * (name == "log.2"))
        self.known("log.1", 3, read=8)
        self.known("log.2", 2, begin=8)
        self.known("elsewhere", 4)
        self.known("rewritten", 5)
        self.known("removed", 6)
        self.known("log.1", 9, of="/another/path")
        self.known("log", 7, read=4)
        self.file("rewritten", TEXT.replace("a", "x"))
        os.remove(self.room / "removed")
        with self.all_closed():
            self.assertEqual(self.names(), [("log.2", self.path, 8, 2, True), ("log.1", self.path, 0, 3, True),
                                            ("elsewhere", self.path, 0, 4, False)])

    def test_what_nothing_was_read_of(self):
        """Its name says which it is: another one may have its number by now, and one that was packed has another text."""
        for name, is_found in (("log.1", True), ("log-2026", True), ("other", False), ("log.1.gz", False), ("log.xz", False),
                               ("log.2.bz2", False), ("log.zst", False)):
            self.kept.clear()
            self.file(name, TEXT)
            self.known(name, 1, read=0, done=0)
            self.assertEqual(self.names(), [(name, self.path, 0, 1, True)] * is_found, name)

    def test_what_has_more(self):
        for read, left, is_more in ((len(TEXT), False, False), (len(TEXT), True, True), (8, False, True), (8, True, True)):
            self.kept.clear()
            self.file("log.1", TEXT)
            self.known("log.1", 1, read=read, left=left)
            self.assertEqual([it[4] for it in self.names()], [is_more], (read, left))


class Alone(FilesCase):
    """A file that is followed by itself, which is another than the one that was read by its path."""

    def mark(self, begin=0):
        with open(self.path, "rb") as file:
            return mark_of(self.path, file.fileno(), begin, self.feeds)

    def test_the_one_before_has_more(self):
        """That is told, with where it is: what is left of it would be lost."""
        self.file("log.1", TEXT)
        self.known("log.1", 1, read=8)
        with self.all_closed():
            self.refused(FeedFault, f"{self.path} is another file than the one that was read by this name, which is "
                         f"{os.path.realpath(self.room / 'log.1')} now and has more than is in: follow that one first", self.mark)

    def test_the_one_before_is_in(self):
        self.file("log.1", TEXT)
        for of in (self.path, "/another/path"):
            self.kept.clear()
            self.known("log.1", 1, read=len(TEXT) if of == self.path else 8, of=of)
            with self.all_closed():
                found = self.mark()
            self.assertEqual((found.path, found.place, found.turn), (self.path, FeedPlace(), 2 if of == self.path else 1), of)

    def test_one_that_is_known(self):
        """It goes on where it is in to, whatever stood there before; from another begin it is another one."""
        self.file("log.1", TEXT)
        self.known("log.1", 1, read=8)
        mine = self.known("log", 2, read=4, done=1)
        self.assertEqual(self.mark(), mine)
        self.kept.pop(0)
        self.assertEqual((self.mark(2).place, self.mark(2).turn), (FeedPlace(), 3))


class Successions(FilesCase):
    def setUp(self):
        super().setUp()
        quick = mock.patch.object(rotation, "LOOK", 0.01)
        quick.start()
        self.addCleanup(quick.stop)
        self.noted = []

    def begin(self):
        found = Succession(self.path, self.feeds, self.noted.append)
        self.addCleanup(found.close)
        return found

    def next(self, files):
        """Which file comes next, its turn and where it is."""
        found = files.next()
        with found.file:
            return os.path.basename(found.found), found.mark.turn, found.file.tell()

    def about(self, files):
        return files.is_another, files.before, files.gone

    def rotate(self, text, to="log.1"):
        os.rename(self.path, self.room / to)
        self.file("log", text)

    def test_the_first_one(self):
        files = self.begin()
        self.assertEqual((self.about(files), self.noted), ((False, None, 0), []))
        self.assertEqual(self.next(files), ("log", 1, 0))

    def test_the_same_one(self):
        """It is known already, and noted no second time."""
        self.known("log", 3, read=4)
        files = self.begin()
        self.assertEqual((self.about(files), self.noted), ((False, None, 0), []))
        self.assertEqual(self.next(files), ("log", 3, 0))

    def test_another_one(self):
        """What is left of the one before comes first, then the new one, which is noted."""
        for read in (8, len(TEXT)):
            self.kept.clear()
            self.noted.clear()
            self.file("log.1", TEXT)
            self.known("log.1", 4, read=read)
            files = self.begin()
            self.assertEqual(self.about(files), (True, os.path.realpath(self.room / "log.1"), 0))
            self.assertEqual([(it.turn, it.place) for it in self.noted], [(5, FeedPlace())])
            self.assertEqual([self.next(files) for _ in range(len(files._files))], [("log.1", 4, 0), ("log", 5, 0)])
            files.close()

    def test_several_before(self):
        """Of those before the last one such as have more, and no file stays open that isn't read."""
        for turn, (name, read) in enumerate((("log.4", 8), ("log.3", len(TEXT)), ("log.2", 8), ("log.1", len(TEXT))), 1):
            self.file(name, TEXT)
            self.known(name, turn, read=read)
        with self.all_closed() as before:
            files = self.begin()
            self.assertEqual(len(open_files()), len(before) + 4)
            found = [self.next(files)[:2] for _ in range(len(files._files))]
            self.assertEqual(found, [("log.4", 1), ("log.2", 3), ("log.1", 4), ("log", 5)])
            files.close()

    def test_what_isn_t_there_any_more(self):
        """It is counted where it may have had more: where some was left of it, or no later one had begun."""
        for marks, gone, is_another in (
                ([("a", 1, False, 2)], 1, True), ([("a", 1, False, 0)], 1, True), ([("a", 0, False, 0)], 1, True),
                ([("a", 1, False, 2), ("b", 2, False, 0)], 2, True), ([("a", 1, False, 2), ("b", 2, False, 2)], 1, True),
                ([("a", 1, True, 2), ("b", 2, False, 2)], 2, True),
                ([("a", 1, False, 2), ("log", 2, False, 2)], 0, False), ([("a", 1, True, 2), ("log", 2, False, 2)], 1, False),
                ([("a", 1, False, 2), ("log", 2, False, 0)], 1, False), ([("log", 1, False, 2)], 0, False)):
            self.kept.clear()
            for name, turn, left, done in marks:
                if name != "log":
                    self.file(name, TEXT)
                self.known(name, turn, read=4 if done else 0, left=left, done=done)
            for name in {name for name, *_ in marks} - {"log"}:
                os.remove(self.room / name)
            files = self.begin()
            self.assertEqual(self.about(files), (is_another, None, gone), marks)
            files.close()

    def test_one_that_is_found_though_the_last_isn_t(self):
        """It isn't the one before."""
        for name in ("log.2", "log.1"):
            self.file(name, TEXT)
        self.known("log.2", 1, read=8)
        self.known("log.1", 2)
        os.remove(self.room / "log.1")
        files = self.begin()
        found = [self.next(files)[:2] for _ in range(len(files._files))]
        self.assertEqual((self.about(files), found), ((True, None, 1), [("log.2", 1), ("log", 3)]))

    def test_of_other_paths(self):
        """What is known of them says nothing of this one."""
        self.file("log.1", TEXT)
        self.known("log.1", 7, read=8, of="/another/path")
        files = self.begin()
        self.assertEqual((self.about(files), self.next(files), self.noted), ((False, None, 0), ("log", 1, 0), []))

    def test_each_that_takes_its_place(self):
        """A thread sees it, also where nobody asks for the next one, and none is missed that is rotated away again."""
        files = self.begin()
        for turn in range(2, 5):
            self.rotate(f"{turn}\n", f"log.{turn}")
            as_soon_as(lambda: len(self.noted) == turn - 1, 20)
        self.assertEqual([(it.turn, it.place) for it in self.noted], [(it, FeedPlace()) for it in range(2, 5)])
        texts = []
        for _ in range(4):
            with files.next().file as file:
                texts.append(file.read())
        self.assertEqual(texts, [b"new\n", b"2\n", b"3\n", b"4\n"])

    def test_a_path_where_none_stands(self):
        """It waits there for the next one. (Whoever follows the last one has it open, so that no other has its number.)"""
        files, found = self.begin(), []
        self.assertEqual(len(files._files), 1)
        last = files.next()
        self.addCleanup(last.file.close)
        os.remove(self.path)
        thread = threading.Thread(target=lambda: found.append(self.next(files)))
        thread.start()
        thread.join(0.1)
        self.assertTrue(thread.is_alive())
        self.file("log", "later\n")
        thread.join(60)
        self.assertEqual(found, [("log", 2, 0)])

    def test_at_its_end(self):
        """Nobody waits any more, its thread ends, and what wasn't taken is closed."""
        threads = set(threading.enumerate())
        with self.all_closed():
            files = self.begin()
            watch, = set(threading.enumerate()) - threads
            self.assertTrue(watch.daemon)  # (so that a process ends though nobody closes it)
            files.close()
            watch.join(20)
            self.assertFalse(watch.is_alive())
            self.assertIsNone(files.next())
            self.rotate("later\n")
            files._look()

    def test_one_that_comes_back(self):
        """A file that was renamed and stands there again between two looks is the same one still."""
        files = self.begin()
        real = os.stat

        def gone(path, *given, **how):
            return real(self.file("another", "x") if path == self.path else path, *given, **how)
        with self.all_closed(), mock.patch.object(rotation.os, "stat", gone):
            files._look()
        self.assertEqual(self.next(files)[:2], ("log", 1))
        self.assertEqual((len(files._files), self.noted), (0, []))


if __name__ == "__main__":
    unittest.main()
