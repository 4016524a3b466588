"""What goes wrong while a version is saved, as an interrupt or a full disk, leaves the old file whole. A damaged file is refused.
Tests are made again with faults that are planted, and have to find them."""
import contextlib
import errno
import os
import resource
import stat
import subprocess
import sys
import unittest
import warnings
from unittest import mock

from interrupting import at_line
from support import HERE, Case

import misteluk
from misteluk import Store, files, saving

ENDINGS = ("", ".gz", ".xz", ".bz2")


@contextlib.contextmanager
def files_of_at_most(size):
    """Files can't grow beyond so many bytes, as on a full disk."""
    before = resource.getrlimit(resource.RLIMIT_FSIZE)
    resource.setrlimit(resource.RLIMIT_FSIZE, (size, before[1]))
    try:
        yield
    finally:
        resource.setrlimit(resource.RLIMIT_FSIZE, before)


@contextlib.contextmanager
def in_place(path):
    """A fault to plant: a file is written where the old one is."""
    with open(path, "wb") as file:
        yield file


def told(found):
    """What a saved file has, with its operations as rows."""
    return found.facts, found.texts, found.operations.rows()


class Faults(Case):
    """What goes wrong while a version is saved or restored."""

    def setUp(self):
        super().setUp()
        self.saver = self.store("insert k a b 1 1", "insert k b Ж 2 2", blocks=64)
        self.path = self.room / "s.csv.gz"
        self.saver._open(0).save(self.path)
        self.old = self.path.read_bytes()
        self.feed(self.saver, "insert l c a 3 3")
        self.session = self.saver._open(1)
        self.session.save(self.room / "new.csv.gz")
        self.new = (self.room / "new.csv.gz").read_bytes()

    def is_old(self):
        return self.path.read_bytes() == self.old and sorted(os.listdir(self.room)) == ["new.csv.gz", "s.csv.gz"]

    def run(self, result=None):
        """Python closes a file late where an interrupt comes at the end of its `with`, and warns of that."""
        with warnings.catch_warnings():
            warnings.simplefilter("ignore", ResourceWarning)
            return super().run(result)

    def lines(self, step=1):
        """How many lines a save runs, and at which of them an interrupt makes it go wrong."""
        wrong, at = [], 1 - step
        while True:
            at += step
            self.path.write_bytes(self.old)
            interrupted = at_line(at, lambda: self.session.save(self.path))
            left = self.path.read_bytes(), sorted(os.listdir(self.room))
            if left not in ((self.old, ["new.csv.gz", "s.csv.gz"]), (self.new, ["new.csv.gz", "s.csv.gz"])):
                wrong.append(at)
                for it in self.room.glob("*.part"):
                    it.unlink()
            if not interrupted:
                self.assertEqual(left[0], self.new)
                return at - 1, wrong

    def test_an_interrupt_at_each_line(self):
        count, wrong = self.lines()
        self.assertGreater(count, 300)
        self.assertEqual(wrong, [])
        self.assertEqual(self.session.edge_count, 3)
        with mock.patch.object(files, "whole", in_place):
            self.assertGreater(len(self.lines(3)[1]), 0)

    def test_what_is_killed(self):
        """The process that saves, before the file has its name."""
        code = ("import os, sys, misteluk; os.replace = lambda *_: os.kill(os.getpid(), 9); store = misteluk.Store(blocks=64); "
                "store.open().save(sys.argv[1])")
        done = subprocess.run([sys.executable, "-c", code, self.path], cwd=HERE.parent, timeout=60)
        self.assertEqual((done.returncode, self.path.read_bytes() == self.old), (-9, True))
        self.assertEqual(len([it for it in os.listdir(self.room) if it.endswith(".part")]), 1)

    def full(self):
        """After how many bytes a disk is full that makes a save leave another file than the old one."""
        wrong = []
        for size in (0, 1, 20, len(self.new) - 1):
            with files_of_at_most(size), self.assertRaises(OSError) as told:
                self.session.save(self.path)
            self.assertEqual(told.exception.errno, errno.EFBIG)
            wrong += [] if self.is_old() else [size]
        return wrong

    def test_a_full_disk(self):
        self.assertEqual(self.full(), [])
        with mock.patch.object(files, "whole", in_place):
            self.assertEqual(len(self.full()), 4)
        self.path.write_bytes(self.old)
        for name in ("fsync", "replace", "fchmod"):
            with mock.patch.object(os, name, side_effect=OSError(errno.ENOSPC, "No space left on device")):
                with self.assertRaises(OSError) as told:
                    self.session.save(self.path)
            self.assertTrue(self.is_old(), name)
            self.assertEqual(str(told.exception), f"[Errno 28] No space left on device: '{self.path}'")
        with mock.patch.object(files, "open", side_effect=lambda path, _: os.open(path, os.O_RDONLY), create=True):
            with self.assertRaisesRegex(FileNotFoundError, f"'{self.path}'$"):
                self.session.save(self.path)
        with files_of_at_most(20), self.assertRaisesRegex(OSError, "File too large: '.*/e.csv'$"):
            self.session.edges().to_csv(self.room / "e.csv")

    def test_what_is_on_the_disk_first(self):
        """A file is synced once it is whole, and has its name behind that; then its folder is synced."""
        done, sync, rename = [], os.fsync, os.replace

        def synced(opened):
            found = os.fstat(opened)
            done.append("a folder" if stat.S_ISDIR(found.st_mode) else found.st_size)
            sync(opened)

        def renamed(*names):
            done.append("renamed")
            rename(*names)
        edges = self.session.edges()
        for path, write in ((self.room / "t.csv", self.session.save), (self.room / "t.csv.gz", self.session.save),
                            (self.room / "e.csv", edges.to_csv), (self.room / "e.csv.gz", edges.to_csv)):
            with mock.patch.object(os, "fsync", synced), mock.patch.object(os, "replace", renamed):
                write(path)
            self.assertEqual(done, [os.stat(path).st_size, "renamed", "a folder"])
            done.clear()

    def test_a_packed_file_has_no_time(self):
        """So the same graph makes the same bytes."""
        self.assertEqual((self.new[:2], self.new[4:8]), (b"\x1f\x8b", bytes(4)))

    def test_a_store_that_can_t_be_filled_is_closed(self):
        made = []

        def make(blocks, *_):
            made.append(Store(blocks=blocks))
            return made[-1]
        with mock.patch.object(saving, "_fill", side_effect=KeyError), self.assertRaises(KeyError):
            saving.restore(self.path, make, None, None)
        self.assertEqual([it.is_closed for it in made], [True])

    def test_places_that_can_t_be_written(self):
        os.symlink("/dev/full", self.room / "full")
        for fault, place in ((FileNotFoundError, "no/s.csv"), (IsADirectoryError, "."), (OSError, "full")):
            with self.assertRaises(fault):
                self.session.save(self.room / place)
        with mock.patch.dict("sys.modules", {"zstandard": None}), self.assertRaises(misteluk.errors.Missing):
            self.session.save(self.room / "s.zst")

    def test_links_and_rights_stay(self):
        os.symlink(self.path, self.room / "link.gz")
        os.chmod(self.path, 0o640)
        self.session.save(self.room / "link.gz")
        self.assertTrue(os.path.islink(self.room / "link.gz"))
        self.assertEqual((self.path.read_bytes(), stat.S_IMODE(os.stat(self.path).st_mode)), (self.new, 0o640))

    def damaged(self, ending):
        """How many files, cut at each place, or with a byte changed or left out at each, are taken for something else."""
        path, count = self.room / f"d.csv{ending}", 0
        self.session.save(path)
        data, whole = path.read_bytes(), told(saving.read(path))
        for at in range(len(data)):
            for it in (data[:at], data[:at] + bytes([data[at] ^ 1]) + data[at + 1:], data[:at] + data[at + 1:]):
                try:
                    count += told(saving.found_in(it, "damaged")) != whole
                except misteluk.errors.SaveFault:
                    pass
                except Exception:
                    count += 1
        return count

    def test_damage_is_refused(self):
        for ending in ENDINGS:
            self.assertEqual(self.damaged(ending), 0, ending)
        (self.room / "e.csv").write_bytes((self.room / "d.csv").read_bytes())
        self.session.save(self.room / "e.csv")
        (self.room / "f.csv").write_bytes((self.room / "e.csv").read_bytes() + b"i,k,x,y,1,1\ncommit\n")
        with self.assertRaisesRegex(misteluk.errors.SaveFault, "f.csv is damaged or cut"):
            Store.restore(self.room / "f.csv")

    def test_without_the_digest_damage_is_taken(self):
        class Whatever:
            """A digest that is equal to any other."""

            def hexdigest(self):
                return self

            def encode(self, _):
                return mock.ANY
        self.session.save(self.room / "d.csv")
        with mock.patch.object(saving, "hashlib", mock.Mock(sha256=lambda _: Whatever())):
            with mock.patch.object(type(self.session), "save", lambda *_: None):
                self.assertGreater(self.damaged(""), 100)

    def test_other_files_are_refused(self):
        for text, told in (("", "is no saved version"), ("a,b\n", "is no saved version"), ("open,0\n", "is no saved version"),
                           ("i,k,a,b,1,1\ncommit\n", "is no saved version"),
                           (f"open,0\ni,misteluk,form:2,{'0' * 64},0,0\n", "is of form 2, and this package knows form 1")):
            with self.assertRaisesRegex(misteluk.errors.SaveFault, told):
                Store.restore(self.file("o.csv", text))
        self.assertRaises(FileNotFoundError, Store.restore, self.room / "none.csv")
        self.assertRaises(IsADirectoryError, Store.restore, self.room)

    def test_a_saved_version_is_no_feed(self):
        told = "no column 'source'; .* What Session.save wrote is restored by Store.restore"
        with self.assertRaisesRegex(misteluk.errors.FeedFault, told):
            self.store().load(self.path, by="set")

    def test_packed_by_another_name(self):
        """How a file is packed its beginning says."""
        os.rename(self.path, self.room / "s")
        with Store.restore(self.room / "s") as store:
            self.assertEqual(store.stat().edges, 2)


if __name__ == "__main__":
    unittest.main()
