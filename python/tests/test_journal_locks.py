"""A store's file beside other processes, in rows: the lock and what it notes, descriptors, a -wal that was damaged."""
import contextlib
import os
import shutil
import sqlite3
import struct
import unittest
from unittest import mock

from journaled import JournalCase, Model, batch, put, told

from misteluk import Limits, Store
from misteluk.errors import JournalFault
from misteluk.journal.checking import check
from misteluk.journal.replica import FirstFile
from misteluk.journal.wal import _Sums, commits_lost


def descriptors():
    return len(os.listdir("/proc/self/fd"))


class Locks(JournalCase):
    def noted(self):
        """The version that the lock's file has."""
        return int((self.room / "graph.db-lock").read_bytes().split()[0])

    def test_a_version_is_noted_as_long_as_there_is_a_wal(self):
        store = self.fed(3)
        self.assertEqual(self.noted(), 3)
        with contextlib.closing(sqlite3.connect(self.path)) as reader:
            reader.execute("BEGIN")
            reader.execute("SELECT * FROM head").fetchall()
            store.close()
            self.assertEqual((self.noted(), (self.room / "graph.db-wal").exists()), (3, True))
        Store(self.path).close()
        self.assertEqual((self.noted(), (self.room / "graph.db-wal").exists()), (0, False))

    def test_an_older_copy(self):
        """It is opened where the writer closed, since nothing is missing then but what was copied back."""
        self.fed(3).close()
        shutil.copy(self.path, self.room / "copy")
        with self.opened() as store:
            put(store, batch(4))
        shutil.copy(self.room / "copy", self.path)
        with Store(self.path) as store:
            self.assertEqual(told(store), Model().upto(3).told())

    def test_a_fork_keeps_no_lock(self):
        store, (there, here) = self.fed(1), os.pipe()
        child = os.fork()
        if not child:
            os.close(here)
            os.read(there, 1)
            os._exit(0)
        os.close(there)
        try:
            store.close()
            Store(self.path).close()
        finally:
            os.close(here)
            os.waitpid(child, 0)

    def test_descriptors_are_given_back(self):
        kept, before = [], descriptors()
        for _ in range(3):
            with self.opened() as store:
                kept.append(store._engine)
                store.commit()
        self.assertEqual(descriptors(), before)
        with self.opened() as store:
            first = FirstFile(self.path)
            self.addCleanup(first.close)
            before = descriptors()
            for _ in range(3):
                self.assertEqual(len(first.added(store.commit().version - 1).rows), 1)
            self.assertEqual(descriptors(), before)


class Wals(JournalCase):
    def frames(self, data):
        """Where the frames of a -wal begin, and whether each ends a commit."""
        size = struct.unpack(">I", data[8:12])[0]
        return [(at, data[at + 4:at + 8] != bytes(4)) for at in range(32, len(data) - size - 23, 24 + size)]

    def lost(self, data):
        (self.room / "other.db-wal").write_bytes(data)
        return commits_lost(self.room / "other.db")

    def test_damage(self):
        """Of commits that are whole behind a damage the first may be one that a crash tore, and the others not."""
        with self.fed(5, limits=Limits()):
            data = (self.room / "graph.db-wal").read_bytes()
        frames = self.frames(data)
        self.assertTrue(len(frames) > sum(commit for _, commit in frames) > 5, "a commit has several frames")
        for at, (begin, _) in enumerate(frames):
            commits = sum(commit for _, commit in frames[at:])
            for byte in (begin, begin + 3, begin + 16, begin + 23, begin + 24, begin + 4_000):
                hurt = bytearray(data)
                hurt[byte] ^= 1
                self.assertEqual(self.lost(hurt), commits - 1, (at, byte - begin))
            for end in (begin, begin + 23, begin + 24, begin + 4_000):
                self.assertEqual(self.lost(data[:end]), 0, end)
        for byte in range(32):
            hurt = bytearray(data)
            hurt[byte] ^= 1
            self.assertEqual(self.lost(hurt), -1, byte)
            self.assertEqual(self.lost(data[:byte]), 0, byte)
        self.assertEqual((self.lost(data), commits_lost(self.room / "none.db")), (0, 0))

    def test_what_stands_behind_the_last_commit(self):
        """As much as a load has that a crash ended: nobody adds up its sums; but for a damage before it all is looked at."""
        with self.fed(5):
            data = (self.room / "graph.db-wal").read_bytes()
        begin, _ = self.frames(data)[0]
        frame = data[begin:begin + 4] + bytes(4) + data[begin + 8:begin + 24 + 4_096]
        with mock.patch.object(_Sums, "add", autospec=True, side_effect=_Sums.add) as added:
            counts = [(self.lost(it), added.call_count) for it in (data, data + frame * 50, data[:32] + frame * 50)]
        self.assertEqual([it for it, _ in counts], [0, 0, 0])
        self.assertEqual((counts[1][1], counts[2][1]), (2 * counts[0][1], 2 * counts[0][1] + 1))
        hurt = bytearray(data + frame * 50)
        hurt[begin + 30] ^= 1
        self.assertEqual(self.lost(hurt), sum(commit for _, commit in self.frames(data)) - 1)

    def test_what_stands_behind_a_wal_that_began_again(self):
        """Frames of the one before count for nothing."""
        with self.fed(5) as store:
            store._engine._journal.opened.execute("PRAGMA wal_checkpoint(RESTART)")
            put(store, batch(6))
            data = (self.room / "graph.db-wal").read_bytes()
        self.assertTrue(len({data[at + 8:at + 16] for at, _ in self.frames(data)}) > 1)
        self.assertEqual(self.lost(data), 0)

    def test_who_reads_looks_at_it_too(self):
        """Where nobody writes the file: `Store.at`, a check, and a replica."""
        with self.fed(3):
            for it in ("graph.db", "graph.db-wal"):
                shutil.copy(self.room / it, self.room / f"other{it[5:]}")
        path, wal = self.room / "other.db", self.room / "other.db-wal"
        hurt = bytearray(wal.read_bytes())
        hurt[60] ^= 1
        wal.write_bytes(hurt)
        for call in (lambda: Store.at(path, version=1), lambda: FirstFile(path), lambda: Store(path)):
            with self.assertRaisesRegex(JournalFault, "-wal is damaged, and not the last"):
                call()
        self.assertRegex(check(path).faults[0], "-wal is damaged")


if __name__ == "__main__":
    unittest.main()
