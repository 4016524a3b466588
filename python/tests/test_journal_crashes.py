"""A store's file behind killed writers, losses of power, damaged bytes and full disks: a few of each. (`tools/try-journal` tries
many.) Each is tried with a fault that is planted too, which it has to find."""
import contextlib
import sqlite3
import unittest
from unittest import mock

import crashing
import soaking
from journaled import told
from support import Case, optional

from misteluk import Store
from misteluk.errors import JournalFault
from misteluk.journal import journal
from misteluk.journal.lock import WritersLock
from misteluk.journal.tables import Written


class Crashes(Case):
    def shimmed(self):
        shim = crashing.shim_in(self.room)
        if shim is None:
            self.skipTest("no C compiler is here")
        return shim

    def test_killed_writers(self):
        found = crashing.kills(self.room, 3)
        self.assertGreater(found["last version"], 5)

    def test_losses_of_power(self):
        shim = self.shimmed()
        found = crashing.losses(self.room, shim, 2)
        self.assertLessEqual(found["missing at most"], 0)
        found = crashing.losses(self.room, shim, 1, "off", most=(1.0, 1.5))
        self.assertGreater(found["missing at most"], 0, "the shim keeps what wasn't synced")

    def test_damaged_bytes(self):
        found = crashing.damages(self.room, 12)
        self.assertFalse([it for it in found if "WITHOUT A WORD" in it], found)
        self.assertTrue(any("a fault" in it for it in found) and any("whole" in it for it in found), found)

    def test_what_is_whole_of_a_damaged_wal(self):
        """SQLite takes it where it is told so, as the fault says: exactly the batches before the damage."""
        (self.room / "there").mkdir()
        crashing.made(self.room / "here", self.room / "there", in_wal=True)
        path = self.room / "there/graph.db"
        wal = path.with_name("graph.db-wal")
        data = bytearray(wal.read_bytes())
        data[len(data) // 2] ^= 1
        wal.write_bytes(data)
        with self.assertRaisesRegex(JournalFault, "wal_checkpoint"):
            Store(path)
        self.assertEqual(wal.read_bytes(), data)
        with contextlib.closing(sqlite3.connect(path)) as opened:
            opened.execute("PRAGMA wal_checkpoint(TRUNCATE)")
        with self.assertRaisesRegex(JournalFault, "had version 60"):
            Store(path)
        path.with_name("graph.db-lock").unlink()
        with Store(path) as store:
            version = store.stat().version
            self.assertTrue(40 < version < 60, version)
            self.assertEqual(told(store), crashing.models()[version].told())

    def test_damaged_bytes_that_nobody_looks_for(self):
        with mock.patch.object(journal, "commits_lost", lambda _: 0), mock.patch.object(WritersLock, "note", lambda *_: None):
            found = crashing.damages(self.room, 4)
        self.assertTrue([it for it in found if "WITHOUT A WORD" in it], found)

    def test_batches_whose_sums_nobody_looks_at(self):
        path = crashing.whole(self.room)
        data = path.read_bytes()
        path.write_bytes(data.replace(b"a149,", b"a148,"))
        self.assertEqual(crashing.told_of(path, crashing.models()), "a fault, and the versions before it by Store.at")
        with mock.patch.object(Written, "summed", lambda self, _: self), self.assertRaisesRegex(AssertionError, "another graph"):
            crashing.told_of(path, crashing.models())

    def test_full_disks(self):
        found = crashing.full_disks(self.room, self.shimmed(), (9, 70))
        self.assertGreater(found.get("told", 0), 0)

    @unittest.skipUnless(optional("starlette") and optional("uvicorn"), "starlette or uvicorn is not there")
    def test_a_killed_server(self):
        """With clients who send again what wasn't answered. Looked at is what is lost, in twice, in part, or out of order."""
        clients, real = [], soaking.ended
        with mock.patch.object(soaking, "ended", lambda path, them: (clients.extend(them), real(path, them))[1]):
            found = soaking.soak(self.room, 0.05, least=0.5, most=1.5)
        self.assertGreater(found["kills"], 0)
        self.assertGreater(found["posts that were acknowledged"], 10)
        client, path = max(clients, key=lambda it: len(it.versions)), self.room / "soaked.db"
        for versions, why in ((client.versions + [1 << 40], "1 posts are lost"), (client.versions[:-2], "posts are in twice"),
                              (client.versions[::-1], "a later post"), (client.versions[:1] * 2, "two posts have one")):
            with mock.patch.object(client, "versions", versions), self.assertRaisesRegex(AssertionError, why):
                real(path, clients)
        target = next(it for number in range(1, 10) for it, _ in soaking.rows_of(client.number, number) if it != "posts")
        for weight, why in ((1, "in part"), (-1, "no version, or two")):
            with Store(path) as store:
                store.add("k", f"c{client.number}", target, weight)
                store.commit()
            self.assertRaisesRegex(AssertionError, why, real, path, clients)

    def test_failed_syncs(self):
        found = crashing.failed_syncs(self.room, self.shimmed(), (9, 16, 30))
        self.assertGreater(found.get("is there", 0) + found.get("isn't there", 0), 1, found)
        with Store(crashing.whole(self.room)) as store, self.assertRaisesRegex(AssertionError, "after a sync that failed"):
            crashing.refuses(store, crashing.Model().upto(60), 61)


if __name__ == "__main__":
    unittest.main()
