"""A server's store in a file, what a server begins with that took the place of a killed one, and what its clients are told."""
import gzip
import io
import signal
import socket
import subprocess
import unittest
from contextlib import redirect_stderr
from unittest import mock

from serving import ProcessCase, ServeCase
from support import as_soon_as

import misteluk
from misteluk import Edge, SessionClosed, Store, Units, connect
from misteluk.errors import Busy
from misteluk.serve.feeding import FEEDERS
from misteluk.serve.keeping import Keeper
from misteluk.serve.limits import ServerLimits


class Kept(ProcessCase):
    """`misteluk serve --save` as a process."""

    def begin(self, every="0.05"):
        done = self.command("--listen", f"unix:{self.path}", "--save", self.saved, "--save-every", every)
        self.assertIn("serves", done.stdout.readline())
        return done

    def test_a_server_that_is_killed(self):
        """The next one begins with what was saved. What came in behind that isn't there, and each client is told so once."""
        done, store = self.begin(), self.client()
        session = store.open()
        store.add("k", "Иванов Пётр", "b", 5, 1)
        store.commit()
        as_soon_as(lambda: self.stat(store)["saved"]["version"] == 1)
        done.send_signal(signal.SIGSTOP)  # (so that it saves nothing more)
        reading = Store.restore(self.saved)
        self.addCleanup(reading.close)
        self.assertEqual(reading.open().edge("k", "Иванов Пётр", "b"), Edge(5, 1, 1))
        done.kill()
        done.wait()
        store.add("k", "a", "b", 7, 2)
        self.assertRaises(misteluk.errors.NoServer, store.commit)
        self.begin("1000")
        saved = self.stat(self.client())["saved"]  # (the file has what this one began with)
        self.assertEqual((saved["version"], saved["seconds"] < 60), (0, True))
        self.assertRaisesRegex(SessionClosed, r"began anew, with what was saved at 2\d{3}-.*: what came in later isn't there",
                               store.commit)
        self.assertRaisesRegex(SessionClosed, "let version 0 go", session.cores)
        self.assertEqual((store.pending, store.commit().inserted), (1, 1))
        with store.open() as later:
            self.assertEqual(sorted(later.edges()), [("k", "a", "b", Edge(7, 2, 2)), ("k", "Иванов Пётр", "b", Edge(5, 1, 1))])

    def test_an_analyst_is_told(self):
        """Also one that opens a session anew, whose versions count anew by then; and a browser by what `stat` says."""
        done, analyst = self.begin("1000"), self.client()
        name = self.stat(analyst)["server"]
        done.kill()
        done.wait()
        self.begin()
        self.assertRaisesRegex(SessionClosed, "this server began anew, without an edge", analyst.open)
        self.assertEqual(analyst.open().version, 0)
        self.assertNotEqual(self.stat(analyst)["server"], name)

    def test_the_end_saves(self):
        done, store = self.begin("1000"), self.client()
        store.add("k", "a", "b", 5, 1)
        store.commit()
        self.assertEqual(self.stat(store)["saved"], {"version": None, "seconds": None})  # (there is no file yet)
        done.send_signal(signal.SIGTERM)
        done.communicate(timeout=60)
        self.assertEqual(done.returncode, 0)
        found = Store.restore(self.saved)
        self.addCleanup(found.close)
        self.assertEqual(list(found.open().edges()), [("k", "a", "b", Edge(5, 1, 1))])

    def test_saves_where_clients_hold_much(self):
        """More versions than the library holds at once: the newest is saved at intervals, and at the end."""
        done, store = self.begin("0.05"), self.client()
        sessions = []
        for at in range(20):
            sessions.append(store.open())
            store.add("k", "a", f"b{at}", 5, 1)
            store.commit()
        as_soon_as(lambda: self.stat(store)["saved"]["version"] == 20)
        done.send_signal(signal.SIGTERM)
        done.communicate(timeout=60)
        self.assertEqual(done.returncode, 0)
        found = Store.restore(self.saved)
        self.addCleanup(found.close)
        self.assertEqual(len(found.open().edges()), 20)

    def test_a_pipe_goes_on(self):
        """What a pipe brings goes into what was saved."""
        words = ["-", "--add", "--source", "1", "--target", "2", "--every", "10ms", "--listen", f"unix:{self.path}", "--save",
                 self.saved]
        for rows in ("ana,bob\n", "bob,cat\n"):
            done = self.command(*words, stdin=subprocess.PIPE)
            done.stdout.readline()
            done.stdin.write(rows)
            done.stdin.flush()
            store = self.client()
            as_soon_as(lambda: self.stat(store)["feed"]["rows"] == 1)
            done.send_signal(signal.SIGTERM)
            done.communicate(timeout=60)
        found = Store.restore(self.saved)
        self.addCleanup(found.close)
        self.assertEqual(sorted(it[1:3] for it in found.open().edges()), [("ana", "bob"), ("bob", "cat")])

    def test_what_is_no_saved_version_stays(self):
        for data in (b"text", gzip.compress(b"open,0\ni,misteluk,form:1,cut")):
            (self.room / "graph.gz").write_bytes(data)
            done = self.command("--listen", f"unix:{self.path}", "--save", self.saved)
            said = done.communicate(timeout=60)[1]
            self.assertEqual((done.returncode, "Nothing is restored" in said), (1, True), said)
            self.assertEqual((self.room / "graph.gz").read_bytes(), data)

    def test_one_server_saves(self):
        self.begin()
        other = self.command("--listen", f"unix:{self.path}2", "--save", self.saved)
        self.assertIn("another server saves in", other.communicate(timeout=60)[1])
        self.assertEqual(other.returncode, 1)

    def test_what_isn_t_saved_is_told(self):
        """By `stat`, and by the status at the end; the version before stays in the file."""
        server, keeper = self.fed(), Keeper(str(self.room / "graph"))
        self.addCleanup(keeper.close)
        keeper.save(server.board)
        before = (self.room / "graph").read_bytes()
        self.post("/v1/rows", {"rows": [["add", "k", "a", "b", 1, 1]]})
        with mock.patch("os.fsync", side_effect=OSError(28, "No space left on device")), redirect_stderr(io.StringIO()) as said:
            keeper.save(server.board)
        self.assertIn("the version isn't saved: [Errno 28]", said.getvalue())
        self.assertEqual((keeper.told()["version"], keeper.told()["error"]), (1, "OSError"))
        self.assertEqual((self.room / "graph").read_bytes(), before)
        keeper.save(server.board)
        self.assertEqual((keeper.told()["version"], keeper.fault), (2, ""))

    def test_units_are_the_file_s(self):
        with Store(units=Units(weight_scale=100)) as store:
            store.add("k", "a", "b", "0.10", 1)
            store.commit()
            store.open().save(self.saved)
        for words, status in ((["--weight-scale", "10"], 1), (["--weight-scale", "100"], 0), ([], 0)):
            done = self.command("--listen", f"unix:{self.path}", "--save", self.saved, *words)
            if status:
                self.assertIn("has weight_scale=100, times='number', and not weight_scale=10", done.communicate(timeout=60)[1])
            else:
                done.stdout.readline()
                store = self.client()
                self.assertEqual(str(store.open().edge("k", "a", "b").weight), "0.10")
                done.send_signal(signal.SIGTERM)
                done.communicate(timeout=60)
            self.assertEqual(done.returncode, status)

    def test_words(self):
        path = self.file("feed.csv", "ana,bob\n")
        for words, reason in (([path, "--add", "--save", self.saved], "is read again at the start"),
                              (["--save", self.saved, "--save-every", "0"], "a number above 0"),
                              (["--save", str(self.room / "none" / "graph")], "No such file")):
            done = self.command("--listen", f"unix:{self.path}", *words)
            self.assertIn(reason, done.communicate(timeout=60)[1])
            self.assertEqual(done.returncode, 1)


class Lost(ServeCase):
    """Batches whose answer is lost, and readers that take none."""

    def test_a_batch_of_one_that_lost_its_seat(self):
        """What it did is told to its client all the same; one that didn't come can't any more."""
        self.serve(limits=ServerLimits(idle=0.01))
        with connect(self.server.url) as first, connect(self.server.url) as second:
            first.add("k", "a", "b", 5, 1)
            real = first._engine.talk.call

            def lost(method, path, body=None):
                found = real(method, path, body)
                if "batches" in path and method == "POST":
                    raise misteluk.errors.NoAnswer("the answer is lost")
                return found
            with mock.patch.object(first._engine.talk, "call", lost):
                self.assertRaises(misteluk.errors.NoAnswer, first.commit)

            def taken():
                try:
                    return bool(second.commit())
                except Busy:
                    return False
            second.add("k", "a", "c", 1, 1)
            as_soon_as(taken)
            self.assertEqual((first.commit().version, first.pending), (1, 0))
        with self.server.store.open() as session:
            self.assertEqual(session.edge("k", "a", "b"), Edge(5, 1, 1))

    def test_few_of_those_are_remembered(self):
        self.serve()
        for it in range(FEEDERS + 5):
            seat = self.post("/v1/feeder").json["feeder"]
            self.post(f"/v1/feeder/{seat}/batches/1", {"operations": "a,k,x,y,1,1\n"})
            self.ask(f"/v1/feeder/{seat}", "DELETE")
        self.assertEqual(len(self.server.feeding._before), FEEDERS)

    def test_a_reader_that_takes_nothing_is_left(self):
        """Its connection ends when it was silent for long enough, its version goes, and that is no fault of the server's."""
        self.serve(limits=ServerLimits(idle=0.3))
        rows = [(f"s{it % 300}", f"target-{it // 300}", it, it) for it in range(200_000)]
        self.server.store.load(rows, by="set", progress=False)
        self.server.board.advance()
        with mock.patch("traceback.print_exc") as told_of, socket.create_connection(
                ("127.0.0.1", self.server.address.port)) as reader:
            reader.setsockopt(socket.SOL_SOCKET, socket.SO_RCVBUF, 1 << 16)
            reader.sendall(b"GET /v1/edges HTTP/1.1\r\nHost: localhost\r\n\r\n")
            as_soon_as(lambda: self.server.board._last.asked)
            as_soon_as(lambda: not self.server.board._last.asked)
            as_soon_as(lambda: not self.server._runner.server_state.connections)
            told_of.assert_not_called()


if __name__ == "__main__":
    unittest.main()
