"""How a server ends, and what doesn't end it: what was acknowledged is saved before anything else."""
import asyncio
import json
import os
import signal
import socket
import subprocess
import sys
import threading
import time
import unittest
from unittest import mock

from forking import Python
from serving import FEED, ProcessCase, ServeCase
from support import HERE, as_soon_as

from misteluk import Edge, Store, connect
from misteluk.errors import Busy
from misteluk.serve import door, ending

# A server whose answers stop for long before their part of this number, amid what one thread does.
SLOW = """
import sys, time
import misteluk.serve.flow as flow
from misteluk.command.main import main
from misteluk.serve.app import Api

def slow(real):
    def parts(*given):
        for at, it in enumerate(real(*given), 1):
            if at == int(sys.argv[1]):
                print("begun", flush=True)
                time.sleep(300)
            yield it
    return parts
Api._parts, flow.BYTES_AT_ONCE = slow(Api._parts), 1
sys.exit(main(["serve", *sys.argv[2:]]))
"""


class Signals(ProcessCase):
    """`misteluk serve --save` as a process."""

    def begin(self, *words):
        done = self.command("--listen", f"unix:{self.path}", "--save", self.saved, "--save-every", "1000", *words)
        self.assertIn("serves", done.stdout.readline())
        return done

    def in_file(self):
        found = Store.restore(self.saved)
        self.addCleanup(found.close)
        return sorted(found.open().edges())

    def test_a_terminal_that_goes(self):
        """SIGHUP ends nothing, neither at the start nor later."""
        done = self.command("--listen", f"unix:{self.path}", "--save", self.saved)
        as_soon_as(lambda: os.path.exists(f"{self.saved}.lock"))
        done.send_signal(signal.SIGHUP)
        self.assertIn("serves", done.stdout.readline())
        store = self.client()
        for at in range(3):
            done.send_signal(signal.SIGHUP)
            store.add("k", "a", "b", 5, at)
            self.assertEqual(store.commit().version, at + 1)
        self.assertIsNone(done.poll())
        done.send_signal(signal.SIGTERM)
        done.communicate(timeout=60)
        self.assertEqual((done.returncode, self.in_file()), (0, [("k", "a", "b", Edge(15, 0, 2))]))

    def test_what_was_acknowledged_is_saved_first(self):
        """A reader that takes nothing of its answer delays no save, and the end by a few seconds alone."""
        done, store = self.begin(), self.client()
        store.load([(f"s{it % 300}", f"target-{it // 300}", it, it) for it in range(200_000)], by="set", progress=False)
        with socket.socket(socket.AF_UNIX, socket.SOCK_STREAM) as reader:
            reader.connect(self.path)
            reader.sendall(b"GET /v1/edges HTTP/1.1\r\nHost: localhost\r\n\r\n")
            self.assertTrue(reader.recv(1 << 10))
            store.add("k", "last", "b", 5, 1)
            store.commit()
            done.send_signal(signal.SIGTERM)
            as_soon_as(lambda: os.path.exists(self.saved))
            begun = time.monotonic()
            self.assertIsNone(done.poll())  # (the reader has time yet)
            done.communicate(timeout=120)
        self.assertEqual(done.returncode, 0)
        self.assertLess(time.monotonic() - begun, 30)  # (by idleness alone it would take 60 s)
        found = Store.restore(self.saved)
        self.addCleanup(found.close)
        self.assertEqual(found.open().edge("k", "last", "b"), Edge(5, 1, 1))

    def test_answers_in_flight(self):
        """They come to their end, whole, where their readers take them; then the process ends, within 5 s in all."""
        done, store = self.begin(), self.client()
        store.load([(f"s{it % 300}", f"target-{it // 300}", it, it) for it in range(100_000)], by="set", progress=False)
        with socket.socket(socket.AF_UNIX, socket.SOCK_STREAM) as reader:
            reader.connect(self.path)
            reader.sendall(b"GET /v1/edges HTTP/1.1\r\nHost: localhost\r\nConnection: close\r\n\r\n")
            told = [reader.recv(1 << 10)]
            begun = time.monotonic()
            done.send_signal(signal.SIGTERM)
            as_soon_as(lambda: os.path.exists(self.saved))  # (the end has begun)
            self.assertIsNone(done.poll())
            while told[-1]:
                told.append(reader.recv(1 << 16))
        done.communicate(timeout=120)
        self.assertLess(time.monotonic() - begun, 5 if os.getloadavg()[0] < (os.cpu_count() or 1) else 60)
        head, _, body = b"".join(told).partition(b"\r\n\r\n")
        self.assertIn(b"transfer-encoding: chunked", head)
        parts = []
        while body:
            size, _, body = body.partition(b"\r\n")
            parts.append(body[:int(size, 16)])
            body = body[int(size, 16) + 2:]
        found = json.loads(b"".join(parts))
        self.assertEqual((found["rows"], len(found["columns"]["recent"]), done.returncode), (100_000, 100_000, 0))

    def test_how_long_it_may_take(self):
        """Readers' time and the process's own are within 5 s."""
        self.assertTrue(0 < ending.PATIENCE < ending.LAST < 5)

    def test_a_question_that_takes_long(self):
        """A thread that is at one delays the end no more than a reader does, before its first bytes and amid them."""
        for part in ("1", "3"):
            done = Python(["-c", SLOW, part, "--listen", f"unix:{self.path}", "--save", self.saved, "--save-every", "1000"],
                          stdout=subprocess.PIPE, stderr=subprocess.PIPE, text=True,
                          env={**os.environ, "PYTHONPATH": str(HERE.parent)})
            self.addCleanup(done.communicate)
            self.addCleanup(done.kill)
            self.assertIn("serves", done.stdout.readline())
            store = self.client()
            store.add("k", "a", f"b{part}", 5, 1)
            store.commit()
            with socket.socket(socket.AF_UNIX, socket.SOCK_STREAM) as reader:
                reader.connect(self.path)
                reader.sendall(b"GET /v1/edges HTTP/1.1\r\nHost: localhost\r\n\r\n")
                self.assertEqual(done.stdout.readline(), "begun\n")
                begun = time.monotonic()
                done.send_signal(signal.SIGTERM)
                told = done.communicate(timeout=200)[1]
            self.assertLess(time.monotonic() - begun, 150)
            self.assertEqual((done.returncode, told.count("misteluk: ended at version 1")), (0, 1))
            self.assertFalse(os.path.exists(self.path))
            self.assertIn(f"b{part}", {it[2] for it in self.in_file()})

    def test_commits_until_the_end(self):
        """Each commit that was acknowledged is in the file, and none that was refused."""
        done, store = self.begin(), self.client()
        acknowledged, met = [], []

        def feed():
            try:
                for at in range(1_000_000):
                    store.add("k", "a", f"b{at}", 1, 1)
                    store.commit()
                    acknowledged.append(f"b{at}")
            except Exception as fault:
                met.append(fault)
        thread = threading.Thread(target=feed)
        thread.start()
        as_soon_as(lambda: len(acknowledged) > 50)
        done.send_signal(signal.SIGTERM)
        done.communicate(timeout=120)
        thread.join()
        store.discard()
        self.assertEqual(done.returncode, 0)
        names = {it[2] for it in self.in_file()}
        self.assertEqual(set(acknowledged) - names, set())
        self.assertLessEqual(len(names - set(acknowledged)), 1 if not isinstance(met[0], Busy) else 0)


class Ends(ServeCase):
    def test_a_second_signal(self):
        """Then nobody waits for answers, whichever signal it is."""
        for number in (signal.SIGINT, signal.SIGTERM):
            base = type("Base", (), {"__init__": lambda it, config: None, "should_exit": False, "force_exit": False,
                                     "handle_exit": lambda it, number, frame: setattr(it, "should_exit", True)})
            server = ending.made(base, None, None)
            server.handle_exit(number, None)
            self.assertEqual((server.should_exit, server.force_exit), (True, False))
            server.handle_exit(number, None)
            self.assertEqual((server.should_exit, server.force_exit), (True, True))

    def test_connections_that_wait(self):
        """As many as the door has room for wait in the sockets' queues, and not uvicorn's number."""
        listening, begun = [mock.Mock(), mock.Mock()], mock.AsyncMock()
        base = type("Base", (), {"__init__": lambda it, config: None, "startup": begun})
        asyncio.run(ending.made(base, None, None).startup(sockets=listening))
        begun.assert_awaited_once_with(sockets=listening)
        for it in listening:
            it.listen.assert_called_once_with(door.QUEUE)

    def test_the_last_of_a_process(self):
        """It ends with the status that it has, which is asked and told once."""
        for status in (0, 1):
            last = mock.Mock(return_value=status)
            deadline = ending.Deadline(last)
            seen = mock.Mock()
            with mock.patch.object(os, "_exit", seen.exit), mock.patch.multiple(sys, stdout=seen.out, stderr=seen.err):
                self.assertEqual(deadline.status(), status)
                deadline._end()
            self.assertEqual(seen.mock_calls, [mock.call.out.flush(), mock.call.err.flush(), mock.call.exit(status)])
            self.assertEqual(last.call_count, 1)
        deadline = ending.Deadline(mock.Mock(side_effect=BrokenPipeError))
        with mock.patch.object(os, "_exit") as exited:
            deadline._end()
        exited.assert_called_once_with(1)

    def test_a_deadline_that_is_cancelled(self):
        with mock.patch.object(ending, "LAST", 0.05), mock.patch.object(os, "_exit") as exited:
            ended, cancelled = ending.Deadline(lambda: 0), ending.Deadline(lambda: 1)
            for it in (ended, cancelled):
                it.begin()
            cancelled.cancel()
            as_soon_as(lambda: exited.called)
        cancelled._timer.join()
        exited.assert_called_once_with(0)

    def test_a_save_that_failed_has_time(self):
        """It is tried once more at the end, and the process waits for that."""
        server, said = self.serve(), mock.Mock()
        server._saved, server._keeper = said, mock.Mock(fault="OSError")
        server._end()
        said.assert_not_called()
        server._keeper.fault = ""
        server._end()
        said.assert_called_once_with()

    def test_no_rows_come_in_at_the_end(self):
        """Each way of them is told so; questions are answered still."""
        self.fed()
        with connect(self.server.url) as store:
            store.add("k", "a", "b", 5, 1)
            store.commit()
            seat = store._engine._feeder
            self.server.feeding.close()
            self.assertEqual(self.post(f"/v1/feeder/{seat}/batches/9", {"operations": "a,k,x,y,5,1\n"}).json["error"], "Busy")
            store.add("k", "a", "c", 5, 1)
            self.assertRaisesRegex(Busy, "this server ends", store.commit)
            self.assertEqual(store.discard(), 1)
        told = self.post("/v1/rows", {"rows": FEED})
        self.assertEqual((told.status, told.json["error"], self.post("/v1/feeder").status), (409, "Busy", 409))
        self.assertEqual((self.ask("/v1/stat").json["version"], self.ask("/v1/cores").status), (2, 200))


if __name__ == "__main__":
    unittest.main()
