"""A server's clients, who gets in, and `misteluk serve` as a process."""
import io
import os
import signal
import socket
import stat
import subprocess
import sys
import threading
import time
import unittest
from contextlib import redirect_stderr, redirect_stdout, suppress
from typing import List
from unittest import mock

from serving import FEED, ServeCase
from support import HERE, Case, as_soon_as

import misteluk
from misteluk import Edge, SessionClosed, connect, errors
from misteluk.errors import Busy, NoSeat, NoServer
from misteluk.command.main import main
from misteluk.serve.limits import ServerLimits
from misteluk.serve.people import People
from misteluk.serve.server import Address, Server


class Clients(ServeCase):
    def test_seats_over_http(self):
        """As many versions as clients may hold; the newest is asked all the same."""
        self.fed(limits=ServerLimits(versions=20))
        sessions = []
        self.addCleanup(lambda: [it.close() for it in sessions])
        for it in range(20):
            sessions.append(connect(self.server.url).open())
            self.assertEqual(self.post("/v1/rows", {"rows": [["add", "k", "a", "b", 1, 1]]}).status, 200)
        self.assertEqual(self.ask("/v1/edge?kind=k&source=a&target=b").json["version"], 21)
        found = self.post("/v1/sessions")
        self.assertEqual((found.status, found.json["error"]), (503, "NoSeat"))
        self.assertTrue(0 < int(found.headers["retry-after"]) <= 60)
        self.assertRaisesRegex(NoSeat, "ask again in", sessions[0].store.open)
        self.assertEqual((sessions[3].version, self.ask("/v1/stat").json["seats"]), (4, 20))
        sessions.pop().close()
        with connect(self.server.url) as of_session, of_session.open() as session:
            self.assertEqual(session.version, 21)
        with connect(self.server.url) as of_session, of_session.open(version=4) as session:
            self.assertEqual(session.version, 4)

    def test_a_version_that_was_let_go(self):
        self.fed()
        with connect(self.server.url) as of_session, of_session.open() as session:
            self.assertEqual(self.ask(f"/v1/sessions/{session._held.name}", "DELETE").status, 204)
            self.assertRaisesRegex(SessionClosed, "the server let version 1 go", session.cores)
            self.assertFalse(session.is_open)

    def test_no_server(self):
        with socket.socket() as free:
            free.bind(("127.0.0.1", 0))
            self.assertRaisesRegex(NoServer, "doesn't answer", connect, f"http://127.0.0.1:{free.getsockname()[1]}")
        self.assertRaisesRegex(NoServer, "doesn't answer", connect, f"unix:{self.room}/none")
        for wrong in ("7700", "ftp://localhost", "http://", "unix:"):
            self.assertRaisesRegex(ValueError, "a server's address", connect, wrong)

    def test_it_takes_no_other_end(self):
        self.fed()
        with connect(self.server.url) as store:
            self.assertRaisesRegex(misteluk.StoreError, "by the server alone", store.compact)
            self.assertRaisesRegex(misteluk.StoreError, "by the server alone", store.compact, store.open())


class Doors(ServeCase):
    """Who gets in."""

    def test_other_machines_want_a_token(self):
        with misteluk.Store() as store:
            for listen in ("0.0.0.0:0", "[::]:0", "192.0.2.1:0"):
                self.assertRaisesRegex(ValueError, "that wants a token", Server, store, listen)
            for wrong in ("7700", "localhost:", "localhost:99999", ":7700", "unix:", "localhost:x"):
                self.assertRaisesRegex(ValueError, "an address is", Server, store, wrong)
            for wrong in ("short", "with space", "päßwörter"):
                self.assertRaisesRegex(ValueError, "a token has", People, token=wrong)
        self.assertEqual(Address.of("[::1]:7").url, "http://[::1]:7")

    def test_a_unix_socket(self):
        """It is its owner's alone from the first; one that a server left is taken, and one that is in use isn't."""
        path = str(self.room / "socket")
        with socket.socket(socket.AF_UNIX) as left:
            left.bind(path)
        server = self.serve(f"unix:{path}")
        self.assertEqual(stat.S_IMODE(os.stat(path).st_mode), 0o600)
        with connect(server.url) as store:
            store.add("k", "a", "b", 5, 1)
            store.commit()
            with connect(f"unix:{path}") as of_session, of_session.open() as session:
                self.assertEqual(session.edge("k", "a", "b"), Edge(5, 1, 1))
        with misteluk.Store() as other:
            self.assertRaises(OSError, Server, other, f"unix:{path}")
            self.file("plain", "text")
            self.assertRaises(OSError, Server, other, f"unix:{self.room / 'plain'}")
        server.stop()
        self.assertEqual((os.path.exists(path), (self.room / "plain").read_text()), (False, "text"))

    def test_bodies_have_an_end(self):
        self.serve(limits=ServerLimits(body=1_024))
        self.assertEqual(self.ask("/v1/rows", "POST", b"x" * 2_000, Content_Type="text/csv").status, 413)
        self.assertEqual(self.post("/v1/rows", {"rows": FEED}).status, 200)

    def test_what_limits_may_be(self):
        for name, least, most in (("body", 1_024, 1 << 30), ("clients", 1, 100_000), ("questions", 1, 64),
                                  ("versions", 1, 100_000), ("idle", 1e-9, 1e6), ("time", 1e-9, 1e6)):
            for value in (least, most):
                self.assertEqual(getattr(ServerLimits(**{name: value}).checked(), name), value)
            for value in (least - 1, 0, most + 1, *[float("nan")] * isinstance(least, float)):
                self.assertRaises(ValueError, ServerLimits(**{name: value}).checked)
        for value, is_one in ((0, True), (5.0, True), (1e6, True), (-1, False), (1e7, False), (float("nan"), False)):
            if is_one:
                self.assertEqual(ServerLimits(publish=value).checked().publish, value)
            else:
                self.assertRaises(ValueError, ServerLimits(publish=value).checked)

    def test_a_question_that_takes_too_long(self):
        """It is told so, and lets its version go when it comes to its end."""
        self.serve(limits=ServerLimits(time=0.2, questions=1))
        gate = threading.Event()
        self.addCleanup(gate.set)
        session = self.server.board._last.session
        held, session._held = session._held, Slow(session._held, gate)
        self.addCleanup(setattr, session, "held", held)
        found = self.ask("/v1/cores")
        self.assertEqual((found.status, found.json["error"], found.json["retry_after"]), (503, "TooLong", 1))
        self.assertEqual((self.ask("/v1/stat").status, self.server.is_asked), (200, True))
        gate.set()
        as_soon_as(lambda: not self.server.board._last.is_needed)
        as_soon_as(lambda: not self.server.is_asked)

    def test_headers_of_each_response(self):
        self.fed()
        for path in ("/", "/v1/stat", "/v1/edges", "/v1/nothing", "/live.js"):
            self.assertEqual(self.ask(path).headers["x-content-type-options"], "nosniff")
        self.assertIn("default-src 'none'", self.ask("/").headers["content-security-policy"])
        self.assertNotIn("uvicorn", str(self.ask("/").headers))


class Slow:
    """A held version that answers when it is told to."""

    def __init__(self, held, gate):
        self._held, self._gate = held, gate

    def cores(self, scope):
        self._gate.wait(60)
        return self._held.cores(scope)

    def __getattr__(self, name):
        return getattr(self._held, name)


class Commands(ServeCase):
    """`misteluk serve` as a process, and what each side sees when another one is killed."""

    def begin(self, *words, **how):
        done = self.command(*words, **how)
        return done, done.stdout.readline()

    def test_a_signal_ends_it(self):
        """All that was read is in, and it says so."""
        path = str(self.room / "socket")
        done, told = self.begin("-", "--add", "--source", "1", "--target", "2", "--listen", f"unix:{path}", "--every", "10ms",
                                stdin=subprocess.PIPE)
        self.addCleanup(done.stdin.close)
        self.assertEqual(told, f"misteluk: unix:{path} serves standard input, for this user alone\n")
        done.stdin.write("ana,bob\nbob,cat\n")
        done.stdin.flush()
        with connect(f"unix:{path}") as store:
            as_soon_as(lambda: store.stat().edges == 2)
            done.send_signal(signal.SIGTERM)
            said = done.communicate(timeout=60)[1]
        self.assertEqual((done.returncode, said.splitlines()[-1]), (0, "misteluk: ended at version 1, of 2 edges"))
        self.assertFalse(os.path.exists(path))

    def test_versions_at_intervals(self):
        """A command's server publishes by itself what came in, all of it at its end."""
        path, saved = str(self.room / "socket"), str(self.room / "graph.gz")
        done, _ = self.begin("--listen", f"unix:{path}", "--publish", "400ms", "--save", saved)
        with connect(f"unix:{path}") as store:
            seen, begun = set(), time.monotonic()
            for at in range(1, 2_000):
                store.add("k", "a", f"b{at}")
                store.commit()
                seen.add(store.stat().version)
                if time.monotonic() > begun + 2:
                    break
            self.assertTrue(3 <= len(seen) <= 8 and at > 20, (seen, at))
            as_soon_as(lambda: store.stat(after=at - 1).version == at)
            store.add("k", "last", "b")
            store.commit()
        done.send_signal(signal.SIGTERM)
        done.communicate(timeout=60)
        with misteluk.Store.restore(saved) as restored, restored.open() as session:
            self.assertEqual((session.has_vertex("last"), session.edge_count), (True, at + 1))
        for wrong in ("x", "5 s"):
            self.assertEqual(self.command("--publish", wrong, "--listen", f"unix:{path}").wait(60), 2)

    def test_it_grows(self):
        """It has more blocks, vertices and kinds than it began with, once they are needed."""
        path = str(self.room / "socket")
        self.begin("--listen", f"unix:{path}")
        with connect(f"unix:{path}") as store:
            store.load([(f"s{it}", "t", 1, 1) for it in range(70_000)], by="set", progress=False)
            self.assertEqual(store.stat().edges, 70_000)

    def test_the_blocks_that_it_begins_with(self):
        """They are as many as the help says."""
        path, said = str(self.room / "socket"), io.StringIO()
        self.begin("--listen", f"unix:{path}")
        with connect(f"unix:{path}") as store:
            blocks = store._engine.talk.call("GET", "/v1/stat").json()["blocks"]
        with redirect_stdout(said), self.assertRaises(SystemExit):
            main(["serve", "--help"])
        self.assertEqual((blocks["all"], blocks["grow"]), (262_144, True))
        self.assertRegex(said.getvalue(), r"--blocks BLOCKS +else 262,144, and more\s+once they are needed")

    def test_it_keeps_no_operation(self):
        path = str(self.room / "socket")
        self.begin("--listen", f"unix:{path}")
        with connect(f"unix:{path}") as store:
            for at in range(7):
                store.add("k", "a", "b", 1, at)
                store.commit()
            told = store._engine.talk.call("GET", "/v1/stat").json()
            self.assertEqual((told["version"], told["operations_kept"], store._engine.operations_kept), (7, 0, None))

    def test_a_server_that_is_killed(self):
        """Its clients are told so; the next one takes its socket, and they connect anew."""
        path = str(self.room / "socket")
        done, _ = self.begin("--listen", f"unix:{path}")
        store = connect(f"unix:{path}")
        session = store.open()
        done.kill()
        done.wait()
        store.add("k", "a", "b", 5, 1)
        for call in (session.cores, store.commit, store.stat):
            self.assertRaisesRegex(NoServer, "doesn't answer", call)
        self.assertEqual(store.pending, 1)
        self.begin("--listen", f"unix:{path}")
        self.assertRaisesRegex(SessionClosed, "this server began anew, without an edge.*What is pending stays so", store.commit)
        self.assertEqual(store.commit().inserted, 1)
        self.assertRaisesRegex(SessionClosed, "let version 0 go", session.cores)
        session.close()
        with store.open() as other:
            self.assertEqual(other.edge("k", "a", "b"), Edge(5, 1, 1))
        store.close()

    def test_clients_that_are_killed(self):
        """What they hold is let go when they were silent for long enough, and so is the seat of the one that fed."""
        path = str(self.room / "socket")
        self.begin("--listen", f"unix:{path}", "--idle", "0.5")
        code = (f"import misteluk, os; s = misteluk.connect('unix:{path}'); s.add('k', 'a', 'b'); s.commit(); t = s.open(); "
                "s.add('k', 'a', 'b'); s.commit(); os.kill(os.getpid(), 9)")
        done = subprocess.run([sys.executable, "-c", code], env={**os.environ, "PYTHONPATH": str(HERE.parent)}, timeout=60)
        self.assertEqual(done.returncode, -9)
        with connect(f"unix:{path}") as store:
            as_soon_as(lambda: len(store._engine.talk.call("GET", "/v1/stat").json()["held"]) == 1)
            store.add("k", "a", "b")
            versions: List[int] = []

            def is_in() -> bool:
                """Whether the batch went in. (The seat was heard of after the version was held, so it is given up later.)"""
                with suppress(Busy):
                    versions.append(store.commit().version)
                return bool(versions)
            as_soon_as(is_in)
            self.assertEqual(versions, [3])

    def test_what_isn_t_taken(self):
        for words, told in ((["--listen", "0.0.0.0:0"], "wants a token"), ([__file__], "a feed wants --set or --add"),
                            (["--listen", "nowhere"], "an address is"),
                            (["--idle", "0", "--listen", "127.0.0.1:0"], "idle is a number"),
                            (["--token-file", "/none"], "No such file")):
            said = io.StringIO()
            with redirect_stderr(said):
                self.assertEqual(main(["serve", *words]), 1, words)
            self.assertIn(told, said.getvalue())


class Packages(Case):
    def test_without_them(self):
        """What is missing is asked for by its name, and a socket is left free."""
        path = self.room / "socket"
        with misteluk.Store() as store, mock.patch.dict(sys.modules, {"uvicorn": None}):
            self.assertRaisesRegex(errors.Missing, "a server needs uvicorn: apt-get install python3-uvicorn", Server, store,
                                   f"unix:{path}")
        self.assertFalse(path.exists())


if __name__ == "__main__":
    unittest.main()
