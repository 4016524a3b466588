"""kill -9 of an analyst, of those who feed a server, and of the server, amid what they do: what others see, and what is in."""
import http.client
import os
import socket
import subprocess
import threading
import unittest
from unittest import mock

from forking import Python
from serving import ProcessCase
from support import HERE, as_soon_as

from misteluk import Edge, SessionClosed
from misteluk.errors import NoServer

# A server that answers no batch and no post: it writes a word when one is applied, and one when a version with rows is saved.
UNANSWERED = """
import sys, threading
from misteluk.command.main import main
from misteluk.serve.feeding import Feeding
from misteluk.serve.keeping import Keeper

def unanswered(real):
    def call(*given):
        real(*given)
        print("applied", flush=True)
        threading.Event().wait()
    return call

def told(real):
    def save(keeper, board):
        real(keeper, board)
        if keeper.told()["version"]:
            print("saved", flush=True)
    return save
Feeding.batch, Feeding.rows, Keeper.save = unanswered(Feeding.batch), unanswered(Feeding.rows), told(Keeper.save)
main(["serve", *sys.argv[1:]])
"""
HEAD = "POST /v1/rows HTTP/1.1\r\nHost: localhost\r\nContent-Type: text/csv\r\nContent-Length: {}\r\n\r\n"


class Killed(ProcessCase):
    def python(self, code, *words, **how):
        """A process of Python's, which is killed at the end."""
        done = Python(["-c", code, *words], stdout=subprocess.PIPE, text=True,
                      env={**os.environ, "PYTHONPATH": str(HERE.parent)}, **how)
        self.addCleanup(done.communicate)
        self.addCleanup(done.kill)
        return done

    def begin(self, *words, **how):
        done = self.command(*words, "--listen", f"unix:{self.path}", **how)
        self.assertIn("serves", done.stdout.readline())
        return done

    # The server, while it has a batch or a post.

    def unanswered(self, word, call, then=lambda: None):
        """What a call raises whose server is killed before it answers, but after it wrote this word."""
        server = self.python(UNANSWERED, "--listen", f"unix:{self.path}", "--save", self.saved, "--save-every",
                             "0.02" if word == "saved" else "1000")
        self.assertIn("serves", server.stdout.readline())
        met = []

        def run():
            try:
                call()
            except Exception as fault:
                met.append(fault)
        thread = threading.Thread(target=run)
        thread.start()
        while server.stdout.readline() != f"{word}\n":
            pass
        self.end(server)
        then()
        thread.join()
        return met[0] if met else None

    def test_a_batch_in_flight(self):
        """Its client is told that nobody knows; the next server has it if a save came between, and versions count from 0."""
        for word, edges in (("applied", []), ("saved", [("k", "a", "b", Edge(5, 1, 1))])):
            store = None

            def commit():
                nonlocal store
                store = self.client()
                store.add("k", "a", "b", 5, 1)
                store.commit()
            fault = self.unanswered(word, commit)
            self.assertIsInstance(fault, NoServer)
            self.assertRegex(str(fault), "doesn't answer.*Whether the batch that was sent is in isn't known: the next commit")
            server = self.begin("--save", self.saved)
            self.assertRaisesRegex(SessionClosed, "began anew, with.*Whether that is in isn't known: look before", store.commit)
            self.assertEqual(store.discard() if edges else store.pending, 1)
            with store.open() as session:
                self.assertEqual((session.version, list(session.edges())), (0, edges))
            store.commit()
            with store.open() as session:
                self.assertEqual(list(session.edges()), [("k", "a", "b", Edge(5, 1, 1))])
            self.end(server)
            if not edges:
                self.assertFalse(os.path.exists(self.saved))

    def test_a_server_that_is_back_at_once(self):
        """Then the client sends the batch again by itself, and is told all the same that nobody knows: it isn't in twice."""
        is_back, stores = threading.Event(), []

        def commit():
            stores.append(self.client())
            talk, stored = stores[0]._engine.talk, stores[0]
            stored.add("k", "a", "b", 5, 1)
            real = talk.close
            with mock.patch.object(talk, "close", lambda: is_back.wait(60) and real()):  # (before it tries again)
                stored.commit()

        def begin():
            self.begin("--save", self.saved)
            is_back.set()
        fault = self.unanswered("saved", commit, begin)
        self.assertIsInstance(fault, SessionClosed)
        self.assertRegex(str(fault), "began anew, with what was saved.*Whether the batch that was sent is in isn't known: look")
        self.assertEqual((stores[0].pending, stores[0].discard(), stores[0].pending), (1, 1, 0))
        with stores[0].open() as session:
            self.assertEqual(list(session.edges()), [("k", "a", "b", Edge(5, 1, 1))])

    def test_a_post_in_flight(self):
        """Whoever posts by HTTP gets no answer at all; the file has all of a post's rows or none."""
        rows = "".join(f"add,k,s{it},t,1,1\n" for it in range(5_000)).encode()

        def post():
            connection = http.client.HTTPConnection("localhost")
            connection.sock = socket.socket(socket.AF_UNIX, socket.SOCK_STREAM)
            connection.sock.connect(self.path)
            connection.request("POST", "/v1/rows", rows, {"Content-Type": "text/csv"})
            connection.getresponse()
        for word, edges in (("applied", 0), ("saved", 5_000)):
            self.assertIsInstance(self.unanswered(word, post), (http.client.RemoteDisconnected, ConnectionResetError))
            server = self.begin("--save", self.saved)
            told = self.stat(self.client())
            self.assertEqual((told["version"], told["edges"]), (0, edges))
            self.end(server)

    def test_what_curl_says(self):
        code = f"import os; os.execvp('curl', ['curl', '-s', '--unix-socket', {self.path!r}, 'http://localhost/v1/rows', '-H', " \
               "'Content-Type: text/csv', '--data-binary', 'add,k,a,b,5,1'])"
        statuses = []
        self.assertIsNone(self.unanswered("applied", lambda: statuses.append(self.python(code).wait())))
        self.assertIn(statuses[0], (52, 56))
        self.assertEqual(self.python(code).wait(), 7)

    # Those who feed it.

    def posting(self, part):
        """A client that sends so much of a post, as a process that waits then."""
        body = "add,k,a,b,5,1\nadd,k,a,c,7,1\n"
        code = (f"import socket, sys; s = socket.socket(socket.AF_UNIX); s.connect({self.path!r}); "
                f"s.sendall({HEAD.format(len(body)) + body[:part]!r}.encode()); print('sent', flush=True); sys.stdin.read()")
        done = self.python(code, stdin=subprocess.PIPE)
        self.assertEqual(done.stdout.readline(), "sent\n")
        return done

    def test_a_client_amid_its_post(self):
        """One of which a part came isn't in, and one that is whole is, though nobody reads the answer."""
        self.begin()
        store = self.client()
        self.end(self.posting(20))
        self.end(self.posting(100))
        as_soon_as(lambda: self.stat(store)["version"] == 1)
        with store.open() as session:
            self.assertEqual(sorted(it[2] for it in session.edges()), ["b", "c"])
        store.add("k", "x", "y")
        self.assertEqual(store.commit().version, 2)

    def test_a_client_with_the_seat(self):
        """What it committed is in, what it didn't commit isn't, and another one may feed when it was silent for long enough."""
        self.begin("--idle", "0.5")
        code = (f"import misteluk, sys; s = misteluk.connect('unix:{self.path}'); s.add('k', 'a', 'b', 5, 1); s.commit(); "
                "t = s.open(); s.add('k', 'a', 'c', 7, 1); print('fed', flush=True); sys.stdin.read()")
        feeder, store = self.python(code, stdin=subprocess.PIPE), self.client()
        self.assertEqual(feeder.stdout.readline(), "fed\n")
        self.end(feeder)
        as_soon_as(lambda: [it["clients"] for it in self.stat(store)["held"]] == [0])
        as_soon_as(lambda: self.stat(store)["feed"]["state"] == "open")
        store.add("k", "x", "y")
        self.assertEqual(store.commit().version, 2)
        with store.open() as session:
            self.assertEqual(sorted(it[1:3] for it in session.edges()), [("a", "b"), ("x", "y")])

    def test_the_writer_of_a_pipe(self):
        """Its whole lines are in; where it was killed amid a line, that is a row too, and `stat` says so."""
        for text, half, weights in (("ana,bob,980\n", None, [980]), ("ana,bob,980\nana,cat,9", True, [980, 9])):
            ours, theirs = os.pipe()
            code = f"import os, sys; os.write({theirs}, {text.encode()!r}); print('wrote', flush=True); sys.stdin.read()"
            writer = self.python(code, stdin=subprocess.PIPE, pass_fds=(theirs,))
            os.close(theirs)
            with os.fdopen(ours) as pipe:
                server = self.begin("-", "--add", "--source", "1", "--target", "2", "--weight", "3", "--every", "10ms",
                                    stdin=pipe)
            store = self.client()
            self.assertEqual(writer.stdout.readline(), "wrote\n")
            as_soon_as(lambda: self.stat(store)["edges"] == 1)
            self.assertEqual(self.stat(store)["feed"]["state"], "followed")
            self.end(writer)
            as_soon_as(lambda: self.stat(store)["feed"]["state"] == "ended")
            self.assertEqual(self.stat(store)["feed"].get("half_line"), half)
            with store.open() as session:
                self.assertEqual([edge.weight for *_, edge in session.edges()], weights)
            self.end(server)

    # Those who ask.

    def test_an_analyst_amid_an_answer(self):
        """Nothing is left of her: no version, and no connection."""
        server = self.begin("--idle", "0.5")
        store = self.client()
        store.load([(f"s{it % 300}", f"target-{it // 300}", it, it) for it in range(100_000)], by="set", progress=False)
        version = self.stat(store)["version"]
        before = len(os.listdir(f"/proc/{server.pid}/fd"))
        code = (f"import http.client, misteluk, socket, sys; t = misteluk.connect('unix:{self.path}').open(); "
                f"s = socket.socket(socket.AF_UNIX); s.connect({self.path!r}); s.sendall(b'GET /v1/edges?session=' + "
                "t._held.name.encode() + b' HTTP/1.1\\r\\nHost: localhost\\r\\n\\r\\n'); s.recv(100); "
                "print('reads', flush=True); sys.stdin.read()")
        analyst = self.python(code, stdin=subprocess.PIPE)
        self.assertEqual(analyst.stdout.readline(), "reads\n")
        store.add("k", "x", "y")
        store.commit()
        held = [(it["version"], it["clients"]) for it in self.stat(store)["held"]]
        self.assertEqual(held, [(version, 1), (version + 1, 0)])
        self.end(analyst)
        as_soon_as(lambda: [it["version"] for it in self.stat(store)["held"]] == [version + 1])
        as_soon_as(lambda: len(os.listdir(f"/proc/{server.pid}/fd")) <= before)


if __name__ == "__main__":
    unittest.main()
