"""A server whose store has a file: killed and begun again, it has what was acknowledged, gives a repeat the first answer, and
goes on in the file that it follows."""
import http.client
import json
import os
import random
import re
import signal
import time
import unittest
from unittest import mock

from journaled import of_sqlite
from serving import ServeCase

import misteluk
from misteluk import Store
from misteluk.journal.checking import check
from misteluk.serve.people import People
from misteluk.serve.server import Server

COLUMNS = "--source", "1", "--target", "2", "--weight", "3", "--time", "4", "--no-header"


class JournalServed(ServeCase):
    def setUp(self):
        super().setUp()
        self.path, self.feed = str(self.room / "graph.db"), self.room / "feed.csv"

    def begin(self, *words, **environment):
        """A server of the store's file as a process, and its port."""
        with mock.patch.dict(os.environ, {it: str(told) for it, told in environment.items()}):
            server = self.command(self.path, *words, "--listen", "127.0.0.1:0")
        said = server.stdout.readline()
        self.assertIn("serves", said, said or server.stderr.read())
        self.port = int(said.split("http://127.0.0.1:")[1].split()[0])
        return server

    def ask(self, method, path, body=None, **headers):
        """The status and the answer of a request."""
        talk = http.client.HTTPConnection("127.0.0.1", self.port, timeout=60)
        try:
            talk.request(method, path, body, {"Content-Type": "text/csv", **{it.replace("_", "-"): told
                                                                             for it, told in headers.items()}})
            answer = talk.getresponse()
            return answer.status, json.loads(answer.read())
        finally:
            talk.close()

    def add(self, rows, **headers):
        return self.ask("POST", "/v1/rows", "".join(f"add,k,{it},1,1\n" for it in rows), **headers)

    def weights(self):
        with Store.at(self.path, time="2999-01-01") as then, then.open() as session:
            return {tuple(it[1:3]): it[3].weight for it in session.edges()}


class Posts(JournalServed):
    def test_a_killed_server(self):
        """kill -9 at any moment: what was acknowledged is there, by versions that go on, and a repeat is applied once."""
        chance, sent, version = random.Random(4), 0, 0
        for _ in range(3):
            server = self.begin()
            self.assertEqual(self.ask("GET", "/v1/stat")[1]["version"], version)
            if sent:
                self.assertEqual(self.add([f"a{sent},b"], Idempotency_Key=f"post {sent}"), (200, last))
            for _ in range(chance.randrange(3, 9)):
                sent += 1
                status, last = self.add([f"a{sent},b"], Idempotency_Key=f"post {sent}")
                self.assertEqual((status, last["version"], last["inserted"]), (200, version + 1, 1))
                version += 1
            server.kill()
            server.wait()
        self.assertEqual(check(self.path).faults, [])
        self.assertEqual(self.weights(), {(f"a{it}", "b"): 1 for it in range(1, sent + 1)})

    def test_keys(self):
        self.begin()
        one = self.add(["a,b"], Idempotency_Key="one")
        self.assertEqual(self.add(["a,b"], Idempotency_Key="one"), one)
        self.assertEqual(self.add(["a,b"], Idempotency_Key="two")[1]["version"], 2)
        status, told = self.add(["a,c"], Idempotency_Key="one")
        self.assertEqual((status, told["error"]), (409, "SequenceTaken"))
        self.assertEqual((self.add(["a,b"], Idempotency_Key="x" * 256)[0], self.add(["a,b"])[1]["version"]), (400, 3))
        status, told = self.add([f"n{it},b" for it in range(65_537)], Idempotency_Key="large")
        self.assertEqual((status, told["error"]), (413, "TooLarge"))
        self.assertEqual((self.weights(), self.ask("GET", "/v1/stat")[1]["feed"]["rows"]), ({("a", "b"): 3}, 3))

    def test_a_store_without_a_file(self):
        with Store(seats=16) as store, Server(store, "127.0.0.1:0") as server:
            self.port = server.address.port
            status, told = self.add(["a,b"], Idempotency_Key="one")
        self.assertEqual((status, "has a file" in told["reason"]), (400, True))

    def test_who_fed_it(self):
        people = self.file("people", "ana feed secret-of-ana\nben feed secret-of-ben\n")
        os.chmod(people, 0o600)
        with Store(self.path, seats=16) as store, Server(store, "127.0.0.1:0", people=People(people)) as server:
            self.port = server.address.port
            for name in ("ana", "ben"):
                for _ in range(2):
                    done = self.add([f"{name},b"], Idempotency_Key="1", Authorization=f"Bearer secret-of-{name}")
                    self.assertEqual(done[0], 200)
            self.assertEqual(self.add(["ana,c"], Authorization="Bearer secret-of-ana")[0], 200)
            with misteluk.connect(server.url, token="secret-of-ben") as client:
                client.add("k", "ben", "d")
                client.commit()
            found = store._engine._journal.rows("SELECT version, feeder, producer FROM batches")
        self.assertEqual(found, [(1, "ana", "1"), (2, "ben", "1"), (3, "ana", None), (4, "ben", None)])

    def test_its_end(self):
        server = self.begin("--sync", "normal")
        self.add(["a,b"])
        server.send_signal(signal.SIGTERM)
        self.assertEqual((server.wait(30), sorted(os.listdir(self.room))), (0, ["graph.db", "graph.db-lock"]))
        self.assertEqual(self.weights(), {("a", "b"): 1})
        done = self.command(self.path, "--save", str(self.room / "saved"))
        self.assertIn("--save is for a store that is in memory", done.communicate()[1])

    def test_a_file_that_takes_nothing_more(self):
        """Clients are told so, without the file's place."""
        self.path = str(self.room / "my graph.db")
        with Store(self.path, seats=16) as store, Server(store, "127.0.0.1:0") as server:
            self.port = server.address.port
            self.add(["a,b"])
            self.assertEqual(self.ask("GET", "/readyz")[0], 200)
            journal = store._engine._journal
            with mock.patch.object(journal, "_write", side_effect=lambda *_: (_ for _ in ()).throw(
                    journal._failed(of_sqlite("database or disk is full", "SQLITE_FULL")))):
                status, told = self.add(["a,c"])
            full = "the store's file: database or disk is full. Nothing is written, and the store is as it was"
            self.assertEqual((status, told), (503, {"error": "NotWritten", "reason": full}))
            with mock.patch.object(journal, "_write", side_effect=lambda *_: (_ for _ in ()).throw(
                    journal._failed(of_sqlite("disk I/O error", "SQLITE_IOERR_FSYNC")))):
                status, told = self.add(["a,c"])
            self.assertEqual((status, told["error"], self.add(["a,c"])[0]), (503, "JournalFault", 503))
            self.assertIn("the store's file: a sync failed", told["reason"])
            self.assertFalse(re.search(f"{self.room}|my graph", told["reason"]))
            self.assertEqual(self.ask("GET", "/readyz")[0], 503)
            self.assertEqual(self.ask("GET", "/v1/edges")[0], 200)


class FollowedCase(JournalServed):
    """Each row has an edge of its own, to whose weight it adds 1: a row that went in twice has 2."""

    def write(self, first, last, path=None):
        with open(path or self.feed, "a", encoding="ascii") as file:
            file.writelines(f"s{it % 97},t{it},1,{it}\n" for it in range(first, last))

    def follow(self, *words):
        return self.begin(str(self.feed), "--add", *COLUMNS, "--every", "10ms", "--batch", "50", *words)

    def fed(self):
        """What the server tells of its feed."""
        return self.ask("GET", "/v1/stat")[1]["feed"]

    def has(self, count, server=None):
        """Waits until so many rows are in, each once."""
        until = time.monotonic() + 60
        while self.ask("GET", "/v1/stat")[1]["edges"] < count and time.monotonic() < until:
            time.sleep(0.05)
        weights = self.weights()
        self.assertEqual((len(weights), set(weights.values())), (count, {1}))

    def end(self, server, how=signal.SIGKILL):
        server.send_signal(how)
        server.wait(30)


class Followed(FollowedCase):
    def test_a_restart_goes_on(self):
        chance, count = random.Random(2), 0
        for how in (signal.SIGKILL, signal.SIGTERM, signal.SIGKILL):
            server = self.follow() if self.feed.exists() else None
            self.write(count, count + 700)
            count += 700
            server = server or self.follow()
            time.sleep(chance.uniform(0, 0.4))
            self.end(server, how)
        self.follow()
        self.has(count)
        self.assertEqual(check(self.path).faults, [])

    def test_a_file_that_was_rotated_meanwhile(self):
        """What is left of the old one goes in first, and then the new one."""
        self.write(0, 500)
        server = self.follow()
        self.has(500)
        self.end(server)
        self.write(500, 800)
        os.rename(self.feed, f"{self.feed}.1")
        self.write(800, 900)
        more = "feed.csv.1 now and has more than is in"
        with Store(self.path) as store, self.assertRaisesRegex(misteluk.errors.FeedFault, more):
            store.follow(str(self.feed), by="add", columns=misteluk.Columns(1, 2, weight=3, time=4), header=False)
        server = self.follow()
        self.has(900)
        # And while it is followed.
        self.write(900, 1_000)
        os.rename(self.feed, f"{self.feed}.2")
        self.write(1_000, 1_050, f"{self.feed}.2")
        self.write(1_050, 1_100)
        self.has(1_100)
        self.end(server)
        self.follow()
        self.write(1_100, 1_150)
        self.has(1_150)

    def test_a_file_that_was_cut_meanwhile(self):
        self.write(0, 500)
        server = self.follow()
        self.has(500)
        self.end(server)
        self.feed.write_text("s1,t1,1,1\n")
        server = self.follow()
        until = time.monotonic() + 30
        while self.ask("GET", "/v1/stat")[1]["feed"]["state"] != "failed" and time.monotonic() < until:
            time.sleep(0.05)
        told = self.ask("GET", "/v1/stat")[1]["feed"]
        self.assertEqual((told["state"], told.get("error")), ("failed", "FeedFault"), told)
        self.has(500)

    def test_a_feed_of_a_store_in_this_process(self):
        self.write(0, 300)
        how = {"by": "add", "columns": misteluk.Columns(1, 2, weight=3, time=4), "header": False, "until_end": True}
        for batch in (100, 7):
            with Store(self.path) as store:
                with store.follow(str(self.feed), batch=batch, **how) as following:
                    next(following, None)
        with Store(self.path) as store:
            self.assertEqual([sum(it.commit.inserted for it in store.follow(str(self.feed), **how)) for _ in range(2)], [193, 0])
        self.assertEqual((len(self.weights()), set(self.weights().values())), (300, {1}))


class Pipes(FollowedCase):
    """A pipe's bytes can't be read again: what the server says is in is on the disk, and what it had read beyond that is lost
    with it."""

    def setUp(self):
        super().setUp()
        os.mkfifo(self.feed)
        # (it stays open here, so that it has no end, and what nobody read of it stays there)
        self.pipe = os.open(self.feed, os.O_RDWR)
        self.addCleanup(os.close, self.pipe)
        self.sent = []

    def send(self, seconds):
        """Writes rows one by one for so long, and notes when."""
        end = time.monotonic() + seconds
        while time.monotonic() < end:
            os.write(self.pipe, f"s,t{len(self.sent)},1,1\n".encode("ascii"))
            self.sent.append(time.monotonic())
            time.sleep(0.02)

    def test_what_a_killed_server_loses(self):
        chance, lost = random.Random(6), set()
        for turn in range(3):
            server = self.begin(str(self.feed), "--add", *COLUMNS)
            before = len(self.sent)
            self.send(3 + chance.uniform(0, 1))
            told = self.ask("GET", "/v1/stat")[1]["edges"]
            server.kill()
            server.wait()
            found = self.weights()
            numbers = sorted(int(it[1][1:]) for it in found)
            self.assertEqual(set(found.values()), {1})
            self.assertGreaterEqual(len(numbers), told)
            late = set(range(len(self.sent))) - set(numbers)
            new = sorted(late - lost)
            self.assertEqual(new, [*range(len(self.sent) - len(new), len(self.sent))], "it isn't the last rows that aren't in")
            self.assertGreater(len(self.sent) - len(new), before, "nothing was committed in three seconds")
            # (what it hadn't read is in the pipe still, and the next one reads it)
            self.end(self.begin(str(self.feed), "--add", *COLUMNS, "--every", "10ms"), signal.SIGTERM)
            lost |= {it for it in late if ("s", f"t{it}") not in self.weights()}
        self.assertEqual(check(self.path).faults, [])

    def test_a_commit_comes_each_second(self):
        """Also while rows come all the time."""
        self.begin(str(self.feed), "--add", *COLUMNS)
        self.send(9)
        until = time.monotonic() - 6
        self.assertGreaterEqual(self.ask("GET", "/v1/stat")[1]["edges"], sum(it < until for it in self.sent))


if __name__ == "__main__":
    unittest.main()
