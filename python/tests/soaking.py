"""A server of a store's file that is killed again and again, while clients post: what each was told has to be there, once.

Each client sends its posts one after another, each by a key of its own, until it is answered: after a kill the same post again.
All edges are sums, so that a post that is lost, or is in twice, changes the graph; one of them counts the client's posts.
"""
import collections
import http.client
import json
import os
import pathlib
import random
import socket
import sqlite3
import subprocess
import threading
import time
from contextlib import closing

from forking import Python
from support import HERE

from misteluk import Store
from misteluk.journal.checking import check

CLIENTS, HISTORY = 8, 20_000
# How many rows a post has, how many targets they are spread over, and for how long a killed server may take to begin again.
MOST_ROWS, TARGETS, PATIENCE = 40, 997, 120.0


def rows_of(client, number):
    """The edges to which a post adds, and what it adds: the last one counts posts."""
    chance = random.Random(1_000_003 * client + number)
    found = [(f"t{chance.randrange(TARGETS)}", chance.randrange(-9, 100)) for _ in range(chance.randrange(MOST_ROWS))]
    return [*found, ("posts", 1)]


def graph_of(counts):
    """The graph behind so many posts of each client."""
    edges = collections.Counter()
    for client, count in enumerate(counts):
        for number in range(1, count + 1):
            for target, amount in rows_of(client, number):
                edges[f"c{client}", target] += amount
    return dict(edges)


class Client(threading.Thread):
    """Posts until it is over, and notes the version of each post."""

    def __init__(self, number, port, is_over):
        super().__init__(name=f"client {number}", daemon=True)
        self.number, self.port, self.is_over = number, port, is_over
        self.versions, self.times, self.again, self.fault = [], [], 0, None

    def run(self):
        talk = None
        try:
            while not self.is_over.is_set():
                talk = talk or http.client.HTTPConnection("127.0.0.1", self.port, timeout=PATIENCE)
                version = self.posted(talk)
                if version is None:
                    talk = talk.close()
                    self.again += 1
                    time.sleep(0.02)
                else:
                    self.versions.append(version)
        except Exception as fault:
            self.fault = fault
        finally:
            if talk is not None:
                talk.close()

    def posted(self, talk):
        """The version of the next post, where it is answered."""
        number = len(self.versions) + 1
        body = "".join(f"add,k,c{self.number},{target},{amount},{number}\n" for target, amount in rows_of(self.number, number))
        begun = time.monotonic()
        try:
            talk.request("POST", "/v1/rows", body, {"Content-Type": "text/csv", "Idempotency-Key": f"{self.number} {number}"})
            answer = talk.getresponse()
            told = json.loads(answer.read())
        except (OSError, http.client.HTTPException, ValueError):  # (it was killed)
            return None
        assert answer.status == 200, told
        self.times.append(time.monotonic() - begun)
        return told["version"]


class Served:
    """The server, which is begun and killed."""

    def __init__(self, path):
        self.path, self.process = path, None
        with socket.socket() as found:
            found.bind(("127.0.0.1", 0))
            self.port = found.getsockname()[1]

    def begin(self):
        """Begins it, and gives how long that took."""
        begun = time.monotonic()
        words = ["-m", "misteluk", "serve", str(self.path), "--listen", f"127.0.0.1:{self.port}", "--history", str(HISTORY)]
        self.process = Python(words, stdout=subprocess.PIPE, stderr=subprocess.PIPE, text=True,
                              env={**os.environ, "PYTHONPATH": str(HERE.parent)})
        said = self.process.stdout.readline()
        assert "serves" in said, self.process.stderr.read()
        return time.monotonic() - begun

    def kill(self):
        with self.process as process:
            process.kill()
            said = process.stderr.read()
        assert "Traceback" not in said and "isn't compacted" not in said, said


def count_in(session, client):
    found = session.edge("k", f"c{client}", "posts") if session.has_vertex(f"c{client}") else None
    return 0 if found is None else found.weight


def looks(path, clients, chance):
    """Looks at the file of a killed server: each client's posts are in up to the last one that was answered, or one more; and as
    of a version that was told, up to that post."""
    before = [len(it.versions) for it in clients]
    with Store.at(path, time="2999-01-01") as then, then.open() as session:
        last, counts = session.version, [count_in(session, it.number) for it in clients]
    for client, acknowledged, count in zip(clients, before, counts):
        assert acknowledged <= count <= len(client.versions) + 1, (client.number, acknowledged, count)
    client = chance.choice([it for it in clients if it.versions] or [None])
    number = chance.randrange(len(client.versions)) if client else 0
    if client and client.versions[number] > last - HISTORY:
        with Store.at(path, version=client.versions[number]) as then, then.open() as session:
            assert count_in(session, client.number) == number + 1, (client.number, number, client.versions[number])
        return 1
    return 0


def soak(room, minutes, seed=1, least=4.0, most=12.0):
    """Serves a file for so many minutes, is killed every few seconds, and gives what was met."""
    path, chance, is_over = pathlib.Path(room) / "soaked.db", random.Random(seed), threading.Event()
    server, found = Served(path), collections.Counter()
    took = [server.begin()]
    clients = [Client(it, server.port, is_over) for it in range(CLIENTS)]
    for it in clients:
        it.start()
    end = time.monotonic() + 60 * minutes
    while not found["kills"] or time.monotonic() < end:
        time.sleep(chance.uniform(least, most))
        server.kill()
        found["kills"] += 1
        found["versions asked again"] += looks(path, clients, chance)
        took.append(server.begin())
    is_over.set()
    for it in clients:
        it.join(PATIENCE)
    server.kill()
    faults = [f"{it.name}: {it.fault!r}" for it in clients if it.fault is not None]
    assert not faults and not any(it.is_alive() for it in clients), faults
    return {**found, **ended(path, clients), "longest opening, s": round(max(took), 1)}


def ended(path, clients):
    """What is there at the end: exactly what was acknowledged, each post as a version of its own, in each client's order."""
    versions = [it for client in clients for it in client.versions]
    assert len(set(versions)) == len(versions), "two posts have one version"
    assert all(sorted(it.versions) == it.versions for it in clients), "a later post has an earlier version"
    with Store.at(path, time="2999-01-01") as then, then.open() as session:
        edges = {(source, target): marks.weight for _, source, target, marks in session.edges()}
        last = session.version
    counts = [edges.get((f"c{it.number}", "posts"), 0) for it in clients]
    lost, more = (sum(max(sign * (len(it.versions) - count), 0) for it, count in zip(clients, counts)) for sign in (1, -1))
    assert not lost, f"{lost} posts are lost"
    assert all(count <= len(it.versions) + 1 for it, count in zip(clients, counts)), f"{more} posts are in twice"
    assert edges == graph_of(counts), "a post is in in part, or twice in part"
    assert last == sum(counts), "a post is no version, or two"
    faults = check(path).faults
    assert not faults, faults
    with closing(sqlite3.connect(path)) as opened:
        bases = opened.execute("SELECT count(*), min(version) FROM bases").fetchone()
    times = sorted(it for client in clients for it in client.times)
    return {"posts that were acknowledged": len(versions), "posts lost": lost, "posts in without an answer": more,
            "requests without an answer": sum(it.again for it in clients), "bases, and the oldest": bases,
            "MB in the end": round(os.stat(path).st_size / 1e6, 1), "median ms": round(1e3 * times[len(times) // 2], 1),
            "99th percentile ms": round(1e3 * times[len(times) * 99 // 100], 1)}
