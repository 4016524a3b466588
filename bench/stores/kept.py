"""Stores in files: what commits, openings, bases and single posts take, beside a store in memory and a plain table of SQLite; and
how many questions replicas answer."""
from __future__ import annotations

import contextlib
import functools
import http.client
import multiprocessing
import os
import pathlib
import random
import socket
import sqlite3
import subprocess
import sys
import threading
import time
from statistics import median
from typing import Any, Callable, Dict, Iterator, List, Tuple, cast

from bench.measuring import Spent, timed, watch
from bench.places import TOP
from misteluk import Store

Row = Tuple[str, str, str, int, int]
NAMES, SYNCS = 20_000, 200
TABLE = """CREATE TABLE edges(kind, source, target, weight, first, recent, PRIMARY KEY (kind, source, target)) WITHOUT ROWID"""
PUT = """INSERT INTO edges VALUES (?, ?, ?, ?, ?5, ?5)
         ON CONFLICT DO UPDATE SET weight = excluded.weight, recent = excluded.recent"""


def rows(count: int, names: int = NAMES) -> List[Row]:
    """A few vertices have most edges."""
    chance = random.Random(7)
    return [("link", f"v{int(names * chance.random() ** 3)}", f"v{chance.randrange(names)}", chance.randrange(100), it)
            for it in range(count)]


def commits(store: "Store[Any, Any]", given: List[Row], size: int) -> None:
    for at in range(0, len(given), size):
        for row in given[at:at + size]:
            store.insert(*row)
        store.commit()


def plain(opened: sqlite3.Connection, given: List[Row], size: int) -> None:
    for at in range(0, len(given), size):
        with opened:
            opened.executemany(PUT, given[at:at + size])


def committed(where: str, given: List[Row], size: int, room: pathlib.Path) -> Spent:
    """What it takes to commit these rows in batches of a size: in memory, in a file that is synced as `where` says, or in a plain
    table of SQLite that is synced at each commit."""
    place = room / f"{where}.db"
    if where == "table":
        table = sqlite3.connect(place)
        for words in ("PRAGMA journal_mode=WAL", "PRAGMA synchronous=FULL", TABLE):
            table.execute(words)
        spent = timed(lambda: plain(table, given, size))[1]
        table.close()
    else:
        store: "Store[Any, Any]" = Store() if where == "memory" else Store(place, sync=cast(Any, where))
        with store:
            spent = timed(lambda: commits(store, given, size))[1]
    for it in room.glob(f"{where}.db*"):
        it.unlink()
    return spent


def opened(place: pathlib.Path) -> "Store[Any, Any]":
    store: "Store[Any, Any]" = Store(place)
    return store


def replayed(given: List[Row], room: pathlib.Path) -> Tuple[Spent, int]:
    """What it takes to open a file that has these rows in batches of 1,000, and no base; and how many batches that were."""
    place = room / "replayed.db"
    with Store(place, sync="off") as store:
        commits(store, given, 1_000)
    again, spent = timed(functools.partial(opened, place))
    with again:
        return spent, again.file.recovered.batches


def loaded(place: pathlib.Path, edges: int) -> "Store[Any, Any]":
    """A store with a file that has so many edges, or some fewer."""
    store: "Store[Any, Any]" = Store(place, sync="off")
    store.load([it[1:] for it in rows(edges, edges // 4)], by="set", progress=False)
    for it in threading.enumerate():  # (so much is reason enough for a base, which it makes by itself)
        if it.name == "compaction":
            it.join()
    return store


def restarted(edges: int, room: pathlib.Path) -> Tuple[Spent, Spent, int]:
    """What it takes to make a base of so many edges, and to open the file then; and how many edges there are."""
    place = room / "restarted.db"
    with loaded(place, edges) as store:
        base = timed(store.file.compact)[1]
    again, spent = timed(functools.partial(opened, place))
    with again:
        return base, spent, again.stat().edges


def sync_takes(room: pathlib.Path) -> float:
    """Seconds that it takes to have 4,096 bytes more of a file on the disk."""
    found = []
    with (room / "synced").open("wb", buffering=0) as file:
        for _ in range(SYNCS):
            file.write(bytes(4_096))
            spent = watch()
            os.fdatasync(file.fileno())
            found.append(spent().elapsed)
    return median(found)


def asked(store: "Store[Any, Any]", is_over: Callable[[], bool]) -> List[float]:
    """The seconds that each question for a vertex's edges took, one after another."""
    chance, times = random.Random(3), []
    with store.open() as session:
        names = list(session.degrees())
        while not is_over():
            spent = watch()
            session.successors(chance.choice(names))
            times.append(spent().elapsed)
    return times


def based(edges: int, room: pathlib.Path) -> Tuple[float, List[float], List[float]]:
    """The seconds of the processor that a base of so many edges takes, without those of who asks meanwhile; and how long
    questions took before it and while it was made."""
    with loaded(room / "based.db", edges) as store:
        until = time.monotonic() + 2
        before = asked(store, lambda: time.monotonic() > until)
        spent: List[float] = []

        def make() -> None:
            begun = time.thread_time()
            store.file.compact()
            spent.append(time.thread_time() - begun)
        making = threading.Thread(target=make)
        making.start()
        meanwhile = asked(store, lambda: not making.is_alive())
        making.join()
        return spent[0], before, meanwhile


# A server's posts, and questions to replicas.

@contextlib.contextmanager
def server(*words: object) -> Iterator[str]:
    """A server of these words, as of a file, and its address."""
    asked_for = [sys.executable, "-m", "misteluk", "serve", *map(str, words), "--listen", "127.0.0.1:0"]
    process = subprocess.Popen(asked_for, stdout=subprocess.PIPE, text=True,
                               env={**os.environ, "PYTHONPATH": str(TOP / "python")})
    try:
        told = cast(Any, process.stdout).readline()
        yield told.partition("http://")[2].split()[0]
    finally:
        process.terminate()
        process.wait()


def post(address: str, seed: int, until: float, times: List[float]) -> None:
    chance, talk = random.Random(seed), http.client.HTTPConnection(address)
    while time.time() < until:
        row = f"insert,link,v{chance.randrange(NAMES)},v{chance.randrange(NAMES)},{chance.randrange(100)},1\n"
        spent = watch()
        talk.request("POST", "/v1/rows", row, {"Content-Type": "text/csv"})
        answer = talk.getresponse()
        answer.read()
        if answer.status == 200:
            times.append(spent().elapsed)
    talk.close()


def posted(clients: int, seconds: float, room: pathlib.Path) -> List[float]:
    """The seconds that each post of one row took, of so many clients at once."""
    times: List[float] = []
    with server(room / "posted.db") as address:
        until = time.time() + seconds
        threads = [threading.Thread(target=post, args=(address, it, until, times)) for it in range(clients)]
        for it in threads:
            it.start()
        for it in threads:
            it.join()
    return times


def questions(address: str, until: float, counts: "multiprocessing.Queue[int]") -> None:
    """Asks for edges of vertices one after another, as plainly as can be, so that the server has the processor."""
    host, _, port = address.rpartition(":")
    count = 0
    with socket.create_connection((host, int(port))) as link:
        while time.time() < until:
            link.sendall(b"GET /v1/out_edges?source=v%d HTTP/1.1\r\nHost: localhost\r\n\r\n" % (count % NAMES))
            head, _, body = link.recv(1 << 16).partition(b"\r\n\r\n")
            left = int(head.lower().partition(b"content-length: ")[2].split(b"\r\n")[0]) - len(body)
            while left > 0:
                left -= len(link.recv(left))
            count += 1
    counts.put(count)


def answered(replicas: int, edges: int, clients: int, seconds: float, room: pathlib.Path) -> float:
    """How many questions a second so many replicas of a store answer, together."""
    counts: "multiprocessing.Queue[int]" = multiprocessing.Queue()
    place = room / "first.db"
    with contextlib.ExitStack() as stack:
        stack.enter_context(loaded(place, edges))
        addresses = [stack.enter_context(server("--replica-of", place)) for _ in range(replicas)]
        until = time.time() + seconds
        # (each asks in a process of its own: threads of one would wait for each other)
        asking = [multiprocessing.Process(target=questions, args=(addresses[it % replicas], until, counts))
                  for it in range(clients)]
        for it in asking:
            it.start()
        found = [counts.get(timeout=seconds + 60) for _ in asking]
        for it in asking:
            it.join()
    for left in room.glob("first.db*"):
        left.unlink()
    return sum(found) / seconds


WHERE: Dict[str, Callable[..., Spent]] = {it: committed for it in ("memory", "full", "normal", "table")}
