"""What tests of a store's file share: batches, an independent model of them, and what `stinger run` says of a script.

    python3 journaled.py PATH [SYNC] [BYTES]    feeds the store of this file for ever, and prints the version of each commit
"""
import contextlib
import csv
import io
import random
import sqlite3
import subprocess
import sys

from support import Case, find_program

from misteluk import Store

# How many operations a batch has, and how many vertices there are on each side.
SIZE, VERTICES = 40, 150


class Model:
    """A plain dict of edges, and the names and kinds in the order in which they came."""

    def __init__(self):
        self.edges, self.names, self.kinds, self.version = {}, {}, {}, 0

    def upto(self, version):
        """The model as of a later version, of `batch`."""
        while self.version < version:
            self.apply(batch(self.version + 1))
        return self

    def apply(self, rows):
        for word, kind, source, target, weight, time in rows:
            edge = kind, source, target
            if word == "expire":
                self.edges = {it: told for it, told in self.edges.items() if told[2] >= time}
            elif word == "remove":
                self.edges.pop(edge, None)
            else:
                self.names.update({source: None, target: None})
                self.kinds[kind] = None
                old = self.edges.get(edge)
                self.edges[edge] = ((weight, time, time) if old is None else
                                    (old[0] + weight if word == "add" else weight, old[1], time))
        self.version += 1

    def told(self):
        return self.version, self.edges, list(self.names), list(self.kinds)


def batch(number, size=SIZE):
    """The batch of a version: insertions, additions, removals, now and then an expiry; now and then names of its own."""
    chance, rows = random.Random(number), []
    for at in range(size):
        kind, source, target = f"k{chance.randrange(3)}", f"a{chance.randrange(VERTICES)}", f"b{chance.randrange(VERTICES)}"
        if chance.random() < 0.02:
            source = f'new"{number},{at}'
        word = chance.choices(("insert", "add", "remove"), (20, 65, 15))[0]
        rows.append((word, kind, source, target, chance.randrange(-50, 1_000), number))
    if number % 29 == 0:
        rows.append(("expire", "", "", "", 0, max(number - 60, 0)))
    return rows


def put(store, rows, **whose):
    """Commits rows."""
    for word, kind, source, target, weight, time in rows:
        if word == "expire":
            store.expire(time)
        elif word == "remove":
            store.remove(kind, source, target)
        else:
            getattr(store, word)(kind, source, target, weight, time)
    return store.commit(**whose)


def told(store):
    """What a store says of its last version, as a model does."""
    with store.open() as session:
        edges = {tuple(it[:3]): tuple(it[3]) for it in session.edges()}
        return session.version, edges, list(session._held.names()), list(session._held.kinds())


def ran(script):
    """What `stinger run` has behind a script: each edge that it ever had by its weight and times, and the names in their
    order."""
    ends = dict.fromkeys(tuple(it[1:4]) for it in csv.reader(io.StringIO(script.decode("ascii"))) if it[0] in "ia")
    asked = io.StringIO()
    csv.writer(asked, lineterminator="\n").writerows(("edge", "0", *it) for it in ends)
    done = subprocess.run([find_program(), "run", "--blocks", "65536"], stdout=subprocess.PIPE, check=True,
                          input=script + f"open,0\n{asked.getvalue()}deg,0,*,0,{(1 << 63) - 1}\n".encode())
    said = done.stdout.decode("ascii").splitlines()
    found = [it.split()[2:] for it in said if it.startswith("edge 0 ")]
    names = said[[it.startswith("deg 0 ") for it in said].index(True) + 1:]
    edges = {it: tuple(map(int, marks)) for it, marks in zip(ends, found) if marks != ["none"]}
    assert len(found) == len(ends)
    return edges, [it.split()[0] for it in names]


def of_sqlite(text, name):
    """A fault as SQLite raises it."""
    fault = sqlite3.OperationalError(text)
    fault.sqlite_errorname = name
    return fault


class JournalCase(Case):
    maxDiff = 2_000

    def setUp(self):
        super().setUp()
        self.path = str(self.room / "graph.db")

    def opened(self, sync="off", **options):
        """The store of the file. (What a sync keeps, `test_journal_crashes` asks.)"""
        store = Store(self.path, sync=sync, **options)
        self.addCleanup(self.let_go, store)
        return store

    def fed(self, count, **options):
        """A store with so many batches."""
        store = self.opened(**options)
        for number in range(1, count + 1):
            put(store, batch(number), producer="feed", sequence=number)
        return store

    def rows(self, words):
        """What SQLite's own users see."""
        with contextlib.closing(sqlite3.connect(self.path)) as opened:
            return opened.execute(words).fetchall()


def feed(path, sync="full", compacted=0):
    """Feeds a store until it is killed; compacts behind each so many batches."""
    print("begins", flush=True)
    with Store(path, sync=sync) as store:
        number = store.file.last_sequence("feed") or 0
        print(number, flush=True)
        while True:
            number += 1
            print(put(store, batch(number), producer="feed", sequence=number).version, flush=True)
            if compacted and number % compacted == 0:
                store.file.compact(history=2 * compacted)


if __name__ == "__main__":
    feed(sys.argv[1], *sys.argv[2:3], *map(int, sys.argv[3:]))
