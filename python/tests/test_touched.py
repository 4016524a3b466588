"""Which vertices a batch touched, as who follows a feed is told: the names of its rows, once each batch, also over a kill; and
the tutorial's alert, killed anywhere, that reports each account once."""
import csv
import os
import pathlib
import random
import re
import signal
import subprocess
import sys
import threading
import unittest
from collections import Counter, defaultdict
from itertools import islice

from forking import Python
from journaled import JournalCase
from support import HERE, IN_PROCESS, IS_SERVED, TOP, Case, as_soon_as

import misteluk
from misteluk import Columns, Store, Touched, Units
from misteluk.engine.operations import ADD, EXPIRE, INSERT, REMOVE, Encoded, Numbered, Operations, records_of
from misteluk.journal.scripts import operations_of

COLUMNS = Columns(1, 2, weight=3, time=4)
NAMES = ("a", "b", "c", "-", "d,e", 'f"', "~~0123456789abcdefghij", "kassel")


def rows_by_chance(chance, count):
    """Operations by chance, in the engine's terms; an expiry names nothing."""
    rows = []
    for _ in range(count):
        code = chance.choice((INSERT, ADD, REMOVE, EXPIRE))
        rows.append((EXPIRE, "", "", "", 0, 5) if code == EXPIRE else
                    (code, chance.choice("kl"), chance.choice(NAMES), chance.choice(NAMES), 0 if code == REMOVE else 1,
                     0 if code == REMOVE else 2))
    return rows


def named(rows):
    """The names of rows, each once, in their order."""
    found = []
    for code, _, source, target, *_ in rows:
        for it in (source, target):
            if code != EXPIRE and it not in found:
                found.append(it)
    return found


class OfOperations(unittest.TestCase):
    def test_each_form(self):
        """Rows, columns, some of these, columns from another process, and the records of a store's file name the same."""
        chance = random.Random(5)
        for _ in range(300):
            rows = rows_by_chance(chance, chance.randrange(12))
            columns = Numbered.of(rows)
            begin = chance.randrange(len(rows) + 1)
            apart = columns._replace(of_names=Encoded(*columns.of_names.encoded))
            self.assertEqual(Operations(rows).vertices(), named(rows))
            self.assertEqual(Operations(columns=columns).vertices(), named(rows))
            self.assertEqual(columns.some(slice(begin, None)).vertices(), named(rows[begin:]))
            self.assertEqual(apart.vertices(), named(rows))
            self.assertEqual(operations_of([records_of(rows).encode()]).vertices(), named(rows))
        self.assertEqual(Operations().vertices(), [])


@unittest.skipIf(IS_SERVED, IN_PROCESS)
class Follows(Case):
    def follow(self, text, on, **options):
        store = Store()
        self.addCleanup(self.let_go, store)
        how = {"by": "add", "columns": COLUMNS, "until_end": True, "progress": False, "every": 0, **options}
        return store, store.follow(self.file("feed.csv", text), on=on, **how)

    def test_each_batch(self):
        """Its version, and the names of its rows as a user has them; an expiry names none, and a caller's own operation does."""
        told = []
        text = "ana,Иван Петров,1,1\nana,ana,1,2\nb c,ana,1,3\nzed,b c,1,90\n"
        store, following = self.follow(text, told.append, batch=3, keep=50)
        with following:
            self.assertEqual((next(following).commit.version, told), (1, [Touched(1, ("ana", "Иван Петров"))]))
            store.remove("link", "ana", "ana")
            store.add("link", "own", "zed", 1, 90)
            steps = list(following)
        self.assertEqual(told[1:], [Touched(2, ("ana", "own", "zed", "b c"))])
        self.assertEqual([(it.commit.version, it.commit.expired) for it in steps], [(2, 2)])

    def test_it_is_told_before_the_next_one(self):
        """And before its step is given: the last version is the batch's own then, and it may be asked."""
        seen = []

        def on(batch):
            with store.open() as session:
                seen.append((batch.version, session.version, [session.has_vertex(it) for it in batch.names], len(given)))
        given = []
        store, following = self.follow("".join(f"s{it},t,1,1\n" for it in range(5)), on, batch=2)
        with following:
            for it in following:
                given.append(it)
        self.assertEqual(seen, [(1, 1, [True] * 3, 0), (2, 2, [True] * 3, 1), (3, 3, [True] * 2, 2)])

    def test_a_call_that_fails(self):
        """The step raises what it raised, and the next one tells of the same batch again; nothing is read or applied twice."""
        told, failing = [], [True, False, True, True, False]

        def on(batch):
            told.append(batch.version)
            if failing.pop(0):
                raise KeyError("mail")
        store, following = self.follow("a,b,1,1\nc,d,1,1\n", on, batch=1)
        steps = []
        with following:
            for _ in range(3):
                with self.assertRaises(KeyError):
                    steps.extend(iter(following.__next__, None))
            steps += list(following)
        self.assertEqual((told, [it.commit.version for it in steps], store.stat().version), ([1, 1, 2, 2, 2], [1, 2], 2))
        with store.open() as session:
            self.assertEqual([it[3].weight for it in session.edges()], [1, 1])

    def test_a_feed_that_is_silent(self):
        """A batch of a pipe is told at once, and its step given, also where no row comes behind it."""
        told, steps = [], []
        out, into = os.pipe()
        self.addCleanup(os.close, into)
        os.write(into, b"a,b,1,1\n")
        store = Store()
        self.addCleanup(self.let_go, store)
        with open(out, "rb") as pipe, store.follow(pipe, by="add", columns=COLUMNS, progress=False, every=0,
                                                   on=told.append) as following:
            thread = threading.Thread(target=lambda: steps.append(next(following)), daemon=True)
            thread.start()
            thread.join(10)
            self.assertEqual((told, [it.rows for it in steps]), ([Touched(1, ("a", "b"))], [1]))

    def test_without_it_nothing_is_told(self):
        _, following = self.follow("a,b,1,1\n", None)
        with following:
            self.assertEqual([it.rows for it in following], [1])


@unittest.skipIf(IS_SERVED, IN_PROCESS)
class Restarts(JournalCase):
    def follow(self, store, path="feed.csv", **options):
        told = []
        how = {"by": "add", "columns": COLUMNS, "until_end": True, "progress": False, "every": 0, "on": told.append, **options}
        with store.follow(str(self.room / path), **how) as following:
            rows = [it.rows for it in following]
        return told, rows

    def test_the_last_batch_is_told_again(self):
        """That of this feed, whatever came behind it, with its names; a first follow tells of nothing before."""
        self.file("feed.csv", "a,b,1,1\nИван Петров,b,1,2\nc,d,1,3\n")
        self.file("other.csv", "x,y,1,1\n")
        with self.opened() as store:
            both = [Touched(1, ("a", "b", "Иван Петров")), Touched(2, ("c", "d"))]
            self.assertEqual(self.follow(store, batch=2), (both, [2, 3]))
            self.assertEqual(self.follow(store, "other.csv"), ([Touched(3, ("x", "y"))], [1]))
            store.add("k", "own", "b")
            store.commit()
        with self.opened() as store:
            self.assertEqual(self.follow(store), ([Touched(2, ("c", "d"))], []))
            self.assertEqual(self.follow(store, "other.csv"), ([Touched(3, ("x", "y"))], []))
            store.file.compact()
            self.assertEqual(self.follow(store), ([Touched(2, ("c", "d"))], []))
            note = Operations()  # (as a server notes a file that came back to its path)
            note.feed = store._engine._journal.rows("SELECT feed FROM batches WHERE version=2")[0][0]
            self.assertEqual(store._ledger.apply(note, True).version, 5)
            self.assertEqual(self.follow(store), ([Touched(2, ("c", "d"))], []))

    def test_a_caller_s_own_operations(self):
        """They go in with the feed's in one batch, however full: a kill between two would have rows in that are read again."""
        self.file("feed.csv", "".join(f"a{it},b,1,1\n" for it in range(4_096)))
        told = []
        with self.opened() as store:
            with store.follow(str(self.room / "feed.csv"), by="add", columns=COLUMNS, until_end=True, progress=False, every=0,
                              on=told.append) as following:
                store.add("k", "own", "c")
                step = next(following)
            self.assertEqual((step.commit.batches, step.commit.version, step.rows), (1, 1, 4_096))
            self.assertEqual((len(told[0].names), told[0].names[:3]), (4_099, ("own", "c", "a0")))
        with self.opened() as store:
            self.assertEqual(self.follow(store)[0], told)

    def test_one_that_the_file_has_no_more(self):
        """Then nobody knows what it touched, and that is said."""
        self.file("feed.csv", "a,b,1,1\n")
        with self.opened() as store:
            self.follow(store)
            for _ in range(2):
                store.add("k", "own", "b")
                store.commit()
                store.file.compact(0)
        with self.opened() as store:
            self.refused(misteluk.errors.FeedFault, "which vertices it touched isn't known", lambda: self.follow(store))
            with open(self.room / "feed.csv", "a") as file:
                file.write("e,f,1,2\n")
            self.assertEqual(self.follow(store, on=None)[1], [2])
            self.assertEqual(self.follow(store)[0], [Touched(4, ("e", "f"))])


SECTION = (TOP / "docs/TUTORIAL.md").read_text(encoding="utf-8").partition("### An alert that is reported once\n")[2]
SECTION = SECTION.partition("\n##")[0]
BLOCKS = re.findall(r"(?m)(?:^    .*\n|^\n(?=    \S))+", SECTION)
# The tutorial's script, and what is put into it: it is killed at a place where it comes for the n-th time.
SCRIPT = "".join(re.sub("(?m)^    ", "", it) for it in BLOCKS[:1])
DIES = """import os
places = iter(range({first}, 1 << 30))
def here():
    if next(places) == {last}:
        os.kill(os.getpid(), 9)
"""
LINE = r"(?m)^( +)(?!def |\"\"\")(\S.*)$"


def funnels(rows, size):
    """Who is a funnel behind some batch of so many rows that names it, by plain sums of cents, in the order of the batches."""
    came, went, senders, found = Counter(), Counter(), defaultdict(set), []
    for begin in range(0, len(rows), size):
        some = rows[begin:begin + size]
        for row in some:
            cents = int(row["amount"].replace(".", ""))
            came[row["to"]] += cents
            went[row["from"]] += cents
            senders[row["to"]].add(row["from"])
        for it in (it for row in some for it in (row["from"], row["to"])):
            if len(senders[it]) >= 3 and went[it] * 10 >= came[it] * 9 and it not in found:
                found.append(it)
    return found


@unittest.skipIf(IS_SERVED, IN_PROCESS)
class Story(Case):
    def setUp(self):
        super().setUp()
        (self.room / "examples").symlink_to(TOP / "examples")
        (self.room / "python3").symlink_to(sys.executable)
        self.env = {**os.environ, "PATH": f"{self.room}:{os.environ['PATH']}", "PYTHONPATH": str(HERE.parent)}

    def test_as_it_is_typed(self):
        """Each command prints what the page shows, by one shell with its jobs."""
        self.file("alert.py", SCRIPT)
        shell = subprocess.Popen(["/bin/bash"], stdin=subprocess.PIPE, stdout=subprocess.PIPE, stderr=subprocess.STDOUT,
                                 text=True, cwd=self.room, env=self.env, start_new_session=True)
        lines = (it.rstrip("\n") for it in shell.stdout if not re.match(r"\S+: line \d+: +\d+ (Terminated|Killed) ", it))

        def end():
            os.killpg(shell.pid, signal.SIGKILL)
            shell.communicate()
        self.addCleanup(end)
        count = 0
        for it in re.split(r"(?m)^    \$ ", "".join(BLOCKS[1:]))[1:]:
            command, *wanted = [line.removeprefix("    ") for line in it.rstrip("\n").split("\n")]
            if command.startswith("cat "):
                as_soon_as(lambda: (self.room / "alerts.txt").read_text().split() == wanted)
            print(command, file=shell.stdin, flush=True)
            self.assertEqual(list(islice(lines, len(wanted))), wanted, command)
            count += 1
        self.assertEqual(count, 8)

    def killed(self, script, first, last):
        """Whether a run of the script was killed at its last place: else it came to its end."""
        path = self.file("killed.py", DIES.format(first=first, last=last) + script)
        with Python([path], cwd=self.room, env=self.env, stdout=subprocess.DEVNULL, stderr=subprocess.PIPE, text=True) as run:
            told = run.communicate(timeout=60)[1]
        self.assertIn(run.returncode, (0, -9), told)
        return run.returncode == -9

    def test_killed_at_each_place(self):
        """Of the call, before and behind what it writes: each account is reported once, and none is missed."""
        with open(TOP / "examples/stories/transfers.csv", encoding="utf-8") as file:
            rows = list(csv.DictReader(file))
        wanted = funnels(rows, 7)
        self.assertEqual(sorted(wanted), ["club", "funnel"])
        script = re.sub(LINE, r"\1here()\n\1\2", SCRIPT).replace("on=alert", "on=alert, batch=7, until_end=True, every=0")
        self.assertGreater(script.count("here()"), 6)
        (self.room / "payments.csv").symlink_to(TOP / "examples/stories/transfers.csv")
        kills = 0
        for place in range(0, 200, 3):
            for it in ("alerts.db", "alerts.db-lock", "alerts.db-wal", "alerts.db-shm", "alerts.txt"):
                pathlib.Path(self.room / it).unlink(missing_ok=True)
            was_killed = self.killed(script, 0, place)
            self.killed(script, 1, 0)
            self.assertEqual((self.room / "alerts.txt").read_text().split(), wanted, place)
            kills += was_killed
            if not was_killed:
                break
        self.assertGreater(kills, 15)


if __name__ == "__main__":
    unittest.main()
