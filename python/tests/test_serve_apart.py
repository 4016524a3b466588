"""The process that reads a server's feed: what comes over whole, and what is told where it or the server is killed."""
import os
import pathlib
import random
import re
import signal
import subprocess
import sys
import unittest
from contextlib import suppress
from unittest import mock

from serving import FEED, FollowCase
from support import as_soon_as

import misteluk
from misteluk import Columns, Units, connect
from misteluk.feeds import apart, reader
from misteluk.serve.server import Server

AS_ROWS = ("--add", "--source", "1", "--target", "2", "--weight", "3", "--time", "4", "--every", "10ms")


def parent_of(pid):
    """The parent of a process; `None` where there is none, or where it has ended."""
    try:
        with open(f"/proc/{pid}/stat") as file:
            fields = file.read().rpartition(")")[2].split()
    except OSError:
        return None
    return None if fields[0] == "Z" else int(fields[1])


def children(pid):
    return [int(it) for it in os.listdir("/proc") if it.isdigit() and parent_of(it) == pid]


def open_count(pid):
    return len(os.listdir(f"/proc/{pid}/fd"))


def read_by(pid, path):
    """How many bytes of a file a process has read."""
    for it in os.listdir(f"/proc/{pid}/fd"):
        with suppress(OSError):
            if os.readlink(f"/proc/{pid}/fd/{it}") == path:
                return int(pathlib.Path(f"/proc/{pid}/fdinfo/{it}").read_text().split()[1])
    return None


class Readers(unittest.TestCase):
    def test_where_what_is_read_begins(self):
        """Behind the lines that were in before."""
        following, outbox = mock.MagicMock(**{"_place.done": 7}), mock.Mock()
        reader.read(following, outbox)
        self.assertEqual((outbox.first, outbox.mock_calls), (8, [mock.call.end(is_half=following._source.ended_half)]))


class Apart(FollowCase):
    def stat(self):
        return self.ask("/v1/stat").json

    # What comes.

    def test_names_kinds_and_units(self):
        """Names and kinds that aren't plain, decimals and dates come as a store in one process takes them."""
        rows = ["ana,Иванов Пётр,12.50,2024-05-01,pays",
                "Иванов Пётр,bob,0.25,2024-05-02,owes money",
                "ana,Иванов Пётр,1,2024-05-03,pays"]
        path = self.file("feed.csv", "".join(f"{it}\n" for it in rows))
        self.serve(units=Units(weight_scale=100, times="iso"))
        self.follow(path, columns=Columns(1, 2, kind=5, weight=3, time=4), until_end=True)
        as_soon_as(lambda: self.of_feed()["state"] == "ended")
        with self.server.store.open() as session:
            told = [(kind, source, target, str(edge.weight), edge.recent.day) for kind, source, target, edge in session.edges()]
        self.assertEqual(sorted(told), [("owes money", "Иванов Пётр", "bob", "0.25", 2),
                                        ("pays", "ana", "Иванов Пётр", "13.50", 3)])
        self.assertEqual(list(self.server.store.kinds()), ["pays", "owes money"])

    def test_a_window(self):
        """Commits expire what is older than is kept."""
        path = self.file("feed.csv", "".join(f"s{it},t,1,{it}\n" for it in range(100)))
        self.serve()
        self.follow(path, keep=9, batch=10, until_end=True)
        as_soon_as(lambda: self.of_feed()["state"] == "ended")
        self.assertEqual(sorted(row[1] for row in self.rows_of("/v1/edges")), [f"s{it}" for it in range(90, 100)])

    def test_a_bad_row_in_the_middle(self):
        path = self.file("feed.csv", "".join(f"s{it % 7},t,{'many' if it == 4_499 else 1},{it}\n" for it in range(9_000)))
        self.serve()
        with mock.patch("sys.stderr") as told:
            self.follow(path, batch=1_000)
            as_soon_as(lambda: self.of_feed()["state"] == "failed")
        self.assertEqual((self.of_feed()["error"], self.of_feed()["rows"]), ("BadRows", 4_499))
        self.assertEqual(sum(row[3] for row in self.rows_of("/v1/edges")), 4_499)
        self.assertIn("feed.csv:4500", "".join(it.args[0] for it in told.write.call_args_list))
        self.assertEqual(self.post("/v1/rows", {"rows": FEED}).status, 200)

    def test_a_batch_that_is_refused(self):
        """Those before it are in, and it isn't, nor is one behind it."""
        path = self.file("feed.csv", "a,b,1,1\nb,a,1,2\na,c,1,3\na,b,1,4\n")
        store = misteluk.Store(seats=16, limits=misteluk.Limits(vertices=2))
        self.addCleanup(self.let_go, store)
        self.server = Server(store, "127.0.0.1:0").start()
        self.addCleanup(self.server.stop)
        with mock.patch("sys.stderr") as told:
            self.follow(path, batch=1)
            as_soon_as(lambda: self.of_feed()["state"] == "failed")
        self.assertEqual((self.of_feed()["error"], self.of_feed()["rows"], self.stat()["edges"]), ("NamesFull", 2, 2))
        self.assertIn("2 rows to line 2 are in, and 1 rows, lines 3 to 3, aren't",
                      "".join(it.args[0] for it in told.write.call_args_list))

    def test_what_was_read_goes_in_at_the_end(self):
        """Rows that wait for their commit are committed where the server is ended."""
        path = self.file("feed.csv", "ana,bob,5,1\nbob,cat,7,2\n")
        server = self.serve()
        reading = self.follow(path, every=1_000.0)
        as_soon_as(lambda: read_by(reading.process.pid, path) == os.path.getsize(path))
        self.assertEqual(self.stat()["version"], 0)
        server.stop()
        self.assertEqual((server.feeding.state, server.feeding.rate.total, server.board.stat.edges), ("ended", 2, 2))
        self.assertEqual((reading.process.returncode, children(os.getpid())), (0, []))

    # Who is killed, or hangs.

    def test_nothing_is_left(self):
        path = self.file("feed.csv", "ana,bob,5,1\n")
        self.serve()
        self.ask("/v1/stat")
        before = open_count(os.getpid())
        for _ in range(3):
            self.follow(path, until_end=True)
            as_soon_as(lambda: self.of_feed()["state"] == "ended")
            as_soon_as(lambda: not self.server.feeding.readers.are_alive)
        self.assertEqual((children(os.getpid()), self.of_feed()["rows"]), ([], 3))
        as_soon_as(lambda: open_count(os.getpid()) <= before)

    def told_in(self, told):
        """What was said on standard error."""
        return "".join(it.args[0] for it in told.write.call_args_list)

    def test_the_reader_is_killed(self):
        """Another one reads on: each row of the file is in, once, also those that come later."""
        chance = random.Random(7)
        for turn in range(2):
            path = self.file(f"feed{turn}.csv", "".join(f"s{it % 11},t{it % 13},1,{it}\n" for it in range(100_000)))
            self.serve()
            with mock.patch("sys.stderr") as told:
                reading = self.follow(path)
                for killed in range(1, 4):
                    count = chance.randrange(1, 20_000) + self.server.feeding.rate.total
                    as_soon_as(lambda: self.server.feeding.rate.total >= count)
                    os.kill(reading.process.pid, signal.SIGKILL)
                    as_soon_as(lambda: reading.killed == killed)
                as_soon_as(lambda: self.of_feed()["rows"] == 100_000)
                self.append(path, "ana,bob,5,1\n")
                as_soon_as(lambda: self.of_feed()["rows"] == 100_001)
            said = re.findall(r"was ended by signal 9; (\d+) rows to line (\d+) are in, and another one reads on",
                              self.told_in(told))
            self.assertEqual([rows == line for rows, line in said], [True] * 3)
            self.assertTrue(all(0 < int(rows) < 100_000 for rows, _ in said))
            self.assertEqual(sum(row[3] for row in self.rows_of("/v1/edges")), 100_005)
            self.assertEqual((self.of_feed()["state"], self.of_feed()["readers_killed"]), ("followed", 3))
            self.assertEqual(len(children(os.getpid())), turn + 1)

    def killed_at(self, text, more, said="", **options):
        """Kills a reader once it read a text, and has another one read what comes, until `said` was said."""
        path = self.file("feed.csv", text)
        server = self.serve(**options.pop("store", {}))
        with mock.patch("sys.stderr") as told:
            reading = self.follow(path, **options)
            as_soon_as(lambda: reading.place.read == os.path.getsize(path))
            os.kill(reading.process.pid, signal.SIGKILL)
            self.append(path, more)
            as_soon_as(lambda: reading.place.read == os.path.getsize(path) or server.feeding.state != "followed")
            as_soon_as(lambda: said in self.told_in(told))

    def test_one_reads_on_amid_a_row(self):
        """The header, the sign between fields, rows of several lines and a half line are read as by the one before."""
        how = {"columns": Columns("from", "to", weight="sum", time="when"), "names": "escape"}
        self.killed_at('from;when;to;sum\n"a\nb";1;c;5\na;2;"b', '\nc";7\nx;3;y;1\n', **how)
        self.assertEqual(sorted(row[1:] for row in self.rows_of("/v1/edges")),
                         [("a", "b%0Ac", 7, 2, 2), ("a%0Ab", "c", 5, 1, 1), ("x", "y", 1, 3, 3)])

    def test_one_reads_on_to_a_bad_row(self):
        """It is told as of the feed that it is in, and not as of another form that the feed might have."""
        self.killed_at("a,b,1,1\nc,d,1,2\n", "e\n", "feed.csv:3")
        self.assertEqual((self.of_feed()["error"], self.of_feed()["rows"]), ("BadRows", 2))

    def test_one_reads_on_with_the_newest_time(self):
        """What is older than is kept goes out, though the newest row was read by the one before."""
        self.killed_at("a,b,1,1000\n", "c,d,1,500\n", keep=9)
        self.assertEqual([row[1] for row in self.rows_of("/v1/edges")], ["a"])

    def test_a_file_that_was_cut_isnt_read_on(self):
        path = self.file("feed.csv", "a,b,1,1\nc,d,1,2\n")
        server = self.serve()
        with mock.patch("sys.stderr") as told:
            reading = self.follow(path)
            as_soon_as(lambda: reading.place.rows == 2)
            os.kill(reading.process.pid, signal.SIGSTOP)
            os.truncate(path, 8)
            os.kill(reading.process.pid, signal.SIGKILL)
            as_soon_as(lambda: server.feeding.state == "failed")
            # (the state is there before the message is)
            as_soon_as(lambda: "was cut to 8 bytes, and 16 were read of it" in self.told_in(told))
        self.assertEqual((self.of_feed()["error"], self.of_feed()["readers_killed"]), ("FeedFault", 1))
        self.assertIn("the feed was cut to 8 bytes, and 16 were read of it", self.of_feed()["reason"])
        self.assertFalse(self.rooms_of(self.of_feed()["reason"]))

    def test_a_bad_row(self):
        """It ends the feed, and `stat` says which line it is, and why, but not where the file is; the server lives on."""
        path = self.file("feed.csv", "ana,bob,5,1\n")
        server = self.serve()
        with mock.patch("sys.stderr") as told:
            self.follow(path)
            as_soon_as(lambda: self.of_feed()["rows"] == 1)
            self.append(path, f"ana,cat,{self.room}/x,1\nana,dan,5,1\n")
            as_soon_as(lambda: server.feeding.state == "failed")
            as_soon_as(lambda: f"{path}:2: BadWeight" in self.told_in(told))
        feed = self.of_feed()
        self.assertEqual((feed["state"], feed["error"], feed["rows"]), ("failed", "BadRows", 1))
        self.assertRegex(feed["reason"], "(?s)the feed: 1 of [23] rows can't be taken, and .*line 2: BadWeight: amount '..'")
        self.assertFalse(self.rooms_of(feed["reason"]))
        self.assertEqual(self.post("/v1/rows", {"rows": FEED}).status, 200)

    def test_another_file_in_its_place(self):
        """What comes in there isn't read, and `stat` says so; nothing is said of a file that stays, or of a pipe."""
        path = self.file("feed.csv", "ana,bob,5,1\n")
        self.serve()
        self.follow(path)
        as_soon_as(lambda: self.of_feed()["rows"] == 1)
        self.assertNotIn("replaced", self.of_feed())
        os.rename(path, f"{path}.1")
        self.assertIs(self.of_feed()["replaced"], True)
        self.file("feed.csv", "cat,dan,5,1\n")
        self.assertIs(self.of_feed()["replaced"], True)
        self.append(f"{path}.1", "eve,fay,5,1\n")
        as_soon_as(lambda: self.of_feed()["rows"] == 2)
        os.rename(f"{path}.1", path)
        self.assertNotIn("replaced", self.of_feed())

    def test_some_that_are_killed_in_vain(self):
        """After three of which nothing went in the feed ends; the server goes on."""
        path = self.file("feed.csv", "ana,bob,5,1\n")
        self.serve()
        with mock.patch("sys.stderr") as told:
            reading = self.follow(path)
            as_soon_as(lambda: self.of_feed()["rows"] == 1)
            for killed in range(4):
                as_soon_as(lambda: reading.killed == killed)
                os.kill(reading.process.pid, signal.SIGKILL)
            as_soon_as(lambda: self.of_feed()["state"] == "failed")
        found = self.of_feed()
        self.assertEqual((found["error"], found["rows"], found["readers_killed"]), ("ReaderEnded", 1, 4))
        self.assertEqual(found["reason"], "the process that reads the feed was ended by signal 9; 1 rows to line 1 are in, and "
                                          "what is behind them is not")
        self.assertIn("was ended by signal 9; 1 rows to line 1 are in, and what is behind them is not", self.told_in(told))
        self.assertEqual(self.post("/v1/rows", {"rows": FEED}).status, 200)
        self.assertIsNone(parent_of(reading.process.pid))

    def test_the_server_is_killed(self):
        """The process that reads ends with it, whether it waits for rows or has more than the server takes."""
        for text in ("ana,bob,5,1\n", "ana,bob,5,1\n" * 300_000):
            path, where = self.file("feed.csv", text), str(self.room / "socket")
            server = self.command(path, *AS_ROWS, "--listen", f"unix:{where}")
            self.assertIn("serves", server.stdout.readline())
            as_soon_as(lambda: children(server.pid))
            reader, = children(server.pid)
            with connect(f"unix:{where}") as store:
                as_soon_as(lambda: store.stat().edges == 1)
                server.kill()
                server.wait()
            as_soon_as(lambda: parent_of(reader) is None, 20)

    def test_signals_to_all_of_them(self):
        """An interrupt at a terminal, and SIGTERM, are for the server: the process that reads goes on until it is told."""
        path, where = self.file("feed.csv", "ana,bob,5,1\n"), str(self.room / "socket")
        server = self.command(path, *AS_ROWS, "--listen", f"unix:{where}")
        self.assertIn("serves", server.stdout.readline())
        with connect(f"unix:{where}") as store:
            as_soon_as(lambda: store.stat().edges == 1)
            reader, = children(server.pid)
            self.assertNotEqual(os.getsid(reader), os.getsid(server.pid))
            for it in (signal.SIGINT, signal.SIGTERM):
                os.kill(reader, it)
            self.append(path, "bob,cat,7,2\n")
            as_soon_as(lambda: store.stat().edges == 2)
        server.send_signal(signal.SIGINT)
        self.assertIn("ended at version 2, of 2 edges", server.communicate(timeout=60)[1])
        self.assertEqual((server.returncode, parent_of(reader)), (0, None))

    def test_a_reader_that_hangs(self):
        """The server ends nevertheless."""
        path = self.file("feed.csv", "ana,bob,5,1\n")
        server = self.serve()
        with mock.patch.object(apart, "PATIENCE", 0.3), mock.patch("sys.stderr"):
            reading = self.follow(path)
            as_soon_as(lambda: self.stat()["edges"] == 1)
            os.kill(reading.process.pid, signal.SIGSTOP)
            server.stop()
        self.assertEqual((server.feeding.fault, reading.process.returncode), ("ReaderEnded", -9))

    def test_one_that_cannot_begin(self):
        with mock.patch.object(apart, "_CODE", "import sys; sys.exit(3)"), mock.patch("sys.stderr") as told:
            self.serve()
            self.follow(self.file("feed.csv", "ana,bob,5,1\n"))
            as_soon_as(lambda: self.of_feed()["state"] == "failed")
        self.assertIn("ended with status 3; 0 rows to line 0 are in", "".join(it.args[0] for it in told.write.call_args_list))

    def test_a_pipe(self):
        """What was read of it is lost with its reader, so the feed ends. Its writer is told, as where nobody reads it."""
        self.serve()
        code = "import time\nwhile True: print('a,b,1,1', flush=True); time.sleep(.01)"
        with subprocess.Popen([sys.executable, "-c", code], stdout=subprocess.PIPE, stderr=subprocess.DEVNULL) as writer:
            with mock.patch("sys.stderr") as told:
                reading = self.follow(writer.stdout)
                writer.stdout.close()
                as_soon_as(lambda: self.of_feed()["rows"] > 3)
                os.kill(reading.process.pid, signal.SIGKILL)
                as_soon_as(lambda: self.of_feed()["state"] == "failed")
            self.assertEqual(writer.wait(60), 1)
        rows = self.of_feed()["rows"]
        self.assertIn(f"{rows} rows to line {rows} are in, and what it had read behind them is lost", self.told_in(told))


if __name__ == "__main__":
    unittest.main()
