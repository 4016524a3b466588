"""What a server tells of rows that can't be taken, of those that it let go, and of a file that isn't the one any more that it
followed. Values are worked out by hand."""
import os
import signal
import unittest
from unittest import mock

from serving import FollowCase
from support import as_soon_as
from test_rejects import NO_NAME, NO_NUMBER, shifted

import misteluk
from misteluk import Units


class Rejects(FollowCase):
    def edges(self):
        return sorted(row[1] for row in self.rows_of("/v1/edges"))

    def test_bad_rows_are_told(self):
        """Also where none comes behind them with which a version would be made; no place of this machine is told."""
        path = self.file("feed.csv", "a,b,1,1\nc,d,x,1\n")
        self.serve()
        self.assertEqual((self.of_feed()["bad"], "last_bad" in self.of_feed(), self.of_feed()["expired"]), (0, False, 0))
        self.follow(path, skip_bad=True)
        as_soon_as(lambda: self.of_feed()["bad"] == 1)
        self.assertEqual((self.of_feed()["last_bad"], self.of_feed()["rows"]), ({"line": 2, "reason": NO_NUMBER}, 1))
        self.append(path, f"e,f,{self.room}/x,1\n")
        as_soon_as(lambda: self.of_feed()["bad"] == 2)
        self.assertEqual(self.of_feed()["last_bad"], {"line": 3, "reason": NO_NUMBER.replace("'x'", "'..'")})
        self.append(path, "g,h,1,1\n")
        as_soon_as(lambda: self.of_feed()["rows"] == 2)
        self.assertEqual((self.of_feed()["bad"], self.of_feed()["state"]), (2, "followed"))

    def test_bad_rows_are_written_once(self):
        """Also where the reader is killed, and another one reads on."""
        path = self.file("feed.csv", "a,b,1,1\nc,,1,1\nd,e,1,1\nf,,1,1\n")
        self.serve()
        reading = self.follow(path, rejects=self.room / "r.csv")
        as_soon_as(lambda: self.of_feed()["bad"] == 2)
        with mock.patch("sys.stderr"):
            os.kill(reading.process.pid, signal.SIGKILL)
            as_soon_as(lambda: self.of_feed().get("readers_killed") == 1)
        self.append(path, "g,h,1,1\ni,,1,1\n")
        as_soon_as(lambda: self.of_feed()["bad"] == 3)
        self.assertEqual((self.of_feed()["rows"], self.of_feed()["last_bad"]["line"]), (3, 6))
        self.assertEqual((self.room / "r.csv").read_text(), "".join(f"{name},,1,1,{line},{NO_NAME}\n"
                                                                  for name, line in (("c", 2), ("f", 4), ("i", 6))))
        self.assertEqual(self.edges(), ["a", "d", "g"])

    def test_a_file_that_cant_be_written_ends_the_feed(self):
        path = self.file("feed.csv", "a,b,1,1\n")
        self.serve()
        with mock.patch("sys.stderr"):
            self.follow(path, rejects="/dev/full")
            as_soon_as(lambda: self.of_feed()["rows"] == 1)
            self.append(path, "c,,1,1\nd,e,1,1\n")
            as_soon_as(lambda: self.of_feed()["state"] == "failed")
        self.assertIn("No space left on device); the rows from line 2 on aren't in; 1 rows to line 1 are in",
                      self.of_feed()["reason"])
        self.assertEqual((self.edges(), self.of_feed()["bad"]), (["a"], 0))

    def test_a_time_too_far_ahead_and_what_expired(self):
        path = self.file("feed.csv", f"old,b,1,{shifted(days=-4)}\na,b,1,{shifted(days=-1)}\nfar,b,1,2255-01-01\n")
        self.serve(units=Units(times="iso"))
        self.follow(path, keep="2d", skip_bad=True, units=Units(times="iso"))
        as_soon_as(lambda: self.of_feed()["bad"] == 1)
        as_soon_as(lambda: self.edges() == ["a"])
        self.assertEqual(self.of_feed()["expired"], 1)
        self.assertRegex(self.of_feed()["last_bad"]["reason"], r"^time '2255-01-01': .* and this is 2\d\d years ahead")
        self.append(path, f"late,b,1,{shifted()}\n")
        as_soon_as(lambda: self.edges() == ["a", "late"])
        version = self.server.board.stat.version
        self.append(path, f"older,b,1,{shifted(days=-3)}\n")
        as_soon_as(lambda: self.server.board.stat.version > version)
        self.assertEqual((self.of_feed()["rows"], self.of_feed()["expired"], self.edges()), (4, 2, ["a", "late"]))

    def test_what_is_left_to_read(self):
        """A pipe has none that is known."""
        path = self.file("feed.csv", "a,b,1,1\n")
        self.serve()
        reading = self.follow(path)
        as_soon_as(lambda: self.of_feed()["rows"] == 1)
        self.assertEqual(self.of_feed()["behind"], 0)
        os.kill(reading.process.pid, signal.SIGSTOP)
        self.append(path, "c,d,1,1\n" * 50)
        self.assertEqual(self.of_feed()["behind"], 400)
        os.kill(reading.process.pid, signal.SIGCONT)
        as_soon_as(lambda: self.of_feed()["rows"] == 51)
        self.assertEqual(self.of_feed()["behind"], 0)

    def written_anew(self, is_killed):
        """A file that is longer by the next look, and another one."""
        path = self.file("feed.csv", "a,b,1,1\nc,d,1,2\n")
        self.serve()
        with mock.patch("sys.stderr"):
            reading = self.follow(path)
            as_soon_as(lambda: reading.place.rows == 2)
            os.kill(reading.process.pid, signal.SIGSTOP)
            with open(path, "r+") as file:
                file.truncate(0)
                file.write("e,f,1,1\nlong,name,1,1\nx,y,1,1\n")
            os.kill(reading.process.pid, signal.SIGKILL if is_killed else signal.SIGCONT)
            as_soon_as(lambda: self.of_feed()["state"] == "failed" or self.of_feed()["rows"] > 2)
        self.assertEqual((self.of_feed()["error"], self.edges()), ("FeedFault", ["a", "c"]))
        self.assertIn("the feed was written anew while it was followed", self.of_feed()["reason"])

    def test_a_file_that_is_written_anew(self):
        self.written_anew(False)

    def test_a_file_that_is_written_anew_for_the_next_reader(self):
        self.written_anew(True)

    def test_the_command(self):
        """It tells at its end how many rows it passed over; a file that can't be written is a fault at its start."""
        path = self.file("feed.csv", f"a,b,1,{shifted()}\nc,,1,2024-01-01\nd,e,1,{shifted(hours=2)}\n")
        words = (path, "--add", "--source", "1", "--target", "2", "--weight", "3", "--time", "4", "--times", "iso", "--every",
                 "10ms", "--listen", f"unix:{self.room}/socket")
        done = self.command(*words, "--rejects", str(self.room / "none" / "r.csv"))
        self.assertIn("No such file or directory", done.communicate(timeout=60)[1])
        self.assertEqual(done.returncode, 1)
        done, kept = self.command(*words, "--rejects", str(self.room / "r.csv"), "--ahead", "1h"), self.room / "r.csv"
        self.assertIn("serves", done.stdout.readline())
        with misteluk.connect(f"unix:{self.room}/socket") as store, store.open() as session:
            # (which answers once signals are heard)
            self.assertLessEqual(len(list(session.edges())), 1)
        as_soon_as(lambda: kept.exists() and kept.read_text().count("\n") == 2)
        done.send_signal(signal.SIGTERM)
        self.assertIn("of 1 edges; 2 bad rows were passed over\n", done.communicate(timeout=60)[1])
        self.assertEqual([it.split(",")[0] for it in kept.read_text().splitlines()], ["c", "d"])


if __name__ == "__main__":
    unittest.main()
