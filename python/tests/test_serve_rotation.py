"""A server whose store has a file, and the files that it follows at one path: rows that come late in one that was rotated away,
files that are rotated away before their turn, and restarts amid all that. Each row has an edge of its own, to whose weight it
adds 1."""
import os
import signal
import time
import unittest

from support import Case, as_soon_as
from test_serve_apart import children
from test_serve_journal import FollowedCase

from misteluk import Store
from misteluk.feeds import growing
from misteluk.feeds.steps import FeedMark, FeedPlace


class Rotated(FollowedCase):
    def rotate(self, last=2):
        """As logrotate does it, which renames."""
        for number in range(last, 0, -1):
            if os.path.exists(f"{self.feed}.{number}"):
                os.rename(f"{self.feed}.{number}", f"{self.feed}.{number + 1}")
        os.rename(self.feed, f"{self.feed}.1")

    def is_left(self, count):
        """Waits until so many files were left for another one, longer than one that nothing comes of is waited for."""
        as_soon_as(lambda: self.fed().get("rotated") == count)
        time.sleep(growing.ROTATED + growing.LATE_REST)

    def known(self):
        """How many files of the path the store's file knows."""
        with Store.at(self.path, time="2999-01-01") as then:
            return len(then._engine.state.sources.feeds)

    def test_rows_that_come_late(self):
        """Who writes a log may have the old file open for long. What comes there goes in until the next file is rotated away,
        also over a restart."""
        self.write(0, 100)
        server = self.follow()
        self.has(100)
        self.rotate()
        self.write(100, 150)
        self.is_left(1)
        self.write(150, 200, f"{self.feed}.1")
        self.has(200)
        self.assertEqual((self.fed()["late"], self.fed()["state"]), (50, "followed"))
        self.rotate()
        self.write(200, 250)
        self.write(250, 260, f"{self.feed}.2")
        self.is_left(2)
        self.write(260, 300, f"{self.feed}.1")
        self.has(300)
        self.end(server)
        self.write(300, 330, f"{self.feed}.1")
        self.write(330, 360)
        server = self.follow()
        self.has(360)
        self.is_left(1)
        self.write(360, 400, f"{self.feed}.1")
        self.has(400)
        self.end(server, signal.SIGTERM)
        self.assertIn("ended at version", server.stderr.read())

    def test_a_file_that_never_stands_still(self):
        """What comes in the new one isn't kept waiting."""
        self.write(0, 100)
        self.follow()
        self.has(100)
        self.rotate()
        self.write(1_000, 1_100)
        late, until = 100, time.monotonic() + 60
        while self.fed()["rows"] < late + 100 and time.monotonic() < until:
            self.write(late, late + 1, f"{self.feed}.1")
            late += 1
            time.sleep(0.05)
        self.has(late + 100)
        self.assertLess(late, 1_000)

    def test_files_that_are_rotated_away_before_their_turn(self):
        self.write(0, 100)
        server = self.follow()
        self.has(100)
        reader, = children(server.pid)
        os.kill(reader, signal.SIGSTOP)
        for turn in range(1, 4):
            self.rotate()
            self.write(turn * 100, turn * 100 + 100)
            time.sleep(1)
        os.kill(reader, signal.SIGCONT)
        self.has(400)
        self.assertEqual((self.fed()["rotated"], self.fed()["late"]), (3, 0))

    def test_a_file_of_which_nothing_was_in(self):
        """It was seen by a server that was killed before a row of it was in, and rotated away while none ran."""
        self.write(0, 100)
        server = self.follow()
        self.has(100)
        reader, = children(server.pid)
        os.kill(reader, signal.SIGSTOP)
        self.rotate()
        self.write(100, 200)
        as_soon_as(lambda: self.known() == 2)
        self.end(server)
        os.kill(reader, signal.SIGKILL)
        self.write(200, 210, f"{self.feed}.1")
        self.rotate()
        self.write(210, 300)
        self.follow()
        self.has(300)

    def test_a_file_that_was_removed(self):
        """It is read as long as it is the one before; who writes it may not know."""
        self.write(0, 100)
        self.follow()
        self.has(100)
        with open(self.feed, "a", encoding="ascii") as old:
            os.remove(self.feed)
            self.write(100, 150)
            self.is_left(1)
            old.write("late,row,1,1\n")
            old.flush()
            self.has(151)

    def test_what_ends_a_file_that_was_rotated_away(self):
        """A bad row there ends its reading alone, and it is told that rows may be lost."""
        self.write(0, 100)
        server = self.follow()
        self.has(100)
        self.rotate()
        self.write(100, 150)
        self.is_left(1)
        self.assertNotIn("lost", self.fed())
        with open(f"{self.feed}.1", "a", encoding="ascii") as old:
            old.write("a,b,much,1\n")
        as_soon_as(lambda: "lost" in self.fed())
        self.assertRegex(self.fed()["lost"], "(?s)rows can't be taken.*amount 'much'")
        self.write(150, 200)
        self.has(200)
        self.assertEqual(self.fed()["state"], "followed")
        self.end(server, signal.SIGTERM)
        self.assertIn("a file that was rotated away ended", server.stderr.read())

    def test_a_restart_says_what_it_can_t_know(self):
        self.write(0, 100)
        server = self.follow()
        self.has(100)
        self.end(server)
        with open(self.feed, "rb"):  # (so that the system gives its number to no other)
            os.remove(self.feed)
            self.write(100, 150)
        server = self.follow()
        self.has(150)
        self.assertIn("may have had more than is in", self.fed()["lost"])
        self.end(server)
        told = server.stderr.read()
        self.follow()  # (nothing is said where a later one has begun, by which time all of it was in)
        self.assertNotIn("lost", self.fed())
        self.assertIn("is another file than the one that was followed last. That one isn't there any more. A file that stood "
                      "there meanwhile, if there was one, isn't read", told)
        self.assertIn("1 of the files that stood there before aren't there any more, and may have had more than is in", told)


class Turns(Case):
    """Which file it is, by what a store's file knows."""

    def known(self, *marks):
        return {f"{it.turn} {it.path}": it.written(it.place) for it in marks}

    def test_turns(self):
        first = FeedMark("/log", (1, 10), 0, FeedPlace(done=5), 1)
        second = FeedMark("/log", (1, 11), 0, FeedPlace(done=7), 2)
        feeds = self.known(first, second)
        for file, has, after, told in ((10, True, 0, (5, 1)), (11, True, 0, (7, 2)), (11, False, 0, (7, 2)),
                                       (10, False, 0, (0, 3)), (12, True, 0, (0, 3)), (12, True, 5, (0, 6))):
            mark = FeedMark("/log", (1, file), 0)
            found = mark.in_turn(mark.known(feeds), lambda _: has, after)
            self.assertEqual((found.place.done, found.turn), told, (file, has, after))

    def test_another_path_of_the_same_file(self):
        feeds = self.known(FeedMark("/log", (1, 10), 0, FeedPlace(done=5), 1),
                           FeedMark("/other", (1, 10), 9, FeedPlace(done=8), 4))
        mark = FeedMark("/log.1", (1, 10), 0)
        found = mark.in_turn(mark.known(feeds), lambda _: True)
        self.assertEqual((found.place.done, found.turn, found.path), (5, 1, "/log.1"))


if __name__ == "__main__":
    unittest.main()
