"""A feed that another process reads, by small parts: how that process is begun and ended, and what this one keeps of what comes.
What it sends test_reader.py says; what a server makes of it, test_serve_apart.py."""
import contextlib
import os
import pickle
import threading
import unittest
from unittest import mock

from support import Case

import misteluk
from misteluk import Columns, Units
from misteluk.feeds import apart, pipes, reader
from misteluk.feeds.rejects import Lines, Rejected
from misteluk.feeds.steps import FeedPlace
from misteluk.values import parcels
from misteluk.values.names import NameTable

PLACE = FeedPlace(rows=5, line=7, newest=9, read=80, mark="m", done=8, bad=1)


class Kept(Case):
    """What the process that has the store keeps."""

    def apart(self, feed=None, *, place=PLACE, rejects=None, path=None, mark=None):
        """One whose process is a stand-in."""
        feed = feed or self.file("feed.csv", "a,b,1,1\nc,d,1,2\n")
        following = self.store(blocks=64).follow(feed, by="add", columns=Columns(1, 2, weight=3, time=4), progress=False)
        self.addCleanup(following.close)
        following.resumed, following.rejects, following.mark = place, rejects, mark
        following.recipe = following.recipe._replace(path=path)
        with mock.patch.object(apart.subprocess, "Popen") as self.begun:
            found = apart.Apart(following)
        self.addCleanup(found.close)
        self.following = following
        return found

    def pipe(self):
        ends = os.pipe()
        file = os.fdopen(ends[0], "rb")
        for close in (file.close, lambda: os.close(ends[1])):
            self.addCleanup(close)
        return file

    def test_how_one_is_begun(self):
        found = self.apart()
        words, how = self.begun.call_args.args[0], self.begun.call_args.kwargs
        self.assertEqual(words[1:3], ["-c", apart._CODE])
        self.assertEqual((how["start_new_session"], how["stdin"]), (True, apart.subprocess.DEVNULL))
        self.assertEqual(how["pass_fds"], (int(words[3]), int(words[4]), found._file))
        self.assertEqual([found.ended_half, found._is_stopped, found._ends, found.is_left, found.killed, found._in_vain,
                          found.last_bad, found.place], [False] * 4 + [0, 0, None, PLACE])
        self.assertEqual(os.lseek(found._file, 0, os.SEEK_CUR), 0)
        self.assertTrue(self.following._source._raw.closed)

    def test_what_one_is_told(self):
        """What is to be read, from where on; where the file's end is that of all, also the next one that begins."""
        found, said = self.apart(), []
        with mock.patch.object(apart.subprocess, "Popen"), mock.patch.object(found, "_tell", said.append):
            for ends in (False, True):
                found._ends = ends
                os.lseek(found._file, 9, os.SEEK_SET)
                found._start()
                self.assertEqual(os.lseek(found._file, 0, os.SEEK_CUR), 0)
            wanted = reader.Wanted(found.name, found._file, found._recipe, Units(), PLACE)
            self.assertEqual([pickle.loads(said[0]), pickle.loads(said[1]), said[2:]], [wanted, wanted, [reader.AT_ITS_END]])
            said.clear()
            found.stop()
            found.end()
        self.assertEqual((said, found._is_stopped, found._ends), ([reader.AT_ONCE, reader.AT_ITS_END], True, True))

    def test_standard_input(self):
        """It is its own, and the process is given it as such."""
        before = os.dup(0)
        self.addCleanup(os.close, before)
        self.addCleanup(os.dup2, before, 0)
        os.dup2(self.pipe().fileno(), 0)
        found = self.apart("-")
        words, how = self.begun.call_args.args[0], self.begun.call_args.kwargs
        self.assertEqual((how["stdin"], how["pass_fds"]), (None, (int(words[3]), int(words[4]), 0)))
        self.assertEqual((found._file, found.behind, found.is_replaced), (-1, None, False))

    def test_one_that_can_t_begin(self):
        """Nothing stays open of it."""
        feed, before = self.file("f.csv", "a,b,1,1\n"), len(os.listdir("/proc/self/fd"))
        following = self.store(blocks=64).follow(feed, by="add", columns=Columns(1, 2, weight=3, time=4), progress=False)
        with mock.patch.object(apart.subprocess, "Popen", side_effect=OSError("none")):
            self.assertRaisesRegex(OSError, "none", apart.Apart, following)
        self.assertEqual(len(os.listdir("/proc/self/fd")), before)

    def test_its_end(self):
        """The process is waited for, and killed where it doesn't end; all is given back, once."""
        before = len(os.listdir("/proc/self/fd"))
        for is_late in (False, True):
            with self.apart() as found:
                self.assertIs(found.has_ended, False)
                late = apart.subprocess.TimeoutExpired("x", 30)
                found.process.wait.side_effect = [late, None] if is_late else [None, None]
            self.assertIs(found.has_ended, True)
            calls_of = [mock.call.wait(30.0), *[mock.call.kill(), mock.call.wait()] * is_late]
            self.assertEqual(found.process.mock_calls, calls_of)
            self.assertEqual((found._say, found._out, found._file, found.behind), (-1, -1, -1, None))
            found.process.wait.side_effect = None
            found.close()
            found._tell(b"x")  # (nobody hears it)
            self.assertEqual(len(os.listdir("/proc/self/fd")), before)

    def test_what_is_left_to_read(self):
        found = self.apart()
        self.assertEqual(found.behind, 16)
        for at, left in ((9, 7), (15, 1), (16, 0), (20, 0)):
            os.lseek(found._file, at, os.SEEK_SET)
            self.assertEqual(found.behind, left)

    def test_a_pipe(self):
        """This process keeps no end of it, so that its writer is told where nobody reads any more. How much is left nobody
        knows."""
        file = self.pipe()
        found = self.apart(file)
        mine = [it for it in os.listdir("/proc/self/fd") if os.path.exists(f"/proc/self/fd/{it}")
                and os.path.samestat(os.stat(f"/proc/self/fd/{it}"), os.fstat(file.fileno())) and int(it) != file.fileno()]
        self.assertEqual((len(mine), found._file, found.behind), (1, -1, None))  # (that which is written to)

    def test_whether_another_file_took_its_place(self):
        found = self.apart()
        self.assertIs(found.is_replaced, False)
        os.rename(self.room / "feed.csv", self.room / "feed.1")
        self.assertIs(found.is_replaced, True)
        self.file("feed.csv", "x\n")
        self.assertIs(found.is_replaced, True)
        os.rename(self.room / "feed.1", self.room / "feed.csv")
        self.assertIs(found.is_replaced, False)
        with mock.patch.object(apart.os, "stat", side_effect=PermissionError):
            self.assertIs(found.is_replaced, False)
        for other in (self.apart(path="feed.csv"), self.apart(self.pipe())):
            os.rename(self.room / "feed.csv", self.room / "feed.1")
            self.assertIs(other.is_replaced, False)
            os.rename(self.room / "feed.1", self.room / "feed.csv")

    def steps(self, found, *heads):
        """The steps of one that receives these."""
        given = [None if it is None else parcels.Parcel(*it) if isinstance(it, tuple) else parcels.Parcel(it, []) for it in heads]
        with mock.patch.object(apart, "received", side_effect=given):
            return next(found)

    def test_what_ends_the_steps(self):
        for is_half in (False, True):
            found = self.apart()
            self.assertRaises(StopIteration, self.steps, found, {"is_half": is_half})
            self.assertIs(found.ended_half, is_half)
        with self.assertRaises(apart.ReadFault) as told:
            self.steps(found, {"word": "BadRows", "text": "why"})
        self.assertEqual((told.exception.word, str(told.exception)), ("BadRows", "why"))

    def test_that_another_file_took_its_place(self):
        """It is said once, though each reader says so."""
        found = self.apart()
        found.on_left = mock.Mock()
        for _ in range(2):
            self.assertRaises(StopIteration, self.steps, found, {"left": True}, {"left": True}, {"is_half": False})
        self.assertEqual((found.on_left.call_count, found.is_left), (1, True))

    def test_rows_that_were_skipped(self):
        """They are kept before what came with them counts; a feed whose rows can't be kept ends there."""
        head = {"place": list(PLACE._replace(bad=2)), "first": 3, "last_bad": [7, "why", "x"], "skipped": [6, "h", ["x\n"]]}
        none = {**head, "last_bad": None, "skipped": None}
        kept = mock.Mock(size=40)
        for rejects, appended in ((kept, [mock.call(Lines(6, "h", ["x\n"]))]), (None, [])):
            found = self.apart(rejects=rejects)
            found._in_vain = 2
            self.assertRaises(StopIteration, self.steps, found, head, none, {"is_half": False})
            self.assertEqual((kept.append.call_args_list if rejects else [], found.place, found._in_vain, found.last_bad),
                             (appended, PLACE._replace(bad=2), 0, Rejected(7, "why", "x")))
        found = self.apart(rejects=kept)
        kept.append.side_effect = misteluk.errors.FeedFault("full")
        with self.assertRaisesRegex(apart.ReadFault, "^full; 5 rows to line 7 are in$") as told:
            self.steps(found, head)
        self.assertEqual((told.exception.word, found.place), ("FeedFault", PLACE))

    def batch(self, **head):
        """A batch of one row, as a reader sends it."""
        outbox = reader.Outbox(5, NameTable())
        outbox.kinds["k"] = None
        outbox.pending.append((1, "k", "a", "b", 5, 7))
        outbox.commit(True, 1)
        ours, theirs = os.pipe()
        with mock.patch.object(reader, "send", lambda _, parts: pipes.send(theirs, parts)):
            outbox.send(mock.Mock(_place=PLACE._replace(rows=6, line=8), last_bad=None))
        os.close(theirs)
        with os.fdopen(ours, "rb"):
            parcel = pipes.received(ours)
        return {**parcel.head, **head}, parcel.columns

    def test_a_batch(self):
        """It goes in, with the mark of its feed; how far the rows that were skipped are written is this process's to say."""
        for rejects, size in ((None, 0), (mock.Mock(size=40), 40)):
            mark = mock.Mock()
            mark.written.return_value = "a mark"
            found, within = self.apart(rejects=rejects, mark=mark), []
            found.applying = lambda: contextlib.closing(mock.Mock(close=lambda: within.append(1)))
            with mock.patch.object(found.store._ledger, "apply", wraps=found.store._ledger.apply) as applied:
                told = self.steps(found, self.batch())
            self.assertEqual((told.commit.inserted, told.rows, told.line, within), (1, 6, 8, [1]))
            self.assertEqual((applied.call_args.args[0].feed, applied.call_args.args[1]), ("a mark", True))
            mark.written.assert_called_once_with(PLACE._replace(rows=6, line=8, rejects=size))
            self.assertEqual((found.place.rows, found.store.kinds(), found.store.stat().edges), (6, ["k"], 1))
        found = self.apart()
        with mock.patch.object(found.store._ledger, "apply", wraps=found.store._ledger.apply) as applied:
            self.steps(found, self.batch())
        self.assertIsNone(applied.call_args.args[0].feed)

    def test_a_batch_that_is_refused(self):
        found = self.apart()
        for fault, word in ((misteluk.errors.NamesFull("full"), "NamesFull"), (misteluk.errors.NoMemory("none"), "NoMemory"),
                            (misteluk.errors.NotWritten("disk"), "NotWritten")):
            with mock.patch.object(found.store._ledger, "apply", side_effect=fault), self.assertRaises(apart.ReadFault) as told:
                self.steps(found, self.batch())
            self.assertEqual(told.exception.word, word)
            self.assertIn("; 5 rows to line 7 are in, and 1 rows, lines 1 to 8, aren't", str(told.exception))
        self.assertEqual(found.place, PLACE)

    def test_a_name_with_another_id(self):
        found = self.apart()
        with self.assertRaisesRegex(apart.ReadFault, "'Иван' has another id here than ~other"):
            self.steps(found, self.batch(texts={"~other": "Иван"}))
        self.assertEqual(found.store.stat().edges, 0)

    def test_one_that_was_killed(self):
        """Of a file another one reads on, three times in vain at most; of a pipe, and after one that ended, none does."""
        left, lost = "what is behind them is not", "what it had read behind them is lost"
        for is_pipe, statuses, is_stopped, killed, ended in (
                (False, (-9,) * 4, False, 4, "was ended by signal 9"), (False, (3,), False, 0, "ended with status 3"),
                (False, (0,), False, 0, "ended with status 0"), (False, (-9,), True, 0, "was ended by signal 9"),
                (False, (-9, -15, 1), False, 2, "ended with status 1"), (True, (-9,), False, 1, "was ended by signal 9")):
            found = self.apart(self.pipe() if is_pipe else None)
            found._is_stopped, before = is_stopped, len(os.listdir("/proc/self/fd"))
            with mock.patch.object(found.process, "wait", side_effect=statuses), self.assertLogs("misteluk.feeds") as logged, \
                    mock.patch.object(apart.subprocess, "Popen", return_value=found.process) as begun:
                apart.LOG.warning("(one at least)")
                with self.assertRaises(apart.ReadFault) as fault:
                    self.steps(found, *[None] * len(statuses))
            self.assertEqual((fault.exception.word, found.killed, begun.call_count), ("ReaderEnded", killed, len(statuses) - 1))
            self.assertEqual(str(fault.exception), f"the process that reads {found.name} {ended}; 5 rows to line 7 are in, and "
                             f"{lost if is_pipe else left}")
            self.assertEqual(sum("another one reads on" in it for it in logged.output), len(statuses) - 1)
            self.assertEqual(len(os.listdir("/proc/self/fd")), before)

    def test_one_that_says_nothing(self):
        """It is killed where it is to stop, and has been waited for so long since then, or since the last batch."""
        found = self.apart()
        with mock.patch.object(apart, "PATIENCE", 30.0):
            for since, now, is_killed in ((None, 5_000.0, False), (990.0, 1_031.0, True), (990.0, 1_030.0, False),
                                          (1_020.0, 1_040.0, False), (1_020.0, 1_051.0, True)):
                found._since, over = since, mock.Mock()
                over.wait.side_effect = [False, True]
                found._is_over, found.process = over, mock.Mock()
                with mock.patch.object(apart.time, "monotonic", side_effect=[1_000.0, now, now]):
                    found._watch()
                self.assertEqual((found.process.kill.call_count, over.wait.call_args_list[0]), (is_killed, mock.call(1.5)), since)
            over.wait.side_effect = [True]
            found._watch()
        found._is_over = threading.Event()
        with mock.patch.object(apart.threading, "Thread") as thread:
            found.stop()
        self.assertEqual(thread.mock_calls, [mock.call(target=found._watch, daemon=True), mock.call().start()])

    def test_since_when_it_is_waited_for(self):
        found, seen = self.apart(), []
        with mock.patch.object(apart, "received", side_effect=lambda _: seen.append(found._since)):
            self.assertIsNone(found._received())
        self.assertEqual((len(seen), found._since), (1, None))
        self.assertIsInstance(seen[0], float)

if __name__ == "__main__":
    unittest.main()
