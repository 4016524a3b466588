"""What the process sends that reads a feed for another one, how it is told to end, and which calls a thread makes for a caller.
What comes of it there test_apart.py and test_serve_apart.py say."""
import _thread
import contextlib
import io
import os
import pickle
import signal
import threading
import unittest
from contextlib import redirect_stderr
from unittest import mock

from interrupting import handler
from support import Case

import misteluk
from misteluk import Units, errors
from misteluk.feeds import calls, pipes, reader
from misteluk.feeds.opening import ReadAs
from misteluk.feeds.rejects import Lines, Rejected
from misteluk.feeds.steps import FeedPlace, Pace, Recipe
from misteluk.values.answers import NOTHING
from misteluk.values.names import NameTable

PLACE = FeedPlace(rows=5, line=7, newest=9, read=80, mark="m", done=8, bad=1)
RECIPE = Recipe("delimited", "add", 4_096, False, Pace(1.0, 4_096, None, None, False, False, ReadAs()))


class Made(unittest.TestCase):
    """Calls that another thread makes."""

    def test_a_call_is_made(self):
        """By another thread, and whoever waits for it goes on."""
        found = []
        waits = threading.Thread(target=lambda: found.append(calls.Calls().make(lambda: 5)), daemon=True)
        waits.start()
        waits.join(20)
        self.assertEqual(found, [5])

    def test_what_a_call_gives(self):
        made = calls.Calls()
        self.assertEqual([made.make(lambda it=it: it * 2) for it in range(3)], [0, 2, 4])
        self.assertRaisesRegex(KeyError, "why", made.make, mock.Mock(side_effect=KeyError("why")))
        self.assertNotEqual(made.make(_thread.get_ident), _thread.get_ident())

    def test_one_that_is_made(self):
        call = calls.Call(lambda: 5)
        self.assertEqual((call.left, call.done.locked()), (False, True))
        for _ in range(2):  # (made once)
            with contextlib.suppress(RuntimeError):
                call.make()
            self.assertEqual((call.value, call.fault, call.what, call.done.locked()), (5, None, None, False))
        empty = calls.Call(lambda: 5)
        empty.what = None
        empty.make()
        self.assertEqual((empty.value, empty.fault, empty.done.locked()), (None, None, False))

    def test_an_interrupt_leaves_a_call(self):
        """What wasn't begun by then isn't made, and what was goes on to its end."""
        made, gate, done = calls.Calls(), threading.Event(), []
        first = threading.Thread(target=made.make, args=(lambda: (gate.wait(60), done.append("first")),))
        first.start()

        def interrupt(*_):
            raise KeyboardInterrupt
        with handler(interrupt), self.assertRaises(KeyboardInterrupt):
            signal.setitimer(signal.ITIMER_REAL, 0.05)
            made.make(lambda: done.append("second"))
        gate.set()
        first.join(60)
        made.make(lambda: done.append("third"))
        self.assertEqual(done, ["first", "third"])

    def test_a_fork_has_no_thread(self):
        made = calls.Calls()
        with mock.patch.object(calls.os, "getpid", return_value=0):
            self.assertRaisesRegex(misteluk.StoreError, "another process's", made.make, lambda: 5)
        self.assertEqual(made.make(lambda: 6), 6)

    def test_its_thread_ends_with_it(self):
        ended, real = threading.Event(), calls._work
        with mock.patch.object(calls, "_work", lambda queue: (real(queue), ended.set())):
            made = calls.Calls()
        made.make(lambda: None)
        self.assertFalse(ended.is_set())
        del made
        self.assertTrue(ended.wait(20))
        calls.Calls.__new__(calls.Calls).__del__()  # (one that was never begun)


class Sent(Case):
    """What the process sends that reads."""

    def setUp(self):
        super().setUp()
        self.ours, theirs = os.pipe()
        os.set_blocking(self.ours, False)
        self.names = NameTable()
        self.outbox = reader.Outbox(theirs, self.names)
        for it in (self.ours, theirs):
            self.addCleanup(os.close, it)

    def following(self, place=PLACE, last_bad=None, **more):
        return mock.MagicMock(**{"_place": place, "last_bad": last_bad, "_source.ended_half": True, **more})

    def received(self):
        """What was sent, one after another."""
        found = []
        with contextlib.suppress(BlockingIOError):
            while True:
                it = pipes.received(self.ours)
                found.append(({name: value for name, value in it.head.items() if name != "columns"},
                              [column.tolist() for column in it.columns]))
        return found

    def head(self, first=1, last_bad=None, skipped=None, place=PLACE):
        return {"place": list(place), "first": first, "last_bad": last_bad, "skipped": skipped}

    def test_how_far_it_is(self):
        """Each head begins behind the one before; rows that were skipped go with the next that goes, once."""
        self.assertEqual((self.outbox.first, self.outbox.size), (1, 0))
        self.outbox.append(Lines(3, "a,b", ["x\n"]))
        self.outbox.append(Lines(4, "a,b", ["y\n", "z\n"]))
        self.outbox.skip(self.following(last_bad=Rejected(4, "why", "y")))
        self.outbox.append(Lines(9, "a,b", ["w\n"]))
        self.outbox.skip(self.following())
        self.outbox.skip(self.following())
        self.outbox.leave()
        self.outbox.end(word="W", text="t")
        self.assertEqual(self.received(), [
            (self.head(1, [4, "why", "y"], [3, "a,b", ["x\n", "y\n", "z\n"]]), []),
            (self.head(9, None, [9, "a,b", ["w\n"]]), []), (self.head(9), []), ({"left": True}, []),
            ({"word": "W", "text": "t"}, [])])

    @staticmethod
    def decoded(columns):
        """The rows of a batch as they were, by the texts of its kinds and names and where each ends."""
        kinds, kind_ends, text, ends, *numbers = columns
        named, (of_kinds, of_names) = [], ((kinds, kind_ends), (text, ends))
        for encoded, places in (of_kinds, of_names):
            named.append([bytes(encoded[first:last]).decode() for first, last in zip([0, *places], places)])
        return [(code, named[0][kind], named[1][source], named[1][target], *more)
                for code, kind, source, target, *more in zip(*numbers)]

    def test_batches(self):
        """Rows come over as they were. Kinds and texts of ids go once."""
        ivan, anna = map(self.names.to_program, ("Иван", "Анна"))
        given = (([(1, "k", ivan, "b", 5, 7)], ["k"]), ([(0, "l", anna, ivan, 6, 8), (1, "k", "b", ivan, 1, 9)], ["l", "m"]),
                 ([(0, "m", "b", "b", 1, 1)], []))
        self.assertEqual(self.outbox.pending, [])
        for rows, kinds in given:
            self.outbox.kinds.update(dict.fromkeys(kinds))
            self.outbox.pending.extend(rows)
            self.assertEqual((self.outbox.commit(True, 4_096, "x"), self.outbox.pending), (NOTHING, []))
            self.outbox.send(self.following())
        heads, columns = zip(*self.received())
        self.assertEqual([self.decoded(it) for it in columns], [rows for rows, _ in given])
        self.assertEqual([it["kinds"] for it in heads], [["k"], ["l", "m"], []])
        self.assertEqual([it["texts"] for it in heads], [{ivan: "Иван", anna: "Анна"}, {}, {}])
        self.assertEqual([it["first"] for it in heads], [1, 9, 9])

    def test_new_texts_of_later_batches(self):
        for texts in (["Иван"], [], ["Анна", "Пётр"]):
            known = {self.names.to_program(it): it for it in texts}
            self.outbox.send(self.following())
            self.assertEqual(self.received()[0][0]["texts"], known)

    def test_what_is_read(self):
        """Each step goes out, and then how it ended; a fault that was meant by its word, others by their type."""
        for fault, *told in ((None,), (errors.BadWeight("w"), "BadWeight", "BadWeight: w"), (OSError("o"), "OSError", "o"),
                             (errors.NotWritten("why"), "NotWritten", "why"), (ValueError("v"), "ValueError", "v")):
            following, empty = self.following(), {"kinds": [], "texts": {}}
            following.__iter__.side_effect = lambda fault=fault: self.steps(fault)
            reader.read(following, self.outbox)
            following.on_skipped()
            following.on_left()
            end = dict(zip(("word", "text"), told)) if told else {"is_half": True}
            self.assertEqual([it for it, _ in self.received()], [*[{**self.head(9), **empty}] * 2, end, self.head(9),
                                                                 {"left": True}])
        following.__iter__.side_effect = lambda: self.steps(BrokenPipeError())
        self.assertRaises(BrokenPipeError, reader.read, following, self.outbox)

    def steps(self, fault):
        yield from (1, 2)
        if fault is not None:
            raise fault


class Process(Case):
    """The process that reads, in this one."""

    def test_how_it_ends(self):
        """What nobody meant is said, and the status has it; that nobody reads isn't said."""
        for fault, status, is_said in ((None, 0, False), (BrokenPipeError(), 1, False), (KeyError("why"), 1, True),
                                       (SystemExit(3), 1, True)):
            with mock.patch.object(reader, "read", side_effect=fault) as read, mock.patch("os._exit") as exited, \
                    redirect_stderr(io.StringIO()) as said:
                reader.run("following", "outbox")
            self.assertEqual((read.call_args_list, exited.call_args_list, "Traceback" in said.getvalue()),
                             ([mock.call("following", "outbox")], [mock.call(status)], is_said), fault)

    def main(self, words):
        """What it does with what it is told."""
        wanted = reader.Wanted("f.csv", 7, RECIPE, Units(weight_scale=100), PLACE)
        self.assertEqual(wanted.fileno(), 7)
        said, say = os.pipe()
        os.write(say, pickle.dumps(wanted) + words)
        os.close(say)
        with mock.patch.multiple(reader, following_of=mock.DEFAULT, threading=mock.DEFAULT, Outbox=mock.DEFAULT) as made, \
                mock.patch("os._exit") as exited, mock.patch("signal.signal") as signals, mock.patch("gc.set_threshold"):
            reader.main(said, 55)
        outbox, following = made["Outbox"].return_value, made["following_of"].return_value
        self.assertEqual(made["Outbox"].call_args.args[0], 55)
        to, of, recipe, terms, progress, rejects = made["following_of"].call_args.args
        self.assertEqual((to, of, recipe, terms.units, progress, rejects),
                         (outbox, wanted, RECIPE, Units(weight_scale=100), False, outbox))
        self.assertEqual(made["threading"].mock_calls, [
            mock.call.Thread(target=reader.run, args=(following, outbox), daemon=True), mock.call.Thread().start()])
        self.assertEqual(signals.call_args_list, [mock.call(it, signal.SIG_IGN) for it in (signal.SIGINT, signal.SIGTERM)])
        exited.assert_called_once_with(0)
        return following.mock_calls

    def test_what_it_is_told(self):
        """It reads on from the place. Each word counts, and with the last it ends: nobody can say anything any more."""
        begin, end, stop = mock.call._pass_over(PLACE), mock.call._source.end(), mock.call.stop()
        for words, told in ((b"", []), (b"!", [stop]), (b".", [end]), (b".!", [end, stop]), (b"!.", [stop, end])):
            self.assertEqual(self.main(words), [begin, *told])

if __name__ == "__main__":
    unittest.main()
