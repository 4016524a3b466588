"""What `misteluk serve` makes of its words, by steps: which file is the store's, what it begins with, and what it tells."""
import gc
import io
import os
import signal
import sys
import unittest
from contextlib import redirect_stdout
from unittest import mock

from support import Case

from misteluk import Store, Units
from misteluk.command import serve
from misteluk.command.options import make_parser
from misteluk.feeds.steps import FeedMark, FeedPlace
from misteluk.serve import log
from misteluk.serve.limits import ServerLimits
from misteluk.serve.people import People


class Words(Case):
    def words(self, *said):
        return make_parser().parse_args(["serve", *said])

    def test_what_can_be_a_store_s_file(self):
        """One that isn't there, or has nothing, or begins as SQLite's do; and no other one."""
        for data, can_be in ((b"", True), (serve.HEAD, True), (serve.HEAD + b"\x10", True), (serve.HEAD[:-1], False),
                             (b"from,to\n", False), (b"x" + serve.HEAD, False)):
            (self.room / "it").write_bytes(data)
            self.assertEqual(serve.can_be_store(str(self.room / "it")), can_be, data)
        self.assertEqual([serve.can_be_store(str(it)) for it in (self.room / "none", self.room)], [True, True])

    def test_which_file_is_which(self):
        text, new = self.file("feed.csv", "a,b\n"), str(self.room / "graph.db")
        for said, path, feed in (((), None, None), ((new,), new, None), ((text, "--add"), None, text),
                                 ((new, text, "--set"), new, text), (("-", "--add"), None, "-"), ((new, "-", "--add"), new, "-"),
                                 (("--replica-of", "x"), None, None), ((new, "--sync", "off", "--history", "3"), new, None)):
            words = self.words(*said)
            serve.take_files(words)
            self.assertEqual((words.path, words.file), (path, feed), said)
        replica = "--replica-of FILE is all that a replica is made of"
        for said, told in (((text,), "isn't a store's file, and a feed wants --set or --add"),
                           ((new, text), "a feed wants --set or --add"),
                           ((new, "--save", "s"), "--save is for a store that is in memory"),
                           (("--sync", "off"), "--sync and --history are for a store's file"),
                           (("--history", "3"), "--sync and --history are for a store's file"),
                           ((text, "--add", "--sync", "full"), "--sync and --history are for a store's file"),
                           *((("--replica-of", "x", *more), replica) for more in (
                               (new,), (text, "--add"), ("--save", "s"), ("--sync", "off"), ("--history", "3")))):
            self.assertRaisesRegex(ValueError, told, serve.take_files, self.words(*said))

    def test_what_it_says(self):
        for said, is_any, place, told in (
                ((), False, "", "the rows that a client posts, for this machine alone"),
                ((), False, "/s", "the rows that a client posts, for this user alone"),
                ((), True, "/s", "the rows that a client posts, for those that have a token"),
                (("-", "--add"), False, "", "standard input, for this machine alone"),
                (("f", "--add"), False, "", "f, for this machine alone"),
                (("g.db",), False, "", "g.db and the rows that a client posts, for this machine alone"),
                (("--replica-of", "r"), False, "", "what r has, for this machine alone")):
            words, server = self.words(*said), mock.Mock(url="URL")
            serve.take_files(words)
            server.address.path, server.people.are_any = place, is_any
            with redirect_stdout(io.StringIO()) as out:
                serve.tell(server, words)
            self.assertEqual(out.getvalue(), f"misteluk: URL serves {told}\n")

    def test_what_it_says_at_its_end(self):
        for bad, more in ((0, ""), (3, "; 3 bad rows were passed over")):
            server = mock.Mock()
            server.feeding.told.return_value = {"bad": bad}
            server.board.stat.version, server.board.stat.edges = 5, 7
            for keeper, status in ((None, 0), (mock.Mock(fault=""), 0), (mock.Mock(fault="OSError"), 1)):
                with mock.patch.object(log, "state") as state:
                    self.assertEqual(serve.ended(server, keeper), status)
                state.assert_called_once_with("ended", f"ended at version 5, of 7 edges{more}", version=5, edges=7, bad=bad)

    def begun(self, keeper, *said):
        words = self.words(*said)
        serve.take_files(words)
        store, told = serve.store_of(words, keeper)
        self.addCleanup(self.let_go, store)
        return store, told

    def test_what_it_begins_with(self):
        path = str(self.room / "graph.db")
        self.assertEqual([self.begun(None, *it)[1] for it in ((), ("f", "--add"))], ["without an edge", "with its feed"])
        with mock.patch.object(log, "state") as state:
            self.assertEqual(self.begun(None, path)[1], "with version 0 of its file")
        state.assert_called_once_with("recovered", f"{path} has version 0: 0 batches behind the base of version 0", version=0,
                                      base=0, batches=0)
        keeper = mock.Mock(path="saved", **{"restored.return_value": None})
        self.assertEqual(self.begun(keeper, "--weight-scale", "100")[1], "without an edge")
        options = keeper.restored.call_args[1]
        self.assertEqual(options, {"blocks": None, "seats": 16, "endless": True, "units": Units(100)})
        keeper.restored.return_value, keeper.told_of_file.return_value = self.store("add k a b 1 1"), "with what was saved"
        with mock.patch.object(log, "state") as state:
            self.assertEqual(self.begun(keeper), (keeper.restored.return_value, "with what was saved"))
        state.assert_called_once_with("restored", "saved has 1 edges", edges=1)

    def test_feeds(self):
        """What is followed, and how fast, where the store has no file, or the feed is none."""
        text, server = self.file("feed.csv", "a,b\n"), mock.Mock()
        server.store.follow.return_value._reads_again = False
        pace = {"every": "1s", "keep": None, "ahead": None, "batch": 4_096, "skip_bad": False, "rejects": None, "progress": False,
                "by": "add"}
        for said in ((text, "--add"), ("-", "--add"), (str(self.room / "new.db"), "-", "--add")):
            words = self.words(*said)
            serve.take_files(words)
            serve.follow(server, words, {"by": "add"})
            self.assertEqual(server.store.follow.call_args, mock.call(words.file, **pace), said)
            self.assertEqual(server.feeding.follow.call_args, mock.call(server.store.follow.return_value))
        server.feeding.follow.reset_mock()
        serve.follow(server, self.words(), {"by": None})
        server.feeding.follow.assert_not_called()

    def test_files_in_turn(self):
        """What a store's file follows; what is said of a file before, and of those that went; and each is noted."""
        text, server = self.file("feed.csv", "a,b\n"), mock.Mock()
        words = self.words(str(self.room / "new.db"), text, "--add")
        with mock.patch.object(serve, "FilesInTurn") as made:
            serve.follow(server, words, {"by": "add"})
        made.assert_called_once_with(server.store, words, {"by": "add"})
        server.feeding.follow.assert_called_once_with(made.return_value.next.return_value, made.return_value)
        rotated = (f"{text} is another file than the one that was followed last. That one %s. A file that stood there "
                   "meanwhile, if there was one, isn't read")
        lost = "2 of the files that stood there before aren't there any more, and may have had more than is in"
        for before, is_another, gone, said in (
                (None, False, 0, []), (None, True, 0, [("rotated", rotated % "isn't there any more")]),
                ("/f.1", True, 2, [("rotated", rotated % "is /f.1, and what isn't in of it goes in first"),
                                   ("lost", f"{text}: {lost}")])):
            found = mock.Mock(is_another=is_another, before=before, gone=gone)
            with mock.patch.object(serve, "Succession", return_value=found), mock.patch.object(log, "state") as state:
                files = serve.FilesInTurn(server.store, words, {})
            self.assertEqual(([it.args for it in state.call_args_list], files.lost), (said, lost if gone else ""))
            mark = FeedMark("/f", (1, 2), 0)
            files._note(mark)
            self.assertEqual(server.store._ledger.apply.call_args.args[0].feed, mark.written(FeedPlace()))
            server.store._ledger.apply.reset_mock()

    def run_it(self, *said):
        """What there is while a server runs: how long a thread's turn is, whether what is there is looked through for cycles,
        what a signal does; and the server."""
        words, seen = self.words(*said), []
        serve.take_files(words)

        def run(saved):
            seen.append((sys.getswitchinterval(), gc.get_freeze_count() > 0, signal.getsignal(signal.SIGHUP) is signal.SIG_IGN))
        server = mock.Mock(is_asked=False, **{"run.side_effect": run, "feeding.told.return_value": {"bad": 0}})
        with mock.patch.multiple(serve, Server=mock.Mock(return_value=server), raise_descriptors=mock.Mock()), \
                redirect_stdout(io.StringIO()) as out:
            self.assertEqual(serve.run(words, {"by": words.by}, ServerLimits(), People()), 0)
            made, more = serve.Server, serve.raise_descriptors
        self.assertEqual((more.call_count, out.getvalue().count("serves")), (1, 1))
        return seen, server, made.call_args

    def test_a_run(self):
        """All is as it was before when it is over."""
        gc.unfreeze()
        signals = signal.SIGINT, signal.SIGTERM, signal.SIGHUP
        before = sys.getswitchinterval(), gc.get_freeze_count(), [signal.getsignal(it) for it in signals]
        seen, server, made = self.run_it()
        self.assertAlmostEqual(seen[0][0], 0.0005)
        self.assertEqual((seen[0][1:], server.feeding.follow.call_count, made[0][0].is_closed), ((True, False), 0, True))
        self.assertEqual((made[1]["began"], made[1]["keeper"], made[1]["replica"]), ("without an edge", None, None))
        self.assertEqual((sys.getswitchinterval(), gc.get_freeze_count(), [signal.getsignal(it) for it in signals]), before)
        _, server, made = self.run_it(self.file("feed.csv", "a,b\n"), "--add", "--source", "1", "--target", "2")
        self.assertEqual((server.feeding.follow.call_count, made[1]["began"]), (1, "with its feed"))
        server.feeding.follow.call_args[0][0].close()

    def test_a_run_that_a_signal_ends_at_once(self):
        with mock.patch.object(serve, "follow", side_effect=KeyboardInterrupt), redirect_stdout(io.StringIO()), \
                mock.patch.object(serve, "raise_descriptors"), mock.patch.object(serve, "Server") as made:
            made.return_value = server = mock.Mock(is_asked=False, **{"feeding.told.return_value": {"bad": 0}})
            self.assertEqual(serve.run(self.words(), {}, ServerLimits(), People()), 0)
        self.assertEqual((server.end_feed.call_count, server.run.call_count), (1, 0))

    def test_how_many_blocks_there_are_at_first(self):
        with mock.patch.object(Store, "restore"), mock.patch.object(serve, "Server") as made, redirect_stdout(io.StringIO()), \
                mock.patch.object(serve, "raise_descriptors"):
            made.side_effect = lambda store, *_, **__: self.blocks.append(store.blocks) or mock.Mock(
                is_asked=False, **{"feeding.told.return_value": {"bad": 0}})
            self.blocks = []
            for said in ((), ("--blocks", "64")):
                serve.run(self.words(*said), {}, ServerLimits(), People())
        self.assertEqual((self.blocks, os.environ.get("NOTIFY_SOCKET")), ([262_144, 64], None))


if __name__ == "__main__":
    unittest.main()
