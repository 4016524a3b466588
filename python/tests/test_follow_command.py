"""misteluk follow: what it tells, signals, pipes that break. What is in is compared with a plain model."""
import fcntl
import io
import json
import os
import re
import signal
import struct
import subprocess
import termios
import time
import unittest
from contextlib import redirect_stderr, redirect_stdout
from unittest import mock

from forking import Python
from support import HERE, Case, as_soon_as
from test_following import Model, some_rows, text_of

from misteluk.command import follow
from misteluk.command.main import main
from misteluk.command.questions import question

OF_ROWS = ("--add", "--source", "1", "--target", "2", "--weight", "3", "--time", "4")


def is_read(pipe):
    """Whether all that was written into the pipe was read."""
    return struct.unpack("i", fcntl.ioctl(pipe, termios.FIONREAD, b"\0" * 4))[0] == 0


class FollowCommand(Case):
    def start(self, file, *words, by=("-m", "misteluk"), **options):
        """The command, which reads what it follows from a pipe."""
        pipe = subprocess.PIPE
        process = Python([*by, "follow", str(file), *OF_ROWS, *words],
                         **{"stdin": pipe, "stdout": pipe, "stderr": pipe, "cwd": HERE.parent, **options})
        self.addCleanup(self.end, process)
        return process

    def end(self, process):
        if process.poll() is None:
            process.kill()
        process.wait()
        for it in (process.stdin, process.stdout, process.stderr):
            if it and not it.closed:
                it.close()

    def run_it(self, text, *words):
        """The status, the lines and what is told on standard error, of a feed that ends."""
        process = self.start("-", *words, text=True)
        out, err = process.communicate(text, 60)
        return process.returncode, out.splitlines(), err

    def test_lines(self):
        text = "a,b,1,10\na,c,2,11\nc,d,3,12\nx,y,5,bad\na,b,4,13\n"
        status, out, err = self.run_it(text, "--skip-bad", "--keep", "1", "--ask", "degrees", "--ask", "levels a", "--ask",
                                       "edge link a b", "--ask", "predecessors b", "--ask", "components link", "--ask", "cores",
                                       "--ask", "levels 'no one'", "--top", "1")
        self.assertEqual((status, out), (0, [
            "version 1: 4 rows to line 5, 3 inserted, 1 updated, 1 expired, 1 bad rows passed over; newest 13",
            "degrees: 4 names, greatest by out", "  a out 1 in 0 weight 5",
            "levels a: 2 reached, the farthest at 1", "  0: 1",
            "edge link a b: weight 5 first 10 recent 13",
            "predecessors b: 1 edge", "  a weight 5 first 10 recent 13",
            "components link: 2 of 4 names", "  a 2",
            "cores: 4 names, greatest 1", "  a 1",
            "levels 'no one': there is no such name in this version"]))
        self.assertEqual(err, "misteluk: passed over: standard input:4: BadTime: time 'bad': a time is a whole number that isn't "
                              "negative, of at most 19 digits\n"
                              "misteluk: standard input: 4 rows to line 5 are in; 1 bad rows passed over\n")

    def test_lines_of_json(self):
        rows = some_rows(900)
        asks = ("--ask", "degrees", "--ask", "edge link s1 t1", "--within", "200", "--top", "5000", "--json", "--batch", "300")
        status, out, err = self.run_it(text_of(rows), *asks)
        told = [json.loads(it) for it in out]
        self.assertEqual((status, len(told), [it["rows"] for it in told if "rows" in it]), (0, 9, [300, 600, 900]))
        self.assertEqual([it for it in told if "behind" in it], [])
        model = Model(rows)
        for commit, degrees, edge in zip(told[0::3], told[1::3], told[2::3]):
            model.go_to(commit["rows"])
            recent = Model([])
            recent.edges = {it: edge for it, edge in model.edges.items() if edge[2] >= model.newest - 200}
            found = {it["name"]: it["weight_out"] for it in degrees["top"]}
            self.assertEqual({**dict.fromkeys(found, 0), **recent.weights()}, found)
            self.assertEqual((commit["newest"], edge["asked"]), (model.newest, "edge link s1 t1"))
            wanted = model.edges.get(("s1", "t1"))
            self.assertEqual(edge["edge"] and tuple(edge["edge"].values()), wanted)

    def test_decimals_and_dates_as_json(self):
        text = "a,b,1.50,2024-03-04T12:00:00\n"
        asks = ("--json", "--weight-scale", "100", "--times", "iso", "--keep", "14d", "--within", "1h", "--ask", "predecessors b")
        status, out, _ = self.run_it(text, *asks)
        commit, answer = map(json.loads, out)
        time_of = "2024-03-04T12:00:00+00:00"
        self.assertEqual((status, commit["newest"], answer["top"]),
                         (0, time_of, [{"name": "a", "weight": "1.50", "first": time_of, "recent": time_of}]))

    def stopped(self, number):
        """A feed that is ended by a signal: all that was read is in, in the last batch, and it is told how far that is."""
        rows, keep = some_rows(700), 500
        words = ("--json", "--every", "1h", "--keep", str(keep), "--batch", "257", "--ask", "degrees", "--top", "5000")
        process = self.start("-", *words)
        os.write(process.stdin.fileno(), text_of(rows).encode() + b"half,a,li")
        first = json.loads(process.stdout.readline())
        as_soon_as(lambda: is_read(process.stdin.fileno()))
        process.send_signal(number)
        told = [first, *map(json.loads, process.stdout.read().splitlines())]
        self.assertEqual(process.wait(60), 0)
        self.assertEqual(process.stderr.read().decode(), "misteluk: standard input: 700 rows to line 700 are in; the last line "
                                                         "isn't whole yet, and not in\n")
        self.assertEqual([it["rows"] for it in told if "rows" in it], [256, 512, 700])
        model = Model(rows, "add", keep).go_to(256).go_to(512).go_to(700)
        found = {it["name"]: it["weight_out"] for it in told[-1]["top"]}
        self.assertEqual({**dict.fromkeys(found, 0), **model.weights()}, found)

    def test_ctrl_c_and_sigterm(self):
        for number in (signal.SIGINT, signal.SIGTERM):
            with self.subTest(number):
                self.stopped(number)

    def test_a_file_that_grows_until_sigterm(self):
        path = self.file("grows.csv", "a,b,1,1\n")
        process = self.start(path, "--json", "--every", "10ms")
        first = json.loads(process.stdout.readline())
        self.assertEqual((first["rows"], first["behind"]), (1, 0))
        with open(path, "a") as file:
            file.write("b,c,2,2\n")
        self.assertEqual(json.loads(process.stdout.readline())["rows"], 2)
        process.send_signal(signal.SIGTERM)
        self.assertEqual((process.wait(60), process.stdout.read()), (0, b""))

    def test_a_file_that_is_not_read_whole(self):
        """Ctrl-C in the middle of a large file tells that it has more, and not that its last line isn't whole."""
        path = self.file("large.csv", text_of(some_rows(100_000)))
        process = self.start(path)
        process.stdout.readline()
        process.send_signal(signal.SIGINT)
        out, err = process.communicate(timeout=60)
        rows = sum(int(it) for it in re.findall(rb"(?m)^version \d+: (\d+) rows", out)[-1:])
        self.assertEqual((process.returncode, err.decode()), (
            0, f"misteluk: {path}: {rows} rows to line {rows} are in; more is there that wasn't read\n"))
        self.assertLess(rows, 100_000)

    def test_a_file_that_is_replaced(self):
        """The pipe of the page: all rows of both files come, and no header."""
        path = self.file("now.csv", "from,to,tons,day\n" + text_of((f"s{it}", "t", 1, it) for it in range(30)))
        tail = subprocess.Popen(["tail", "-n", "+1", "-F", path], stdout=subprocess.PIPE, stderr=subprocess.DEVNULL)
        grep = subprocess.Popen(["grep", "--line-buffered", "-v", "^from,to"], stdin=tail.stdout, stdout=subprocess.PIPE)
        self.addCleanup(self.end, grep)
        self.addCleanup(self.end, tail)
        process = self.start("-", "--json", "--every", "10ms", stdin=grep.stdout)

        def read_to(count):
            while True:
                told = json.loads(process.stdout.readline())
                if told["rows"] >= count:
                    return told["rows"], told["newest"]
        self.assertEqual(read_to(30), (30, 29))
        os.rename(path, f"{path}.1")
        self.file("now.csv", "from,to,tons,day\ns1,t,2,30\n")
        self.assertEqual(read_to(31), (31, 30))
        tail.terminate()
        self.assertEqual((process.wait(60), process.stdout.read()), (0, b""))

    def test_a_second_signal_ends_it_at_once(self):
        """Also where a commit takes long."""
        slow = ("import sys, time, misteluk.ledger; misteluk.ledger.Ledger.commit = lambda *_: time.sleep(60); "
                "from misteluk.command.main import main; sys.exit(main(sys.argv[1:]))")
        for number in (signal.SIGINT, signal.SIGTERM):
            process = self.start("-", "--every", "0", by=("-c", slow))
            os.write(process.stdin.fileno(), b"a,b,1,1\n")
            as_soon_as(lambda: is_read(process.stdin.fileno()))
            process.send_signal(number)
            time.sleep(0.5)
            self.assertIsNone(process.poll())
            # (a busy machine may hear the first late; one within 0.2 s of that is the same, and the next one ends it)
            while process.poll() is None:
                process.send_signal(number)
                time.sleep(0.3)
            self.assertEqual(process.returncode, -number)

    def test_when_signals_are_one(self):
        """The first one stops; one within 0.2 s of it does nothing, and a later one ends the process, as it would by itself."""
        stop, before = mock.Mock(), {it: signal.getsignal(it) for it in follow.SIGNALS}
        with mock.patch("time.monotonic") as clock, mock.patch("time.sleep") as rest, mock.patch("os.kill") as kill:
            clock.return_value = 100.0
            with follow.ended_by_signals(stop, -1):
                hear = signal.getsignal(signal.SIGTERM)
                for now, number in ((100.0, signal.SIGTERM), (100.125, signal.SIGINT), (100.15, signal.SIGTERM)):
                    clock.return_value = now
                    hear(number, None)
                    self.assertEqual((stop.call_count, kill.call_count), (1, 0))
                clock.return_value = 100.25
                hear(signal.SIGTERM, None)
                self.assertEqual(kill.call_args_list, [mock.call(os.getpid(), signal.SIGTERM)])
                self.assertEqual((stop.call_count, signal.getsignal(signal.SIGTERM)), (1, signal.SIG_DFL))
                clock.return_value = 100.125
            self.assertAlmostEqual(rest.call_args[0][0], 0.075)
            with follow.ended_by_signals(stop, -1):
                hear = signal.getsignal(signal.SIGTERM)
                for clock.return_value in (0.0, follow.AT_ONCE):
                    hear(signal.SIGTERM, None)
            self.assertEqual((stop.call_count, kill.call_count, rest.call_args), (2, 1, mock.call(0.0)))
        self.assertEqual({it: signal.getsignal(it) for it in follow.SIGNALS}, before)

    def test_two_signals_at_once_are_one(self):
        """As those of `timeout` are: both wait for a process that stands still."""
        process = self.start("-", "--every", "1h")
        os.write(process.stdin.fileno(), b"a,b,1,1\n")
        as_soon_as(lambda: is_read(process.stdin.fileno()))
        for number in (signal.SIGSTOP, signal.SIGTERM, signal.SIGINT, signal.SIGCONT):
            process.send_signal(number)
        self.assertEqual((process.wait(60), process.stdout.read().count(b"1 rows to line 1")), (0, 1))
        self.assertEqual(process.stderr.read(), b"misteluk: standard input: 1 rows to line 1 are in\n")

    def test_a_broken_pipe(self):
        """It ends quietly, where it has something to tell and where it hasn't."""
        for more in (b"", b"b,c,1,1\n" * 5):
            process = self.start("-", "--every", "0", "--ask", "degrees")
            os.write(process.stdin.fileno(), b"a,b,1,1\n")
            process.stdout.readline()
            process.stdout.close()
            if more:
                os.write(process.stdin.fileno(), more)
            self.assertEqual((process.wait(60), process.stderr.read()), (0, b""))

    def test_what_is_refused(self):
        text = text_of([(f"s{it}", f"t{it}", 1, it) for it in range(30)])
        status, out, err = self.run_it(text, "--blocks", "16")
        self.assertEqual((status, out), (1, []))
        self.assertIn("30 rows of standard input, lines 1 to 30, are not in, and pending still; "
                      "0 rows before them are in. The batch needs 30 free blocks, and 16 are free. ", err)
        self.assertNotIn("were pending", err)
        status, out, err = self.run_it("a,b,1,1\nb,c,x,2\n")
        self.assertEqual((status, len(out)), (1, 1))
        self.assertIn("misteluk: standard input: 1 of 2 rows can't be taken, and those before line 2 are in, and none behind it\n"
                      "  standard input:2: BadWeight", err)
        for words, told in ((("--keep", "14d"), "keep is a whole number"), (("--every", "soon"), "not 'soon'"),
                            (("--ask", "degres"), "a question is one of"), (("--ask", "levels"), "as `levels NAME [KIND]`")):
            status, _, err = self.run_it("", *words)
            self.assertIn(told, err)
            self.assertIn(status, (1, 2))

    def test_progress_ends_before_the_last_line(self):
        """On a terminal, where tqdm is and where it isn't."""
        class Terminal(io.StringIO):
            def isatty(self):
                return True
        words = ("follow", self.file("p.csv", text_of(some_rows(30))), *OF_ROWS, "--until-end")
        for there in ({}, {"tqdm": None}):
            err = Terminal()
            with mock.patch.dict("sys.modules", there), redirect_stdout(io.StringIO()), redirect_stderr(err):
                self.assertEqual(main(words), 0)
            *_, last = err.getvalue().splitlines()
            self.assertTrue(last.endswith("p.csv: 30 rows to line 30 are in"), last)
            self.assertTrue(err.getvalue().endswith(f"{last}\n"))
            self.assertNotIn("records", err.getvalue())

    def test_questions(self):
        for text in ("degrees", "levels ana", "edge link ana 'bob b'", "predecessors ana link"):
            question(text)
        self.assertEqual(question("levels 'a b' \"k k\"")[1:], ("levels", ("a b",), "k k"))
        for text in ("", "levels", "degrees a b", "edge a b", "edge a b c d", "levels a b c", "'"):
            self.assertRaises(ValueError, question, text)
        for text in ("predecessors NL91 ABNA 0417", "edge link ana bob b"):
            self.assertRaisesRegex(ValueError, r"and not as .*'\. A name with spaces stands within quotes", question, text)
        for text, told in (("levels", "levels is asked as `levels NAME [KIND]`, and not as 'levels'"),
                           ("neighborhood a b", "neighborhood is asked as `neighborhood NAME HOPS [KIND]`, and not as "
                            "'neighborhood a b'"),
                           ("degrees a b", "degrees is asked as `degrees [KIND]`, and not as 'degrees a b'"),
                           ("path a", "path is asked as `path SOURCE TARGET [KIND]`, and not as 'path a'"),
                           ("edge a b", "edge is asked as `edge KIND SOURCE TARGET`, and not as 'edge a b'"),
                           ("lewels a", "a question is one of degrees, weights_in, components, cores, edges, levels, "
                            "predecessors, successors, neighbors, neighborhood, path, edge, and not 'lewels'")):
            with self.assertRaises(ValueError) as caught:
                question(text)
            self.assertEqual(str(caught.exception), told)
        self.assertRaisesRegex(ValueError, "a quote isn't closed in \"levels O'Neill\"", question, "levels O'Neill")
        self.assertEqual(question("levels \"O'Neill\"").names, ("O'Neill",))


if __name__ == "__main__":
    unittest.main()
