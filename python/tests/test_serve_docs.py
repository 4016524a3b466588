"""docs/SERVE.md: its commands and its conversation print what the page shows, each in its order, by a server of a free port."""
import doctest
import io
import json
import os
import re
import shutil
import signal
import socket
import subprocess
import sys
import unittest
import urllib.request
from contextlib import redirect_stdout, suppress
from itertools import islice, takewhile

from serving import ServeCase
from support import HERE, TOP, as_soon_as
from test_tutorial import is_like

PAGE = TOP / "docs/SERVE.md"


def commands(text):
    """Each command of an indented block, which a line may go on with `>`, and the lines that it is to print."""
    for block in re.findall(r"(?m)(?:^    .*\n)+", text):
        for it in re.split(r"(?m)^    \$ ", block)[1:]:
            lines = [line[4:] for line in ("    " + it).splitlines()]
            count = next((at for at, line in enumerate(lines[1:], 1) if not line.startswith("> ")), len(lines))
            yield "\n".join(line.removeprefix("> ") for line in lines[:count]), "\n".join(lines[count:])


@unittest.skipUnless(shutil.which("curl"), "curl is not there")
class Page(ServeCase):
    def setUp(self):
        super().setUp()
        with socket.socket() as free:
            free.bind(("127.0.0.1", 0))
            self.port = free.getsockname()[1]
        self.text = PAGE.read_text(encoding="utf-8").replace("7700", str(self.port))
        (self.room / "python3").symlink_to(sys.executable)
        self.shell = subprocess.Popen(["/bin/bash"], stdin=subprocess.PIPE, stdout=subprocess.PIPE, stderr=subprocess.STDOUT,
                                      text=True, cwd=self.room, start_new_session=True,
                                      env={**os.environ, "PATH": f"{self.room}:{os.environ['PATH']}",
                                           "PYTHONPATH": str(HERE.parent)})
        self.jobs = []
        self.addCleanup(self.end)

    def end(self):
        for it in (self.shell.pid, *self.jobs):
            with suppress(ProcessLookupError):
                os.killpg(it, signal.SIGTERM)
        self.shell.communicate(timeout=60)

    def typed(self, command, count):
        """What a command prints; one that goes on in the background has printed so many lines."""
        if command.endswith("&"):
            self.shell.stdin.write(f"{command[:-1]} --listen 127.0.0.1:{self.port} &\n")
            self.shell.stdin.flush()
            told = "".join(islice(self.lines(), count))
            self.jobs += map(int, self.typed("jobs -p", 0).split())
            return told
        self.shell.stdin.write(f"{command}\necho; echo that was it\n")
        self.shell.stdin.flush()
        return "".join(takewhile(lambda it: it != "that was it\n", self.lines()))

    def lines(self):
        """What comes, line by line. (A shell that does jobs also tells of one that has ended, sooner or later.)"""
        for line in iter(self.shell.stdout.readline, ""):
            if not re.match(r"(\[\d+\]\S? +|\S+: line \d+: +\d+ )(Terminated|Killed) ", line):
                yield line

    def test_the_page(self):
        """Its blocks in their order, as a reader types them."""
        typed, tried, known, said = 0, 0, {}, io.StringIO()
        for block in re.findall(r"(?m)(?:^    .*\n)+", self.text):
            for command, wanted in commands(block):
                told = self.typed(command, wanted.count("\n") + 1).strip("\n")
                self.assertTrue(is_like(told, wanted), f"\n$ {command}\nprinted\n{told}\nand not\n{wanted}")
                typed += 1
            if ">>>" in block:
                page = doctest.DocTestParser().get_doctest(block, known, PAGE.name, str(PAGE), 0)
                with redirect_stdout(said):
                    failed, count = doctest.DocTestRunner(optionflags=doctest.ELLIPSIS).run(page, clear_globs=False)
                self.assertEqual(failed, 0, said.getvalue())
                known, tried = page.globs, tried + count
        self.assertGreater(typed, 5)
        self.assertGreater(tried, 5)

    def stat(self):
        return json.load(urllib.request.urlopen(f"http://127.0.0.1:{self.port}/v1/stat"))

    def is_there(self):
        with socket.socket() as there:
            return there.connect_ex(("127.0.0.1", self.port)) == 0

    def test_the_tutorial_s_part(self):
        """Commands and conversation in the order of the page, each when the rows of the file are in that it has by then."""
        (self.room / "examples").symlink_to(TOP / "examples")
        self.addCleanup(os.chdir, os.getcwd())
        os.chdir(self.room)  # (where its commands run too)
        text = (TOP / "docs/TUTORIAL.md").read_text(encoding="utf-8")
        part = text.partition("### A team on one feed\n")[2].partition("\n## ")[0].replace("7700", str(self.port))
        self.typed("set -m", 0)  # (so that the shell's `kill %1` reaches what its function began)
        self.typed(re.findall(r"(?m)^    \$ (shipments\(\) .*)$", text)[0], 0)
        count, known, said, is_again = 0, {}, io.StringIO(), False
        for block in re.findall(r"(?m)(?:^    .*\n)+", part):
            for command, wanted in commands(block):
                is_again = is_again or command.startswith("kill -9 ")
                held = self.stat()["held"] if command.startswith("kill ") else []
                self.assertEqual(self.typed(command, wanted.count("\n") + 1).strip("\n"), wanted)
                count += 1
            if ">>>" in block:
                rows = (self.room / "lanes.csv").read_text().count("\n") - 1
                as_soon_as(lambda: self.stat()["feed"]["rows"] == (0 if is_again else rows))
                page = doctest.DocTestParser().get_doctest(block, known, "TUTORIAL.md", None, 0)
                with redirect_stdout(said):
                    failed, tried = doctest.DocTestRunner().run(page, clear_globs=False)
                self.assertEqual(failed, 0, said.getvalue())
                known, count = page.globs, count + tried
            if "hers" in block and "close" not in block:  # (what the page says that a browser shows)
                url = f"http://127.0.0.1:{self.port}/v1/view?around=kassel&hops=1&beside=1"
                self.assertRegex(urllib.request.urlopen(url).read().decode(), "<b>6</b>\\s*gone")
        self.assertEqual(([(it["version"], it["clients"]) for it in held], count), ([(2, 0)], 17))
        as_soon_as(lambda: not self.is_there())

    def test_what_it_tells_of(self):
        """The questions and options of its tables are those that there are."""
        from misteluk.command.options import make_parser
        from misteluk.serve.questions import QUESTIONS
        part = self.text.partition("## Questions")[2].partition("\n## ")[0]
        told = {it for row in re.findall(r"(?m)^\| ((?:`\w+`(?:, )?)+) \|", part) for it in re.findall(r"\w+", row)}
        self.assertEqual(told, {it.name for it in QUESTIONS} | {"stat"})
        commands_of = next(it for it in make_parser()._actions if it.choices).choices
        options = {name for it in commands_of["serve"]._actions for name in it.option_strings}
        self.assertLessEqual(set(re.findall(r"`(--[\w-]+)", self.text)), options)


if __name__ == "__main__":
    unittest.main()
