#!/usr/bin/env python3
"""Tests of the measurements in bench/: that each of the catalog is there and typed, and README says the same; the module for
measuring with a stand-in for the program."""
from __future__ import annotations

import argparse
import collections
import importlib
import importlib.util
import io
import json
import math
import os
import pathlib
import random
import re
import shutil
import subprocess
import sys
import tempfile
import time
import unittest
from contextlib import redirect_stderr, redirect_stdout
from typing import Dict, List, Optional, Tuple
from unittest import mock

sys.dont_write_bytecode = True
TOP = pathlib.Path(__file__).resolve().parent.parent
sys.path[:0] = [str(TOP), str(TOP / "python")]
from bench import measuring, needs, places, rattle, readme, scripts, soaking, tables  # noqa: E402
from bench.calls import Code, Refused  # noqa: E402
from bench.catalog import CATALOG, Measurement  # noqa: E402
from bench.checks import Checks  # noqa: E402
from bench.measurements import quiet  # noqa: E402
from misteluk import errors  # noqa: E402
from misteluk.engine import finding  # noqa: E402

# A measurement is a module of fewer lines than these.
LINES = 120
# Stands in for `stinger run`: a line for each `commit` and `stat`.
STAND_IN = """#!/bin/sh
while read -r line; do
    case "$line" in commit|stat) echo "$line 1";; stop) exit 7;; esac
done
"""


def bench(*words: str, **more: str) -> "subprocess.CompletedProcess[str]":
    environment = {**os.environ, "PYTHONDONTWRITEBYTECODE": "1", **more}
    return subprocess.run([sys.executable, "-m", "bench", *words], cwd=TOP, env=environment, stdout=subprocess.PIPE,
                          stderr=subprocess.PIPE, text=True)


def mypy() -> Optional[List[str]]:
    if importlib.util.find_spec("mypy"):
        return [sys.executable, "-m", "mypy"]
    found = shutil.which("mypy") or shutil.which("mypy", path="/usr/bin")
    return [found] if found else None


class Catalog(unittest.TestCase):
    def test_each_has_a_module(self) -> None:
        modules = {it.stem: it for it in (TOP / "bench/measurements").glob("*.py") if it.stem != "__init__"}
        self.assertEqual(set(modules), set(CATALOG))
        for name, path in modules.items():
            text = path.read_text()
            self.assertLess(len(text.splitlines()), LINES, name)
            for part in ("def options(parser: argparse.ArgumentParser) -> None:", "def measure(words: argparse.Namespace, "):
                self.assertEqual(text.count(f"\n{part}"), 1, name)

    def test_readme(self) -> None:
        self.assertEqual(readme.PAGE.read_text(), readme.page(), "python3 -m bench readme writes it again")
        self.assertEqual(re.findall(r"(?m)^\| `(\w+)` \|", readme.page()), list(CATALOG))

    def test_list(self) -> None:
        done = bench("list")
        self.assertEqual((done.returncode, done.stderr), (0, ""))
        self.assertEqual([line.split()[0] for line in done.stdout.splitlines()], list(CATALOG))

    def test_help_of_each(self) -> None:
        """Each that has here what it needs is imported, and says what it takes. One is asked as a user asks."""
        for name in (it.name for it in CATALOG.values() if not it.missing()):
            module, parser = importlib.import_module(f"bench.measurements.{name}"), argparse.ArgumentParser()
            module.options(parser)
            self.assertIn("--help", parser.format_help())
            self.assertTrue(module.__doc__, name)
        done = bench("run", "costs", "--help")
        self.assertTrue(done.stdout.startswith("usage: python3 -m bench run costs"), done.stdout + done.stderr)

    def test_no_other_name(self) -> None:
        done = bench("run", "compair")
        self.assertEqual(done.returncode, 2)
        self.assertIn("no measurement compair; there are costs, compare", done.stderr)

    def test_what_is_missing(self) -> None:
        done = bench("run", "records", PATH="/nowhere", PYTHONHOME="")
        self.assertEqual(done.returncode, needs.PASSED_OVER, done.stderr)
        self.assertIn("records is passed over, since rustc isn't here: apt-get install rustc", done.stderr)
        self.assertEqual(Measurement("some", "?", 1, ("sh", "no-such-command")).missing(), ["no-such-command"])

    @unittest.skipUnless(mypy(), "mypy is not there")
    def test_types(self) -> None:
        with tempfile.TemporaryDirectory() as cache:
            words = [*(mypy() or []), "--config-file", "bench/mypy.ini", "--cache-dir", cache]
            done = subprocess.run([*words, "-p", "bench"], cwd=TOP, env={**os.environ, "MYPYPATH": "python"},
                                  stdout=subprocess.PIPE, stderr=subprocess.STDOUT, text=True)
            self.assertEqual(done.returncode, 0, done.stdout)
            count = re.fullmatch(r"Success: no issues found in (\d+) source files\n", done.stdout)
            self.assertGreaterEqual(int(count[1]) if count else 0, len(list((TOP / "bench").rglob("*.py"))))


class Measuring(unittest.TestCase):
    def setUp(self) -> None:
        room = tempfile.TemporaryDirectory()
        self.addCleanup(room.cleanup)
        self.room = pathlib.Path(room.name)
        self.program = self.room / "program"
        self.program.write_text(STAND_IN)
        self.program.chmod(0o755)

    def script(self, *lines: str) -> pathlib.Path:
        return scripts.kept(self.room / "script", lines)

    def test_a_run(self) -> None:
        """Its lines are kept, its time is more than none, and another status than 0 stops."""
        spent = measuring.run([str(self.program)], self.script(*["i,a,b,c,1,1"] * 2_000, "commit"), self.room / "lines")
        self.assertEqual((self.room / "lines").read_text(), "commit 1\n")
        self.assertGreater(spent.elapsed, 0.0)
        self.assertGreater(spent.processor, 0.0)
        with self.assertRaisesRegex(SystemExit, "ended in status 7"):
            measuring.run([str(self.program)], self.script("stop"))

    def test_turns(self) -> None:
        order: List[str] = []
        works = {name: (lambda name=name: order.append(name) or len(order)) for name in ("one", "other")}
        self.assertEqual(measuring.in_turns(works, 2), {"one": [1, 3], "other": [2, 4]})
        self.assertEqual(order, ["one", "other", "one", "other"])

    def test_time_is_over(self) -> None:
        """The first turn is done, and no further one."""
        with mock.patch.object(measuring.Limit, "end", 0.0), redirect_stderr(io.StringIO()) as said:
            self.assertEqual(measuring.in_turns({"one": lambda: 1, "other": lambda: 2}, 5), {"one": [1], "other": [2]})
        self.assertEqual(said.getvalue(), "bench: 1 of 5 turns were done in the time\n")

    def test_medians(self) -> None:
        runs = [measuring.Spent(*it) for it in ((3.0, 10.0), (1.0, 30.0), (9.0, 20.0))]
        self.assertEqual(measuring.medians(runs), measuring.Spent(3.0, 20.0))
        self.assertEqual((runs[2] - runs[0]) / 2, measuring.Spent(3.0, 5.0))
        self.assertEqual(measuring.spread([4.0, 1.0, 9.0]), measuring.Spread(4.0, 1.0, 9.0))
        hundred = random.Random(1).sample(range(100), 100)
        self.assertEqual([measuring.percentile(hundred, it) for it in (0, 50, 99)], [0, 50, 99])
        self.assertEqual(measuring.percentile([7.0], 99), 7.0)

    def test_a_watch_runs_on(self) -> None:
        """Elapsed time passes while a process sleeps, its processor's doesn't."""
        spent = measuring.watch()
        time.sleep(0.2)
        first, last = spent(), spent()
        self.assertTrue(0.2 <= first.elapsed <= last.elapsed and first.processor < 0.1, (first, last))

    def test_numbers(self) -> None:
        times = [tables.seconds(it) for it in (12.345, 0.012345, 0.0000012345, None)]
        self.assertEqual(times, ["12.3 s", "12.3 ms", "1.23 µs", "-"])
        self.assertEqual((tables.ratio(3, 2), tables.ratio(-1, 2), tables.count(1234.5)), ("1.50", "lost", "1,234"))
        with redirect_stdout(io.StringIO()) as out:
            tables.show(["what", "time"], [["load", "1 s"]])
        self.assertEqual(out.getvalue(), "| what | time |\n|---|---|\n| load | 1 s |\n")

    @unittest.skipUnless(shutil.which("valgrind"), "valgrind is not there")
    def test_counts(self) -> None:
        """More lines take more instructions, and a page has more than one line."""
        few, many = self.script("commit"), scripts.kept(self.room / "many", ["commit"] * 200)
        counts = [measuring.instructions([str(self.program)], it) for it in (few, few, many)]
        self.assertEqual(counts[0], counts[1])
        self.assertGreater(counts[2], counts[0] + 200 * 100)
        lines, pages = (measuring.misses([str(self.program)], many, it) for it in (measuring.LINES, measuring.PAGES))
        self.assertGreater(lines, pages)
        self.assertGreater(pages, 0)

    @unittest.skipUnless(shutil.which("/usr/bin/time"), "GNU time is not there")
    def test_peak(self) -> None:
        """The memory of a program, and not that of this process, which is larger."""
        held = bytearray(1 << 26)
        self.assertLess(measuring.peak([str(self.program)], self.script("commit")), len(held))
        taking = [sys.executable, "-c", "it = bytearray(1 << 26); it[::4096] = b'x' * len(it[::4096])"]
        self.assertGreater(measuring.peak(taking, self.script()), 1 << 26)

    def test_what_ends_badly(self) -> None:
        """Of the measurements that run one after another, one that fails, waits, or has not what it needs is reported."""
        to = self.room / "table.txt"
        ends = {"echo fine": "measured", "echo bad; exit 4": "failed in status 4: bad", "sleep 60": "stopped after 1 s",
                f"echo not here; exit {needs.PASSED_OVER}": "not here"}
        for command, told in ends.items():
            self.assertEqual(quiet.run_within(["sh", "-c", command], to, 1, ""), told)
        self.assertIn("not here\n", to.read_text())


def refuse(code: Code) -> None:
    if code != Code.OK:
        raise Refused(code)


class Checking(unittest.TestCase):
    """What compares a large store counts each difference, and ends in status 1 then."""

    def setUp(self) -> None:
        self.checks, self.said = Checks(), io.StringIO()
        for it in (redirect_stdout(self.said), redirect_stderr(io.StringIO())):
            it.__enter__()
            self.addCleanup(it.__exit__, None, None, None)

    def counts(self, passed: int, failed: int) -> None:
        self.assertEqual((self.checks.passed, self.checks.failed), (passed, failed), self.said.getvalue())
        self.assertEqual(self.checks.status(), 1 if failed else 0)

    def test_equal(self) -> None:
        for one, other in ((1, 1), ((1, [2, 3]), (1, (2, 3))), ("OK", "OK")):
            self.checks.equal("it", one, other)
        self.counts(3, 0)

    def test_different(self) -> None:
        pairs: List[Tuple[object, object]] = [(1, 2), ((1, [2, 3]), (1, (2, 4))), ([1], [1, 1]), ((), None), ("OK", "MEMORY")]
        for one, other in pairs:
            self.checks.equal("it", one, other)
        self.counts(0, len(pairs))
        self.assertIn("FAILED  it: 1, and not 2\n", self.said.getvalue())

    @unittest.skipUnless(importlib.util.find_spec("numpy"), "numpy is not there")
    def test_arrays(self) -> None:
        numpy = importlib.import_module("numpy")
        some = numpy.arange(5, dtype="u4")
        for other in (numpy.arange(5), list(range(5))):
            self.checks.equal("it", (7, some), (7, other))
        self.counts(2, 0)
        for other in (numpy.arange(4), numpy.arange(6), some[::-1], None, 0):
            self.checks.equal("it", some, other)
        self.counts(2, 5)

    def test_refusals(self) -> None:
        """Only the code that is wanted is right."""
        self.checks.refused("it", Code.NO_SEAT, refuse, Code.NO_SEAT)
        self.counts(1, 0)
        for code in (Code.OK, Code.MEMORY):
            self.checks.refused("it", Code.NO_SEAT, refuse, code)
        self.counts(1, 2)

    def test_parts(self) -> None:
        """A part that compares nothing, or ends early, fails."""
        self.checks.part("right", lambda: self.checks.equal("it", 1, 1))
        self.counts(2, 0)
        self.checks.part("empty", lambda: None)
        self.counts(2, 1)
        self.checks.part("refused", lambda: refuse(Code.MEMORY))
        self.assertIn("MEMORY", self.said.getvalue())
        self.assertEqual(self.checks.status(), 1)

    def test_public_calls(self) -> None:
        """The calls of the library in Rattle are read from the sources, and one that a text lacks is seen."""
        calls = set(rattle.public_calls())
        known = {("Store", "open", False), ("Store", "apply", True), ("", "answer", False), ("Gate", "arrive", True)}
        self.assertLessEqual(known, calls)
        text = "let it = Store::open(rt)?.named::<Brand>(); it.apply(rt, batch)?; answer(alloc, version)"
        called = {it for it in known | {("Opened", "named", True), ("Desk", "open", False), ("Seat", "pin", True)}
                  if rattle.is_called(text, *it)}
        self.assertEqual(called, known - {("Gate", "arrive", True)} | {("Opened", "named", True)})


def library() -> str:
    """The library, or nothing where none is made yet."""
    try:
        return finding.find_library()
    except errors.LibraryNotFound:
        return ""


@unittest.skipUnless(library() and shutil.which("g++"), "no library, or no g++, is there")
@unittest.skipUnless(importlib.util.find_spec("numpy"), "numpy is not there")
class Compared(unittest.TestCase):
    """Short runs of what compares the library with plain programs in C++, and that other answers stop them."""

    def table(self, *words: str) -> List[List[str]]:
        done = bench("run", *words, "--turns", "1", MISTELUK_LIBRARY=library())
        self.assertEqual(done.returncode, 0, done.stderr)
        return [[it.strip() for it in line.split("|")[1:-1]] for line in done.stdout.splitlines() if line[:3] not in ("", "|--")]

    def test_gap(self) -> None:
        head, *rows = self.table("gap", "--only", "kron", "--scale", "7", "--sources", "2")
        self.assertEqual(head[:3], ["2^7 vertices", "GAP's in C++", "library"])
        self.assertEqual([it[0] for it in rows], [f"kron: {it}" for it in ("bfs", "cc", "load", "bytes an edge")])
        for row in rows:
            self.assertTrue(all(re.fullmatch(r"[\d.,]+( s| ms| µs)?", it) for it in row[1:]), row)

    def test_stream(self) -> None:
        table = self.table("stream", "--edges", "300", "--scale", "7", "--sizes", "1", "100")
        self.assertEqual([it[0] for it in table[1:]], [f"{shape}, {size}" for shape in ("rmat", "uniform") for size in (1, 100)])
        self.assertEqual({len(it) for it in table}, {7})

    def test_graphs(self) -> None:
        """Each edge has a twin, none is a loop or there twice, and vertices have numbers as they come."""
        kernels = importlib.import_module("bench.stores.kernels")
        for name in kernels.GRAPHS:
            graph = kernels.drawn(name, 6)
            edges = list(zip(graph.sources.tolist(), graph.targets.tolist()))
            self.assertEqual(len(set(edges)), len(edges))
            self.assertTrue(all(one != other and (other, one) in set(edges) for one, other in edges))
            self.assertEqual(list(dict.fromkeys(it for edge in edges for it in edge)), list(range(graph.vertices)))

    def test_a_log(self) -> None:
        """Nothing is inserted twice or removed before it is there, and a tenth of the operations stays."""
        log = importlib.import_module("bench.stores.updates").log_of("rmat", 7, 300)
        there, most = set(), 0
        for sort, *edge in zip(*map(list, log[:3])):
            self.assertEqual(tuple(edge) in there, sort == 2)
            there ^= {tuple(edge)}
            most = max(most, len(there))
        self.assertEqual((len(log.sorts), len(there)), (3_000, 300))
        self.assertLess(most, 600)

    def test_other_answers(self) -> None:
        """A level, a label or a degree that differs ends the measurement."""
        gap, stream = (importlib.import_module(f"bench.measurements.{it}") for it in ("gap", "stream"))
        right = {"levels": ["a", "b"], "labels": "c"}
        gap.compare("it", {gap.GAP: [right], "one": [right, {**right, "levels": ["a"]}]})
        for wrong in ({"levels": ["a", "c"]}, {"labels": "d"}):
            with self.assertRaisesRegex(SystemExit, "one has other answers"):
                gap.compare("it", {gap.GAP: [right], "one": [right, {**right, **wrong}]})
        log = importlib.import_module("bench.stores.updates").log_of("rmat", 5, 20)
        wrong_store = lambda log, *_: stream.Spent(1, 1.0, 1, 1.0, log.sources[:32])  # noqa: E731
        with mock.patch.dict(stream.STORES, library=wrong_store), mock.patch.object(places, "OUT", self.room()):
            with self.assertRaisesRegex(SystemExit, "has other edges in the end, in batches of 7"):
                stream.row(log, 7, 1, self.room())

    def room(self) -> pathlib.Path:
        room = tempfile.TemporaryDirectory()
        self.addCleanup(room.cleanup)
        return pathlib.Path(room.name)


class Degrees(Dict[str, int]):
    def to_dict(self) -> Dict[str, int]:
        return self


class Held:
    """Stands in for a session, whose version is another from some question on."""

    def __init__(self, questions: float) -> None:
        self.left, self.asked = questions, 0

    @property
    def version(self) -> int:
        return 1 if self.asked <= self.left else 2

    edge_count = 3

    def degrees(self) -> Degrees:
        return Degrees({"a": 1})

    def levels(self, vertex: str) -> None:
        self.asked += 1

    successors = predecessors = neighbors = levels


class Soaking(unittest.TestCase):
    def held(self, questions: float) -> "collections.Counter[str]":
        met: "collections.Counter[str]" = collections.Counter()
        told = io.StringIO()
        with mock.patch("time.sleep"), redirect_stdout(told):
            soaking.holding(Held(questions), random.Random(1), met)
            soaking.tell(soaking.HOLDS, met)
        for line in told.getvalue().splitlines():
            met.update(json.loads(line))
        return met

    def test_what_is_held(self) -> None:
        """A version that is another one is seen, and else it is said that it was as before."""
        for questions, word, other in ((math.inf, "the version as it was", "another version than the one held"),
                                       (9, "another version than the one held", "the version as it was")):
            met = self.held(questions)
            self.assertGreater(met[f"holds: {word}"], 5)
            self.assertEqual(met[f"holds: {other}"], 0)

    def test_what_is_strange(self) -> None:
        """What must be met and isn't, and what none of a sort may meet."""
        must = {"holds: the version as it was": 1, "silent: SessionClosed": 1}
        cases: List[Tuple[Dict[str, int], Dict[str, int]]] = [
            ({}, {}), ({"comes and goes: SessionClosed": 2, "holds: NoSeat": 1, "holds: answers": 9}, {}),
            ({"holds: SessionClosed": 1}, {"holds: SessionClosed": 1}),
            ({"silent: an answer after its silence": 1}, {"silent: an answer after its silence": 1}),
            ({"silent: SessionClosed": 0}, {"silent: SessionClosed": 0}),
            ({"holds: the version as it was": 0}, {"holds: the version as it was": 0})]
        for more, told in cases:
            self.assertEqual(soaking.strange(collections.Counter({**must, **more})), told, more)


if __name__ == "__main__":
    unittest.main()
