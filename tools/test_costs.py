#!/usr/bin/env python3
"""Tests of `python3 -m bench run costs`, with a stand-in for the program: which figures it compares, keeps and refuses."""
from __future__ import annotations

import argparse
import io
import pathlib
import shutil
import sys
import tempfile
import unittest
from contextlib import redirect_stdout
from unittest import mock

from test_bench import STAND_IN, bench

from bench import cost_calls, kept_costs, places
from bench.kept_costs import Kept, Made
from bench.measurements import costs

sys.dont_write_bytecode = True


class Costs(unittest.TestCase):
    def setUp(self) -> None:
        room = tempfile.TemporaryDirectory()
        self.addCleanup(room.cleanup)
        self.room = pathlib.Path(room.name)
        self.program = self.room / "program"
        self.program.write_text(STAND_IN)
        self.program.chmod(0o755)

    def kept(self, made: Made, **rows: costs.Figures) -> pathlib.Path:
        file = self.room / "kept.txt"
        Kept(made, {name.replace("_", " "): row for name, row in rows.items()}).write(file)
        return file

    @unittest.skipUnless(shutil.which("valgrind") and shutil.which("rt"), "valgrind or rt is not there")
    def test_a_cost_that_grew(self) -> None:
        """Kept figures pass; planted ones, of which the program takes 1.03 or 0.97, don't: the one is dearer, the other is to be
        kept again. A figure that a script has none of is asked for."""
        kept = self.room / "kept.txt"
        words = ["run", "costs", "rebases", "--program", str(self.program), "--kept", str(kept)]
        self.assertEqual(bench(*words, "--keep").returncode, 0)
        text, count = kept.read_text(), Kept.read(kept).rows["rebases"]["instructions"]
        others = {text: "ok", text.replace("rebases", "others"): "NEW"}
        for part, word in ((1.03, "DEARER"), (0.97, "CHEAPER")):
            others[text.replace(str(count), str(int(count / part)))] = word
        for other, word in others.items():
            kept.write_text(other)
            done, status = bench(*words), 0 if word == "ok" else 1
            self.assertEqual((done.returncode, done.stdout.splitlines()[-1]), (status, f"{1 - status} passed, {status} failed"))
            self.assertIn(f"{word:>7}  rebases: ", done.stdout)
            self.assertEqual("python3 -m bench run costs --keep" in done.stdout, word in ("NEW", "CHEAPER"))

    def test_costs_without_valgrind(self) -> None:
        """Memory and writes are compared all the same; and nothing is kept, since figures would be missing."""
        words = ["run", "costs", "empty commits", "--program", str(self.program)]
        for kilobytes, writes, status in ((9_000_000, 90_000, 0), (9_000_000, 10_000, 1), (1, 90_000, 1)):
            row = {"instructions": 1, "kilobytes": kilobytes, "writes": writes}
            kept = self.kept(Made("unproved", "another machine"), empty_commits=row)
            done = bench(*words, "--kept", str(kept), PATH=str(self.room))
            self.assertEqual(done.returncode, status, done.stdout + done.stderr)
            self.assertIn("valgrind isn't here", done.stdout)
        before = kept.read_text()
        self.assertIn("without valgrind", bench(*words, "--keep", "--kept", str(kept), PATH=str(self.room)).stderr)
        self.assertEqual(kept.read_text(), before)

    def test_an_unproved_program_is_refused(self) -> None:
        """Its figures are neither compared with those of the proved one nor kept as such; nor the other way round."""
        words = ["run", "costs", "nothing", "--program", str(self.program)]
        for more in ([], ["--keep"]):
            before = costs.KEPT.read_text()
            done = bench(*words, *more)
            self.assertEqual((done.returncode, done.stdout), (1, ""))
            self.assertIn(f"{self.program} is an unproved program, and {costs.KEPT} has figures of the proved one: run ./prove, ",
                          done.stderr)
            self.assertEqual(costs.KEPT.read_text(), before)
        kept, asked = self.kept(Made("unproved", "any")), argparse.ArgumentParser()
        costs.options(asked)
        with self.assertRaisesRegex(SystemExit, "is the proved program, and .*kept.txt has figures of an unproved one"):
            costs.refuse(asked.parse_args([*words[3:], "--kept", str(kept)]), Made("proved", "any"))

    def test_the_proved_program_is_known_by_its_bytes(self) -> None:
        prove = self.room / "prove"
        other = self.room / "other"
        other.write_bytes(self.program.read_bytes())
        with mock.patch.object(places, "TOP", self.room):
            prove.write_text(f"#!/bin/sh\n[ \"$*\" = --where ] && echo {self.program}\n")
            prove.chmod(0o755)
            self.assertTrue(places.is_proved(str(other)))
            other.write_text("another program")
            self.assertFalse(places.is_proved(str(other)))
            prove.write_text("#!/bin/sh\nexit 125\n")
            self.assertFalse(places.is_proved(str(self.program)))

    def test_each_figure_counts(self) -> None:
        """How far a figure may rise and fall, and the least that a small one counts as."""
        before = {"instructions": 10_000_000, "kilobytes": 9_000, "writes": 1_000}
        for what, count in before.items():
            near, far = (1.09, 1.11) if what == "kilobytes" else (1.019, 1.021)
            for part, words in ((near, []), (far, ["DEARER"]), (1 / near, []), (1 / far, ["CHEAPER"])):
                found = {**before, what: round(count * part)}
                self.assertEqual(kept_costs.verdict(found, before, kept_costs.BARS), words, (what, part))
        small = {"instructions": 100, "kilobytes": 10, "writes": 1}
        self.assertEqual(kept_costs.verdict({it: 5 * count for it, count in small.items()}, small, kept_costs.BARS), [])
        bar = 256 * 1024
        for left, words in ((bar, []), (bar + 1, ["LEAKS"])):
            self.assertEqual(kept_costs.verdict({**before, "left": left}, before, kept_costs.BARS), words)

    def test_another_machine(self) -> None:
        """Its glibc, valgrind or kit is told before a figure is called dearer, which takes a tenth more then."""
        row = {"instructions": 10_000_000, "kilobytes": 9_000, "writes": 1_000}
        now, here, there = ({**row, "instructions": count} for count in (10_000_000, 9_700_000, 9_000_000))
        for tools, before, words in (("glibc 2.36", here, ["DEARER"]), ("glibc 2.40", here, ["costs:", "ok"]),
                                     ("glibc 2.40", there, ["costs:", "DEARER"]),
                                     ("glibc 2.40", {**row, "instructions": 20_000_000}, ["costs:", "ok"])):
            with redirect_stdout(io.StringIO()) as said:
                kept, here_made = Kept(Made("proved", tools), {"one": before}), Made("proved", "glibc 2.36")
                status = kept_costs.compare({"one": now}, kept, here_made)
            lines = said.getvalue().splitlines()
            self.assertEqual(([line.split()[0] for line in lines[:-1]], status), (words, int("DEARER" in words)), lines)
            self.assertEqual("made with glibc 2.40, and these with glibc 2.36" in lines[0], len(words) == 2)
        self.assertRegex(kept_costs.made_now(str(self.program)).tools, r"^glibc 2\.\d+, (no )?valgrind\S*, (no rt|\S+)$")

    def test_what_a_script_of_calls_leaves(self) -> None:
        """Its program tells the most bytes in use, and how many are left; it may not end badly."""
        with mock.patch("bench.cost_calls.is_here", return_value=False):
            self.program.write_text('#!/bin/sh\n[ "$*" = "stat memory" ] && echo 2097152 300000\n')
            found = cost_calls.calls_cost(self.program, "stat")
            self.assertEqual(found, {"kilobytes": 2_048, "writes": 0, "left": 300_000})
            self.assertEqual(kept_costs.verdict(found, {**found, "instructions": 1}, kept_costs.BARS), ["LEAKS"])
            with self.assertRaisesRegex(SystemExit, "holds ended in status 1"):
                cost_calls.calls_cost(self.program, "holds")

    def test_a_script_that_asks_for_counts(self) -> None:
        """What is written meanwhile is read, however much it is."""
        found = costs.memory_and_writes([str(self.program)], b"stat\n" * 20_000)
        self.assertGreater(found["writes"], 20_000)

    def test_kept_scripts(self) -> None:
        self.assertEqual(list(Kept.read(costs.KEPT).rows), costs.NAMES)
        self.assertGreater(len(cost_calls.CALLS), 10)


if __name__ == "__main__":
    unittest.main()
