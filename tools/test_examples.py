#!/usr/bin/env python3
"""Tests which program examples/check runs: that of the variable MISTELUK_PROGRAM, the proved one, or the compiled one; that each
of its scripts has lines to be compared with, and a row of its folder's README; and of ./check that it runs its own, whatever is
named, and which parts `--unproved` leaves out."""
import os
import pathlib
import re
import shutil
import signal
import subprocess
import sys
import tempfile
import time
import unittest

TOP = pathlib.Path(__file__).resolve().parent.parent


class Scripts(unittest.TestCase):
    def test_each_has_its_lines_and_its_row(self):
        """And no file stands there that examples/check doesn't run: a row or a line of a script that is gone, or one misnamed."""
        for folder in (TOP / "examples", TOP / "tests/scripts"):
            rows = re.findall(r"(?m)^\| ((?:`\w+`(?:, )?)+) \|", (folder / "README.md").read_text(encoding="utf-8"))
            listed = [name for row in rows for name in re.findall(r"\w+", row)]
            scripts = sorted(it.stem for it in folder.glob("*.csv"))
            self.assertGreater(len(scripts), 5)
            self.assertEqual(sorted(listed), scripts)
            self.assertEqual(sorted(it.stem for it in folder.glob("*.expected")), scripts)
            self.assertLessEqual({it.stem for kind in ("args", "status") for it in folder.glob(f"*.{kind}")}, set(scripts))


class Named(unittest.TestCase):
    def setUp(self):
        room = tempfile.TemporaryDirectory()
        self.addCleanup(room.cleanup)
        self.room = pathlib.Path(room.name)

    def script(self, name, text):
        path = self.room / name
        path.parent.mkdir(parents=True, exist_ok=True)
        path.write_text(f"#!/bin/sh\n{text}\n")
        path.chmod(0o755)
        return path

    def test_examples_run_it(self):
        """By its path, from the folder that they are called in, and by its name on the PATH."""
        room = self.room
        self.script("bin/mine", f'cat > "{room}/given"; echo "$0 $*" > "{room}/part" && mv "{room}/part" "$0.called"')
        called = self.room / "bin/mine.called"
        for named in (f"{self.room}/bin/mine", "bin/mine", "./bin/mine", "mine"):
            env = {**os.environ, "MISTELUK_PROGRAM": named, "PATH": f"{self.room}/bin:{os.environ['PATH']}"}
            run = subprocess.Popen([TOP / "examples/check"], cwd=self.room, env=env, stdout=subprocess.DEVNULL,
                                   stderr=subprocess.DEVNULL, start_new_session=True)
            try:
                end = time.monotonic() + 60
                while not called.exists() and run.poll() is None and time.monotonic() < end:
                    time.sleep(0.01)
                self.assertTrue(called.exists(), named)
            finally:
                os.killpg(run.pid, signal.SIGKILL)
                run.wait()
            path, _, words = called.read_text().strip().partition(" ")
            self.assertTrue(os.path.samefile(path, self.room / "bin/mine"), path)
            self.assertEqual(words.split()[0], "run")
            called.unlink()

    def test_no_such_program(self):
        for named in ("no-such-program", "/no/such/program", str(self.room)):
            done = subprocess.run([TOP / "examples/check"], env={**os.environ, "MISTELUK_PROGRAM": named}, timeout=60,
                                  stdout=subprocess.PIPE, stderr=subprocess.PIPE, text=True)
            self.assertEqual((done.returncode, done.stdout), (1, ""))
            self.assertEqual(done.stderr, f"examples/check: {named} (named by MISTELUK_PROGRAM) is no program that can be run\n")

    def test_the_compiled_program_where_none_is_proved(self):
        """As python/check does. The program that is proved is taken first."""
        shutil.copytree(TOP / "examples", self.room / "examples")
        self.script("prove", f'[ -e "{self.room}/proved" ] && echo "{self.room}/proved"')
        self.script("stinger", f'echo built >> "{self.room}/built"')
        self.script("out/compiled/stinger", f'echo compiled > "{self.room}/ran"; kill $PPID')
        env = {it: text for it, text in os.environ.items() if it != "MISTELUK_PROGRAM"}
        for ran, built in (("compiled", True), ("proved", False)):
            nowhere = {"stdout": subprocess.DEVNULL, "stderr": subprocess.DEVNULL}
            subprocess.run([self.room / "examples/check"], env=env, timeout=60, **nowhere)
            self.assertEqual((self.room / "ran").read_text(), f"{ran}\n")
            self.assertEqual((self.room / "built").exists(), built)
            (self.room / "built").unlink(missing_ok=True)
            self.script("proved", f'echo proved > "{self.room}/ran"; kill $PPID')

    def test_each_fault_counts(self):
        """With a program that answers nothing: those count too that are judged at the end of a pipe."""
        for it in ("examples", "tests/scripts"):
            shutil.copytree(TOP / it, self.room / it)
        for it in ("reading", "long_runs", "arguments", "terminals"):
            (self.room / "tests/scripts/checks" / it).write_text("")
        env = {**os.environ, "MISTELUK_PROGRAM": str(self.script("silent", "cat > /dev/null; exit 9"))}
        done = subprocess.run([self.room / "examples/check"], env=env, stdout=subprocess.PIPE, text=True, timeout=60)
        said = done.stdout.splitlines()
        faults = sum(it.startswith("examples/check: ") for it in said)
        limits = (TOP / "tests/scripts/checks/limits").read_text().count("judge_end ")
        self.assertGreater(limits, 3)
        self.assertEqual(sum("(made here)" in it for it in said), limits)
        self.assertEqual((done.returncode, said[-1]), (1, f"examples: 0 passed, {faults} failed"))

    def gate(self, *words, path="", faulty=""):
        """Runs ./check where each of its parts is a script that notes its call and says so, or the faulty one that it fails."""
        noted = f'env | grep ^MISTELUK_ >> "{self.room}/named"; echo "${{0#{self.room}/}} $*" | tee -a "{self.room}/parts"'
        own = {"./check", "tools/side-by-side"}
        for it in {*own, *re.findall(r"(?:\./|tools/|examples/|python/)[\w./-]+", (TOP / "check").read_text())}:
            self.script(it, f"{noted}; echo a fault; exit 3" if it == faulty else noted)
        for it in own:
            shutil.copy(TOP / it, self.room / it)
        self.script("bin/python3", f'[ "$1" = -m ] || exec {sys.executable} "$@"; {noted}')
        path = path or f"{self.room}/bin:{os.environ['PATH']}"
        env = {**os.environ, "PATH": path, **{f"MISTELUK_{it}": "/other" for it in ("PROGRAM", "LIBRARY")}}
        return subprocess.run([self.room / "check", *words], env=env, stdout=subprocess.PIPE, stderr=subprocess.STDOUT, text=True,
                              timeout=60)

    def parts(self):
        """The parts that have run since this was asked last."""
        noted = (self.room / "parts").read_text().splitlines()
        (self.room / "parts").unlink()
        return noted

    def test_the_gate_runs_its_own(self):
        """No part of ./check is given what a variable names."""
        self.script("bin/rt", "echo a kit")
        for words, first in (((), "tools/gate-times ./prove rt ci"), (("--unproved",), "./stinger library")):
            done = self.gate(*words)
            self.assertEqual(done.returncode, 0, done.stdout)
            self.assertIn(first, self.parts())
            self.assertEqual((self.room / "named").read_text(), "")

    def test_readme_s_two_commands(self):
        """They stand on the first screen, with what each takes: one that runs a script, and one that tests all in minutes."""
        lines = (TOP / "README.md").read_text(encoding="utf-8").splitlines()[:24]
        screen = [it.strip() for it in lines if it.startswith("    ./")]
        (run, first), (check, second) = (re.split(r"\s+# ", it) for it in screen)
        self.assertEqual((run, check), ("./stinger run < examples/funnel.csv", "./check --unproved"))
        for it in ("stinger", "check"):
            self.assertTrue(os.access(TOP / it, os.X_OK), it)
        self.assertTrue((TOP / "examples/funnel.csv").is_file())
        self.assertRegex(first, r"first call compiles the program, in \d+ min")
        minutes, whole = map(int, re.fullmatch(r".* in (\d+) minutes; \./check also proves it, in (\d+)", second).groups())
        self.assertTrue(minutes <= 6 < whole)

    def test_the_gate_without_proofs(self):
        """It leaves out the proofs and what is measured of a proved program, and says so."""
        self.script("bin/rt", "echo a kit")
        self.gate()
        whole = self.parts()
        done = self.gate("--unproved")
        self.assertEqual(set(whole) ^ set(self.parts()), {"tools/gate-times ./prove rt ci", "bin/python3 -m bench run costs",
                                                          "./stinger library", "./stinger --version"})
        self.assertRegex(done.stdout, r"all passed in \d+ minutes on \d+ processors\. Nothing was proved: \./check does\n$")

    def test_a_part_fails_without_proofs(self):
        """The others run, but for those that come after it, and all that each says is shown."""
        self.script("bin/rt", "echo a kit")
        self.gate("--unproved")
        each = set(self.parts())
        after_these = {"python/check ", "tools/test_parts ", "tools/test_bench.py ", "tools/test_library ",
                       "examples/check "}
        for faulty, failed, left_out in (
                ("tools/test_parts", "parts", ()), ("tools/test_bench.py", "bench", ()), ("tools/test_library", "c", ()),
                ("python/check", "python", ()), ("examples/check", "examples", ()),
                ("./stinger", "library, program, python (not run), parts (not run), bench (not run), c (not run), "
                 "examples (not run)", after_these)):
            done = self.gate("--unproved", faulty=faulty)
            said = done.stdout.splitlines()
            self.assertEqual((done.returncode, said[-1]), (1, f"failed: {failed}"))
            self.assertEqual(each - set(said), set(left_out))
            ended = f"{failed.partition(',')[0]} FAILED with status 3: "
            at = next(number for number, line in enumerate(said) if line.startswith(ended))
            self.assertEqual((said[at - 2].split()[0], said[at - 1]), (faulty, "a fault"))
        done = self.gate("--unproved", faulty="tools/habits.py")
        self.assertEqual((done.returncode, done.stdout), (3, "tools/habits.py \na fault\n"))

    def test_a_stop_reaches_what_runs_side_by_side(self):
        begun = self.room / "begun"
        slow = self.script("slow", f'trap "echo cleared; exit 4" INT; echo at work; : > "{begun}"; for it in $(seq 900); do '
                                   "sleep 0.1; done")
        for number in (signal.SIGINT, signal.SIGTERM, signal.SIGHUP):
            run = subprocess.Popen([TOP / "tools/side-by-side"], stdin=subprocess.PIPE, stdout=subprocess.PIPE, text=True)
            run.stdin.write(f"slow: {slow}\nlast after slow: echo last\n")
            run.stdin.close()
            while not begun.exists() and run.poll() is None:
                time.sleep(0.01)
            run.send_signal(number)
            with run.stdout:
                said = run.stdout.read().splitlines()
            self.assertEqual(run.wait(), 128 + number)
            self.assertEqual([said[0], said[1], said[2].partition(":")[0], *said[3:]],
                             ["at work", "cleared", "slow FAILED with status 4", "failed: slow, last (not run)"])
            begun.unlink()

    def test_the_gate_without_the_toolchain(self):
        done = self.gate(path="/usr/bin:/bin")
        self.assertEqual((done.returncode, (self.room / "parts").exists()), (1, False))
        self.assertIn("./check: no command rt is on the PATH", done.stdout)
        self.assertIn("CONTRIBUTING.md", done.stdout)
        self.script("bin/rt", "echo a kit")
        self.assertEqual(self.gate("--all").returncode, 2)


if __name__ == "__main__":
    unittest.main()
