"""The tests on a Python with nothing but itself, which is this one without what was installed: each file of them is loaded, and
what needs a server's packages is passed over with a word. (`PYTHON=NAME python/check` has another Python run all of them.)"""
import os
import re
import subprocess
import sys
import unittest

from serving import NO_PACKAGES
from support import HERE

LOAD = "import importlib, sys; [importlib.import_module(it) for it in sys.argv[1:]]"


class Bare(unittest.TestCase):
    def run_bare(self, *words):
        """What such a Python says on standard error, if it ends well."""
        env = {it: text for it, text in os.environ.items() if it != "PYTHONPATH"}
        done = subprocess.run([sys.executable, "-S", *words], cwd=HERE, env=env, stdout=subprocess.PIPE, stderr=subprocess.PIPE,
                              text=True, timeout=300)
        self.assertEqual(done.returncode, 0, done.stderr)
        return done.stderr

    def test_each_file_is_loaded(self):
        names = sorted(it.stem for it in HERE.glob("test_*.py"))
        self.assertGreater(len(names), 80)
        self.run_bare("-c", LOAD, *names)

    def test_what_needs_packages_says_so(self):
        names = [it.stem for it in HERE.glob("test_serve*.py") if "HAS_PACKAGES" in it.read_text(encoding="utf-8")]
        said = self.run_bare("-m", "unittest", "-v", *names)
        for name in names:
            self.assertRegex(said, rf"{name}\.\w+[^\n]*\)(\n[^\n]*)? \.\.\. skipped '{NO_PACKAGES}'")
        self.assertEqual(set(re.findall(r"\.\.\. skipped '([^']*)'", said)), {NO_PACKAGES})
        self.assertGreater(said.count("... ok"), 20)


if __name__ == "__main__":
    unittest.main()
