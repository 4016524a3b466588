"""Lists the measurements, and runs one.

    python3 -m bench list
    python3 -m bench run NAME [options]
    python3 -m bench run NAME --help
    python3 -m bench readme            writes bench/README.md again
"""
from __future__ import annotations

import argparse
import importlib
import math
import os
import pathlib
import sys
import tempfile
import time

sys.dont_write_bytecode = True
TOP = pathlib.Path(__file__).resolve().parent.parent
sys.path.insert(0, str(TOP / "python"))
from bench import needs, readme  # noqa: E402
from bench.catalog import CATALOG  # noqa: E402
from bench.measuring import Limit  # noqa: E402


def run(name: str, *options: str) -> int:
    """Runs a measurement under the Python that has most of what it needs, and returns its status."""
    if name not in CATALOG:
        print(f"bench: no measurement {name}; there are {', '.join(CATALOG)}", file=sys.stderr)
        return 2
    measurement = CATALOG[name]
    needs.take_best_python(measurement, [name, *options])
    if missing := measurement.missing():
        print(needs.passed_over(measurement, missing), file=sys.stderr)
        return needs.PASSED_OVER
    module = importlib.import_module(f"bench.measurements.{name}")
    parser = argparse.ArgumentParser(prog=f"python3 -m bench run {name}", description=module.__doc__,
                                     formatter_class=argparse.RawDescriptionHelpFormatter)
    parser.add_argument("--within", type=float, default=math.inf, metavar="SECONDS",
                        help="begin no further turn after so many seconds")
    module.options(parser)
    words = parser.parse_args(options)
    os.chdir(TOP)
    Limit.end = time.monotonic() + words.within
    with tempfile.TemporaryDirectory(prefix=f"bench-{name}-") as room:
        return int(module.measure(words, pathlib.Path(room)) or 0)


def main(*words: str) -> int:
    if words == ("list",):
        print("\n".join(readme.listed()))
        return 0
    if words == ("readme",):
        readme.PAGE.write_text(readme.page(), encoding="utf-8")
        return 0
    if words[:1] == ("run",) and words[1:]:
        return run(*words[1:])
    print(__doc__, file=sys.stderr if words not in (("-h",), ("--help",)) else sys.stdout)
    return 0 if words in (("-h",), ("--help",)) else 2


if __name__ == "__main__":
    sys.exit(main(*sys.argv[1:]))
