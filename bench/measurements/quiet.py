"""What should be measured in twelve minutes when the machine is quiet: short forms of other measurements, one after another, each
table in `out/bench/NAME.txt`. What is missing, fails, or takes too long is reported, and the next one runs.
"""
from __future__ import annotations

import argparse
import os
import pathlib
import signal
import subprocess
import sys
import time
from typing import List, NamedTuple, Tuple

from bench import needs, tables
from bench.places import OUT, TOP, takes_program


class Part(NamedTuple):
    """A measurement with its options, and how many seconds it may take. After two thirds of these it begins no further turn."""

    name: str
    options: Tuple[str, ...]
    limit: float


# What matters most comes first: what is left of the time goes to the last.
PLAN = [Part("workers", ("--runs", "5"), 120), Part("library", ("500000", "3"), 120), Part("client", ("200000", "3"), 120),
        Part("serve", ("--clients", "0", "1", "8", "--seconds", "8"), 110), Part("scale", ("--scales", "18"), 110),
        Part("compare", ("--runs", "3"), 240)]


def options(parser: argparse.ArgumentParser) -> None:
    takes_program(parser)
    parser.add_argument("names", nargs="*", metavar="NAME", help=f"these alone of {', '.join(it.name for it in PLAN)}")
    parser.add_argument("--minutes", type=float, default=12.0, help="in all (12)")
    parser.add_argument("--out", type=pathlib.Path, default=OUT, metavar="FOLDER", help="where the tables go (out/bench)")


def run_within(words: List[str], to: pathlib.Path, seconds: float, program: str) -> str:
    """Runs a command whose lines go into a file, and returns how it ended. After so many seconds it and what it started end."""
    with open(to, "w") as out:
        print(f"# {' '.join(words[1:])}\n# {time.strftime('%Y-%m-%d %H:%M')}, load of the machine {os.getloadavg()[0]:.1f}\n",
              file=out, flush=True)
        environment = {name: it for name, it in os.environ.items() if name != needs.CHOSEN}
        environment |= {"MISTELUK_PROGRAM": program} if program else {}
        process = subprocess.Popen(words, cwd=TOP, env=environment, stdin=subprocess.DEVNULL, stdout=out,
                                   stderr=subprocess.STDOUT, start_new_session=True)
        try:
            status = process.wait(seconds)
        except subprocess.TimeoutExpired:
            status = None
        finally:
            if process.poll() is None:
                os.killpg(process.pid, signal.SIGKILL)
                process.wait()
        if status is None:
            print(f"\n# stopped after {seconds:.0f} s: what is above isn't all of it", file=out)
            return f"stopped after {seconds:.0f} s"
    last = (to.read_text().splitlines() or [""])[-1]
    return {0: "measured", needs.PASSED_OVER: last}.get(status, f"failed in status {status}: {last}")


def measure(words: argparse.Namespace, _: pathlib.Path) -> int:
    words.out.mkdir(parents=True, exist_ok=True)
    end, rows = time.monotonic() + 60 * words.minutes, []
    for part in (it for it in PLAN if not words.names or it.name in words.names):
        begun, left = time.monotonic(), end - time.monotonic()
        to = words.out / f"{part.name}.txt"
        how = "no time was left"
        if left > 5:
            limit = min(part.limit, left)
            command = [sys.executable, "-m", "bench", "run", part.name, *part.options, "--within", f"{limit * 2 / 3:.0f}"]
            how = run_within(command, to, limit, words.program or "")
        rows.append((part.name, how, time.monotonic() - begun, to))
        print(f"{part.name}: {how}", file=sys.stderr, flush=True)
    tables.show(["measurement", "how it ended", "elapsed", "table"],
                ([name, how, tables.seconds(spent), os.path.relpath(to)] for name, how, spent, to in rows))
    return 1 if any(how.startswith("failed") for _, how, _, _ in rows) else 0
