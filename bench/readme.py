"""README.md and the list of `python3 -m bench list`, made from the catalog."""
from __future__ import annotations

import pathlib
import textwrap
from typing import Iterator, List, Sequence

from bench.catalog import CATALOG, COMMANDS, PYTHON_PACKAGES, debian_packages

PAGE = pathlib.Path(__file__).resolve().parent / "README.md"
BEFORE = """# Measurements

<!-- `python3 -m bench readme` writes this page from bench/catalog.py. -->

Each measurement answers one question. Run it at the top of the repository:

    python3 -m bench list
    python3 -m bench run costs
    python3 -m bench run compare --help

How long each takes is estimated from short runs, for a quiet machine with four processors. With `--within SECONDS` a measurement
begins no further turn after so many seconds. `--help` shows other ways to a short run.

"""
AFTER = """
## Before you run one

- **The program** is the proved one: run `./prove` first. `--program FILE` or `MISTELUK_PROGRAM` names another program, and
  `MISTELUK_LIBRARY` another library.
- **The machine** must be quiet for times. Counts of instructions, misses and memory don't change with what else it does.
- **Packages**: if a measurement needs something that isn't installed, it names Debian's package and ends in status 3. It leaves
  out the packages that stand in brackets if they are missing. Debian's Python packages are seen by `/usr/bin/python3` alone, so
  a measurement goes on under that Python if more of its packages are there. All of them:

{packages}

- **A third store**: `compare`, `workers`, `instructions` and `misses` also measure another program that reads the same scripts.
  Name its command with `--store`.

## In twelve quiet minutes

After `./prove`, which makes program and library, `python3 -m bench run quiet` runs short forms of other measurements, one after
another: `workers`, `library`, `client`, `serve`, `scale` and `compare`. It writes each table to `out/bench/NAME.txt`. Each has a
limit of time: it begins no further turn after two thirds of that, and is stopped at its end. What is missing or fails is
reported, and the next one runs.

## How figures are made

`measuring.py` has the one way to do each thing. A new measurement is a module of `measurements/` with `options` and `measure`,
and a row of `catalog.py`.

- *In turns*: each program runs once in each turn, so a slow minute of the machine meets all of them. Figures are medians.
- *Processor time* is that of the user and of the system, on all processors. *Elapsed* is what a clock shows.
- *Instructions* are counted by callgrind.
- *Cache lines missed* are those that a last cache of 1 MB doesn't have. *Page walks* are counted by cachegrind with lines of
  4,096 bytes, as a model of a TLB with 64 and 1,536 entries. Both are data alone.
- *Peak resident memory* comes from GNU time: Python's own size would count in a program that Python starts.
- *Scripts* come from `scripts.py` and `rust/scripts.rs`: an R-MAT graph, a tree with 1.5 edges a block, a hub and others.

`tools/test_bench.py` tests the package, and `./check` runs it. [TRIED](TRIED.md) lists what was tried for speed and not kept.
"""


def needed(wanted: Sequence[str], left_out: Sequence[str]) -> str:
    """What a measurement needs, and in brackets what it leaves out where it isn't there."""
    optional = f"({', '.join(left_out)})" if left_out else ""
    return " ".join(filter(None, (", ".join(wanted), optional))) or "nothing"


def listed() -> List[str]:
    """A line for each measurement."""
    return [f"{it.name:<13} {it.duration:>7}  {it.question} Needs {needed(it.needs, it.takes)}." for it in CATALOG.values()]


def rows() -> Iterator[str]:
    yield "| name | question | takes | needs |"
    yield "|---|---|---|---|"
    for it in CATALOG.values():
        yield f"| `{it.name}` | {it.question} | {it.duration} | {needed(it.needs, it.takes)} |"


def page() -> str:
    install = "apt-get install " + debian_packages([*PYTHON_PACKAGES, *COMMANDS])
    packages = textwrap.fill(install, 118, initial_indent="      ", subsequent_indent="          ", break_on_hyphens=False)
    packages = " \\\n".join(packages.splitlines())
    return BEFORE + "".join(f"{row}\n" for row in rows()) + AFTER.format(packages=packages)
