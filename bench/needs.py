"""Which Python a measurement runs under, and what is said where something isn't installed."""
from __future__ import annotations

import os
import subprocess
import sys
from typing import List, Sequence

from bench.catalog import PYTHON_PACKAGES, Measurement, debian_packages

# Debian's packages for Python are seen by this one alone.
DEBIAN = "/usr/bin/python3"
CHOSEN = "BENCH_PYTHON_IS_CHOSEN"
# The status of a measurement that needs what isn't here.
PASSED_OVER = 3
COUNT = "import importlib.util, sys; print(sum(map(bool, map(importlib.util.find_spec, sys.argv[1:]))))"


def packages(measurement: Measurement) -> List[str]:
    return [it for it in (*measurement.needs, *measurement.takes) if it in PYTHON_PACKAGES]


def counted(python: str, wanted: Sequence[str]) -> int:
    """How many of these packages a Python has; one that can't be run has less than none."""
    try:
        ran = subprocess.run([python, "-c", COUNT, *wanted], stdout=subprocess.PIPE, text=True)
    except OSError:
        return -1
    return int(ran.stdout) if ran.returncode == 0 else -1


def take_best_python(measurement: Measurement, words: Sequence[str]) -> None:
    """Goes on under Debian's Python where that has more of the packages than this one."""
    wanted = packages(measurement)
    if not wanted or CHOSEN in os.environ:
        return
    if counted(DEBIAN, wanted) > counted(sys.executable, wanted):
        where = os.environ.get("PYTHONPATH", "")
        top = os.path.dirname(os.path.dirname(os.path.abspath(__file__)))
        paths = os.pathsep.join(filter(None, (top, where)))
        os.execve(DEBIAN, [DEBIAN, "-m", "bench", "run", *words], {**os.environ, "PYTHONPATH": paths, CHOSEN: "1"})


def passed_over(measurement: Measurement, missing: List[str]) -> str:
    return (f"bench: {measurement.name} is passed over, since {', '.join(missing)} isn't here: "
            f"apt-get install {debian_packages(missing)} (Debian's packages are seen by {DEBIAN})")
