"""Which measurements there are: the one list that `python3 -m bench list`, README.md and the tests go by."""
from __future__ import annotations

import importlib.util
import shutil
from dataclasses import dataclass
from typing import Dict, Iterator, List, Tuple

# How each thing that a measurement needs is found here, and how it is installed on Debian.
PYTHON_PACKAGES = {it: f"python3-{it.replace('_', '-')}" for it in (
    "graph_tool", "igraph", "networkx", "numpy", "pandas", "scipy", "starlette", "uvicorn")}
COMMANDS = {"valgrind": "valgrind", "rustc": "rustc", "g++": "g++", "/usr/bin/time": "time", "taskset": "util-linux"}


@dataclass(frozen=True)
class Measurement:
    """One measurement. `minutes` is what it takes with its default options on a quiet machine with four processors. It can't run
    without what it `needs`; of what it `takes`, it leaves out what isn't there."""

    name: str
    question: str
    minutes: float
    needs: Tuple[str, ...] = ()
    takes: Tuple[str, ...] = ()

    @property
    def duration(self) -> str:
        return f"{self.minutes:g} min" if self.minutes >= 1 else f"{60 * self.minutes:.0f} s"

    def missing(self) -> List[str]:
        """What it needs and isn't here."""
        return [it for it in self.needs if not is_here(it)]


def is_here(what: str) -> bool:
    """Whether this Python has a package, or this machine a command."""
    return (importlib.util.find_spec(what) if what in PYTHON_PACKAGES else shutil.which(what)) is not None


def debian_packages(needs: List[str]) -> str:
    return " ".join(PYTHON_PACKAGES.get(it) or COMMANDS[it] for it in needs)


def of_the_program() -> Iterator[Measurement]:
    rust, count = ("rustc",), ("valgrind",)
    plain = (*rust, *count)
    yield Measurement("costs", "Do scripts over program and library cost what was kept? (`./check` asks this.)", 3, (), count)
    yield Measurement("compare", "How long do a load and each request take, compared with a plain store of maps?", 6,
                      (*rust, "/usr/bin/time"))
    yield Measurement("picture", "What do the figures of `compare` look like, drawn on a logarithmic scale?", 0.02)
    yield Measurement("instructions", "How many instructions do loads, requests and single records take?", 12, plain)
    yield Measurement("misses", "How many cache lines and pages does a record of a load miss?", 6, plain)
    yield Measurement("records", "How many records does `stinger run` read in a second, compared with a plain reader?", 0.5, rust)
    yield Measurement("threads", "What do all processors gain for a load? With `--count`: what does each thread do?", 1,
                      (*rust, "taskset"), count)
    yield Measurement("workers", "How long does the R-MAT load take by 1, 2, 4 and the default workers, and by maps?", 1, rust)
    yield Measurement("beside", "How much slower is a request while another thread feeds the store?", 8)
    yield Measurement("hubs", "What does a batch of one, or one edge asked, cost on a row of many blocks?", 6, (), count)
    yield Measurement("reached", "What does a `bfs` cost that reaches few of many vertices?", 2, count)
    yield Measurement("expiries", "What does an expiry cost that finds nothing, half of the edges, or all?", 1)
    yield Measurement("windows", "Is a sliding window cheaper by expiries or by removals?", 0.5)
    yield Measurement("rebases", "How long does a `rebase` of a small graph take?", 0.2, (), count)
    yield Measurement("memory", "How much memory do unused blocks take, and how does a long run grow?", 1, ("/usr/bin/time",))
    yield Measurement("drives", "Does each of many `stinger drive` find no difference?", 5)


def of_the_library_and_client() -> Iterator[Measurement]:
    yield Measurement("library", "How fast is the C library, compared with igraph and networkx in the same process?", 3, (),
                      ("igraph", "networkx"))
    yield Measurement("scale", "How do time and memory of the C library grow, up to a million names?", 8, ("numpy",))
    yield Measurement("columns", "How long do loads and exports by columns take, compared with igraph, scipy and pandas?", 15,
                      ("numpy",), ("igraph", "scipy", "pandas"))
    yield Measurement("large", "How long do openings of 64 million rows and loads of files take?", 12, ("numpy",), ("pandas",))
    yield Measurement("walls", "Is a store right at its greatest limits, and does it refuse what is past them?", 4, ("numpy",))
    yield Measurement("every_call", "Is each call of the C library right over a million names and ten million edges?", 5,
                      ("numpy", "scipy", "igraph"))
    yield Measurement("facade", "The same of each public call of the library in Rattle: is it right over as many?", 10,
                      ("numpy", "scipy", "igraph"))
    yield Measurement("client", "How fast is the client in Python, compared with other packages over one file?", 5, (),
                      ("igraph", "graph_tool", "scipy", "networkx", "pandas"))
    yield Measurement("analyst", "Do three whole tasks of an analyst give what pandas and networkx give, and in what time?", 2,
                      ("pandas", "networkx"))
    yield Measurement("neighbors", "How long do a session's walks take, compared with networkx and SQLite?", 3, ("networkx",))
    yield Measurement("edges", "How many single edges does a session answer in a second?", 1)
    yield Measurement("endless", "Is a feed without end right at ten points, and how long is its longest commit?", 3)
    yield Measurement("renewals", "How long does a store in process stand still when it starts over, by its edges?", 0.5)
    yield Measurement("latency", "How long does a commit take by its size, and a question by its version's age?", 4, ("numpy",))
    yield Measurement("gap", "How long do bfs and components take over GAP's graphs, compared with GAP's own algorithms?", 12,
                      ("numpy", "g++"), ("igraph", "graph_tool", "scipy", "networkx"))
    yield Measurement("stream", "How many updates a second come in, alone and during scans, compared with plain maps?", 4,
                      ("numpy", "g++"))
    yield Measurement("components", "What does an update of `LiveComponents` cost over five million edges?", 2, ("numpy",))
    yield Measurement("journal", "What do commits, openings, bases and posts of a store with a file take, and replicas?", 8,
                      ("starlette", "uvicorn"))
    yield Measurement("serve", "How long do a server's clients wait, and what does the feed lose?", 4, ("starlette", "uvicorn"))
    yield Measurement("soak", "Does a server stay as it is while clients hold, go and are killed?", 31, ("starlette", "uvicorn"))
    yield Measurement("quiet", "What can be measured in twelve minutes on a quiet machine?", 12, (),
                      ("rustc", "/usr/bin/time", "igraph", "networkx", "numpy", "starlette", "uvicorn"))


CATALOG: Dict[str, Measurement] = {it.name: it for it in (*of_the_program(), *of_the_library_and_client())}
