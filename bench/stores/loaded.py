"""A large store of the C library, and the same graph in columns of numpy."""
from __future__ import annotations

import re
from ctypes import CDLL
from typing import Any, Tuple

import numpy

from bench.checks import Checks
from bench.measuring import of_process
from bench.places import TOP
from bench.stores.asked import Asked
from bench.stores.caller import Caller, Names
from bench.stores.changed import Changed
from bench.stores.growing import rmat
from bench.stores.wanted import Wanted
from misteluk.engine import interface
from misteluk.engine.interface import Code

BATCHES, MOST = 1 << 20, interface.MOST_OPERATIONS


def insertions(scale: int, edges: int) -> Tuple[Any, ...]:
    """A ring, so that each vertex has the number of its name; then an R-MAT graph, of which each fifth edge is of a second kind.
    Each insertion is later than the one before, in the order in which the kinds are loaded."""
    chance, names = numpy.random.default_rng(11), 1 << scale
    sources, targets = rmat(scale, edges, chance)
    sources[:names] = numpy.arange(names)
    targets[:names] = (numpy.arange(names) + 1) % names
    kinds = (numpy.arange(edges) % 5 == 4).astype("u4")
    kinds[:names] = 0
    order = numpy.argsort(kinds, kind="stable")
    return (kinds[order], sources[order], targets[order], numpy.arange(edges, dtype="i8") % 1_999 - 999,
            numpy.arange(edges, dtype="u8"))


def trimmed() -> int:
    """What is resident, in KB, without what malloc keeps."""
    CDLL(None).malloc_trim(0)
    return of_process("VmRSS")


class Loaded:
    """A desk under limits of its own, with as many names, into which the insertions go; `loaded` is what a version held then is
    asked, and `wanted` the graph."""

    loaded: Asked

    def __init__(self, library: Any, scale: int, edges: int, wrong: str) -> None:
        self.checks, self.call = Checks(), Caller(library, wrong)
        self.edges, self.count = edges, 1 << scale
        self.names, self.columns = Names(self.count), insertions(scale, edges)
        self.wanted = self.after = Wanted.of_insertions(self.count, *self.columns)

    def open(self) -> None:
        self.taken = -trimmed()
        self.blocks = self.edges + 3 * self.count + 1_024
        self.desk = self.call.opened(self.count + 1, 3, BATCHES, self.blocks)
        small = interface.Desk()
        self.checks.equal("limits", self.call.limits(self.desk), (self.count + 1, 3, BATCHES, 1 << 40))
        self.call("desk_new", 1, 16, small)
        self.checks.equal("limits where none are chosen", self.call.limits(small), (65_536, 64, 65_536, 1 << 40))
        self.call("desk_free", small)
        light = self.call.opened(self.count + 1, 3, BATCHES, 16, 999)
        self.checks.equal("limits with one of weights", self.call.limits(light), (self.count + 1, 3, BATCHES, 999))
        self.call("desk_free", light)
        self.checks.equal("interface", self.call.number("interface"), interface.INTERFACE)
        self.checks.equal("release", self.call.number("library_version"), interface.VERSION)
        self.checks.equal("a code in words", self.call.text(Code.NO_KIND), b"there is no such kind")

    def load(self) -> None:
        for kind, name in enumerate((b"e", b"f")):
            mine = self.columns[0] == kind
            told = self.call.load(self.desk, name, self.names, *(it[mine] for it in self.columns[1:]))
            new = int((self.wanted.table[0] == kind).sum())
            self.checks.equal(f"insertions of {name.decode()}", told, (new, int(mine.sum()) - new))
        self.taken += trimmed()
        stat = self.call.stat(self.desk)
        self.checks.equal("counts", (stat.vertices, stat.kinds, stat.edges), (self.count, 2, len(self.wanted)))
        self.checks.equal("blocks", stat.blocks_free + stat.blocks_retired + stat.blocks_used, self.blocks)
        self.checks.equal("blocks that are retired", stat.blocks_retired, 0)

    def absent(self) -> Tuple[int, int]:
        """Ends between which there is no edge of kind f."""
        last = self.count - 1
        taken = set(self.wanted.beside(1, last).seen(1).table[2].tolist())
        return last, next(it for it in range(self.count) if it not in taken)

    def apply(self, it: Changed, counts: Tuple[int, ...], in_steps: bool = False) -> None:
        """Applies the batch, and compares what it leaves. In two steps the batch stays."""
        version, size = self.call.stat(self.desk).version + 1, self.call.length(it.batch)
        told = self.call.apply_in_steps(self.desk, it.batch) if in_steps else self.call.apply(self.desk, it.batch)
        self.checks.equal("counts of the batch", told, (version, *counts))
        self.checks.equal("what the batch has", self.call.length(it.batch), size if in_steps else 0)
        self.call("batch_free", it.batch)
        held, self.after = self.call.hold(self.desk), it.wanted()
        asked = Asked(self.checks, self.call, held[0], self.after)
        asked.sizes(version, self.names, 2)
        asked.edges()
        asked.degrees()
        for place in numpy.flatnonzero(it.gone)[:2]:
            asked.no_edge(*(int(column[place]) for column in it.table[:3]))
        self.call.release(self.desk, held)

    def free(self) -> None:
        """What a large batch, the version and the rebased desk took is given back: of the first a half, and of each of the others
        a sixteenth of what the load took, since batches stay with the version."""
        it = Changed(self.call, self.names, self.after, 0)
        taken = -trimmed()
        it.columns(interface.INSERT, numpy.arange(len(self.after))[:MOST], MOST)
        self.given_back("batch_free", it.batch, (taken + trimmed()) // 2)
        self.given_back("version_free", self.loaded.version, self.taken // 16)
        self.given_back("desk_free", self.desk, self.taken // 16)

    def given_back(self, name: str, handle: Any, least: int) -> None:
        held = trimmed()
        self.call(name, handle)
        freed = held - trimmed()
        self.checks.equal(f"{name} gives {freed} KB back, of at least {least}", freed > least > 0, True)

    def functions(self) -> None:
        """Each function of the header was called, and there are no others."""
        plain = re.sub(r"(?s)/\*.*?\*/", "", (TOP / "include/misteluk.h").read_text())
        self.checks.equal("functions", sorted(self.call.called), sorted(set(re.findall(r"\bmisteluk_(\w+)\(", plain))))
