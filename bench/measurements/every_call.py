"""Each call of the C library once over a store of 2^20 names and 10,000,000 insertions. Each answer is compared with that of
numpy, scipy and igraph over the same columns. A call that is right over a small store, and gives up or errs over a large one, is
found here alone. It fails where an answer differs, where a refusal has another code, and where a function of include/misteluk.h
isn't called.

    python3 -m bench run every_call
    python3 -m bench run every_call --scale 12 --edges 60000                          the same over a small store, in seconds
    python3 -m bench run every_call --scale 12 --edges 60000 --wrong version_cores    must fail: this function isn't called, and
                                                                                      said to be OK
"""
from __future__ import annotations

import argparse
import pathlib

import numpy

from bench import calls
from bench.stores.asked import Asked
from bench.stores.caller import View
from bench.stores.changed import Changed
from bench.stores.loaded import BATCHES, Loaded
from misteluk.engine import interface
from misteluk.engine.interface import Code


def options(parser: argparse.ArgumentParser) -> None:
    parser.add_argument("--scale", type=int, default=20, help="2 to this power is the number of names (20)")
    parser.add_argument("--edges", type=int, default=10_000_000, help="how many insertions, more than names (10,000,000)")
    parser.add_argument("--wrong", default="", metavar="FUNCTION", help="one that is not called, and said to be OK")


class Run(Loaded):
    def ask(self) -> None:
        """The version as it was loaded, by each view: all edges, those of a kind, and those of the second half."""
        self.version, self.held = self.call.hold(self.desk)
        it, late = Asked(self.checks, self.call, self.version, self.wanted), View(0, (self.edges // 2, self.edges))
        it.sizes(self.call.stat(self.desk).version, self.names, 2)
        it.names(self.names, b"ef")
        it.names_like(b"77")
        sources, targets = self.wanted.table[1:3]
        hub, sink = (int(numpy.bincount(ends).argmax()) for ends in (sources, targets))
        for seen in (View(), View(1), late):
            it.edges(seen)
            it.tables(hub, seen)
        it.row(hub)
        it.row(hub, late)
        it.row(self.count - 1)
        it.into(sink)
        it.into(sink, late)
        for place in (0, len(sources) // 2, len(sources) - 1):
            it.edge(place)
        self.checks.refused("no such kind", Code.NO_KIND, it.degrees, View(2))
        self.checks.refused("no such vertex", Code.NO_VERTEX, it.table, "levels", None, self.count)
        self.loaded = it

    def change(self) -> None:
        """A batch with operations of each sort, appended one by one and in columns; the version that is held stays."""
        it, now = Changed(self.call, self.names, self.wanted, self.edges + 5), self.edges // 3
        late = numpy.flatnonzero(self.wanted.table[5] >= now)
        late = late[numpy.linspace(0, len(late) - 1, 2_003).astype(int)]
        it.insert(int(late[0]), 1 << 40)
        it.add(int(late[1]), 7)
        it.remove(int(late[2]))
        it.insert_new(*self.absent(), -9)
        it.columns(interface.INSERT, late[3:])
        it.expire(now)
        self.checks.equal("operations of the batch", self.call.length(it.batch), 2_005)
        self.checks.equal("operations on each kind", set(self.wanted.table[0][late].tolist()), {0, 1})
        self.apply(it, (1, 2_002, 1, 0, 0, int(it.gone.sum()) - 1))
        self.loaded.edges()
        self.checks.equal("blocks that the version held needs", self.call.stat(self.desk).blocks_retired > 0, True)
        self.checks.equal("none of these is freed", self.call.collect(self.desk), 0)

    def change_more(self) -> None:
        """A sixteenth of all edges, at most 2^20, is removed in one batch."""
        it = Changed(self.call, self.names, self.after, self.edges + 6)
        most = min(len(self.after) // 16, interface.MOST_OPERATIONS)
        it.columns(interface.REMOVE, numpy.arange(most) * 16, interface.MOST_OPERATIONS)
        self.checks.equal("operations of the batch", self.call.length(it.batch), most)
        self.apply(it, (0, 0, most, 0, 0, 0), in_steps=True)
        self.loaded.edges()

    def collect(self) -> None:
        """Once the first version is released, each retired block is freed; its clone answers on."""
        clone, retired = interface.Version(), self.call.stat(self.desk).blocks_retired
        self.call("version_clone", self.version, clone)
        self.call.release(self.desk, (self.version, self.held))
        self.checks.equal("blocks that are freed", self.call.collect(self.desk), retired)
        self.checks.equal("blocks that stay retired", self.call.stat(self.desk).blocks_retired, 0)
        self.loaded.version = clone
        self.loaded.edges()
        self.checks.refused("a release too many", Code.NO_SEAT, self.call, "desk_release", self.desk, self.held)

    def rebase(self) -> None:
        """The desk begins anew over the last version, under its limits."""
        self.call("desk_rebase", self.desk)
        stat = self.call.stat(self.desk)
        self.checks.equal("counts", (stat.version, stat.vertices, stat.kinds, stat.edges, stat.blocks_retired),
                          (0, self.count, 2, len(self.after), 0))
        self.checks.equal("limits", self.call.limits(self.desk), (self.count + 1, 3, BATCHES, 1 << 40))
        again = self.call.hold(self.desk)
        Asked(self.checks, self.call, again[0], self.after).edges()
        self.call.release(self.desk, again)
        self.loaded.edges()


def measure(words: argparse.Namespace, _: pathlib.Path) -> int:
    run = Run(calls.loaded(), words.scale, words.edges, words.wrong)
    for do in (run.open, run.load, run.ask, run.change, run.change_more, run.collect, run.rebase, run.free, run.functions):
        run.checks.part(do.__name__, do)
    return run.checks.status()
