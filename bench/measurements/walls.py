"""The C library's store at the greatest of its limits, and one past each: a refusal has its code and leaves counts, edges and
batch as they were, and what the limit allows is taken and read back, each edge and degree compared with numpy. There are as many
names as one kind allows, as 64 allow, and few; a hub of 2^22 edges of the greatest weight; blocks, batches, operations, holds,
names' bytes and times. With smaller weights there are such a hub among 2^24 names, and as many names as may be at all.

    python3 -m bench run walls                      all
    python3 -m bench run walls --only hub kinds     these parts
    python3 -m bench run walls --wrong desk_apply   must fail: this function isn't called, and said to be OK
"""
from __future__ import annotations

import argparse
import pathlib

import numpy

from bench import calls
from bench.checks import Checks
from bench.stores.caller import Caller, Names
from bench.stores.full import Full, Hub
from bench.stores.light import LightWalls
from bench.stores.small_walls import BLOCKS, KINDS, MOST_NAMES, NAMES, PRODUCT
from bench.stores.walled import one_edge
from misteluk.engine import interface
from misteluk.engine.interface import Code


class Walls(LightWalls):
    edges, rows = 1 << 22, 1 << 20

    def opening(self) -> None:
        """Which limits and blocks a desk opens with."""
        for limits in ((MOST_NAMES, 0, 1), (NAMES, 1, 1), (PRODUCT // KINDS, KINDS, 1), (0, KINDS, (1 << 32) - 1)):
            for blocks in (16, BLOCKS):
                it = self.opened(*limits, blocks)
                self.checks.equal(f"{limits}: blocks that are free", self.call.stat(it.desk).blocks_free, blocks)
                it.free()
        past = (MOST_NAMES + 1, 0), (MOST_NAMES, 1), (NAMES + 1, 1), (PRODUCT // KINDS + 1, KINDS), (1, KINDS + 1)
        for names, kinds in past:
            self.checks.refused(f"{names} names, {kinds} kinds", Code.BAD_LIMITS, self.call.opened, names, kinds, 1, 16)
        for blocks in (15, BLOCKS + 1):
            self.checks.refused(f"{blocks} blocks", Code.BAD_BLOCKS, self.call.opened, 1, 1, 1, blocks)
        for blocks in (15, 65_537):
            self.checks.refused(f"{blocks}", Code.BAD_BLOCKS, self.call, "desk_new", 1, blocks, interface.Desk())

    def names(self) -> None:
        Full(self, NAMES, b"e").run()

    def kinds(self) -> None:
        Full(self, PRODUCT // KINDS, bytes(range(0x30, 0x30 + KINDS))).run()

    def few(self) -> None:
        Full(self, 40, b"ef").run()

    def hub(self) -> None:
        Hub(self, self.edges).run()

    def blocks(self) -> None:
        """A row in each block: one more row, or another weight, is refused; with a block more the row is taken."""
        rows = self.rows
        names, sources = Names(rows + 1), numpy.arange(rows, dtype="u4")
        for blocks in (rows, rows + 1):
            it = self.opened(rows + 1, 1, (1 << 32) - 1, blocks)
            self.checks.equal("rows", it.load(b"e", names, sources, numpy.roll(sources, 1)), (rows, 0))
            self.checks.equal("blocks that are free", self.call.stat(it.desk).blocks_free, blocks - rows)
            if blocks == rows:
                it.insert(b"e", b"v0", b"v%d" % (rows - 1), 2)
                it.apply_refused("another weight", Code.BLOCKS_FULL)
                columns = one_edge(rows, 0)
                self.checks.equal("by columns", it.insert_columns(b"e", names, *columns), (Code.BLOCKS_FULL.name, 0))
            it.insert(b"e", b"v%d" % rows, b"v0")
            if blocks == rows:
                it.apply_refused("one row more", Code.BLOCKS_FULL)
            else:
                self.checks.equal("a row in the last block", it.apply()[1], 1)
            it.free()


PARTS = ["opening", "weights", "few", "names", "kinds", "hub", "light", "most", "blocks", "batches", "operations", "holds",
         "texts"]


def options(parser: argparse.ArgumentParser) -> None:
    parser.add_argument("--only", nargs="+", choices=PARTS, default=PARTS, metavar="PART", help=f"some of {', '.join(PARTS)}")
    parser.add_argument("--hub", type=int, default=22, metavar="POWER", help="2 to this power edges has the hub (22)")
    parser.add_argument("--light", type=int, default=22, metavar="POWER", help="the same for smaller weights (22)")
    parser.add_argument("--rows", type=int, default=20, metavar="POWER", help="the same of rows that fill all blocks (20)")
    parser.add_argument("--wrong", default="", metavar="FUNCTION", help="one that is not called, and said to be OK")


def measure(words: argparse.Namespace, _: pathlib.Path) -> int:
    checks = Checks()
    walls = Walls(checks, Caller(calls.loaded(), words.wrong))
    walls.edges, walls.light_edges, walls.rows = 1 << words.hub, 1 << words.light, 1 << words.rows
    for name in words.only:
        checks.part(name, getattr(walls, name))
    return checks.status()
