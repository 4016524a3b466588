"""The lines that bench/rattle/every_call has to print, by numpy, scipy and igraph over the same graph."""
from __future__ import annotations

from typing import Iterator

import numpy

from bench.stores.facade_graph import blocks_of, insertions, sum_of_edges, sum_of_rows, u8
from bench.stores.wanted import Wanted
from misteluk.engine.interface import NOT_REACHED

# What the calls say that no graph is asked for.
SMALL = """limits 65536 64 65536 true true true true
weights 1099511627776 137438953471 true true
config 4 1024 2 65536
config true true false
board 3 true 0 0 5 true
copy 5 9 5 true false true
pins 0 7
block 8 5 2 32 false true 31
block true false 4 25 51 true false
block 4 1914 27
list 3 false 5 12 true 3
names true false false false true
name true 65 ulm
book true 0 1 true 2 1 ulm 2
filter 3 9 true 0 18446744073709551615 true
endless true 2 BadCommand true true
feed true 2
bounds true true true true 2
batch true false true true 5 true
full 4096 true 1044480 1048576
kept 3 1 0 2 true false true""".splitlines()
BATCH = 1 << 20


class Lines:
    def __init__(self, scale: int, edges: int) -> None:
        self.count, self.inserted = 1 << scale, edges
        self.number = -(-edges // BATCH)
        self.all = Wanted.of_insertions(self.count, *insertions(scale, edges))
        kept = self.all.table[5] >= numpy.uint64(edges // 2)
        first = (self.all.table[1] == 0) & (self.all.table[2] == 1)
        self.expired, self.left = int((~kept & ~first).sum()), self.all.only(kept & ~first)
        self.blocks = blocks_of(self.all)[kept & ~first]

    def answers(self, word: str, graph: Wanted) -> Iterator[str]:
        every = numpy.arange(self.count)
        levels = graph.levels(3)
        reached = levels != NOT_REACHED
        degrees = [u8(it) * numpy.uint64(by) for it, by in zip(graph.degrees(), (3, 5, 7))]
        half = graph.seen(window=(self.inserted // 2, (1 << 64) - 1))
        edge = graph.only((graph.table[1] == 2) & (graph.table[2] == 3)).table[3:]
        marks = sum(u8(it) * numpy.uint64(by) for it, by in zip(edge, (1, 3, 5)))
        sums = {"levels": (int(reached.sum()), sum_of_rows(every[reached], levels[reached])),
                "labels": (self.count, sum_of_rows(every, half.labels())),
                "cores": (self.count, sum_of_rows(every, graph.cores())),
                "degrees": (self.count, sum_of_rows(every, sum(degrees))),
                "edge": (1, int(marks[0]) if len(edge[0]) else (1 << 64) - 1)}
        yield from (f"{word} {name} {rows} {it} {rows} {it}" for name, (rows, it) in sums.items())

    def edges(self, graph: Wanted) -> str:
        return f"edges {len(graph)} {sum_of_edges(graph)}"

    def made(self) -> Iterator[str]:
        """The store in parts, with all edges."""
        new, asked = len(self.all), list(self.answers("ask", self.all))
        yield from (f"load {new} {self.inserted - new} {self.number}", "full true true")
        yield from (f"stat {self.number} {self.count} {new} 0 true true {self.number}", f"lent {new}")
        yield from (*asked, f"learnt {self.number}", f"apply {self.number + 1} true {self.expired}")
        yield from (f"confirm {self.number + 1} {self.number + 1}", f"sessions {new} {len(self.left)}")
        yield from (f"collect {self.number} false true", self.edges(self.all), self.edges(self.left), *asked)
        yield from (f"collect {self.number + 1} true false", f"shared {self.number + 1} {self.count} {len(self.left)} 0")

    def last(self) -> Iterator[str]:
        """The last version, and stores that open with it."""
        even, count = self.left.only(self.left.table[1] % 2 == 0), self.count
        late = self.inserted - self.inserted // 10
        old = self.left.table[1][(self.left.table[5] < late) & (self.left.table[1] >= 9)]
        size = sum(len(f"v{it}") for it in range(count))
        yield f"rows {len(even)} {sum_of_edges(even)} true"
        yield from map(self.ends, (0, 9, count - 1))
        yield f"single true {int(old.min()) if len(old) else (1 << 64) - 1} true"
        yield f"names {count} 1 false {size} true v{count - 1} {count - 1}"
        yield f"batches {self.number + 1} true {self.number + 1} {self.inserted + 2} 2 {count + 1} 0"
        yield from ("empty 0 true false", *self.answers("answer", self.left), "refused true", f"reopened 1 {len(self.left)}")
        for number in (1, 0):
            yield from self.opened(number)
        yield "fresh 0"
        for _ in range(2):
            yield from self.opened(0)
        yield from self.next()

    def next(self) -> Iterator[str]:
        """What is found by names and by age, and a version with one more batch, kind and name."""
        every = numpy.arange(self.count)
        is_old = self.left.table[5] < self.inserted - self.inserted // 10
        old = numpy.unique((u8(self.left.table[1]) << numpy.uint64(32) | self.blocks)[is_old])
        vertices, blocks = numpy.unique(old >> numpy.uint64(32), return_counts=True)
        yield f"numbers {sum_of_rows(every, every)} 0 true true true"
        yield f"old {len(vertices)} {sum_of_rows(vertices, blocks)} true"
        yield from (f"next {self.number + 2} {self.number + 2} 2 {self.count} true", self.edges(self.left))

    def ends(self, vertex: int) -> str:
        out, into = (self.left.only(self.left.table[place] == vertex) for place in (1, 2))
        return f"ends {vertex} {len(out)} {sum_of_edges(out)} {len(into)} {sum_of_edges(into)}"

    def opened(self, number: int) -> Iterator[str]:
        yield self.edges(self.left)
        yield f"opened {number} {self.count} 1 {len(self.left)} {self.count + 1}"

    def every(self) -> Iterator[str]:
        yield from (*SMALL, *self.made(), *self.last(), "end")
