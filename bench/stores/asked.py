"""What each call that reads a version answers, compared with a graph in columns of numpy."""
from __future__ import annotations

from ctypes import c_uint32, c_uint64
from typing import Any

import numpy

from bench.checks import Checks
from bench.calls import written_to
from bench.stores.caller import COLUMNS, Caller, Names, View, words_of
from bench.stores.wanted import Wanted, in_order
from misteluk.engine import interface
from misteluk.engine.interface import Code


class Asked:
    """A version with as many names as the graph, of kinds e, f and so on."""

    def __init__(self, checks: Checks, call: Caller, version: Any, wanted: Wanted) -> None:
        self.checks, self.call, self.version, self.wanted = checks, call, version, wanted

    def sizes(self, number: int, names: Names, kinds: int) -> None:
        size, edges = self.call.size(self.version), len(self.wanted)
        self.checks.equal("sizes", (size.version, size.vertices, size.kinds, size.edges, size.name_bytes, size.kind_bytes),
                          (number, self.wanted.names, kinds, edges, len(names.text), kinds))

    def names(self, names: Names, kinds: bytes) -> None:
        """All names, and those of the later half; the number of the first, the last and one that there isn't."""
        count = self.wanted.names
        for first in (0, count // 2):
            begin = int(names.ends[first - 1]) if first else 0
            ends = numpy.zeros(count - first, "u8")
            text = numpy.zeros(len(names.text) - begin, "u1")
            self.call("version_names", self.version, first, text, ends)
            self.checks.equal(f"names from {first} on", (text.tobytes(), ends + numpy.uint64(begin)),
                              (names.text[begin:], names.ends[first:]))
        number = c_uint32()
        for name in (0, count // 2, count - 1):
            self.call("version_vertex", self.version, b"v%d" % name, number)
            self.checks.equal(f"the number of v{name}", number.value, name)
        self.checks.refused("no such vertex", Code.NO_VERTEX, self.call, "version_vertex", self.version, b"v%d" % count, number)
        for place in range(len(kinds)):
            self.call("version_kind", self.version, kinds[place:place + 1], number)
            self.checks.equal(f"the number of kind {place}", number.value, place)
        self.checks.refused("no such kind", Code.NO_KIND, self.call, "version_kind", self.version, b"none", number)
        text, ends = numpy.zeros(len(kinds), "u1"), numpy.zeros(len(kinds), "u8")
        self.call("version_kind_names", self.version, 0, text, ends)
        self.checks.equal("kinds", (text.tobytes(), ends), (kinds, numpy.arange(1, len(kinds) + 1)))

    def edges(self, seen: View = View()) -> None:
        found = self.call.edges(self.version, seen, len(self.wanted))
        self.checks.equal(f"edges of {seen}", in_order(found), self.wanted.seen(*seen).table)

    def row(self, source: int, seen: View = View()) -> None:
        self._beside("version_row", 1, source, seen)

    def into(self, target: int, seen: View = View()) -> None:
        self._beside("version_in_edges", 2, target, seen)

    def _beside(self, name: str, own: int, vertex: int, seen: View) -> None:
        """A vertex's edges, and that columns of one place less are refused, with the number told."""
        wanted, count = self.wanted.beside(own, vertex).seen(*seen), c_uint64()
        found = [numpy.zeros(len(wanted), it) for it in COLUMNS]
        short = written_to(words_of(*(it[1:] for it in found)))
        words = self.version, seen.given(), vertex
        self.checks.refused("columns too short", Code.BAD_LENGTH, self.call, name, *words, short, count)
        self.checks.equal("how many places it takes", count.value, len(wanted))
        found[own][:] = vertex
        self.call(name, *words, written_to(words_of(*found)), count)
        self.checks.equal(f"{name} of {vertex} of {seen}", (count.value, *in_order(tuple(found))), (len(wanted), *wanted.table))

    def names_like(self, text: bytes) -> None:
        """The numbers of the names v0, v1 and so on that have a text, in one call."""
        wanted = [it for it in range(self.wanted.names) if text in b"v%d" % it]
        numbers, begin, count = numpy.zeros(len(wanted) + 1, "u4"), c_uint32(), c_uint64()
        self.call("version_names_like", self.version, text, begin, numbers, count)
        self.checks.equal(f"names with {text!r}", (numbers[:-1].tolist(), begin.value, count.value),
                          (wanted, self.wanted.names, len(wanted)))

    def edge(self, place: int) -> None:
        kind, source, target, weight, first, recent = (int(it[place]) for it in self.wanted.table)
        found = interface.Edge()
        self.call("version_edge", self.version, kind, source, target, found)
        self.checks.equal(f"edge {place}", (found.weight, found.first, found.recent), (weight, first, recent))

    def no_edge(self, kind: int, source: int, target: int) -> None:
        words = self.version, kind, source, target, interface.Edge()
        self.checks.refused(f"edge {kind} {source} {target}", Code.NO_EDGE, self.call, "version_edge", *words)

    def degrees(self, seen: View = View()) -> None:
        found = tuple(numpy.zeros(self.wanted.names, it) for it in ("u4", "u4", "i8"))
        self.call("version_degrees", self.version, seen.given(), *found)
        self.checks.equal(f"degrees of {seen}", found, self.wanted.seen(*seen).degrees())

    def weights_in(self, seen: View = View()) -> None:
        found = numpy.full(self.wanted.names, 7, "i8")
        self.call("version_weights_in", self.version, seen.given(), found)
        self.checks.equal(f"weights that come in of {seen}", found, self.wanted.seen(*seen).weights_in())

    def table(self, name: str, wanted: Any, *given: int, seen: View = View()) -> None:
        found = numpy.full(self.wanted.names, 7, "u4")
        self.call(f"version_{name}", self.version, seen.given(), *given, found)
        self.checks.equal(f"{name} of {seen}", found, wanted)

    def tables(self, source: int, seen: View = View()) -> None:
        """Degrees, weights that come in, levels, labels and cores of a view."""
        graph = self.wanted.seen(*seen)
        self.degrees(seen)
        self.weights_in(seen)
        self.table("levels", graph.levels(source), source, seen=seen)
        self.table("labels", graph.labels(), seen=seen)
        self.table("cores", graph.cores(), seen=seen)
