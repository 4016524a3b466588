"""Graphs of the sorts that GAP has, and who finds levels and components in them: the C library, GAP's own algorithms in plain C++
(bench/cpp/gap.cpp), igraph, graph-tool, scipy and networkx. Each is made in a process of its own."""
from __future__ import annotations

import functools
import hashlib
import importlib
import pathlib
import subprocess
from statistics import median
from typing import Any, Callable, Dict, List, NamedTuple, Tuple

import numpy

from bench.calls import VIEW, loaded, must
from bench.measuring import timed
from bench.places import compiled
from bench.stores.by_columns import resident
from bench.stores.growing import Store, at, rmat
from misteluk.engine.interface import NOT_REACHED

# Edges a vertex in random graphs, and the part of a grid's edges that leaves 2.4 a vertex, as GAP's road network has.
DEGREE, KEPT = 16, 0.6
Ends = Tuple[Any, Any]


class Graph(NamedTuple):
    """The sources and targets of edges, each of which has a twin the other way, and how many vertices there are. Vertices have
    numbers in the order in which they come."""

    sources: Any
    targets: Any
    vertices: int

    def once(self) -> Any:
        """Each edge one way, as rows of two."""
        kept = self.sources < self.targets
        return numpy.column_stack((self.sources[kept], self.targets[kept])).astype("i8")


# Graphs, whose ends are drawn.

def kron(scale: int, chance: Any) -> Ends:
    """Graph500's (R-MAT: .57 .19 .19 .05)."""
    return rmat(scale, DEGREE << scale, chance)


def urand(scale: int, chance: Any) -> Ends:
    """Ends by equal chance."""
    return tuple(chance.integers(0, 1 << scale, DEGREE << scale, "u4") for _ in range(2))  # type: ignore[return-value]


def grid(scale: int, chance: Any) -> Ends:
    """A square grid of which a part of the edges is left out at random."""
    side = 1 << scale // 2
    places = numpy.arange(side * side, dtype="u4").reshape(side, side)
    sources = numpy.concatenate((places[:, :-1].ravel(), places[:-1].ravel()))
    targets = numpy.concatenate((places[:, 1:].ravel(), places[1:].ravel()))
    kept = chance.random(len(sources)) < KEPT
    return sources[kept], targets[kept]


GRAPHS: Dict[str, Callable[[int, Any], Ends]] = {"kron": kron, "urand": urand, "grid": grid}


def drawn(name: str, scale: int) -> Graph:
    """A graph without loops, each edge once either way, in random order."""
    chance = numpy.random.default_rng(7)
    sources, targets = GRAPHS[name](scale, chance)
    low, high = numpy.minimum(sources, targets).astype("u8"), numpy.maximum(sources, targets).astype("u8")
    pairs = numpy.unique(low[low != high] << numpy.uint64(32) | high[low != high])
    ends = numpy.stack((pairs >> numpy.uint64(32), pairs & numpy.uint64(0xFFFFFFFF))).astype("u4")
    both = numpy.concatenate((ends, ends[::-1]), axis=1)[:, chance.permutation(2 * len(pairs))]
    known, first, numbers = numpy.unique(both.T, return_index=True, return_inverse=True)
    place = numpy.empty(len(known), "u4")
    place[numpy.argsort(first)] = numpy.arange(len(known), dtype="u4")
    rows = place[numbers].reshape(-1, 2)
    return Graph(rows[:, 0].copy(), rows[:, 1].copy(), len(known))


# Who finds levels and labels. A label is any number that the vertices of a component have alone.

class Library:
    """The C library, by ctypes."""

    def __init__(self, graph: Graph) -> None:
        count = len(graph.sources)
        self.store, self.vertices = Store(loaded(), graph.vertices.bit_length(), count, True), graph.vertices
        self.load = self.store.opening((graph.sources, graph.targets, numpy.ones(count, "i8"), numpy.zeros(count, "u8")))

    def prepare(self) -> None:
        self.store.take()

    def table(self, ask: Callable[..., int], *words: int) -> Any:
        found = numpy.empty(self.vertices, "u4")
        must(ask(self.store.version, VIEW, *words, at(found), len(found)))
        return found

    def levels(self, source: int) -> Any:
        return self.table(self.store.library.version_levels, source)

    def labels(self) -> Any:
        return self.table(self.store.library.version_labels)


class Package:
    """A package, whose graph `load` makes. What it needs is imported before."""

    graph: Any
    modules: Tuple[str, ...]

    def __init__(self, graph: Graph) -> None:
        self.given = graph
        for it in self.modules:
            setattr(self, it.rpartition(".")[2], importlib.import_module(it))

    def prepare(self) -> None:
        """Nothing has to be taken."""


class Igraph(Package):
    modules = ("igraph",)
    igraph: Any

    def load(self) -> None:
        self.graph = self.igraph.Graph(n=self.given.vertices, edges=self.given.once(), directed=False)

    def levels(self, source: int) -> Any:
        return self.graph.distances(source)[0]

    def labels(self) -> Any:
        find = getattr(self.graph, "connected_components", None) or self.graph.clusters
        return find().membership


class GraphTool(Package):
    modules = "graph_tool", "graph_tool.topology"
    graph_tool: Any
    topology: Any

    def load(self) -> None:
        self.graph = self.graph_tool.Graph(directed=False)
        self.graph.add_edge_list(self.given.once())

    def levels(self, source: int) -> Any:
        return self.topology.shortest_distance(self.graph, source).a

    def labels(self) -> Any:
        return self.topology.label_components(self.graph)[0].a


class Scipy(Package):
    modules = "scipy.sparse", "scipy.sparse.csgraph"
    sparse: Any
    csgraph: Any

    def load(self) -> None:
        count, size = len(self.given.sources), self.given.vertices
        ends = self.given.sources.astype("i4"), self.given.targets.astype("i4")
        self.graph = self.sparse.csr_matrix((numpy.ones(count, "i1"), ends), (size, size))

    def levels(self, source: int) -> Any:
        """The vertex before each one on a search's way to it, which `far` follows."""
        return self.csgraph.breadth_first_order(self.graph, source)

    def labels(self) -> Any:
        return self.csgraph.connected_components(self.graph, directed=False)[1]


class Networkx(Package):
    modules = ("networkx",)
    networkx: Any

    def load(self) -> None:
        self.graph = self.networkx.Graph()
        self.graph.add_edges_from(zip(*self.given.once().T.tolist()))

    def levels(self, source: int) -> Any:
        return self.networkx.single_source_shortest_path_length(self.graph, source)

    def labels(self) -> Any:
        return list(self.networkx.connected_components(self.graph))


# Answers in one form.

def far(before: Any) -> Any:
    """How many steps it is from each vertex to one that has none before it, by what is before each."""
    steps, before = (before >= 0).astype("i8"), numpy.where(before >= 0, before, numpy.arange(len(before)))
    while (steps[before] > 0).any():
        steps, before = steps + steps[before], before[before]
    return steps


def levels_of(found: Any, vertices: int) -> Any:
    """Levels as the library writes them."""
    if isinstance(found, tuple):
        order, before = found
        levels = numpy.full(vertices, NOT_REACHED, "u4")
        levels[order] = far(before)[order]
        return levels
    if isinstance(found, dict):
        levels = numpy.full(vertices, NOT_REACHED, "u4")
        levels[list(found)] = list(found.values())
        return levels
    given = numpy.asarray(found)
    return numpy.where((given >= 0) & (given < vertices), given, NOT_REACHED).astype("u4")


def labels_of(found: Any, vertices: int) -> Any:
    """For each vertex the least one of its component."""
    if isinstance(found, list) and found and isinstance(found[0], set):
        parts = numpy.empty(vertices, "i8")
        for at_part, part in enumerate(found):
            parts[list(part)] = at_part
        found = parts
    _, first, numbers = numpy.unique(numpy.asarray(found), return_index=True, return_inverse=True)
    return first[numbers].astype("u4")


def digest(found: Any) -> str:
    return hashlib.sha256(found.tobytes()).hexdigest()


# Of how many of the sources the slow ones find levels.
MOST = {"networkx": 2}
PACKAGES: Dict[str, Callable[[Graph], Any]] = {
    "library": Library, "igraph": Igraph, "graph_tool": GraphTool, "scipy": Scipy, "networkx": Networkx}
GAP = "GAP's in C++"
# Seconds of the processor, bytes an edge, and digests of the answers.
Found = Dict[str, Any]


def asked(name: str, graph: Graph, sources: List[int]) -> Found:
    """What a package takes, and what it answers."""
    it, sources = PACKAGES[name](graph), sources[:MOST.get(name)]
    before = resident()
    _, load = timed(it.load)
    size = resident() - before
    it.prepare()
    levels = [timed(functools.partial(it.levels, source)) for source in sources]
    labels, spent = timed(it.labels)
    return {"load": load.processor, "bytes an edge": size / len(graph.sources), "bfs": median([it.processor for _, it in levels]),
            "cc": spent.processor, "levels": [digest(levels_of(it, graph.vertices)) for it, _ in levels],
            "labels": digest(labels_of(labels, graph.vertices))}


def plain(graph: Graph, sources: List[int], room: pathlib.Path) -> Found:
    """The same of GAP's algorithms."""
    given, answers = room / "edges", room / "answers"
    with given.open("wb") as file:
        graph.sources.tofile(file)
        graph.targets.tofile(file)
    words = [compiled("gap"), str(given), str(graph.vertices), str(answers), *map(str, sources)]
    lines = subprocess.run(words, stdout=subprocess.PIPE, text=True, check=True).stdout.splitlines()
    figures: Dict[str, List[float]] = {}
    for name, figure in map(str.split, lines):
        figures.setdefault(name, []).append(float(figure))
    *levels, labels = numpy.fromfile(answers, "u4").reshape(-1, graph.vertices)
    return {"load": figures["load"][0], "bytes an edge": figures["bytes"][0] / len(graph.sources), "cc": figures["cc"][0],
            "bfs": median(figures["bfs"]), "levels": list(map(digest, levels)),
            "labels": digest(labels_of(labels, graph.vertices))}
