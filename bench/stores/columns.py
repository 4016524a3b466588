"""Edges as columns, in the C library by ctypes, igraph and networkx: what `library` compares."""
from __future__ import annotations

import array
import random
import threading
from ctypes import CDLL, byref, c_uint32, c_uint64
from typing import Any, Dict, List

from bench.calls import VIEW, at, columns, must, written_to
from bench.places import BLOCKS, library
from misteluk.engine import interface
from misteluk.engine.interface import NOT_REACHED, Code

# Of how many vertices the edges out are asked, and how many core tables a thread asks for.
ASKED, TABLES = 1_000, 12
Table = Dict[str, Any]


class Input:
    """Edges as columns: each ordered pair once, no loops, and low numbers more often than high ones."""

    def __init__(self, edges: int) -> None:
        made, seen = random.Random(5), set()
        self.edges, self.vertices = edges, edges // 10
        self.sources, self.targets = array.array("I"), array.array("I")
        while len(self.sources) < edges:
            pair = int(self.vertices * made.random() ** 2), int(self.vertices * made.random() ** 2)
            if pair[0] != pair[1] and pair not in seen:
                seen.add(pair)
                self.sources.append(pair[0])
                self.targets.append(pair[1])
        self.weights = array.array("q", (made.randrange(1_000) for _ in range(edges)))
        self.times = array.array("Q", range(edges))
        self.names = [f"v{it}" for it in range(self.vertices)]
        encoded, ends = [it.encode() for it in self.names], 0
        self.text, self.ends = b"".join(encoded), array.array("Q")
        for it in encoded:
            ends += len(it)
            self.ends.append(ends)
        self.asked = made.sample(range(self.vertices), min(ASKED, self.vertices))


class Store:
    """The library. Vertices are numbered as they first appear, so `numbers` has that of each name's place."""

    name = "library"

    def __init__(self, given: Input, library: Any) -> None:
        self.given, self.library = given, library
        self.desk, self.version, self.hold = interface.Desk(), interface.Version(), interface.Hold()
        must(library.desk_new(1, BLOCKS, self.desk))

    def load(self) -> None:
        it, counts, done = self.given, interface.Counts(), c_uint64()
        table = [word for each in (it.sources, it.targets, it.weights, it.times) for word in (at(each), it.edges)]
        names = (it.text, len(it.text), at(it.ends), it.vertices)
        must(self.library.desk_insert_columns(self.desk, b"e", 1, *names, *table, counts, done))

    def prepare(self) -> None:
        """What is asked is held; the columns lie ready, and the numbers of the names."""
        must(self.library.desk_hold(self.desk, self.version, self.hold))
        size, number = interface.Size(), c_uint32()
        must(self.library.version_size(self.version, size))
        self.count, self.numbers = size.vertices, []
        for name in self.given.names:
            code = self.library.version_vertex(self.version, name.encode(), len(name), number)
            self.numbers.append(number.value if code == Code.OK else None)
        self.degree, self.tables = columns("IIq", self.count), columns("III", self.count)
        self.all, self.row = columns("IIIqQQ", self.given.edges), columns("IIIqQQ", self.given.edges)

    def degrees(self) -> None:
        words = [it for each in self.degree for it in (at(each), self.count)]
        must(self.library.version_degrees(self.version, VIEW, *words))

    def levels(self) -> None:
        must(self.library.version_levels(self.version, VIEW, self.numbers[0], at(self.tables[0]), self.count))

    def components(self) -> None:
        must(self.library.version_labels(self.version, VIEW, at(self.tables[1]), self.count))

    def cores(self) -> None:
        must(self.library.version_cores(self.version, VIEW, at(self.tables[2]), self.count))

    def out_neighbors(self) -> List[Any]:
        # (words that ctypes needn't make or convert for each call)
        count, found, targets = c_uint64(), [], self.row[2]
        into = written_to([it for each in self.row for it in (at(each), self.given.edges)])
        words = byref(into), byref(count)
        ask, held = CDLL(library()).misteluk_version_row, (byref(self.version), byref(VIEW))
        for place in self.given.asked:
            number = self.numbers[place]
            if number is not None:
                code = ask(*held, c_uint32(number), *words)
                if code:
                    must(code)
                found.append(targets[:count.value])
        return found

    def all_edges(self) -> None:
        words, count, source = [it for each in self.all for it in (at(each), self.given.edges)], c_uint64(), c_uint32()
        must(self.library.version_edges(self.version, VIEW, source, written_to(words), count))
        assert (count.value, source.value) == (self.given.edges, self.count)

    def feed(self, count: int) -> None:
        """Single edges, each of which makes a version."""
        batch, counts, freed = interface.Batch(), interface.Counts(), c_uint64()
        names, asked = [it.encode() for it in self.given.names], len(self.given.asked)
        must(self.library.desk_release(self.desk, self.hold))
        must(self.library.batch_new(batch))
        for it in range(count):
            source, target = names[it % asked], names[(it * 7 + 1) % asked]
            must(self.library.batch_insert(batch, b"e", 1, source, len(source), target, len(target), it, it))
            must(self.library.desk_apply(self.desk, batch, counts))
            if it % 1_000 == 0:
                must(self.library.desk_collect(self.desk, freed))
        self.library.batch_free(batch)

    def answers(self) -> Table:
        """Tables by place of the name, for those that an edge has."""
        there = [(place, number) for place, number in enumerate(self.numbers) if number is not None]
        place_of = {number: place for place, number in there}
        edges = sorted((place_of[a], place_of[b], w) for a, b, w in zip(self.all[1], self.all[2], self.all[3]))
        levels, labels, cores = self.tables
        return {"degrees": {p: tuple(it[n] for it in self.degree) for p, n in there},
                "levels": {p: levels[n] for p, n in there if levels[n] != NOT_REACHED},
                "parts": parts({p: labels[n] for p, n in there}),
                "cores": {p: cores[n] for p, n in there}, "edges": edges}

    def on_threads(self, threads: int) -> None:
        """Core tables, so many in each of so many threads."""
        def ask(mine: interface.Version) -> None:
            (out,) = columns("I", self.count)
            for _ in range(TABLES):
                must(self.library.version_cores(mine, VIEW, at(out), self.count))

        clones = [interface.Version() for _ in range(threads)]
        for it in clones:
            must(self.library.version_clone(self.version, it))
        askers = [threading.Thread(target=ask, args=(it,)) for it in clones]
        for asker in askers:
            asker.start()
        for asker in askers:
            asker.join()
        for it in clones:
            self.library.version_free(it)

    def close(self) -> None:
        self.library.version_free(self.version)
        self.library.desk_free(self.desk)


def parts(labels: Dict[int, Any]) -> Any:
    """Which places are joined, whatever their labels are called."""
    found: Dict[Any, List[int]] = {}
    for place, label in labels.items():
        found.setdefault(label, []).append(place)
    return sorted(sorted(it) for it in found.values())


class Igraph:
    name = "igraph"

    def __init__(self, given: Input) -> None:
        import igraph
        self.given, self.igraph = given, igraph

    def load(self) -> None:
        it = self.given
        self.graph = self.igraph.Graph(n=it.vertices, edges=list(zip(it.sources, it.targets)), directed=True,
                                       edge_attrs={"weight": list(it.weights)}, vertex_attrs={"name": it.names})

    def prepare(self) -> None:
        """Core numbers go by neighbors, whatever the direction of the edges that join them."""
        self.joined = self.graph.as_undirected(mode="collapse")

    def degrees(self) -> None:
        it = self.graph
        self.degree = it.degree(mode="out"), it.degree(mode="in"), it.strength(mode="out", weights="weight")

    def levels(self) -> None:
        (self.level,) = self.graph.distances(source=[0], mode="out")

    def components(self) -> None:
        find = getattr(self.graph, "connected_components", None) or self.graph.clusters
        self.label = find(mode="weak").membership

    def cores(self) -> None:
        self.core = self.joined.coreness()

    def out_neighbors(self) -> List[Any]:
        return [self.graph.neighbors(it, mode="out") for it in self.given.asked]

    def all_edges(self) -> None:
        self.all = self.graph.get_edgelist(), self.graph.es["weight"]

    def feed(self, count: int) -> None:
        """An edge at a time: the arrays of the graph are made anew for each."""
        asked = len(self.given.asked)
        for it in range(count):
            self.graph.add_edges([(it % asked, (it * 7 + 1) % asked)])

    def answers(self) -> Table:
        there = [it for it in range(self.given.vertices) if self.degree[0][it] or self.degree[1][it]]
        return {"degrees": {it: tuple(int(each[it]) for each in self.degree) for it in there},
                "levels": {it: int(self.level[it]) for it in there if self.level[it] != float("inf")},
                "parts": parts({it: self.label[it] for it in there}), "cores": {it: self.core[it] for it in there},
                "edges": sorted((a, b, w) for (a, b), w in zip(*self.all))}

    def close(self) -> None:
        del self.graph, self.joined


class Networkx:
    name = "networkx"

    def __init__(self, given: Input) -> None:
        import networkx
        self.given, self.networkx = given, networkx

    def load(self) -> None:
        it, names = self.given, self.given.names
        self.graph = self.networkx.DiGraph()
        edges = ((names[a], names[b], w) for a, b, w in zip(it.sources, it.targets, it.weights))
        self.graph.add_weighted_edges_from(edges)

    def prepare(self) -> None:
        self.joined = self.graph.to_undirected()

    def degrees(self) -> None:
        it = self.graph
        self.degree = dict(it.out_degree()), dict(it.in_degree()), dict(it.out_degree(weight="weight"))

    def levels(self) -> None:
        self.level = self.networkx.single_source_shortest_path_length(self.graph, self.given.names[0])

    def components(self) -> None:
        found = self.networkx.weakly_connected_components(self.graph)
        self.label = {name: place for place, part in enumerate(found) for name in part}

    def cores(self) -> None:
        self.core = self.networkx.core_number(self.joined)

    def out_neighbors(self) -> List[Any]:
        names = self.given.names
        return [list(self.graph.successors(names[it])) for it in self.given.asked if names[it] in self.graph]

    def all_edges(self) -> None:
        self.all = list(self.graph.edges(data="weight"))

    def answers(self) -> Table:
        place = {name: it for it, name in enumerate(self.given.names)}
        return {"degrees": {place[it]: tuple(each[it] for each in self.degree) for it in self.graph},
                "levels": {place[it]: level for it, level in self.level.items()},
                "parts": parts({place[it]: label for it, label in self.label.items()}),
                "cores": {place[it]: core for it, core in self.core.items()},
                "edges": sorted((place[a], place[b], w) for a, b, w in self.all)}

    def close(self) -> None:
        del self.graph, self.joined
