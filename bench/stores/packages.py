"""Other packages over the same file of edges. Each is imported when it is made, so that one that is missing is left out."""
from __future__ import annotations

import sqlite3
from typing import Any, Dict, List, Tuple

from bench.stores.edge_file import ASKED, SINGLE, Input, parts


class Other:
    """Another package. Its vertices have numbers, and names by these, unless it says otherwise."""

    def __init__(self, given: Input) -> None:
        self.given = given
        self.names: List[str] = []

    def load(self) -> None:
        self.fill(self.given.read())

    def rows(self) -> None:
        type(self)(self.given).fill(self.given.rows)

    def fill(self, rows: Any) -> None:
        raise NotImplementedError

    def into_again(self) -> Any:
        return getattr(self, "into")()

    def number(self, rows: Any) -> Tuple[List[int], List[int]]:
        numbers: Dict[str, int] = {}
        ends = [(numbers.setdefault(it[0], len(numbers)), numbers.setdefault(it[1], len(numbers))) for it in rows]
        self.names, self.numbers = list(numbers), numbers
        return [it[0] for it in ends], [it[1] for it in ends]

    def told(self, what: str, found: Any) -> Any:
        names = self.names
        if what == "degrees":
            return {name: (int(out), int(into)) for name, out, into in zip(names, *found)}
        if what == "components":
            return parts(dict(zip(names, found)))
        if what == "levels":
            return {name: int(it) for name, it in zip(names, found) if 0 <= it < len(names)}
        if what in ("out_of", "into"):
            return [sorted(names[it] for it in row) for row in found]
        if what == "arrays":
            return sorted((names[source], names[target], int(weight)) for source, target, weight in zip(*found))
        return {name: int(it) for name, it in zip(names, found)}

    def close(self) -> None:
        """Nothing has to be given back."""


class Igraph(Other):
    name = "igraph"

    def fill(self, rows: Any) -> None:
        import igraph
        self.graph = igraph.Graph.TupleList(rows, directed=True, edge_attrs=["weight", "time"])
        self.names = self.graph.vs["name"]
        self.numbers = {name: at for at, name in enumerate(self.names)}

    def degrees(self) -> Any:
        return self.graph.degree(mode="out"), self.graph.degree(mode="in")

    def weights(self) -> Any:
        return self.graph.strength(mode="out", weights="weight")

    def weights_in(self) -> Any:
        return self.graph.strength(mode="in", weights="weight")

    def levels(self) -> Any:
        return self.graph.distances(source=[self.numbers[self.given.first]], mode="out")[0]

    def components(self) -> Any:
        find = getattr(self.graph, "connected_components", None) or self.graph.clusters
        return find(mode="weak").membership

    def cores(self) -> Any:
        return self.graph.as_undirected(mode="collapse").simplify().coreness()

    def out_of(self) -> Any:
        return [self.graph.neighbors(self.numbers[it], mode="out") for it in self.given.asked]

    def into(self) -> Any:
        return [self.graph.neighbors(self.numbers[it], mode="in") for it in self.given.asked]

    def arrays(self) -> Any:
        return (*zip(*self.graph.get_edgelist()), self.graph.es["weight"])

    def frame(self) -> Any:
        return self.graph.get_edge_dataframe()

    def single(self) -> int:
        for it in range(20):
            self.graph.add_edges([(it % ASKED, it * 7 % ASKED)])
        return 20


class GraphTool(Other):
    name = "graph-tool"

    def fill(self, rows: Any) -> None:
        import graph_tool
        sources, targets = self.number(rows)
        self.graph = graph_tool.Graph(directed=True)
        self.weight = self.graph.new_edge_property("long")
        self.graph.add_edge_list(zip(sources, targets, (it[2] for it in rows)), eprops=[self.weight])

    def degrees(self) -> Any:
        every = self.graph.get_vertices()
        return self.graph.get_out_degrees(every), self.graph.get_in_degrees(every)

    def components(self) -> Any:
        from graph_tool.topology import label_components
        return label_components(self.graph, directed=False)[0].a

    def levels(self) -> Any:
        from graph_tool.topology import shortest_distance
        return shortest_distance(self.graph, self.graph.vertex(self.numbers[self.given.first])).a

    def out_of(self) -> Any:
        return [self.graph.get_out_neighbors(self.numbers[it]) for it in self.given.asked]

    def into(self) -> Any:
        return [self.graph.get_in_neighbors(self.numbers[it]) for it in self.given.asked]


class Scipy(Other):
    name = "scipy"

    def fill(self, rows: Any) -> None:
        import numpy
        import scipy.sparse
        sources, targets = self.number(rows)
        values = numpy.fromiter((it[2] for it in rows), dtype="int64", count=len(rows))
        size = len(self.names)
        self.matrix = scipy.sparse.csr_matrix((values, (sources, targets)), shape=(size, size))

    def degrees(self) -> Any:
        return self.matrix.getnnz(axis=1), self.matrix.getnnz(axis=0)

    def weights(self) -> Any:
        return self.matrix.sum(axis=1).A1

    def weights_in(self) -> Any:
        return self.matrix.sum(axis=0).A1

    def components(self) -> Any:
        from scipy.sparse.csgraph import connected_components
        return connected_components(self.matrix, directed=True, connection="weak")[1]

    def levels(self) -> Any:
        from scipy.sparse.csgraph import dijkstra
        return dijkstra(self.matrix, unweighted=True, indices=self.numbers[self.given.first])

    def out_of(self) -> Any:
        return [self.matrix[self.numbers[it]].indices for it in self.given.asked]

    def into(self) -> Any:
        turned = self.matrix.tocsc()
        return [turned[:, self.numbers[it]].indices for it in self.given.asked]

    def arrays(self) -> Any:
        found = self.matrix.tocoo()
        return found.row, found.col, found.data


class Networkx(Other):
    name = "networkx"

    def fill(self, rows: Any) -> None:
        import networkx
        self.networkx, self.graph = networkx, networkx.DiGraph()
        self.graph.add_edges_from((source, target, {"weight": weight, "time": when}) for source, target, weight, when in rows)

    def degrees(self) -> Any:
        out, into = dict(self.graph.out_degree()), dict(self.graph.in_degree())
        return {name: (out[name], into[name]) for name in out}

    def weights(self) -> Any:
        return dict(self.graph.out_degree(weight="weight"))

    def weights_in(self) -> Any:
        return dict(self.graph.in_degree(weight="weight"))

    def levels(self) -> Any:
        return dict(self.networkx.single_source_shortest_path_length(self.graph, self.given.first))

    def components(self) -> Any:
        return {name: at for at, part in enumerate(self.networkx.weakly_connected_components(self.graph)) for name in part}

    def cores(self) -> Any:
        plain = self.graph.to_undirected()
        plain.remove_edges_from(list(self.networkx.selfloop_edges(plain)))
        return self.networkx.core_number(plain)

    def out_of(self) -> Any:
        return [list(self.graph.successors(it)) for it in self.given.asked]

    def into(self) -> Any:
        return [list(self.graph.predecessors(it)) for it in self.given.asked]

    def arrays(self) -> Any:
        return list(self.graph.edges(data="weight"))

    def frame(self) -> Any:
        return self.networkx.to_pandas_edgelist(self.graph)

    def gathered(self) -> int:
        for it in range(SINGLE):
            self.graph.add_edge(self.given.asked[it % ASKED], self.given.asked[it * 7 % ASKED], weight=it, time=it)
        return SINGLE

    def told(self, what: str, found: Any) -> Any:
        if what == "components":
            return parts(found)
        return sorted(found) if what == "arrays" else list(map(sorted, found)) if what in ("out_of", "into") else found


class Sqlite(Other):
    name = "SQLite"

    def fill(self, rows: Any) -> None:
        self.tables = sqlite3.connect(":memory:")
        self.tables.execute("create table edges (source text, target text, weight int, time int, primary key (source, target))")
        self.tables.executemany("insert into edges values (?, ?, ?, ?)", rows)
        self.tables.execute("create index by_target on edges (target)")

    def ask(self, text: str, *given: str) -> List[Any]:
        return self.tables.execute(text, given).fetchall()

    def degrees(self) -> Any:
        out = dict(self.ask("select source, count(*) from edges group by source"))
        into = dict(self.ask("select target, count(*) from edges group by target"))
        return {it: (out.get(it, 0), into.get(it, 0)) for it in {**out, **into}}

    def weights(self) -> Any:
        return dict(self.ask("select source, sum(weight) from edges group by source"))

    def weights_in(self) -> Any:
        return dict(self.ask("select target, sum(weight) from edges group by target"))

    def out_of(self) -> Any:
        return [[name for name, in self.ask("select target from edges where source = ?", it)] for it in self.given.asked]

    def into(self) -> Any:
        return [[name for name, in self.ask("select source from edges where target = ?", it)] for it in self.given.asked]

    def arrays(self) -> Any:
        return self.ask("select source, target, weight from edges")

    def gathered(self) -> int:
        rows = [(self.given.asked[it % ASKED], self.given.asked[it * 7 % ASKED], it, it) for it in range(SINGLE)]
        self.tables.executemany("insert or replace into edges values (?, ?, ?, ?)", rows)
        return SINGLE

    def told(self, what: str, found: Any) -> Any:
        if what in ("weights", "weights_in"):
            every = {it for row in self.ask("select source, target from edges") for it in row}
            return {name: found.get(name, 0) for name in every}
        return sorted(found) if what == "arrays" else list(map(sorted, found)) if what in ("out_of", "into") else found

    def close(self) -> None:
        self.tables.close()


# By the module that each needs.
OTHERS = {"igraph": Igraph, "graph_tool": GraphTool, "scipy": Scipy, "networkx": Networkx, "sqlite3": Sqlite}
