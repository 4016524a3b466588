"""The client, networkx and SQLite over one file of a bank's transfers, and the questions that `neighbors` asks of them."""
from __future__ import annotations

import csv
import sqlite3
from typing import Any, Callable, Dict, Iterator, List, Set, Tuple

import networkx

from bench import scripts
from bench.measuring import stop
from misteluk import Columns, Store

# Of how many accounts with few senders it is asked who sends to them; how far `within` goes; how many steps the path has; and how
# many a query in SQL looks for at most, which doesn't know that.
SMALL, HOPS, STEPS, MOST_STEPS = 100, 2, 4, 6
HUB, COLUMNS = "hub", Columns("source", "target", weight="weight", time="time")
# Source, target, weight, first and recent time.
Edge = Tuple[str, str, int, int, int]


def write_transfers(path: str, count: int) -> None:
    """One row of 95 goes to the hub, whose senders are a tenth of all accounts."""
    with open(path, "w") as file:
        file.write("source,target,weight,time\n")
        for row in scripts.transfers(count, count // 10, 95):
            file.write(",".join(map(str, row)) + "\n")


def rows_of(path: str) -> Iterator[Tuple[str, str, int, int]]:
    """Each transfer as source, target, weight and time."""
    with open(path, newline="") as file:
        rows = csv.reader(file)
        next(rows)
        for source, target, weight, when in rows:
            yield source, target, int(weight), int(when)


class Client:
    """The client over the library in this process."""

    def __init__(self, path: str) -> None:
        self.store: "Store[Any, Any]" = Store()
        self.store.load(path, by="add", columns=COLUMNS, progress=False)
        self.session = self.store.open()

    def into(self, name: str) -> Any:
        return self.session.predecessors(name)

    def path(self, source: str, target: str) -> Any:
        return self.session.path(source, target)

    def within(self, name: str) -> Any:
        return self.session.neighborhood(name, HOPS)

    def edges(self) -> List[Edge]:
        return [(source, target, it.weight, it.first, it.recent) for _, source, target, it in self.session.edges()]

    def weights_in(self) -> Any:
        return self.session.weights_in()

    def close(self) -> None:
        self.store.close()


class Networkx:
    """A graph of networkx, whose edges have a weight and two times."""

    def __init__(self, path: str) -> None:
        self.graph = networkx.DiGraph()
        for source, target, weight, when in rows_of(path):
            if self.graph.has_edge(source, target):
                edge = self.graph[source][target]
                edge["weight"] += weight
                edge["recent"] = when
            else:
                self.graph.add_edge(source, target, weight=weight, first=when, recent=when)

    def into(self, name: str) -> Any:
        return {it: (edge["weight"], edge["first"], edge["recent"]) for it, edge in self.graph.pred[name].items()}

    def path(self, source: str, target: str) -> Any:
        return networkx.shortest_path(self.graph, source, target)

    def within(self, name: str) -> Any:
        return networkx.single_source_shortest_path_length(self.graph, name, cutoff=HOPS)

    def edges(self) -> List[Edge]:
        return [(source, target, edge["weight"], edge["first"], edge["recent"])
                for source, target, edge in self.graph.edges(data=True)]

    def weights_in(self) -> Any:
        return dict(self.graph.in_degree(weight="weight"))

    def close(self) -> None:
        del self.graph


class Sqlite:
    """A table of edges with indexes on source and target, in memory."""

    MADE = """CREATE TABLE edge (source TEXT, target TEXT, weight INTEGER, first INTEGER, recent INTEGER,
                                 PRIMARY KEY (source, target)) WITHOUT ROWID;
              CREATE INDEX edge_by_target ON edge (target);"""
    PUT = """INSERT INTO edge VALUES (?1, ?2, ?3, ?4, ?4) ON CONFLICT (source, target)
             DO UPDATE SET weight = weight + excluded.weight, recent = excluded.recent"""
    LEVELS = """WITH RECURSIVE reached (name, hops) AS (
                    VALUES (?, 0) UNION SELECT target, hops + 1 FROM reached JOIN edge ON source = name WHERE hops < ?)
                SELECT name, min(hops) FROM reached GROUP BY name"""

    def __init__(self, path: str) -> None:
        self.base = sqlite3.connect(":memory:")
        self.base.executescript(self.MADE)
        with self.base:
            self.base.executemany(self.PUT, rows_of(path))

    def ask(self, query: str, *given: object) -> Any:
        return self.base.execute(query, given)

    def into(self, name: str) -> Any:
        found = self.ask("SELECT source, weight, first, recent FROM edge WHERE target = ?", name)
        return {source: edge for source, *edge in found}

    def path(self, source: str, target: str) -> Any:
        levels, walk = dict(self.ask(self.LEVELS, source, MOST_STEPS)), [target]
        while walk[-1] != source:
            before = self.ask("SELECT source FROM edge WHERE target = ?", walk[-1])
            walk.append(next(it for it, in before if levels.get(it) == levels[walk[-1]] - 1))
        return walk[::-1]

    def within(self, name: str) -> Any:
        return dict(self.ask(self.LEVELS, name, HOPS))

    def edges(self) -> List[Edge]:
        return list(self.ask("SELECT source, target, weight, first, recent FROM edge"))

    def weights_in(self) -> Any:
        return dict(self.ask("SELECT target, sum(weight) FROM edge GROUP BY target"))

    def close(self) -> None:
        self.base.close()


SIDES = {"the client": Client, "networkx": Networkx, "SQLite": Sqlite}


def chosen(path: str) -> Tuple[int, List[str], str, str]:
    """What is asked for: a hundred names with three to six senders; a name, and one that is some steps from it."""
    graph = Networkx(path).graph
    small = [it for it in graph if 3 <= graph.in_degree(it) <= 6][:SMALL]
    source = next(iter(graph))
    levels = networkx.single_source_shortest_path_length(graph, source)
    target = next(it for it, level in levels.items() if level == min(STEPS, max(levels.values())))
    return graph.in_degree(HUB), small, source, target


def questions(small: List[str], source: str, target: str) -> Dict[str, Callable[[Any], Any]]:
    """Each question by what it is called, to be asked of a side."""
    return {"who sends to the hub, the first question": lambda side: side.into(HUB),
            "the same again": lambda side: side.into(HUB),
            f"who sends to {len(small)} small names": lambda side: [side.into(it) for it in small],
            "a shortest path": lambda side: side.path(source, target),
            f"what is within {HOPS} hops of a name": lambda side: side.within(source),
            "all edges, out": lambda side: side.edges(),
            "the weight in of every vertex": lambda side: side.weights_in()}


def plain(answer: Any, edges: Set[Tuple[str, str]]) -> Any:
    """An answer in the form in which it is compared. Of a path it is its ends and length, when each step is an edge: there may be
    several. A vertex without an edge in weighs nothing, and SQL doesn't tell of it."""
    if isinstance(answer, list) and answer and isinstance(answer[0], str):
        if not edges.issuperset(zip(answer, answer[1:])):
            stop("a step of a path is no edge")
        return answer[0], answer[-1], len(answer)
    if isinstance(answer, list):
        return sorted(answer) if isinstance(answer[0], tuple) else [plain(it, edges) for it in answer]
    return {name: it if isinstance(it, int) else tuple(it) for name, it in answer.items() if it != 0}
