"""Three tasks of an analyst, whole and without a refusal: what the client says has to equal what pandas and networkx say."""
from __future__ import annotations

import pathlib
import random
from typing import Any, Callable, Dict, Tuple

import networkx
import pandas

from bench import tables
from bench.measuring import stop, timed
from misteluk import Columns, Store, view

DAY = 86_400
Edges = Dict[Tuple[str, str], Tuple[int, int, int]]


def step(what: str, call: Callable[[], Any]) -> Any:
    """What a call gives; its processor time is printed."""
    found, spent = timed(call)
    print(f"  {what}: {tables.seconds(spent.processor)}", flush=True)
    return found


def must_be(what: str, is_so: bool) -> None:
    if not is_so:
        stop(f"{what} differ")


def sums(frame: Any) -> Edges:
    """Of each source and target the sum of amounts, and the first and the last time, by pandas."""
    found = frame.groupby(["source", "target"], sort=False).agg(weight=("amount", "sum"), first=("time", "first"),
                                                               recent=("time", "last"))
    rows = zip(found.index, found.itertuples(index=False))
    return {ends: (int(row.weight), int(row.first), int(row.recent)) for ends, row in rows}


def transfers(count: int, folder: pathlib.Path) -> None:
    made = random.Random(1)
    rows = [(f"a{made.randrange(count // 10)}", f"a{made.randrange(count // 10)}", made.randrange(1, 1000), at * DAY // 100)
            for at in range(count)]
    frame = pandas.DataFrame(rows, columns=["source", "target", "amount", "time"])
    with Store() as store:
        step("load", lambda: store.load(frame, by="add", columns=Columns("source", "target", weight="amount", time="time")))
        session, wanted = store.open(), sums(frame)
        for _ in range(3):
            found = step("edges().to_pandas()", lambda: session.edges().to_pandas())
            must_be("the edges", {(it.source, it.target): (it.weight, it.first, it.recent)
                                  for it in found.itertuples()} == wanted)
        late = {ends for ends, (_, _, recent) in wanted.items() if recent >= count // 200 * DAY}
        part = step("a window", lambda: session.edges(since=count // 200 * DAY).to_pandas())
        must_be("the edges of a window", set(zip(part.source, part.target)) == late)
        out: Dict[str, int] = {}
        for (source, _), (weight, _, _) in wanted.items():
            out[source] = out.get(source, 0) + weight
        degrees = step("degrees", session.degrees)
        must_be("the sums", all(it.weight_out == out.get(name, 0) for name, it in degrees.items()))
        saved = step("save", lambda: session.save(folder / "transfers.csv.gz"))
        with step("restore", lambda: Store.restore(saved.path)) as copy, copy.open() as there:
            must_be("the restored edges", not session.diff(there))


def logistics() -> None:
    made = random.Random(2)
    names = [f"p{it}" for it in range(400)]
    graph = networkx.MultiDiGraph()
    graph.add_nodes_from(names)
    with Store(seats=4) as store:
        for at in range(3_000):
            source, target, kind = made.choice(names), made.choice(names), made.choice(("road", "rail"))
            store.insert(kind, source, target, at, at)
            graph.add_edge(source, target, kind, weight=at)
        store.commit()
        before, was = store.open(), graph.copy()
        for kind, source, target in made.sample([(kind, *ends) for *ends, kind in graph.edges(keys=True)], 300):
            store.remove(kind, source, target)
            graph.remove_edge(source, target, kind)
        store.commit()
        after = store.open()
        gone = {(kind, *ends) for *ends, kind in was.edges(keys=True)} - {(kind, *ends) for *ends, kind in graph.edges(keys=True)}
        must_be("the edges that are gone", {it[:3] for it in before.diff(after).gone} == gone)

        def neighborhoods() -> None:
            for name in names[:100]:
                for session, known in ((before, was), (after, graph)):
                    plain = networkx.Graph(known)
                    if session.has_vertex(name):
                        must_be("neighborhoods", session.neighborhood(name, 2, directed=False) == dict(
                            networkx.single_source_shortest_path_length(plain, name, 2)))
                        must_be("neighbors", set(session.successors(name)) == set(known.successors(name)))
        step("100 neighborhoods in two versions, with networkx's", neighborhoods)
        step("10 pages", lambda: [view(before, name, 1, beside=after) for name in names[:10]])


def dependencies(count: int, folder: pathlib.Path) -> None:
    made = random.Random(3)
    names = max(2, min(50_000, count // 10))
    rows = [(f"n{made.randrange(names)}", f"n{made.randrange(names)}", 1, at) for at in range(count)]
    frame = pandas.DataFrame(rows, columns=["source", "target", "amount", "time"])
    with Store(blocks=65_536) as store:
        step("load", lambda: store.load(frame, by="add", columns=Columns("source", "target", weight="amount", time="time")))
        session, wanted = store.open(), sums(frame)
        found = step("edges().to_pandas()", lambda: session.edges().to_pandas())
        must_be("the edges", {(it.source, it.target): (it.weight, it.first, it.recent) for it in found.itertuples()} == wanted)
        graph = step("to_networkx", lambda: session.edges().to_networkx())
        must_be("networkx's edges", {(source, target): weight for source, target, weight in graph.edges(data="weight")}
                == {ends: it[0] for ends, it in wanted.items()})
        source = rows[0][0]
        must_be("levels", step("levels", lambda: session.levels(source)) == dict(
            networkx.single_source_shortest_path_length(graph, source)))
        step("save", lambda: session.save(folder / "dependencies.csv"))
