"""Columns as a caller has them, numbers and names, and what packages make of them: each is measured in a process of its own."""
from __future__ import annotations

import pathlib
from typing import Any, Callable, Dict, Tuple

import numpy

from bench.calls import loaded
from bench.measuring import of_process, timed, watch
from bench.stores.growing import Store, columns_of
from misteluk import Columns
from misteluk import Store as Client

# Processor seconds; bytes that became resident; and how many edges and blocks there are, where that is told.
Figures = Dict[str, float]
Given = Tuple[str, int, int]
# How many sessions are opened, and closed, one after another.
OPENS = 1_000
# How many lines of a file are written at once.
LINES = 1 << 20
WEIGHED = Columns(weight="weight", time="time")


def resident() -> int:
    return of_process("VmRSS") * 1024


def made(work: Callable[[], Any], counts: Callable[[Any], Dict[str, float]] = lambda _: {}) -> Figures:
    """What it takes to make something, and what that has."""
    before = resident()
    found, spent = timed(work)
    return {"seconds": spent.processor, "bytes": resident() - before, **counts(found)}


def counted(store: Store) -> Dict[str, float]:
    stat = store.stat()
    return {"edges": stat.edges, "blocks": stat.blocks_used}


# The library, by ctypes: an opening, and batches of 65,536.

def opening(shape: str, scale: int, edges: int) -> Figures:
    store = Store(loaded(), scale, edges, True)
    load = store.opening(columns_of(shape, scale, edges))
    return {**made(load), **counted(store)}


def batches(shape: str, scale: int, edges: int) -> Figures:
    store, columns = Store(loaded(), scale, edges, True), columns_of(shape, scale, edges)

    def load() -> Store:
        store.load(columns)
        return store
    return made(load, counted)


# The client, and other packages, from NumPy columns.

def frame_of(shape: str, scale: int, edges: int) -> Dict[str, Any]:
    sources, targets, weights, times = columns_of(shape, scale, edges)
    return {"source": sources, "target": targets, "weight": weights, "time": times}


def load(store: "Client[Any, Any]", columns: Dict[str, Any]) -> None:
    store.load(columns, by="set", columns=WEIGHED, progress=False)


def new_store(**options: Any) -> "Client[Any, Any]":
    """An empty one, behind a load of another, which has Python load what loads need."""
    with Client() as first:
        load(first, frame_of("transfers", 4, 1_000))
    return Client(**options)


def client(shape: str, scale: int, edges: int) -> Figures:
    columns, store = frame_of(shape, scale, edges), new_store()
    found = made(lambda: load(store, columns))
    stat = store.stat()
    return {**found, "edges": stat.edges, "blocks": stat.used}


def client_again(shape: str, scale: int, edges: int) -> Figures:
    """A load into a store that has other edges between the same names."""
    columns, store = frame_of(shape, scale, edges), new_store()
    load(store, {**columns, "source": columns["target"], "target": columns["source"]})
    return made(lambda: load(store, columns))


def igraph(shape: str, scale: int, edges: int) -> Figures:
    """With the vertices' names and two attributes of edges."""
    import igraph as package
    columns, names = frame_of(shape, scale, edges), [f"v{it}" for it in range(1 << scale)]

    def load() -> Any:
        ends = numpy.column_stack((columns["source"], columns["target"])).astype("i8")
        attributes = {it: columns[it].tolist() for it in ("weight", "time")}
        return package.Graph(n=len(names), edges=ends, directed=True, edge_attrs=attributes, vertex_attrs={"name": names})
    return made(load)


def scipy(shape: str, scale: int, edges: int) -> Figures:
    """A matrix by rows, of weights alone."""
    from scipy import sparse
    columns, names = frame_of(shape, scale, edges), 1 << scale
    ends = columns["source"], columns["target"]
    return made(lambda: sparse.coo_matrix((columns["weight"], ends), (names, names)).tocsr(), lambda it: {"edges": it.nnz})


def pandas(shape: str, scale: int, edges: int) -> Figures:
    """The last row of each source and target, as `by="set"` has it."""
    import pandas as package
    frame = package.DataFrame(frame_of(shape, scale, edges))
    return made(lambda: frame.drop_duplicates(["source", "target"], keep="last"), lambda it: {"edges": len(it)})


# A file of edges, and who reads it.

def write_file(path: pathlib.Path, shape: str, scale: int, edges: int) -> None:
    columns = columns_of(shape, scale, edges)
    with path.open("w") as file:
        file.write("source,target,weight,time\n")
        for place in range(0, edges, LINES):
            rows = zip(*(it[place:place + LINES].tolist() for it in columns))
            file.write("".join(["v%d,v%d,%d,%d\n" % row for row in rows]))


def load_file(path: pathlib.Path) -> Figures:
    """Into an empty store."""
    store = new_store()
    found = made(lambda: store.load(path, by="set", columns=Columns("source", "target", weight="weight", time="time"),
                                    progress=False))
    return {**found, "edges": store.stat().edges}


def read_csv(path: pathlib.Path) -> Figures:
    """pandas' reading alone: a frame of two columns of texts, and two of numbers."""
    import pandas as package
    return made(lambda: package.read_csv(path))


READS: Dict[str, Callable[[pathlib.Path], Figures]] = {it.__name__: it for it in (load_file, read_csv)}

LOADS: Dict[str, Callable[..., Figures]] = {it.__name__: it for it in (opening, batches, client, client_again, igraph, scipy,
                                                                       pandas)}


# What comes out, of a store in this process.

def with_names(shape: str, scale: int, edges: int) -> Dict[str, Any]:
    """Columns whose names are texts."""
    columns = frame_of(shape, scale, edges)
    return {**columns, **{it: [f"v{number}" for number in columns[it].tolist()] for it in ("source", "target")}}


def exports(shape: str, scale: int, edges: int, room: pathlib.Path) -> Dict[str, float]:
    """Processor seconds of each way out; the differences are to a version in which a tenth of the rows have other weights."""
    import pandas as _  # (which is none of what is measured)
    store, columns = new_store(seats=4), with_names(shape, scale, edges)
    load(store, columns)
    part = {name: it[:edges // 10] for name, it in columns.items()}
    before = store.open()
    load(store, {**part, "weight": part["weight"] + 1})
    after = store.open()
    works = {"diff": lambda: before.diff(after), "diff().to_pandas()": lambda: before.diff(after).to_pandas(),
             "edges().to_pandas()": lambda: after.edges().to_pandas(), "to_csv": lambda: after.edges().to_csv(room / "edges.csv"),
             "save": lambda: after.save(room / "saved.csv"), "restore": lambda: Client.restore(room / "saved.csv").close()}
    found = {name: timed(work)[1].processor for name, work in works.items()}

    opening = closing = 0.0
    for _ in range(OPENS):
        spent = watch()
        session = store.open()
        opening += spent().processor
        spent = watch()
        session.close()
        closing += spent().processor
    return {**found, "open()": opening / OPENS, "close()": closing / OPENS}


def exports_of_pandas(shape: str, scale: int, edges: int, room: pathlib.Path) -> Dict[str, float]:
    """The same of frames: a merge of both versions stands for the difference, and a pickle for the saved version."""
    import pandas as package
    before = package.DataFrame(with_names(shape, scale, edges)).drop_duplicates(["source", "target"], keep="last")
    after = before.copy()
    after.iloc[:edges // 10, 2] += 1
    works = {"diff().to_pandas()": lambda: before.merge(after, "outer", ["source", "target"], indicator=True),
             "edges().to_pandas()": lambda: after.copy(), "to_csv": lambda: after.to_csv(room / "edges.csv", index=False),
             "save": lambda: after.to_pickle(room / "saved.pickle"),
             "restore": lambda: package.read_pickle(room / "saved.pickle")}
    return {name: timed(work)[1].processor for name, work in works.items()}


EXPORTS: Dict[str, Callable[..., Dict[str, float]]] = {"client": exports, "pandas": exports_of_pandas}
