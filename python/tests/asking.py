"""Each public call of a session that answers, what it answers as plain values, and rows for it."""
from __future__ import annotations

import asyncio
from typing import Any, Callable, Dict, List, Tuple

from support import optional

import misteluk
from misteluk import Answer, Diff, Edges, Session

ROWS = ("insert k a b 5 1", "insert k b c 7 2", "insert l a c 3 3", "insert l c d 4 4", "insert k d a 9 5", "add k a b 1 6")
LATER = ("remove l a c", "add k b c 2 7", "insert m d b 6 8")
# What of a session asks for no answer.
NO_ANSWERS = {"close", "edge_count", "is_open", "save", "store", "version", "vertex_count"}
# What edges become, and the package that it needs.
BECOME = {"to_networkx": "networkx", "to_igraph": "igraph", "to_graph_tool": "graph_tool", "to_scipy": "scipy"}
# What a session itself answers by a package.
NEED = {"graph": "networkx"}
Call = Tuple[str, Callable[..., Any], Tuple[Any, ...]]


def calls(path: str) -> List[Call]:
    """The calls by name, with what each is given besides the session. A file that one writes has this path."""
    given: Dict[str, Tuple[Any, ...]] = {
        "edge": ("k", "a", "b"), "levels": ("a",), "path": ("a", "d"), "neighborhood": ("a", 2),
        "get_edges": ([("k", "a", "b"), ("k", "b", "c")],), "has_edge": ("k", "a", "b"), "has_vertex": ("a",),
        **dict.fromkeys(("out_edges", "in_edges", "successors", "predecessors", "neighbors"), ("a",))}
    missing = {it for it, package in NEED.items() if not optional(package)}
    of_session = sorted({it for it in vars(Session) if not it.startswith("_")} - NO_ANSWERS - {"diff", "flows"} - missing)
    found: List[Call] = [(it, getattr(Session, it), given.get(it, ())) for it in of_session]
    found += [(it, lambda session, it=it: getattr(session.edges(), it)(), ())
              for it, package in {"to_pandas": "pandas", **BECOME}.items() if optional(package)]
    found += [(f"{it} of a kind", getattr(Session, it), (*given.get(it, ()), "k", 1, 6)) for it in (
        "levels", "components", "cores", "degrees", "weights_in", "edges", "out_edges", "in_edges")]
    return found + [
        ("edge count", lambda session: session.edge_count, ()),
        ("to_csv", lambda session: session.edges().to_csv(path), ()),
        ("either way", lambda session: session.neighborhood("a", 2, directed=False), ()),
        ("diff", lambda session: session.diff(session), ()), ("flows", lambda session: session.flows(session), ()),
        ("among", lambda session: session.degrees(among=["a", "c"]), ()), ("view", misteluk.view, ("a",))]


def awaited(session: "misteluk.AsyncSession[Any, Any]", loop: asyncio.AbstractEventLoop) -> Callable[..., Any]:
    """Makes a call of an awaited session."""
    def ask(call: Callable[..., Any], *given: Any) -> Any:
        name = getattr(call, "__name__", "")
        own = getattr(session, name)(*given) if getattr(Session, name, None) is call and name[0] != "_" else (
            session.ask(call, session, *given))
        return loop.run_until_complete(own)
    return ask


def plain(found: Any) -> Any:
    """An answer as plain values, which share nothing with it."""
    if isinstance(found, Diff):
        return [plain(it) for it in (found.gone, found.new, found.before, found.after)]
    if isinstance(found, Answer):
        return [found.request, [(name, plain(it)) for name, it in found.items()], list(found.names)]
    if isinstance(found, Edges):
        return [list(found), list(found.kinds), list(found.names), [list(it) for it in found.columns.values()]]
    if isinstance(found, dict):
        return [(name, plain(it)) for name, it in found.items()]
    kind = type(found).__name__
    if kind == "View":
        return found.html
    if kind == "DataFrame":
        return found.values.tolist()
    if kind in ("MultiDiGraph", "HeldMultiDiGraph"):
        return [list(found), sorted(map(str, found.edges(data=True)))]
    if hasattr(found, "edge_properties"):
        return [[found.vp["name"][it] for it in found.get_vertices()], sorted(found.iter_edges(list(found.ep.values())), key=str)]
    if kind == "Graph":
        return [found.vs["name"], found.get_edgelist(), *(found.es[it] for it in ("kind", *misteluk.Edge._fields))]
    if kind == "csr_matrix":
        return found.toarray().tolist()
    return [plain(it) for it in found] if isinstance(found, list) else found
