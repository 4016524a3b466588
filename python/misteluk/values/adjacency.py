"""Edges as dicts by their ends, which is how graphs of networkx have them."""
from __future__ import annotations

from collections import deque
from typing import TYPE_CHECKING, Any, Dict, Iterable, List, Sequence, Tuple, Type

from .collector import no_collection

if TYPE_CHECKING:
    from .edges import Edges

# What a name has at its other ends: there the attributes of an edge, or of a graph with several kinds these by kind.
Row = Dict[str, Any]
# Puts what isn't there yet into a row, also into one that nobody else can change. (It is the quickest call that puts something.)
PUT: Any = dict.setdefault


def filled(graph: Any, edges: Edges[Any, Any], by_kind: bool) -> Any:
    """An empty graph of networkx, with each name as a node and all edges: its dicts are put in place, which takes less than a
    third of the time of its calls."""
    graph._node = {it: {} for it in edges.names}
    graph._succ, graph._pred = adjacency(edges, by_kind)
    graph._adj = graph._succ
    return graph


def adjacency(edges: Edges[Any, Any], by_kind: bool, make: Type[Row] = dict) -> Tuple[Dict[str, Row], Dict[str, Row]]:
    """For each name the edges that go out of it, by their targets, and those that come in, by their sources. An edge's attributes
    are the same dict in both."""
    names = edges.names
    out, into = ({it: make() for it in names} for _ in range(2))
    sources, targets = (list(map(names.__getitem__, it)) for it in (edges.source, edges.target))
    with no_collection():
        found = put(map(list(out.values()).__getitem__, edges.source), targets, edges, by_kind, make)
        deque(map(PUT, map(list(into.values()).__getitem__, edges.target), sources, found), 0)
    return out, into


def put(rows: Iterable[Row], others: Sequence[str], edges: Edges[Any, Any], by_kind: bool, make: Type[Row]) -> List[Row]:
    """Puts each edge into its row, at its other end. Gives what stands there: its attributes, or the dict that has them by
    kind."""
    kinds = list(map(edges.kinds.__getitem__, edges.kind))
    attributes = [make(kind=kind, weight=weight, first=first, recent=recent)
                  for kind, weight, first, recent in zip(kinds, *edges._told())]
    if not by_kind:
        return list(map(PUT, rows, others, attributes))
    found: List[Row] = list(map(PUT, rows, others, (make() for _ in kinds)))
    deque(map(PUT, found, kinds, attributes), 0)
    return found
