"""The edges at a vertex, by their other ends."""
from __future__ import annotations

from operator import add
from typing import Any, Dict

from .errors import StoreError
from .values.answers import Edge
from .values.edges import Edges, Told


def step(edges: Edges[Any, Any], end: str) -> Told[Any, Any]:
    """The first of the edges out of a vertex that leads to another one, which is known to be there."""
    for it in edges:
        if it[2] == end:
            return it
    raise StoreError(f"no edge leads to {end!r} from where it was reached")


def summed(edges: Edges[Any, Any], end: int) -> Dict[str, Edge[Any, Any]]:
    """Edges by one of their ends, 1 or 2; those of several kinds are one."""
    ends = edges.source if end == 1 else edges.target
    found: Dict[str, Edge[Any, Any]] = dict(zip(map(edges.names.__getitem__, ends), edges._marks()))
    if len(found) == len(edges):
        return found
    found = {}
    for name, edge in zip(map(edges.names.__getitem__, ends), edges._marks()):
        other = found.get(name)
        found[name] = edge if other is None else Edge(add(other.weight, edge.weight), min(other.first, edge.first),
                                                      max(other.recent, edge.recent))
    return found
