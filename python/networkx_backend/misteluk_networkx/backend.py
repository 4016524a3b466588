"""What networkx asks for where this backend is chosen: each function of `info.FUNCTIONS`, by networkx's name. It answers for
graphs that `Session.graph` gives. What it can't answer raises `NotImplementedError`, after which networkx goes on by itself if
the backend was chosen by `networkx.config.backend_priority`."""
from __future__ import annotations

from operator import itemgetter
from typing import Any, Callable, Dict, Iterator, List, Mapping, Optional, Sequence, Set, Union

import networkx
from misteluk.graphs import Read, held_read

NAME = "misteluk"


def _own(name: str) -> Callable[..., Any]:
    """networkx's function itself, whose calls of others come here again where these are given a graph of this backend."""
    function: Callable[..., Any] = networkx.utils.backends._registered_algorithms[name].orig_func
    return function


# What networkx asks of a backend.

def can_run(name: str, args: Sequence[Any], kwargs: Mapping[str, Any]) -> Union[bool, str]:
    """Whether the graph of a call is of a held version, or why not."""
    graph = args[0] if args else kwargs.get("G")
    return held_read(graph) is not None or "only the graphs of sessions are held versions"


def convert_from_nx(graph: Any, **_: Any) -> Any:
    """Returns another graph of the same version, whose calls networkx brings here. Raises `NotImplementedError` for a graph that
    isn't of a held version: to make a store of it takes longer than the answer."""
    read = held_read(graph)
    if read is None:
        raise NotImplementedError("only the graphs of sessions are held versions: store.load(graph, by=..) makes a store of one")
    made = type(graph)._of(read)
    made.__networkx_backend__ = NAME
    return made


def convert_to_nx(found: Any, **_: Any) -> Any:
    """Returns what networkx may work with: a graph as `Session.graph` gives it; all else as it is."""
    read = held_read(found)
    return found if read is None else type(found)._of(read)


# What is answered.

def single_source_shortest_path_length(G: Any, source: Any, cutoff: Any = None) -> Dict[str, int]:
    """Each node that can be reached, in the order of the levels."""
    if cutoff is not None or source not in G:
        raise NotImplementedError("levels without a cutoff, from a node")
    read: Read = G._read
    return dict(sorted(read.session.levels(source, *read.window).items(), key=itemgetter(1)))


def weakly_connected_components(G: Any) -> Iterator[Set[str]]:
    """Sets of nodes, in the order of their first ones."""
    read: Read = G._read
    parts: Dict[str, Set[str]] = {}
    for name, label in read.session.components(*read.window).items():
        parts.setdefault(label, set()).add(name)
    yield from parts.values()


def number_weakly_connected_components(G: Any) -> int:
    count: int = _own("number_weakly_connected_components")(G)
    return count


def is_weakly_connected(G: Any) -> bool:
    is_one: bool = _own("is_weakly_connected")(G)
    return is_one


def core_number(G: Any) -> Dict[str, int]:
    """Core numbers. networkx has an edge either way between two nodes count as two, and refuses a loop: both are left to it."""
    read: Read = G._read
    edges = read.edges()
    if not set(zip(edges.source, edges.target)).isdisjoint(zip(edges.target, edges.source)):
        raise NotImplementedError("core numbers of a graph in which no two nodes have edges both ways")
    return read.session.cores(*read.window).to_dict()


def pagerank(G: Any, *args: Any, **kwargs: Any) -> Dict[str, float]:
    """By networkx's own steps over the matrix, which is made of the version's columns."""
    ranks: Dict[str, float] = _own("pagerank")(G, *args, **kwargs)
    return ranks


def to_scipy_sparse_array(G: Any, nodelist: Optional[List[Any]] = None, dtype: Any = None, weight: Optional[str] = "weight",
                          format: str = "csr") -> Any:
    """The matrix of weights, or of ones where `weight` is `None`; edges of several kinds are summed."""
    read: Read = G._read
    edges = read.edges()
    if not edges or weight not in (None, "weight") or nodelist is not None and list(nodelist) != list(G):
        raise NotImplementedError("weights of some edges, between all nodes in their order")
    import numpy
    import scipy
    scale = edges.units.scale
    values = numpy.ones(len(edges), "i8") if weight is None else numpy.asarray(edges.weight)
    values = values / scale if weight and scale != 1 else values
    ends = numpy.asarray(edges.source).astype("i8"), numpy.asarray(edges.target).astype("i8")
    matrix = scipy.sparse.coo_array((values, ends), shape=(len(G), len(G)), dtype=dtype)
    try:
        return matrix.asformat(format)
    except ValueError:
        raise NotImplementedError(f"a matrix of the format {format}") from None
