"""What vertices have of edges that no version has a table of: of those among some vertices, and of a difference."""
from __future__ import annotations

from array import array
from collections import Counter
from typing import TYPE_CHECKING, Any, Dict, Iterable, Optional, Sequence

from .engine.protocol import Denied, must_have_kind
from .errors import NoVertex
from .values.answers import OF_FLOWS, Answer, Degree, Flow, Values, degrees
from .values.diff import Diff
from .values.names import Called, must_be_texts
from .values.records import MOST_TIME
from .values.units import Moment

if TYPE_CHECKING:
    from .session import Session

SOURCE, TARGET, WEIGHT = 1, 2, 3


def counted(ends: array[int], count: int) -> Sequence[int]:
    """How often each number comes, of so many."""
    found = Counter(ends)
    return array("I", map(found.__getitem__, range(count)))


def summed(ends: array[int], weights: array[int], count: int) -> Sequence[int]:
    """The sum of the weights of each number, of so many: the whole sum, however great."""
    sums = [0] * count
    for at, weight in zip(ends, weights):
        sums[at] += weight
    return sums


def degrees_among(session: Session[Any, Any], among: Iterable[str], kind: Optional[str], since: Moment,
                  until: Moment) -> Answer[Degree[Any]]:
    """The degrees of some vertices by the edges among themselves."""
    if isinstance(among, str):
        raise TypeError(f"among has names of vertices, as [{among!r}], and isn't one itself")
    wanted = dict.fromkeys(among)
    must_be_texts(tuple(wanted))
    edges = session.edges(kind, since, until)
    count, is_there = len(edges.names), bytearray(len(edges.names))
    places = {name: at for at, name in enumerate(edges.names) if name in wanted}
    for name in wanted:
        if name not in places:
            raise session._terms.denied(Denied(NoVertex.word), str(Called("degrees", (), {"among": [name]})))
        is_there[places[name]] = 1
    inner = edges.where([is_there[source] and is_there[target] for source, target in zip(edges.source, edges.target)])
    _, sources, targets, weights, *_ = inner._columns
    columns = counted(sources, count), counted(targets, count), summed(sources, weights, count)
    out, into, weight_out = ([it[at] for at in places.values()] for it in columns)
    found = degrees(out, into, weight_out, edges.units)
    return session._answer("degree", Called("degrees", (), {"among": list(places)}), found, tuple(places))


def flows(later: Session[Any, Any], earlier: Session[Any, Any], kind: Optional[str]) -> Answer[Flow[Any]]:
    """What became of each vertex's edges from one version to a later one."""
    scope, asked = later._scope("flows", kind, 0, MOST_TIME)
    later._asked(must_have_kind, asked, later._held, scope.kind)
    names, before = later.vertices(), earlier.vertices()
    if names[:len(before)] != before:
        raise ValueError(f"version {earlier.version} has names that version {later.version} has in other places, or not at all: "
                         "it isn't an earlier version, or the store started over in between; diff compares any two")
    return later._answer("flow", asked, _moved(earlier.diff(later, kind), len(names)))


def _moved(diff: Diff[Any, Any], count: int) -> Dict[str, Values]:
    """For each vertex, of so many, how many edges of a difference go out and come in, and by how much their weight grew."""
    parts, units = (diff.gone, diff.before, diff.new, diff.after), diff.after.units
    gone, before, new, after = (it._columns[WEIGHT] for it in parts)
    grown, counts, sums = array("q", [-it for it in gone + before]) + new + after, [], []
    for side in (SOURCE, TARGET):
        gone, before, new, after = (it._columns[side] for it in parts)
        counts.append(Values(counted(gone + new + after, count)))
        sums.append(Values.of_weights(summed(gone + before + new + after, grown, count), units))
    return dict(zip(OF_FLOWS, counts + sums))
