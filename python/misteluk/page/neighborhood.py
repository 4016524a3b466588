"""The neighborhood of a vertex in one version or in two, as a page shows it; and how it is asked of sessions."""
from __future__ import annotations

from collections import Counter
from itertools import accumulate
from typing import TYPE_CHECKING, Any, Dict, Iterable, List, Mapping, NamedTuple, Optional, Sequence, Tuple

from ..values import records
from ..values.answers import Degree, Edge
from ..values.edges import Edges, Told
from ..errors import NoKind, NoVertex
from ..values.names import must_be_texts
from ..values.units import Moment

if TYPE_CHECKING:
    from ..session import Session

# An edge's kind, source and target.
Key = Tuple[str, str, str]
# What became of an edge from one version to the other.
GONE, NEW, CHANGED, KEPT = STATES = ("gone", "new", "changed", "kept")
# How many vertices and edges the tables have at most.
MOST_VERTICES, MOST_EDGES = 1_000, 2_000
# How many edges of one hop's vertices are asked for at most, to find those of the next hop, and how many among the farthest are
# shown. A run has 999,999 records in all.
MOST_ASKED = 20_000


class Window(NamedTuple):
    """Which edges count: those of a kind, or of any, whose recent time is within."""

    kind: Optional[str] = None
    since: Moment = 0
    until: Moment = records.MOST_TIME

    def __str__(self) -> str:
        kind = f"edges of kind {self.kind}" if self.kind else "edges of any kind"
        times = [f"from {self.since}"] if str(self.since) != "0" else []
        times += [f"until {self.until}"] if str(self.until) != str(records.MOST_TIME) else []
        return f"{kind}, last touched {' '.join(times)}" if times else kind


class Side(NamedTuple):
    """What one version said: how many hops vertices are from the middle, the degrees of those that it has, and the edges among
    those that are shown."""

    label: str
    hops: Dict[str, int]
    degrees: Dict[str, Degree[Any]]
    edges: Dict[Key, Edge[Any, Any]]


class Neighborhood(NamedTuple):
    """The vertices within `hops` of the one in the middle, in one version or another, direction ignored, and the edges among
    them.

    `names` are in order: the nearest first; of these in turn one with an edge that is gone, one with a new one, one with one that
    changed and one without; and the heaviest of each, by the edges that join them to nearer ones. The first `drawn` are drawn.
    `hop` has the least hops of each vertex, and `states` what became of each edge: those that aren't kept first, then the
    nearest, then the heaviest.

    `found` counts the vertices; `names` are fewer where there are too many edges among the farthest. `is_whole` says whether all
    were looked for.
    """

    around: str
    hops: int
    window: Window
    sides: Tuple[Side, ...]
    names: List[str]
    hop: Dict[str, int]
    states: Dict[Key, str]
    found: int
    drawn: int
    is_whole: bool

    def counts(self) -> Dict[str, int]:
        """How many edges are gone, new, changed and kept."""
        found = Counter(self.states.values())
        return {it: found[it] for it in STATES}


def state_of(before: Optional[Edge[Any, Any]], after: Optional[Edge[Any, Any]]) -> str:
    """What became of an edge: it is changed where its weight or one of its times is another."""
    if before is None or after is None:
        return GONE if after is None else NEW
    return KEPT if before == after else CHANGED


def states_of(sides: Sequence[Side], hop: Dict[str, int]) -> Dict[Key, str]:
    """What became of each edge, in order."""
    pairs = {key: [side.edges.get(key) for side in (sides[0], sides[-1])] for side in sides for key in side.edges}
    states = {key: state_of(*pair) for key, pair in pairs.items()}

    def rank(key: Key) -> Any:
        nearest = sorted((hop[key[1]], hop[key[2]]))
        return STATES.index(states[key]), nearest, -max(abs(it.weight) for it in pairs[key] if it is not None), key
    return {key: states[key] for key in sorted(states, key=rank)}


class Looking:
    """Asks one session for a neighborhood: the edges beside the vertices that are nearer than the farthest, and those among
    the farthest."""

    def __init__(self, session: "Session[Any, Any]", window: Window) -> None:
        self.session, self.window = session, window
        self.has_kind = True
        self.degrees = self._degrees(window)
        self.edges: Dict[Key, Edge[Any, Any]] = {}
        self.hops: Dict[str, int] = {}
        self.is_whole = True
        # The vertices whose edges were all asked for; and of others the edges out, with the places of those that are among them.
        self._looked: Dict[str, None] = {}
        self._among: List[Tuple[str, Edges[Any, Any], List[int]]] = []

    def _degrees(self, window: Window) -> Mapping[str, Degree[Any]]:
        try:
            return self.session.degrees(*window)
        except NoKind:  # (the version has the vertices, and no edge of the kind)
            self.has_kind = False
            return {name: Degree(0, 0, it.weight_out - it.weight_out) for name, it in self.session.degrees().items()}

    def reach(self, around: str, hops: int) -> None:
        """Finds the vertices within so many hops, and all edges of those that are nearer."""
        if around not in self.degrees:
            return
        self.hops, front = {around: 0}, [around]
        for hop in range(1, hops + 1):
            if sum(self.degrees[it].out + self.degrees[it].into for it in front) > MOST_ASKED:
                self.is_whole = False
                return
            for name in front if self.has_kind else ():
                self._keep(self.session.out_edges(name, *self.window))
                self._keep(self.session.in_edges(name, *self.window))
            self._looked.update(dict.fromkeys(front))
            ends = [name for key in self.edges for name in key[1:]]
            front = [name for name in dict.fromkeys(ends) if name not in self.hops]
            self.hops.update(dict.fromkeys(front, hop))

    def _keep(self, edges: "Iterable[Told[Any, Any]]") -> None:
        for kind, source, target, edge in edges:
            self.edges[kind, source, target] = edge

    def weights(self) -> Dict[str, Any]:
        """For each vertex the weight of the edges that join it to nearer ones."""
        found: Dict[str, Any] = {}
        for (_, source, target), edge in self.edges.items():
            near, far = sorted((source, target), key=lambda it: self.hops.get(it, len(self.hops)))
            if self.hops.get(near) != self.hops.get(far):
                found[far] = found.get(far, 0) + abs(edge.weight)
        return found

    def unasked(self, names: Sequence[str]) -> int:
        """How many edges there may be among the vertices that weren't asked for."""
        return sum(self.degrees[it].out for it in names if it in self.degrees and it not in self._looked)

    def ask(self, names: Sequence[str]) -> int:
        """Asks for the edges among the vertices that weren't asked for, and gives to how many of the first vertices those belong
        that aren't too many."""
        place = {name: at for at, name in enumerate(names) if name in self.degrees and name not in self._looked}
        counts: "Counter[int]" = Counter()
        for name in place if self.has_kind else ():
            found = self.session.out_edges(name, *self.window)
            targets = [found.names[it] for it in found.target]
            places = [at for at, target in enumerate(targets) if target in place]
            counts.update(max(place[name], place[targets[at]]) for at in places)
            self._among.append((name, found, places))
        return sum(total <= MOST_ASKED for total in accumulate(counts[at] for at in range(len(names))))

    def side(self, label: str, names: Sequence[str]) -> Side:
        """What is shown of this version: the edges among the names."""
        shown = set(names)
        for name, found, places in self._among:
            self._keep(found[at] for at in places if name in shown and found.names[found.target[at]] in shown)
        edges = {key: edge for key, edge in self.edges.items() if shown.issuperset(key[1:])}
        return Side(label, {name: self.hops[name] for name in names if name in self.hops},
                    {name: self.degrees[name] for name in names if name in self.degrees}, edges)


def gather(sessions: Sequence["Session[Any, Any]"], labels: Sequence[str], around: str, hops: int, window: Window,
           most: int) -> Neighborhood:
    """The neighborhood in each session's version. Raises `NoVertex` where none has such a vertex, and `NoKind` where none has the
    kind."""
    must_be_texts((around,))
    looking = [Looking(session, window) for session in sessions]
    if not any(it.has_kind for it in looking):
        raise NoKind(f"no version here has edges of kind {window.kind!r}")
    for it in looking:
        it.reach(around, hops)
    if not any(it.hops for it in looking):
        raise NoVertex(f"no version here has a vertex {around!r}", advice="")
    found = _ordered(looking)
    is_much = any(it.unasked(found) > MOST_ASKED for it in looking)
    near = found[:MOST_VERTICES] if is_much else found
    near = near[:min(it.ask(near) for it in looking)]
    sides = tuple(it.side(label, near) for it, label in zip(looking, labels))
    hop = {name: min(side.hops[name] for side in sides if name in side.hops) for name in near}
    states = states_of(sides, hop)
    return Neighborhood(around, hops, window, sides, _in_turn(near, hop, states), hop, states, len(found), min(most, len(near)),
                        all(it.is_whole for it in looking))


def _ordered(looking: Sequence[Looking]) -> List[str]:
    """All vertices that were found, the nearest first and then the heaviest."""
    weights = [it.weights() for it in looking]
    order = {name: at for at, name in enumerate(dict.fromkeys(name for it in looking for name in it.degrees))}

    def rank(name: str) -> Any:
        hop = min(it.hops[name] for it in looking if name in it.hops)
        return hop, -max(it.get(name, 0) for it in weights), order[name]
    return sorted(dict.fromkeys(name for it in looking for name in it.hops), key=rank)


def _in_turn(names: Sequence[str], hop: Dict[str, int], states: Dict[Key, str]) -> List[str]:
    """The vertices of each hop in turn by what became of their edges, so that a few of them show something of each."""
    marks: Dict[str, int] = {}
    for key, state in states.items():  # (in the order of states, so that the first one that a vertex has is kept)
        for name in key[1:]:
            marks.setdefault(name, STATES.index(state))
    places: Dict[str, Tuple[int, int, int]] = {}
    before: Counter[Tuple[int, int]] = Counter()
    for name in names:
        mark = marks.get(name, len(STATES))
        places[name] = hop[name], before[hop[name], mark], mark
        before[hop[name], mark] += 1
    return sorted(names, key=places.__getitem__)
