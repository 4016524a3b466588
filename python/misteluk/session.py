"""A session, which holds a version of a store and answers questions about it."""
from __future__ import annotations

import operator
from array import array
from contextlib import suppress
from typing import (TYPE_CHECKING, Any, Callable, Dict, Generic, Iterable, List, Literal, Optional, Sequence, Tuple, TypeVar,
                    Union, overload)

from . import diffs, totals, walks
from .engine.protocol import WHOLE, Arrays, Denied, Held, Scope
from .errors import BadName, NoKind, NoVertex, SessionClosed, needed, refusal
from .values import records
from .values.answers import Answer, Components, Degree, Edge, Flow, Neighbor, T, Values, W, degrees, shown_as_html
from .values.diff import Diff
from .values.edges import Edges, Told
from .values.names import Called, must_be_texts
from .feeds.terms import Terms
from .values.texts import Path, text_of
from .values.units import Moment

if TYPE_CHECKING:
    import networkx

    from .graphs import Read
    from .saving import Saved
    from .store import Store

R = TypeVar("R")
RAISE: Any = object()
# The last time that there is: a window that ends there has no end.
LAST = records.MOST_TIME
# An edge with its ends, as a user names them.
Ends = Tuple[str, str, str]


class Session(Generic[W, T]):
    """Holds a version of a store: each answer is of that version, whatever is committed meanwhile.

    >>> from misteluk import *
    >>> roads = [("kassel", "fulda", 105, 1, "road"), ("fulda", "hanau", 98, 2, "road"),
    ...          ("hanau", "bonn", 180, 3, "road"), ("kassel", "hanau", 210, 4, "rail")]
    >>> store = Store()
    >>> loaded = store.load(roads, by="set")
    >>> session = store.open()

    The examples of its methods, and of the classes of answers, go on from here. `version` is the version's number, and
    `vertex_count` how many vertices it has. Close a session, or use it in a `with`: an open one keeps blocks from being freed.
    Answers are tables by name (`Answer`) or `Edges`; all have `to_pandas` and `top`.

    A request takes a `kind`, or all kinds without it, and a window of times from `since` to `until`, both included. It covers the
    edges whose recent time, that of the last operation on them, is in the window. Times are in the store's units; a date without
    a time of day begins a window with its day, and ends one with the end of its day. A request raises `NoKind` or `NoVertex` for
    a name that the version doesn't have, `BadWindow` if `since` is after `until`, and `SessionClosed` after `close`. Several
    threads may use a session."""

    def __init__(self, store: Store[W, T], held: Held) -> None:
        self.store, self._held = store, held
        self._slot, self.version, self.vertex_count = held.slot, held.number, held.count
        self._names: Optional[Tuple[str, ...]] = None
        self._kinds: Optional[Tuple[str, ...]] = None
        self._read: Optional[Read] = None

    @property
    def is_open(self) -> bool:
        """Whether the session still holds its version.

        >>> session.is_open
        True
        """
        return self._held.is_open

    def _must_be_open(self) -> None:
        if not self.is_open:
            raise SessionClosed(f"the session of version {self.version} is closed")

    @property
    def _terms(self) -> Terms:
        return self.store._ledger.terms

    def _asked(self, call: Callable[..., R], told: Called, *given: Any) -> R:
        """What a call gives. What it denies is told as of this call."""
        try:
            return call(*given)
        except Denied as fault:
            kind = told.named.get("kind")
            if fault.word == NoKind.word and isinstance(kind, str) and self.has_vertex(kind):
                advice = f"{kind!r} is a vertex: out_edges, in_edges and neighbors take one"
                raise refusal(fault.word, str(told), advice=advice) from None
            raise self._terms.denied(fault, str(told)) from None

    def _scope(self, call: str, kind: Optional[str], since: Moment, until: Moment, *names: str) -> Tuple[Scope, Called]:
        """Which edges count, and the call as it was made. Raises where a name is none, the kind none, or the window no window."""
        self._must_be_open()
        if kind is not None:
            must_be_texts((kind,))
        if since == 0 and until == LAST and self._terms.knows(names if kind is None else (*names, kind)):
            return (WHOLE, Called(call, names)) if kind is None else (Scope(kind), Called(call, names, {"kind": kind}))
        must_be_texts((*names, kind or records.ANY))
        said = (("kind", kind, None), ("since", since, 0), ("until", until, LAST))
        told = Called(call, names, {name: it for name, it, usual in said if str(it) != str(usual)})
        terms = self._terms
        fields = ["bfs" if names else "deg", str(self._slot), *names[:1], kind or records.ANY, text_of(since), text_of(until)]
        for fault in terms.faults_of(fields, records.MOST_SEATS):
            raise terms.refusal(fault)
        begin = int(terms.units._time_to_program(text_of(since)))
        end = int(terms.units._time_to_program(text_of(until), is_end=True))
        if begin > end:
            raise refusal("BadWindow", f"{told}: since {since} is after until {until}")
        of_kind = None if kind in (None, records.ANY) else terms.names.to_program(str(kind), keep=False)
        return Scope(of_kind, begin, end), told

    def _all_names(self) -> Tuple[str, ...]:
        """The vertices by number, as a user names them."""
        if self._names is None:
            self._names = tuple(self._terms.names.all_to_user(self._held.names()))
        return self._names

    def _answer(self, value: str, asked: Called, columns: Dict[str, Values],
                names: Optional[Sequence[str]] = None) -> Answer[Any]:
        names = self._all_names() if names is None else names
        found: Answer[Any] = Answer._of(names, columns, self.version, str(asked), value)
        return found

    def _all_kinds(self) -> Tuple[str, ...]:
        """The kinds by number, as a user names them."""
        if self._kinds is None:
            self._kinds = tuple(self._terms.names.all_to_user(self._held.kinds()))
        return self._kinds

    def _edges(self, found: Arrays) -> Edges[W, T]:
        return Edges(self._kinds or self._all_kinds(), self._names or self._all_names(), self._terms.units, found)

    # Tables.

    def levels(self, source: str, kind: Optional[str] = None, since: Moment = 0, until: Moment = LAST) -> Answer[int]:
        """Returns for each vertex that can be reached from `source` the least number of edges on a walk to it.

        >>> session.levels("kassel")
        {'kassel': 0, 'fulda': 1, 'hanau': 1, 'bonn': 2}
        """
        scope, asked = self._scope("levels", kind, since, until, source)
        name = self._terms.asked(source)
        return self._near(asked, *self._asked(self._held.levels, asked, scope, name))

    def _near(self, asked: Called, reached: Sequence[int], levels: array[int]) -> Answer[int]:
        """The vertices that are reached, by number, with their levels."""
        names = self._all_names()
        names = names if len(reached) == len(names) else tuple(map(names.__getitem__, reached))
        return self._answer("level", asked, {"level": Values(levels)}, names)

    def components(self, kind: Optional[str] = None, since: Moment = 0, until: Moment = LAST) -> Components:
        """Returns each vertex's component, direction ignored, by a label: the first vertex of the component.

        >>> session.components("rail")
        {'kassel': 'kassel', 'fulda': 'fulda', 'hanau': 'kassel', 'bonn': 'bonn'}
        """
        scope, asked = self._scope("components", kind, since, until)
        return self._components(self._asked(self._held.labels, asked, scope), asked)

    def _components(self, labels: array[int], asked: Called) -> Components:
        """The table of these labels, which are numbers of vertices."""
        names = self._all_names()
        columns = {"label": Values(labels, lambda it: list(map(names.__getitem__, it)))}
        found: Components = Components._of(names, columns, self.version, str(asked), "label")
        return found

    def cores(self, kind: Optional[str] = None, since: Moment = 0, until: Moment = LAST) -> Answer[int]:
        """Returns each vertex's core number (Seidman 1983), direction ignored. This is the greatest k so that the vertex is in a
        set of vertices, each of which has at least k neighbors in the set.

        >>> session.cores()
        {'kassel': 2, 'fulda': 2, 'hanau': 2, 'bonn': 1}
        """
        scope, asked = self._scope("cores", kind, since, until)
        return self._answer("core", asked, {"core": Values(self._asked(self._held.cores, asked, scope))})

    def degrees(self, kind: Optional[str] = None, since: Moment = 0, until: Moment = LAST, *,
                among: Optional[Iterable[str]] = None) -> Answer[Degree[W]]:
        """Returns how many edges go out of each vertex and come in, and the weight that goes out. An edge in the window counts
        with its whole weight, of which a part may be older. With `among`, names of vertices, the table has these vertices, and
        only edges count that have both ends among them.

        >>> session.degrees()["kassel"]
        Degree(out=2, into=0, weight_out=315)
        >>> session.degrees(among=["hanau", "kassel"])
        {'kassel': Degree(out=1, into=0, weight_out=210), 'hanau': Degree(out=0, into=1, weight_out=0)}
        """
        if among is not None:
            return totals.degrees_among(self, among, kind, since, until)
        scope, asked = self._scope("degrees", kind, since, until)
        found = self._asked(self._held.degrees, asked, scope)
        return self._answer("degree", asked, degrees(*found, self._terms.units))

    def flows(self, earlier: Session[Any, Any], kind: Optional[str] = None) -> Answer[Flow[W]]:
        """Returns what became of each vertex's edges since an earlier version: how many of those that go out and come in are
        gone, new or changed, and by how much their weight grew. So a version held at the end of each month gives each month's
        amounts.

        `earlier` is a session of the same store, or of one restored from it, or from which it was restored. `ValueError`: the
        stores have other units, or its names don't have the same places: the store started over in between, or it is another.

        >>> store.add("rail", "kassel", "hanau", 40, time=5)
        >>> done = store.commit()
        >>> store.open().flows(session)["hanau"]
        Flow(out=0, into=1, weight_out=0, weight_in=40)
        """
        return totals.flows(self, earlier, kind)

    def weights_in(self, kind: Optional[str] = None, since: Moment = 0, until: Moment = LAST) -> Answer[W]:
        """Returns the weight that comes into each vertex. An edge in the window counts as in `degrees`.

        >>> session.weights_in()
        {'kassel': 0, 'fulda': 105, 'hanau': 308, 'bonn': 180}
        """
        scope, asked = self._scope("weights_in", kind, since, until)
        weights = Values.of_weights(self._asked(self._held.weights_in, asked, scope), self._terms.units)
        return self._answer("weight_in", asked, {"weight_in": weights})

    # One edge, and all.

    def edge(self, kind: str, source: str, target: str) -> Optional[Edge[W, T]]:
        """Returns one edge, or `None` if the version has the kind and both vertices but not the edge.

        >>> session.edge("rail", "kassel", "hanau")
        Edge(weight=210, first=4, recent=4)
        """
        ends = kind, source, target
        try:  # (in few steps, as in `_beside`)
            marks = self._held.edge(self._ends(ends))
        except Denied as fault:
            raise self._terms.denied(fault, str(Called("edge", ends))) from None
        return None if marks is None else self._terms.units._edge_to_user(*marks)

    def _ends(self, ends: Ends) -> Ends:
        """An edge's ends in the engine's terms. Raises where one of them is no name."""
        kind, source, target = ends
        if not self._terms.knows(ends):
            must_be_texts(ends)
            asked = ("edge", "0", *ends)
            for fault in self._terms.faults_of(asked):
                raise self._terms.refusal(fault)
            _, _, kind, source, target = self._terms.turned(asked, keep=False)[0]
        return kind, source, target

    @overload
    def get_edges(self, ends: Iterable[Ends], *, missing: R) -> List[Union[Edge[W, T], R, None]]: ...

    @overload
    def get_edges(self, ends: Iterable[Ends]) -> List[Optional[Edge[W, T]]]: ...

    def get_edges(self, ends: Iterable[Ends], *, missing: Any = RAISE) -> Any:
        """Returns a list with an `Edge` for each kind, source and target in `ends`, or `None` as `edge` does. If `missing` is
        given, it stands for an edge of which the version doesn't have a name, and nothing is raised.

        >>> session.get_edges([("road", "kassel", "fulda"), ("road", "kassel", "bonn"), ("road", "kassel", "ulm")], missing=0)
        [Edge(weight=105, first=1, recent=1), None, 0]
        """
        asked = list(ends)
        for it in asked:
            if isinstance(it, str) or len(it) != 3:
                raise TypeError(f"an edge is asked for by its kind, source and target, and not by {it!r}")
        return self._some_edges(asked, missing)

    def _some_edges(self, asked: List[Ends], missing: Any) -> List[Any]:
        self._must_be_open()
        found: List[Any] = []
        for ends, it in zip(asked, self._asked(self._held.found, Called("edges"), list(map(self._ends, asked)))):
            if isinstance(it, Denied) and missing is RAISE:
                raise self._terms.denied(it, str(Called("edge", ends)))
            told = it is None or isinstance(it, Denied)
            found.append((missing if it else None) if told else self._terms.units._edge_to_user(*it))  # type: ignore[misc]
        return found

    def edges(self, kind: Optional[str] = None, since: Moment = 0, until: Moment = LAST) -> Edges[W, T]:
        """Returns all edges as `Edges`: a sequence of (kind, source, target, `Edge`), with `to_pandas`, `to_networkx` and others.

        >>> for kind, source, target, edge in session.edges(since=4):
        ...     print(kind, source, target, edge.weight)
        rail kassel hanau 210
        """
        scope, asked = self._scope("edges", kind, since, until)
        return self._edges(self._asked(self._held.edges, asked, scope))

    def graph(self, kind: Optional[str] = None, since: Moment = 0, until: Moment = LAST) -> networkx.DiGraph:
        """Returns the version as a networkx graph, which reads what is asked for: all edges once an algorithm needs them.

        It is a `networkx.DiGraph` whose edges have `kind`, `weight`, `first` and `recent`. If edges of several kinds count, it is
        a `MultiDiGraph`, whose keys are the kinds. All names are nodes, also those without an edge. Weights are whole numbers, or
        floats where the store's units have decimals.

        Nobody can change the graph (`networkx.NetworkXError`); its `copy` is a plain graph of your own, and so is what is
        pickled. An algorithm that changes its graph for a while, as `negative_edge_cycle`, needs the copy. The graph answers as
        long as the session is open, which keeps the edges that it read for the last kind and window.

        >>> graph = session.graph("road")  # needs networkx
        >>> import networkx
        >>> networkx.shortest_path(graph, "kassel", "bonn", weight="weight")
        ['kassel', 'fulda', 'hanau', 'bonn']
        """
        needed("networkx", "a graph")
        from .graphs import graph_of
        scope, asked = self._scope("graph", kind, since, until)
        return self._asked(graph_of, asked, self, scope, (kind, since, until))

    def diff(self, later: Session[Any, Any], kind: Optional[str] = None, since: Moment = 0, until: Moment = LAST) -> Diff[W, T]:
        """Returns what became of this version's edges in a later one: those gone, new, and with another weight or time. The later
        session may be of another store, if its units are the same; `ValueError` if they aren't.

        >>> store.remove("rail", "kassel", "hanau")
        >>> done = store.commit()
        >>> session.diff(store.open())
        <Diff: 1 gone, 0 new, 0 changed>
        """
        self._must_show_as(later)
        return diffs.between(self, later, kind, since, until)

    def _must_show_as(self, other: Session[Any, Any]) -> None:
        """Raises `ValueError` where weights and times of the two stores don't mean the same."""
        if not self._terms.units._shows_as(other._terms.units):
            raise ValueError(f"the sessions' stores have other units: {self.store.units!r}, and {other.store.units!r}")

    # From vertex to vertex.

    def _beside(self, vertex: str, kind: Optional[str], since: Moment, until: Moment, is_out: bool) -> Edges[W, T]:
        call, name = (self._held.out_of, "out_edges") if is_out else (self._held.into, "in_edges")
        if kind is None and since == 0 and until == LAST and vertex in self._terms.right and self._held.is_open:
            try:  # (in few steps: they are as long as the call)
                return self._edges(call(WHOLE, vertex))
            except Denied as fault:
                raise self._terms.denied(fault, str(Called(name, (vertex,)))) from None
        scope, asked = self._scope(name, kind, since, until, vertex)
        return self._edges(self._asked(call, asked, scope, self._terms.asked(vertex)))

    def out_edges(self, source: str, kind: Optional[str] = None, since: Moment = 0, until: Moment = LAST) -> Edges[W, T]:
        """Returns the edges that go out of a vertex as `Edges`, those of several kinds one by one.

        >>> session.out_edges("hanau")[0]
        ('road', 'hanau', 'bonn', Edge(weight=180, first=3, recent=3))
        """
        return self._beside(source, kind, since, until, True)

    def in_edges(self, target: str, kind: Optional[str] = None, since: Moment = 0, until: Moment = LAST) -> Edges[W, T]:
        """Returns the edges that come into a vertex, as `out_edges` does. The first such request sorts all edges of the version
        by target, and the session keeps the result.

        >>> session.in_edges("bonn")[0]
        ('road', 'hanau', 'bonn', Edge(weight=180, first=3, recent=3))
        """
        return self._beside(target, kind, since, until, False)

    def successors(self, source: str, kind: Optional[str] = None, since: Moment = 0,
                   until: Moment = LAST) -> Dict[str, Edge[W, T]]:
        """Returns the edges that go out of a vertex, by target. Edges of several kinds to one target become one `Edge`: the sum
        of the weights, the least `first` and the greatest `recent`.

        >>> session.successors("hanau")
        {'bonn': Edge(weight=180, first=3, recent=3)}
        """
        return walks.summed(self.out_edges(source, kind, since, until), 2)

    def predecessors(self, target: str, kind: Optional[str] = None, since: Moment = 0,
                     until: Moment = LAST) -> Dict[str, Edge[W, T]]:
        """Returns the edges that come into a vertex, by source, as `successors` does.

        >>> session.predecessors("fulda")
        {'kassel': Edge(weight=105, first=1, recent=1)}
        """
        return walks.summed(self.in_edges(target, kind, since, until), 1)

    def neighbors(self, vertex: str, kind: Optional[str] = None, since: Moment = 0,
                  until: Moment = LAST) -> Dict[str, Neighbor[W, T]]:
        """Returns the vertices that an edge joins to this one, each with the edges to it and from it, as `successors` does.

        >>> session.neighbors("bonn")
        {'hanau': Neighbor(out=None, into=Edge(weight=180, first=3, recent=3))}
        """
        out, into = self.successors(vertex, kind, since, until), self.predecessors(vertex, kind, since, until)
        return {it: Neighbor(out.get(it), into.get(it)) for it in {**out, **into}}

    @overload
    def path(self, source: str, target: str, kind: Optional[str] = None, since: Moment = 0, until: Moment = LAST, *,
             edges: Literal[True]) -> Optional[List[Told[W, T]]]: ...

    @overload
    def path(self, source: str, target: str, kind: Optional[str] = None, since: Moment = 0, until: Moment = LAST, *,
             edges: Literal[False] = False) -> Optional[List[str]]: ...

    def path(self, source: str, target: str, kind: Optional[str] = None, since: Moment = 0, until: Moment = LAST, *,
             edges: bool = False) -> Any:
        """Returns the names on a walk with the fewest edges from source to target, both included, or `None` if there is none. If
        there are several, it is the one that has, from the target on, the first vertex in the version's order each time. With
        `edges=True` it returns the edges, (kind, source, target, `Edge`) each, the first one where several kinds join two names.

        >>> session.path("kassel", "bonn", kind="road")
        ['kassel', 'fulda', 'hanau', 'bonn']
        """
        self._scope("path", kind, since, until, target)
        scope, asked = self._scope("path", kind, since, until, source, target)
        names = self._all_names()
        found = self._asked(self._held.path, asked, scope, self._terms.asked(source), self._terms.asked(target))
        walk = list(map(names.__getitem__, found))
        if edges and walk:
            return [walks.step(self.out_edges(begin, kind, since, until), end) for begin, end in zip(walk, walk[1:])]
        return walk or None

    def neighborhood(self, vertex: str, hops: int, kind: Optional[str] = None, since: Moment = 0, until: Moment = LAST, *,
                     directed: bool = True) -> Answer[int]:
        """Returns the vertices that walks of at most `hops` edges from this vertex reach, each with its least number of edges.
        With `directed=False` a walk follows edges in either direction. `ValueError`: `hops` is less than 0.

        >>> session.neighborhood("bonn", 1, directed=False)
        {'hanau': 1, 'bonn': 0}
        """
        if operator.index(hops) < 0:
            raise ValueError(f"hops is 0 or more, and not {hops}")
        scope, asked = self._scope(f"neighborhood {hops} of", kind, since, until, vertex)
        found = self._asked(self._held.within, asked, scope, self._terms.asked(vertex), hops, not directed)
        return self._near(asked, *found)

    # What it is, and its end.

    def vertices(self) -> Tuple[str, ...]:
        """Returns the names of all vertices in the version's order, also of those whose edges are all removed.

        >>> session.vertices()
        ('kassel', 'fulda', 'hanau', 'bonn')
        """
        self._must_be_open()
        return self._all_names()

    def kinds(self) -> Tuple[str, ...]:
        """Returns the kinds that edges have or had.

        >>> session.kinds()
        ('road', 'rail')
        """
        self._must_be_open()
        return self._all_kinds()

    def has_vertex(self, name: str) -> bool:
        """Whether the version has a vertex of this name.

        >>> session.has_vertex("ulm")
        False
        """
        with suppress(NoVertex, BadName):
            self.out_edges(name)
            return True
        return False

    def has_edge(self, kind: str, source: str, target: str) -> bool:
        """Whether the version has the edge; `False` also if it doesn't have one of the names.

        >>> session.has_edge("road", "kassel", "fulda")
        True
        """
        try:
            return self._some_edges([(kind, source, target)], None) != [None]
        except BadName:
            return False

    @property
    def edge_count(self) -> int:
        """The number of edges.

        >>> session.edge_count
        4
        """
        return sum(self._held.degrees(Scope())[0])

    def save(self, path: Path) -> Saved:
        """Writes the version to one file, from which `Store.restore` makes a store.

        >>> session.save("roads.csv.gz").edges
        4

        The file has everything that answers depend on, with the store's units and names, but neither pending operations nor other
        versions. The end of its name chooses a compression: .gz, .xz, .bz2, or .zst with the package zstandard. Up to 999,999
        records it is a script for `stinger run`, with two records for an edge whose times differ, for a name without an edge in
        its place, and for each batch.

        The file is written under another name and renamed when it is whole and on the disk: an error, an interrupt or a crash
        leaves what was there, a killed process perhaps a file that ends in .part. Links and a file's rights stay. Raises
        `OSError` if it can't be written, and `Missing` if nothing here compresses it."""
        from .saving import save
        return save(self, path)

    def close(self) -> None:
        """Ends the session, so that collections may free the blocks of its version.

        >>> session.close()
        >>> session.is_open
        False
        """
        self._read = None
        if not self.store._engine.is_elsewhere and not self.store.is_closed:
            self._held.close()

    def __enter__(self) -> Session[W, T]:
        return self

    def __exit__(self, *_: object) -> None:
        self.close()

    def _repr_html_(self) -> str:
        told: Dict[str, object] = {"state": "closed"}
        with suppress(SessionClosed):
            self._must_be_open()
            told = {"vertices": self.vertex_count, "edges": self.edge_count, "kinds": ", ".join(self._all_kinds())}
        return shown_as_html(f"Session of version {self.version}", told)

    def __repr__(self) -> str:
        return f"<Session of version {self.version} in slot {self._slot}: {'open' if self.is_open else 'closed'}>"
