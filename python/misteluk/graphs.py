"""A held version as a graph of networkx, which is read as far as somebody asks."""
from __future__ import annotations

from copy import copy, deepcopy
from dataclasses import replace
from itertools import repeat
from typing import TYPE_CHECKING, Any, Dict, ItemsView, Iterator, Mapping, Optional, Tuple, ValuesView

import networkx
from networkx.classes.function import frozen

from .engine.protocol import Arrays, Scope, must_have_kind
from .values.adjacency import Row, adjacency, filled, put
from .values.edges import Edges
from .values.units import Moment

if TYPE_CHECKING:
    from .session import Session

# A kind and two times, as a user gives them.
Window = Tuple[Optional[str], Moment, Moment]

# Of how many names, or of which part of all, edges are read one by one: then all edges at once take less time.
FEW, PART = 64, 16


class Frozen(Row):
    """What graphs of networkx have in dicts, and nobody can change here."""

    __slots__ = ()
    __setitem__ = __delitem__ = __ior__ = clear = pop = popitem = setdefault = update = frozen

    def __reduce__(self) -> Any:
        """What pickles it: a plain dict, which a deep copy is too."""
        return dict, (dict(self),)

    def __deepcopy__(self, known: Any) -> Row:
        return {key: deepcopy(it, known) for key, it in self.items()}


NOTHING = Frozen()


class Read:
    """The edges of a version that count, as far as they were read: the names, and by name the edges out and in. `window` is the
    kind, since and until, as a session takes them."""

    def __init__(self, session: Session[Any, Any], scope: Scope, window: Window) -> None:
        self.session, self.scope, self.window, self._held = session, scope, window, session._held
        self.by_kind = scope.kind is None and len(session.kinds()) > 1
        self._nodes = dict.fromkeys(session.vertices(), NOTHING)
        self._rows: Tuple[Dict[str, Row], Dict[str, Row]] = {}, {}
        self._is_whole, self._left = False, max(FEW, len(self._nodes) // PART)

    def nodes(self) -> Dict[str, Frozen]:
        """The names, which have no attributes. Raises `SessionClosed` once the session is closed, as all that reads here does."""
        if not self._held.is_open:
            self.session._must_be_open()
        return self._nodes

    def row(self, side: int, name: str) -> Row:
        """The edges out of a name (side 0) or into it (1). Raises `KeyError` for what is none."""
        nodes, rows = self.nodes(), self._rows[side]
        found = rows.get(name)
        if found is None:
            if name not in nodes:
                raise KeyError(name)
            self._left -= 1
            found = self.whole()[side][name] if self._left < 0 else rows.setdefault(name, self._one(side, name))
        return found

    def _one(self, side: int, name: str) -> Row:
        call = self._held.into if side else self._held.out_of
        edges = self._edges(call(self.scope, self.session._terms.asked(name)))
        others, row = edges.source if side else edges.target, Frozen()
        put(repeat(row), list(map(edges.names.__getitem__, others)), edges, self.by_kind, Frozen)
        return row

    def whole(self) -> Tuple[Dict[str, Row], Dict[str, Row]]:
        """All rows, each in the order of the version."""
        self.nodes()
        if not self._is_whole:
            self._rows, self._is_whole = adjacency(self.edges(), self.by_kind, Frozen), True
        return self._rows

    def edges(self) -> Edges[Any, Any]:
        """All edges."""
        return self._edges(self._held.edges(self.scope))

    def _edges(self, found: Arrays) -> Edges[Any, Any]:
        """Edges with weights that algorithms can reckon with: whole numbers as they are, and others as floats."""
        edges = self.session._edges(found)
        return Edges(edges.kinds, edges.names, replace(edges.units, decimals="float"), found)

    def count(self) -> int:
        return sum(self._held.degrees(self.scope)[0])


class Nodes(Mapping[str, Row]):
    """What networkx has of nodes by name, while the session is open."""

    def __init__(self, read: Read) -> None:
        self._read = read

    def __getitem__(self, name: str) -> Row:
        return self._read.nodes()[name]

    def __contains__(self, name: object) -> bool:
        return name in self._read.nodes()

    def __iter__(self) -> Iterator[str]:
        return iter(self._read.nodes())

    def __len__(self) -> int:
        return len(self._read.nodes())

    def __reduce__(self) -> Any:
        return dict, (dict(self.items()),)


class Rows(Nodes):
    """What networkx has of edges by name: each row is read when it is asked for, and all at once for who goes through them."""

    def __init__(self, read: Read, side: int) -> None:
        super().__init__(read)
        self._side = side

    def __getitem__(self, name: str) -> Row:
        return self._read.row(self._side, name)

    def items(self) -> ItemsView[str, Row]:
        return self._read.whole()[self._side].items()

    def values(self) -> ValuesView[Row]:
        return self._read.whole()[self._side].values()


class _HeldGraph:
    """What graphs of a version have in place of networkx's own. Whatever networkx makes by the class of such a graph, as copies
    and subgraphs, is its own."""

    _plain: Any = None
    _read: Read
    graph: Dict[str, Any]

    def __new__(cls, *given: Any, **attributes: Any) -> Any:
        return cls._plain(*given, **attributes)

    @classmethod
    def _of(cls, read: Read) -> Any:
        graph: Any = object.__new__(cls)
        cls._plain.__init__(graph, version=read.session.version)
        graph._read, graph._node = read, Nodes(read)
        graph._adj = graph._succ = Rows(read, 0)
        graph._pred = Rows(read, 1)
        graph.__networkx_cache__ = None  # (so networkx keeps nothing of what a backend makes of it, and doesn't warn of that)
        return networkx.freeze(graph)

    @property
    def adj(self) -> Any:
        """The edges out of each name. (networkx would take a closed session for no graph, where it makes one of this.)"""
        self._read.nodes()
        return self._plain.adj.__get__(self)

    def copy(self, as_view: bool = False) -> Any:
        """Returns a graph of networkx's own class that has all edges, and can be changed; with `as_view` what networkx gives."""
        if as_view:
            return self._plain.copy(self, as_view=True)
        made = self._plain()
        made.graph.update(self.graph)
        return filled(made, self._read.edges(), self._read.by_kind)

    def __reduce__(self) -> Any:
        return copy, (self.copy(),)

    def size(self, weight: Any = None) -> Any:
        """Returns how many edges there are, without reading them, or the sum of an attribute."""
        return self._read.count() if weight is None else self._plain.size(self, weight)


class HeldDiGraph(_HeldGraph, networkx.DiGraph):  # type: ignore[misc]
    _plain = networkx.DiGraph


class HeldMultiDiGraph(_HeldGraph, networkx.MultiDiGraph):  # type: ignore[misc]
    _plain = networkx.MultiDiGraph


def held_read(graph: Any) -> Optional[Read]:
    """What a graph of a version reads from; of any other nothing."""
    return graph._read if isinstance(graph, _HeldGraph) else None


def graph_of(session: Session[Any, Any], scope: Scope, window: Window) -> Any:
    """A graph of a version, whose session keeps what is read. Raises `Denied` for a kind that the version doesn't have."""
    must_have_kind(session._held, scope.kind)
    read = session._read
    if read is None or read.scope != scope:
        read = session._read = Read(type(session)(session.store, session._held), scope, window)
    return (HeldMultiDiGraph if read.by_kind else HeldDiGraph)._of(read)
