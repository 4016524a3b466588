"""Components that are kept from version to version.

They are trees of vertices, joined along each edge that a batch names, with the least vertex of a tree at its root (Tarjan,
Efficiency of a good but not linear set union algorithm, 1975). Trees can't be parted: once an edge is gone, the library labels
the last version as a whole. Ediger, McColl, Riedy and Bader ask for such components (STINGER: high performance data structure
for streaming graphs, HPEC 2012).
"""
from __future__ import annotations

import threading
from array import array
from operator import eq
from types import TracebackType
from typing import TYPE_CHECKING, Any, Dict, Iterable, List, Optional, Set, Tuple, Type

from .engine.guard import Guard, Uncopied, alone, noting
from .engine.news import News
from .engine.protocol import SERVED, WHOLE, Denied
from .errors import NoVertex, SessionClosed, StoreError
from .session import Session
from .values.answers import Components
from .values.names import Called, must_be_texts

if TYPE_CHECKING:
    from .engine.held import LibraryVersion
    from .store import Store


class Trees:
    """The components of a version: a vertex's parent is no greater than itself, and a root is its own."""

    def __init__(self, held: LibraryVersion) -> None:
        self.parents = held.labels(WHOLE)[:]
        self.count: int = sum(map(eq, self.parents, range(held.count)))
        self.numbers: Dict[str, int] = {}
        self._take(held)

    def _take(self, held: LibraryVersion) -> None:
        """Takes a version, whose first names are those that it had before."""
        self.held, self.names, known = held, held.known_names(), len(self.numbers)
        self.numbers.update(zip(self.names[known:held.count], range(known, held.count)))

    def root(self, vertex: int) -> int:
        """The label of a vertex. Each vertex on the way there is put below its parent's parent."""
        parents = self.parents
        while parents[vertex] != vertex:
            above = parents[parents[vertex]]
            parents[vertex] = above
            vertex = above
        return vertex

    def grow(self, held: LibraryVersion, ends: Iterable[Tuple[str, str]]) -> List[int]:
        """Becomes those of a later version, which has these edges and those of before, and gives the roots that are none any
        more: of two roots the greater one is put below the lesser."""
        joined, parents = [], self.parents
        self._take(held)
        self.count += held.count - len(parents)
        parents.extend(range(len(parents), held.count))
        for source, target in ends:
            one, other = self.numbers[source], self.numbers[target]
            if parents[one] != parents[other]:
                least, greatest = sorted((self.root(one), self.root(other)))
                if least != greatest:
                    parents[greatest] = least
                    joined.append(greatest)
        self.count -= len(joined)
        return joined

    def labels(self) -> "array[int]":
        """The label of each vertex, after each vertex was put right below its root."""
        for vertex, parent in enumerate(self.parents):
            self.parents[vertex] = self.parents[parent]
        return self.parents[:]


class LiveComponents(Uncopied):
    """The components of a store's last version, which `update` brings up to date at the cost of what is new.

    >>> live = LiveComponents(store)
    >>> loaded = store.load([("trier", "metz"), ("metz", "nancy")], by="set")
    >>> live.count, live.update(), live.count, live["nancy"]
    (1, {}, 2, 'trier')

    Each answer is that of `Session.components` for the same `version`; so all kinds count, and a label is the first vertex of
    its component. Only `update` goes on to a later version. It goes through the operations since then, but through all edges if
    one of those removed or expired an edge, or overflowed a weight, if there are more than 16,384, or if the store started over.

    It holds its version as a session does, but takes no seat. Close it, or use it in a `with`. Several threads may use it.
    `StoreError`: the store is a server's."""

    _is_closed = False

    def __init__(self, store: Store[Any, Any]) -> None:
        if store._engine.name == SERVED:
            raise StoreError("a server's store keeps no components: ask its sessions for them")
        engine: Any = store._engine
        self._store, self._engine, self._guard, self._news = store, engine, Guard(), News()
        self._trees: Optional[Trees] = None
        # The threads whose last update didn't end, so that what it joined wasn't told.
        self._untold: Set[int] = set()
        engine.listen(self._news)
        self.update()

    def update(self) -> Optional[Dict[str, str]]:
        """Takes the last version. Returns the components that were joined since the version before: for each label that is none
        any more the label in its place. `None` says that components may have been parted, or that this isn't known.

        >>> store.insert("rail", "nancy", "bonn")
        >>> done = store.commit()
        >>> live.update(), live.count
        ({'trier': 'kassel'}, 1)

        After one that ended in an error or an interrupt, the next one returns `None`."""
        thread = threading.get_ident()
        joined = self._updated(thread)
        told = noting(self._untold.discard, thread)
        None in told
        return joined

    @alone
    def _updated(self, thread: int) -> Optional[Dict[str, str]]:
        if self._is_closed:
            raise SessionClosed("the components are closed")
        is_known = thread not in self._untold
        self._untold.add(thread)
        self._store._ledger.settle()
        trees, held, before = self._trees, self._engine.hold_apart(), 0
        ends = None if trees is None else self._news.since(trees.held, held)
        joined: List[int] = []
        if trees is None or ends is None:
            trees, is_known = Trees(held), False
        else:
            before, self._trees = trees.held.count, None  # (what is broken off here is of no version)
            joined = trees.grow(held, ends)
        self._trees = trees
        return {self._name(it): self._name(trees.root(it)) for it in joined if it < before} if is_known else None

    def _asked(self) -> Trees:
        trees = self._trees
        if trees is None:
            raise StoreError("an update was broken off: update() takes the last version again")
        if not trees.held.is_open:
            raise SessionClosed(f"the components of version {trees.held.number} are closed")
        return trees

    def _root(self, name: str) -> int:
        must_be_texts((name,))
        trees, terms = self._asked(), self._store._ledger.terms
        number = trees.numbers.get(terms.asked(name))
        if number is None:
            raise terms.denied(Denied(NoVertex.word), f"components[{name!r}]")
        return trees.root(number)

    def _name(self, vertex: int) -> str:
        return self._store._ledger.terms.names.to_user(self._asked().names[vertex])

    @property
    def version(self) -> int:
        """The number of the version.

        >>> live.version == store.stat().version
        True
        """
        return self._asked().held.number

    @property
    def count(self) -> int:
        """How many components there are. A vertex without an edge is one.

        >>> live.count
        2
        """
        return self._asked().count

    @alone
    def __getitem__(self, name: str) -> str:
        """The label of a vertex's component. Raises `NoVertex`."""
        return self._name(self._root(name))

    @alone
    def same(self, first: str, second: str) -> bool:
        """Whether two vertices are in one component. Raises `NoVertex`.

        >>> live.same("nancy", "kassel")
        False
        """
        return self._root(first) == self._root(second)

    @alone
    def table(self) -> Components:
        """Returns the table that `Session.components` gives of the version, which costs a look at each vertex.

        >>> live.table().top()
        [('kassel', 4), ('trier', 3)]
        """
        trees = self._asked()
        return Session(self._store, trees.held)._components(trees.labels(), Called("components"))

    def close(self) -> None:
        """Lets the version go.

        >>> live.close()
        """
        self._is_closed = True
        if self._trees is not None and not (self._engine.is_elsewhere or self._store.is_closed):
            self._trees.held.close()

    def __enter__(self) -> LiveComponents:
        return self

    def __exit__(self, kind: Optional[Type[BaseException]], fault: Optional[BaseException],
                 trace: Optional[TracebackType]) -> None:
        self.close()

    def __repr__(self) -> str:
        trees = self._trees
        told = "closed" if trees is None or not trees.held.is_open else f"{trees.count} of version {trees.held.number}"
        return f"<LiveComponents: {told}>"
