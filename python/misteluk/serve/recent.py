"""Which vertices the last batches touched, for those who hear of each version: those that the rows of the batches name."""
from __future__ import annotations

import threading
from collections import deque
from itertools import chain
from typing import Any, Callable, Deque, Dict, Iterable, List, NamedTuple, Optional, Tuple

from ..engine.operations import Operations
from ..journal.engine import Journaled
from ..journal.scripts import operations_of
from ..store import Store

# How many names the batches have together at most that are known, and how many are told at once.
MOST_KEPT, MOST_TOLD = 1 << 18, 1_000
Named = Callable[[], Iterable[str]]


class Known(NamedTuple):
    """A version as a reader knows it: its number, and the mark of the store that had it."""

    mark: str
    version: int

    @staticmethod
    def read(text: str) -> "Optional[Known]":
        """What an event's id says; `None` where it is none."""
        mark, _, number = text.partition(":")
        is_number = number.isascii() and number.isdigit() and len(number) < 19
        return Known(mark, int(number)) if mark and is_number else None

    def written(self) -> str:
        return f"{self.mark}:{self.version}"


class Recent:
    """What the last batches of a store touched. Who knows a version by this run of the server, or by what a store's file has of
    it, is told what came behind it, also after a restart; nobody is told less than that as if it were all."""

    def __init__(self, store: "Store[Any, Any]") -> None:
        self._store, self._engine, self._lock = store, store._engine, threading.Lock()
        # The versions' batches, by what tells their names, and how many these may be.
        self._batches: Dict[int, Named] = {}
        self._sizes: Deque[Tuple[int, int]] = deque()
        self._size = 0
        # What was told last, of which versions; and the last version's mark.
        self._told: Tuple[Tuple[int, int], Optional[Dict[str, Any]]] = (-1, -1), None
        self._mark: Tuple[int, str] = -1, ""

    def note(self, version: int, operations: Operations) -> None:
        """Notes the batch that made a version."""
        self._note(version, 2 * operations.size, operations.names_of_vertices())

    def note_records(self, version: int, count: int, records: bytes) -> None:
        """Notes a batch of so many operations by its records."""
        self._note(version, 2 * count, lambda: operations_of([records]).vertices())

    def _note(self, version: int, size: int, named: Named) -> None:
        with self._lock:
            self._batches[version] = named
            self._sizes.append((version, size))
            self._size += size
            while self._size > MOST_KEPT and len(self._sizes) > 1:
                first, size = self._sizes.popleft()
                self._batches.pop(first, None)
                self._size -= size

    def mark_of(self, version: int, run: str) -> str:
        """By which mark a version is known: by the sum of its batch where a store's file has it, else by the server's run."""
        if not isinstance(self._engine, Journaled):
            return run
        found = self._mark  # (which another thread may put another in the place of)
        if found[0] != version:
            self._mark = found = version, self._engine.sum_of(version) or run
        return found[1]

    def is_known(self, known: Optional[Known], run: str) -> bool:
        """Whether the version that a reader knows is one of this store."""
        if known is None:
            return False
        is_of_file = isinstance(self._engine, Journaled) and known.mark == self._engine.sum_of(known.version)
        return is_of_file or known.mark == run

    def since(self, after: int, version: int) -> Optional[Dict[str, Any]]:
        """What the batches behind a version touched, up to another one, as JSON: the names, or where they are too many only how
        many. `None` where that isn't known."""
        told = self._told  # (as above)
        if told[0] != (after, version):
            found = self._named(after, version)
            names = None if found is None else list(dict.fromkeys(chain.from_iterable(it() for it in found)))
            self._told = told = (after, version), self._as_json(after, names)
        return told[1]

    def _as_json(self, after: int, names: Optional[List[str]]) -> Optional[Dict[str, Any]]:
        if names is None:
            return None
        told = {"names": self._store._ledger.terms.names.all_to_user(names)} if len(names) <= MOST_TOLD else {}
        return {"after": after, "count": len(names), **told}

    def _named(self, after: int, version: int) -> Optional[List[Named]]:
        """What tells the names of each of these batches; `None` where one of them is missing."""
        if after > version:
            return None
        with self._lock:
            is_there = version - after <= len(self._batches)
            found = [self._batches[it] for it in range(after + 1, version + 1) if it in self._batches] if is_there else []
        if len(found) == version - after:
            return found
        rows = self._engine.some_rows(after, version) if isinstance(self._engine, Journaled) else []
        if len(rows) < version - after:
            return None
        return [operations_of([it.records]).vertices for it in rows]
