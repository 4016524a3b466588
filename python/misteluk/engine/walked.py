"""Walks over a version that a handle of the library holds."""
from __future__ import annotations

from array import array
from ctypes import c_uint64
from typing import TYPE_CHECKING, Any, Callable, List, Tuple

from . import interface
from .calling import Known, address, check, room
from .guard import Owned
from .interface import Code, Library
from .protocol import Scope
from ..errors import SessionClosed

if TYPE_CHECKING:
    from .held import Kept

# How many vertices a walk has room for at first: where it needs more, the call tells how much.
A_FEW = 4_096


class Walked:
    """What a version answers about walks, of which it has the handle that others are copied from, and how it is asked."""

    kept: "Kept"
    count: int
    number: int
    _library: Library
    _known: Known
    _first: Owned
    _ask: Callable[..., int]
    _view: Callable[[Scope], interface.View]
    _vertex: Callable[[str], int]

    def within(self, scope: Scope, source: str, steps: int, either: bool) -> "Tuple[array[int], array[int]]":
        view, begin = self._view(scope), array("I", (self._vertex(source),))
        way = interface.EITHER if either else interface.ALONG
        if either:
            self._index()
        most = min(steps, interface.ANY_STEPS)
        vertices, levels = self._grown(2, self._library.version_within, view, way, address(begin), 1, most)
        return vertices, levels

    def path(self, scope: Scope, source: str, target: str) -> "array[int]":
        view, ends = self._view(scope), (self._vertex(source), self._vertex(target))
        self._index()
        return self._grown(1, self._library.version_path, view, *ends)[0]

    def _grown(self, columns: int, call: Any, *given: Any) -> "List[array[int]]":
        """What a call writes into so many columns of vertices or levels, which have as much room as it needs."""
        size, count, code, found = min(self.count, A_FEW), c_uint64(), int(Code.BAD_LENGTH), [array("I")]
        while code == Code.BAD_LENGTH:
            found = [room("I", size) for _ in range(columns)]
            code = self._ask(call, *given, *(word for it in found for word in (address(it), size)), count)
            size = count.value
        check(code)
        return [it[:size] for it in found]

    def _index(self) -> None:
        """Has each handle that is copied from now on know the edges by their targets. Those of before go."""
        kept = self.kept
        if not kept.is_indexed:
            with self._known.lock:
                code = self._library.version_index(self._first.raw)
            if code == Code.NO_HANDLE:  # (another thread closed it)
                raise SessionClosed(f"the session of version {self.number} is closed")
            check(code)
            kept.idle, kept.is_indexed = [], True
