"""One of many graphs: a store that dask, or what else calls functions in other processes, makes on a worker and asks there."""
from __future__ import annotations

import weakref
from collections.abc import Iterator
from typing import Any, Callable, Dict, Mapping, Optional, Tuple, Union

from .session import Session
from .store import Store

# What a block and a name with its numbers take in memory, about, in bytes.
BYTES_A_BLOCK, BYTES_A_NAME = 1_024, 100


class Part:
    """A store with the rows of one of many graphs and a session of it, which dask makes on a worker and asks there.

    >>> part = Part(roads, by="set")
    >>> part.session.vertex_count
    4
    >>> part.close()

    `data` and the options are those of `Store.load`, and `store` is a dict of those of `Store`. A part is pickled as these,
    without its graph: the process that gets it loads the rows again, and so may dask if a worker is lost (docs/PYTHON.md). Nobody
    may change its store, since `ask` asks the session that was opened after the load."""

    def __init__(self, data: Any, store: Optional[Mapping[str, Any]] = None, **load: Any) -> None:
        self._given: Tuple[Any, Optional[Mapping[str, Any]], Dict[str, Any]] = data, store, load
        made: Store[Any, Any] = Store(**(store or {}))
        self.close = weakref.finalize(self, made.close)
        try:
            load.setdefault("progress", False)
            self.loaded = made.load(data, **load)
            self.session: Session[Any, Any] = made.open()
        except BaseException:
            self.close()
            raise

    def ask(self, question: Union[str, Callable[..., Any]], *given: Any, **named: Any) -> Any:
        """Returns what a call of the session gives, named by a text, or a function of the session.

        Further arguments are passed on. An iterator comes as a list, which can be sent to another process.

        >>> part = Part(roads, by="set")
        >>> part.ask("edge", "rail", "kassel", "hanau").weight, part.ask(lambda session: session.edge_count)
        (210, 4)
        """
        if isinstance(question, str):
            answer = getattr(self.session, question)(*given, **named)
        else:
            answer = question(self.session, *given, **named)
        return list(answer) if isinstance(answer, Iterator) else answer

    def __sizeof__(self) -> int:
        """About how many bytes the store takes, by which dask knows when a worker's memory is full."""
        stat = self.session.store.stat()
        return stat.used * BYTES_A_BLOCK + stat.vertices * BYTES_A_NAME

    def __reduce__(self) -> Any:
        return _made, self._given

    def __repr__(self) -> str:
        return f"<Part of {self.loaded.survey}>"


def _made(data: Any, store: Optional[Mapping[str, Any]], load: Mapping[str, Any]) -> Part:
    return Part(data, store, **load)
