"""A session for those who await: each call is made in a thread."""
from __future__ import annotations

import asyncio
import functools
from types import TracebackType
from typing import Any, Awaitable, Callable, Generic, List, Optional, Type, TypeVar

from .client import connect
from ..session import Session
from ..values.answers import T, W

R = TypeVar("R")


class AsyncSession(Generic[W, T]):
    """A session whose calls are awaited: those of `Session`, with the same arguments, each made in a thread.

    >>> import asyncio
    >>> awaited = AsyncSession(session)
    >>> asyncio.run(awaited.path("kassel", "bonn"))
    ['kassel', 'hanau', 'bonn']

    `session` is the session that answers, and `version` the number of its version. An `async with` closes it at the end."""

    def __init__(self, session: Session[W, T]) -> None:
        self.session, self.version = session, session.version
        self._close: Callable[[], None] = session.close

    @classmethod
    async def connect(cls, url: str, *, version: Optional[int] = None, **options: Any) -> AsyncSession[Any, Any]:
        """Returns a session of a server's last version, or of one with this number that another session holds.

        `url` and the options are those of `misteluk.connect`. The connection ends with the session.

        >>> async def count() -> int:
        ...     async with await AsyncSession.connect("http://127.0.0.1:7700") as session:
        ...         return len(await session.edges())
        >>> asyncio.run(count())
        4
        """
        return await asyncio.to_thread(cls._connected, url, version, options)

    @classmethod
    def _connected(cls, url: str, version: Optional[int], options: Any) -> AsyncSession[Any, Any]:
        store = connect(url, **options)
        try:
            found = cls(store.open(version))
        except BaseException:
            store.close()
            raise
        found._close = store.close
        return found

    @property
    def edge_count(self) -> Awaitable[int]:
        """The number of edges, which is awaited as calls are: it may ask a server.

        >>> async def counted() -> int:
        ...     return await awaited.edge_count
        >>> asyncio.run(counted())
        4
        """
        return self.ask(getattr, self.session, "edge_count")

    async def ask(self, call: Callable[..., R], *given: Any, **named: Any) -> R:
        """Returns what any call gives, made in a thread. An `AsyncSession` among its arguments stands for its `session`.

        >>> asyncio.run(awaited.ask(view, awaited, "bonn", hops=1))
        <View of bonn, 1 hop, version 1: 2 vertices; 1 edge>
        """
        return await asyncio.to_thread(call, *(it.session if isinstance(it, AsyncSession) else it for it in given), **named)

    def __getattr__(self, name: str) -> Any:
        if name.startswith("_") or name == "session":
            raise AttributeError(name)
        found = getattr(self.session, name)
        return functools.wraps(found)(functools.partial(self.ask, found)) if callable(found) else found

    def __dir__(self) -> List[str]:
        return sorted({*super().__dir__(), *(it for it in dir(self.session) if not it.startswith("_"))})

    async def __aenter__(self) -> AsyncSession[W, T]:
        return self

    async def __aexit__(self, kind: Optional[Type[BaseException]], fault: Optional[BaseException],
                        trace: Optional[TracebackType]) -> None:
        await self.ask(self._close)

    def __repr__(self) -> str:
        return f"<Async {self.session!r}>"
