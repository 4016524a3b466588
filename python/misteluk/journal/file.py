"""A store's file, as the store's user has it."""
from __future__ import annotations

from dataclasses import dataclass
from typing import Optional

from .compaction import FileCompacted, History, checked
from .engine import Journaled
from ..engine.operations import Post
from ..engine.protocol import SERVED, Engine
from ..errors import StoreError


@dataclass(frozen=True)
class Recovered:
    """What an opening found in a file: the version, the base that it began with, and what came after that.

    >>> with Store("roads.db") as kept:
    ...     kept.file.recovered
    Recovered(version=0, base=0, batches=0, operations=0)

    `base` is 0 if it began with the first batch; `batches` with `operations` came after it."""

    version: int
    base: int
    batches: int
    operations: int


@dataclass(frozen=True)
class Kept:
    """What a file has: the oldest version that it still has and the last one, and how many bytes it takes.

    >>> with Store("roads.db") as kept:
    ...     kept.insert("road", "kassel", "fulda", 105)
    ...     done = kept.commit()
    ...     kept.file.kept.newest
    1

    `compacted` is what the last compaction made next to commits did, and `fault` why one failed, as on a full disk; it is tried
    again."""

    oldest: int
    newest: int
    bytes: int
    compacted: Optional[FileCompacted]
    fault: Optional[StoreError]


class StoreFile:
    """The file of a store (`Store.file`).

    >>> kept = Store("roads.db")
    >>> done = kept.load(roads, by="set")
    >>> kept.file.kept.newest
    1

    Without a file `Store.file` raises `StoreError`."""

    def __init__(self, engine: Engine) -> None:
        if not isinstance(engine, Journaled):
            raise StoreError("a server's store has its file there: what is posted to /v1/rows with the header Idempotency-Key is "
                             "applied once" if engine.name == SERVED else
                             "the store has no file: Store(path) makes one that has")
        self._engine = engine

    @property
    def path(self) -> str:
        """The file's path, absolute and without links.

        >>> kept.file.path.endswith("roads.db")
        True
        """
        return self._engine.place

    @property
    def recovered(self) -> Recovered:
        """What the opening found in the file.

        >>> kept.file.recovered.version
        0
        """
        return Recovered(*self._engine.recovered)

    @property
    def kept(self) -> Kept:
        """What the file has now, and what its last compaction did.

        >>> kept.file.kept.bytes > 0
        True
        """
        beside = self._engine.beside
        return Kept(self._engine.oldest, self._engine.state.version, self._engine.size, beside.last, beside.fault)

    def compact(self, history: History = None) -> FileCompacted:
        """Writes the last version as a base, with which the next opening begins, and drops what is older than `history`.

        >>> kept.file.compact().version
        1

        `history` says what `Store.at` can still read: how many last versions, or of how long ago (a `timedelta`); without it
        everything. Other threads commit and ask meanwhile. An interrupt, or `NotWritten` on a full disk, leaves what was there. A
        store does this by itself too, with the history that it was opened with."""
        return self._engine.compact(checked(history))

    def last_sequence(self, producer: str) -> Optional[int]:
        """Returns the number of a producer's last batch (see `Store.commit`), also after a restart; `None` if it has sent none.

        >>> done = kept.commit(producer="sensor", sequence=7)
        >>> kept.file.last_sequence("sensor")
        7
        """
        return self._engine.last_sequence(producer)

    @staticmethod
    def _post(producer: Optional[str], sequence: Optional[int]) -> Post:
        """Whose batch a commit is. Raises `ValueError` where only one of the two is said, or isn't one."""
        return Post(producer or "", -1 if sequence is None else sequence).checked()
