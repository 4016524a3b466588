"""Compaction beside the feed, by itself: when it is due, and what became of it."""
from __future__ import annotations

import threading
import time
from contextlib import suppress
from datetime import timedelta
from typing import Callable, Optional

from .compaction import FileCompacted, Ended, History
from ..errors import JournalError

# A base is due behind so many operations, or as many as the last version has edges, where these are more: so no operation costs
# more than the writing of an edge, and an opening replays no more than that. With a history that is a length of time one is also
# due behind each part of it.
LEAST_OPERATIONS, PARTS, LEAST_SECONDS = 250_000, 4, 60.0


class Beside:
    """Compacts a store's file in a thread of its own, as often as that is due: `grew` is called behind each batch. `last` is what
    was done last, and `fault` why the last one wasn't, which is tried again when the next one is due."""

    def __init__(self, compact: Callable[[History], FileCompacted], edges: Callable[[], int], history: History, since: float,
                 behind: int) -> None:
        self._compact, self._edges, self.history = compact, edges, history
        # How many operations came behind the last base, and when that was written.
        self._behind, self._since = behind, since
        self._thread: Optional[threading.Thread] = None
        self.last: Optional[FileCompacted] = None
        self.fault: Optional[JournalError] = None

    def grew(self, operations: int) -> None:
        """Takes in that a batch of so many operations is in."""
        self._behind += operations
        if self._is_due() and (self._thread is None or not self._thread.is_alive()):
            self._behind, self._since = 0, time.time()
            self._thread = threading.Thread(target=self._run, name="compaction", daemon=True)
            self._thread.start()

    def _is_due(self) -> bool:
        if self._behind >= LEAST_OPERATIONS and self._behind >= self._edges():
            return True
        if not isinstance(self.history, timedelta) or not self._behind:
            return False
        return time.time() - self._since >= max(self.history.total_seconds() / PARTS, LEAST_SECONDS)

    def _run(self) -> None:
        with suppress(Ended):
            try:
                self.last, self.fault = self._compact(self.history), None
            except JournalError as fault:
                import logging  # (here, since few programs need it)
                self.fault = fault
                logging.getLogger("misteluk.journal").warning(f"the store's file isn't compacted: {fault}")

    def join(self) -> None:
        """Waits for one that is under way."""
        if self._thread is not None:
            self._thread.join()
