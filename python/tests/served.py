"""Stores over a server, for tests that are of any engine: each store is a client's, of a server of its own in this process."""
from __future__ import annotations

from typing import Any, Optional
from unittest import mock

import misteluk.engine.openings  # noqa: F401  (these two have the library's engine from here on)
import misteluk.journal.engine  # noqa: F401
import misteluk.store
from misteluk import Store
from misteluk.engine import library
from misteluk.engine.library import LibraryEngine
from misteluk.engine.protocol import Engine
from misteluk.ledger import Ledger
from misteluk.serve.client import ServedEngine
from misteluk.serve.limits import ServerLimits
from misteluk.serve.server import Server
from misteluk.serve.talk import Talk


# Tests of what a server's clients can't do, as to begin a store anew, or do otherwise: its seats are the server's.
NOT_SERVED = ("Stores.test_a_store_begins_anew", "Stores.test_arguments", "Stores.test_collect", "Stores.test_seats",
              "Stores.test_operations", "Stores.test_what_a_compaction_tells")


class Own(ServedEngine):
    """An engine that a server of its own has, which ends with it."""

    def __init__(self, server: Server) -> None:
        self.server = server
        super().__init__(Talk(server.url))

    def close(self) -> None:
        if not self.is_closed:
            super().close()
            self.server.stop()
            self.server.store.close()


def made(blocks: Optional[int], seats: int, endless: bool, limits: "misteluk.Limits") -> Engine:
    """As `LibraryEngine`, but that a server has the store."""
    with mock.patch.object(library, "LibraryEngine", LibraryEngine):
        store = Store(blocks=blocks, seats=16, endless=endless, limits=limits)
    server = Server(store, "127.0.0.1:0", limits=ServerLimits(idle=600))
    own = Own(server.start())
    own.seats = seats
    return own


def ledger_of(engine: Any, *given: Any) -> Ledger:
    ledger = Ledger(engine, *given)
    ledger.terms.names = getattr(engine, "names", ledger.terms.names)
    return ledger


def serve_all() -> None:
    """From here on each store is a server's."""
    library.LibraryEngine = made  # type: ignore[misc, assignment]
    misteluk.store.Ledger = ledger_of  # type: ignore[misc, assignment]
