"""Whether a server is as it should be, and its numbers: for those who watch it."""
from __future__ import annotations

import resource
from typing import TYPE_CHECKING, Any, Dict, Iterator, List, Optional

from .board import Board
from .door import Door
from .feeding import Feeding
from .keeping import Keeper
from .metrics import Counts, Number, gauge, of_numbers
from ..journal.engine import Journaled
from ..version import VERSION


if TYPE_CHECKING:
    from .replica import Replica


class Health:
    """A server's health, by what it consists of."""

    def __init__(self, board: Board, feeding: Feeding, keeper: Optional[Keeper], counts: Counts, door: Door,
                 replica: "Optional[Replica]" = None) -> None:
        self.replica = replica
        self._board, self._feeding, self._keeper, self._counts, self._door = board, feeding, keeper, counts, door

    def faults(self) -> List[str]:
        """Why it isn't ready to be asked; nothing where it is."""
        feeding, keeper = self._feeding, self._keeper
        return [*(["the first, whose replica this is, can't be read"] if self.replica is not None and self.replica.fault else []),
                *(["the store's file takes nothing more until the server is started again"] if feeding.store._engine.has_ended
                  else []),
                *(["the feed failed"] if feeding.state == "failed" else []),
                *(["the feed's file is still read for the first time"] if feeding.is_reading else []),
                *(["a save is late, or failed"] if keeper is not None and keeper.is_late else [])]

    def of_file(self) -> Optional[Dict[str, Any]]:
        """What the store's file has: the oldest version and how many bytes, of which version the last base is that was made
        beside the feed, and why one couldn't be made; nothing where there is no file."""
        store = self._feeding.store
        if not isinstance(store._engine, Journaled):
            return None
        kept = store.file.kept
        return {"oldest": kept.oldest, "bytes": kept.bytes,
                **({} if kept.compacted is None else {"base": kept.compacted.version}),
                **({} if kept.fault is None else {"fault": type(kept.fault).__name__})}

    def text(self) -> str:
        """Its numbers, in the text form of Prometheus."""
        return "".join([*of_numbers([*self._of_store(), *self._of_feed(), *self._of_save(), *self._of_process()]),
                        *self._counts.text()])

    def _of_store(self) -> Iterator[Number]:
        stat, held = self._board.stat, self._board.held()
        yield gauge("version", "The number of the last version.", stat.version)
        yield gauge("vertices", "Names of the last version.", stat.vertices)
        yield gauge("edges", "Edges of the last version.", stat.edges)
        if self.replica is not None:
            told = self.replica.told()
            yield gauge("replica_behind_versions", "Versions of the first that aren't here yet.", told["behind"])
            yield gauge("replica_behind_seconds", "For how long the oldest of them is there.", told["seconds"])
        file = self.of_file()
        if file is not None:
            yield gauge("file_bytes", "Bytes of the store's file.", file["bytes"])
            yield gauge("file_oldest_version", "The oldest version that it has.", file["oldest"])
        yield gauge("versions_held", "Versions that clients hold.", sum(it.clients > 0 for it in held))
        yield gauge("sessions", "Sessions of clients.", sum(it.clients for it in held))
        yield "blocks", "Blocks of the store, by what they are.", "gauge", [
            ({"state": state}, count) for state, count in (("used", stat.used), ("free", stat.free), ("retired", stat.retired))]

    def _of_feed(self) -> Iterator[Number]:
        told = self._feeding.told()
        yield gauge("rows_total", "Rows that came in.", told["rows"], "counter")
        yield gauge("bad_rows_total", "Rows of a followed feed that were passed over.", told["bad"], "counter")
        yield gauge("expired_edges_total", "Edges that expired.", told["expired"], "counter")
        yield gauge("behind_bytes", "Bytes of a followed file that weren't read yet.", told.get("behind"))
        yield gauge("feed_failed", "Whether the feed failed.", told["state"] == "failed")

    def _of_save(self) -> Iterator[Number]:
        if self._keeper is not None:
            told = self._keeper.told()
            yield gauge("saved_version", "The version that the file has.", told["version"])
            yield gauge("saved_age_seconds", "For how long it may not have been the last one.", told["seconds"])
            yield gauge("save_seconds", "How long the last save took.", self._keeper.took)
            yield gauge("save_failed", "Whether the last save failed.", "error" in told)

    def _of_process(self) -> Iterator[Number]:
        yield "info", "What runs.", "gauge", [({"version": VERSION}, 1)]
        yield gauge("memory_bytes", "Memory that the process has.", _memory())
        used = resource.getrusage(resource.RUSAGE_SELF)
        yield gauge("processor_seconds_total", "Time of processors.", used.ru_utime + used.ru_stime, "counter")
        yield gauge("connections", "Connections that are open.", self._door.count)
        yield gauge("connections_refused_total", "Connections that there was no room for.", self._door.refused, "counter")


def _memory() -> Optional[int]:
    try:
        with open("/proc/self/statm", encoding="ascii") as file:
            return int(file.read().split()[1]) * resource.getpagesize()
    except OSError:  # (no Linux)
        return None
