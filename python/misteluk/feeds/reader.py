"""A process that reads a feed for another one, which has the store: what `Apart` begins.

It does what `Following` does, but that each commit goes out as columns, which the other process has only to apply. It ends with
the feed; once the other one wants no more of it, when it sends what it has read; and at once where the other one is gone.
"""
from __future__ import annotations

import gc
import os
import pickle
import signal
import threading
import traceback
from itertools import islice
from typing import Any, Dict, List, NamedTuple, Optional, Tuple

from .following import Following, following_of
from .pipes import send
from .rejects import Lines
from .steps import FeedPlace, Recipe
from ..engine.operations import Operations, Row
from ..errors import StoreError
from ..values.answers import NOTHING, Commit
from ..values.names import NameTable
from ..values.parcels import packed
from .terms import Terms
from ..values.units import Units


# What is said to a reader.
AT_ONCE, AT_ITS_END = b"!", b"."


class Wanted(NamedTuple):
    """What is to be read, by its name and descriptor, and how; and how much of it is in by now."""

    name: str
    descriptor: int
    recipe: Recipe
    units: Units[Any, Any]
    place: FeedPlace

    def fileno(self) -> int:
        return self.descriptor


class Outbox:
    """What stands for the store here, and for its ledger: what is committed goes out."""

    def __init__(self, descriptor: int, names: NameTable) -> None:
        self._ledger = self
        self.kinds: Dict[str, None] = {}
        self.rows: List[Row] = []
        self.telling: Tuple[Commit, ...] = (NOTHING,)
        self.taken: List[Tuple[Commit, ...]] = []
        self._descriptor, self._names = descriptor, names
        self._kinds_sent = self._texts_sent = 0
        self._batch = Operations([])
        # From which line on what is sent next is, and rows that were skipped.
        self.first = 1
        self._skipped: List[Lines] = []
        # (who writes these knows how long their file is)
        self.size = 0

    def append(self, lines: Lines) -> None:
        """Has rows that were skipped go out with the next that does."""
        self._skipped.append(lines)

    def go_on(self, size: int) -> None:
        """Nothing: it was done there."""

    @property
    def pending(self) -> List[Row]:
        return self.rows

    def take_terms(self, terms: Terms) -> None:
        """Nothing: they were taken there."""

    def commit(self, collect: bool, batch: int, feed: Optional[str] = None) -> Commit:
        """Has what is pending go out with the step that it is of."""
        self._batch, self.rows = Operations(self.rows), []
        return NOTHING

    def _head(self, following: Following) -> Dict[str, Any]:
        """How far the feed is in, and what was skipped."""
        skipped, self._skipped = self._skipped, []
        lines = Lines(skipped[0].first, skipped[0].header, [row for it in skipped for row in it.rows]) if skipped else None
        place, first = following._place, self.first
        self.first = place.done + 1
        last_bad = None if following.last_bad is None else list(vars(following.last_bad).values())
        return {"place": place, "first": first, "last_bad": last_bad, "skipped": lines}

    def skip(self, following: Following) -> None:
        """Sends that rows were skipped, where no batch is there to be sent."""
        send(self._descriptor, packed((), **self._head(following)))

    def leave(self) -> None:
        """Sends that another file took the place of the one that is read."""
        send(self._descriptor, packed((), left=True))

    def send(self, following: Following) -> None:
        """Sends a batch with how far the feed is in by it, with the kinds and texts of ids that are new."""
        kinds = list(islice(self.kinds, self._kinds_sent, None))
        texts = self._names.since(self._texts_sent)
        self._kinds_sent, self._texts_sent = self._kinds_sent + len(kinds), self._texts_sent + len(texts)
        of = self._batch.columns
        columns: List[Any] = [*of.of_kinds.encoded, *of.of_names.encoded, *of[:6]]
        send(self._descriptor, packed(columns, **self._head(following), kinds=kinds, texts=texts))

    def end(self, **how: Any) -> None:
        """Sends the last that there is."""
        send(self._descriptor, packed((), **how))


def read(following: Following, outbox: Outbox) -> None:
    """Sends what a feed has, to its end or until it is stopped, and what ended it."""
    outbox.first = following._place.done + 1
    following.on_skipped, following.on_left = lambda: outbox.skip(following), outbox.leave
    try:
        for _ in following:
            outbox.send(following)
    except BrokenPipeError:  # (nobody wants it any more)
        raise
    except (StoreError, ValueError, OSError) as fault:
        outbox.end(word=getattr(fault, "word", "") or type(fault).__name__, text=str(fault))
    else:
        outbox.end(is_half=following._source.ended_half)


def run(following: Following, outbox: Outbox) -> None:
    status = 1
    try:
        read(following, outbox)
        status = 0
    except BrokenPipeError:
        pass
    except BaseException:
        traceback.print_exc()
    finally:
        os._exit(status)


def main(said: int, descriptor: int) -> None:
    """The process: what it is to read stands in what is said first. What is said behind that has it stop, or end where the file
    does; where nobody can say anything any more it ends at once. Signals are for the process that began it."""
    for it in (signal.SIGINT, signal.SIGTERM):
        signal.signal(it, signal.SIG_IGN)
    gc.set_threshold(100_000)  # (rows make no cycles, and it would look through them again and again)
    with open(said, "rb") as file:
        wanted: Wanted = pickle.load(file)
        names = NameTable()
        outbox: Any = Outbox(descriptor, names)
        following = following_of(outbox, wanted, wanted.recipe, Terms(names, wanted.units), False, outbox)
        following._pass_over(wanted.place)
        # (by a thread that no signal interrupts, whose steps take less time)
        threading.Thread(target=run, args=(following, outbox), daemon=True).start()
        for word in iter(lambda: file.read(1), b""):
            following._source.end() if word == AT_ITS_END else following.stop()
    os._exit(0)
