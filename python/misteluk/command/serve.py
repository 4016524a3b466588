"""`misteluk serve`: a live graph for one feed and many analysts."""
from __future__ import annotations

import argparse
import contextlib
import gc
import os
import signal
import sys
from typing import Any, Dict, Optional, Tuple

from ..engine.operations import Operations
from ..errors import StoreError
from ..feeds.feed import STANDARD_INPUT
from ..feeds.following import Following
from ..feeds.opening import form_of
from ..feeds.rotation import Succession
from ..feeds.steps import FeedMark
from ..serve import log
from ..serve.door import raise_descriptors
from ..serve.ending import Deadline
from ..serve.keeping import Keeper
from ..serve.limits import ROOM, ServerLimits, versions_by_memory
from ..serve.notify import Manager
from ..serve.people import People, people_of
from ..serve.replica import Replica
from ..serve.server import Server
from ..store import Store
from ..values.units import Units
from ..values import records

# What a file of SQLite begins with.
HEAD = b"SQLite format 3\0"
# How long one thread of the server may run before another has its turn, in seconds: a feed at full speed else has most of them.
TURN = 0.0005

# What a signal does while nothing else says so: a terminal that goes ends no server. (One that runs reads its people anew.)
SIGNALS: Dict[signal.Signals, Any] = {signal.SIGINT: signal.default_int_handler, signal.SIGTERM: signal.default_int_handler,
                                      signal.SIGHUP: signal.SIG_IGN}


def can_be_store(path: str) -> bool:
    """Whether a store's file is there, or could be made: what else is there is nobody's to write into."""
    try:
        with open(path, "rb") as file:
            return file.read(len(HEAD)) in (b"", HEAD)
    except OSError:
        return True


def take_files(words: argparse.Namespace) -> None:
    """Finds which file is the store's, and which the feed. Raises `ValueError` where they can't be."""
    if words.by is not None and words.file is None:
        words.path, words.file = None, words.path
    if words.replica_of is not None and (words.path, words.file, words.save, words.sync, words.history) != (None,) * 5:
        raise ValueError("--replica-of FILE is all that a replica is made of")
    if words.file is not None and words.by is None:
        raise ValueError("a feed wants --set or --add")
    if words.path is not None and words.save is not None:
        raise ValueError("a store's file has each batch: --save is for a store that is in memory alone")
    if words.path is not None and not can_be_store(words.path):
        raise ValueError(f"{words.path} isn't a store's file, and a feed wants --set or --add")
    if words.path is None and (words.sync is not None or words.history is not None):
        raise ValueError("--sync and --history are for a store's file, which is named first")


def serve(words: argparse.Namespace, how: Dict[str, Any]) -> int:
    """Serves a store until a signal ends it."""
    take_files(words)
    versions = versions_by_memory() if words.versions is None else words.versions
    limits = ServerLimits(words.idle, words.clients, words.body, words.longest, words.questions, versions, words.each,
                          words.publish)
    if words.save is not None and words.file not in (None, STANDARD_INPUT):
        raise ValueError("a file that is followed is read again at the start: --save is for rows that a pipe or clients bring")
    with log.written(words.log):
        return run(words, how, limits, people_of(words.token_file))


def run(words: argparse.Namespace, how: Dict[str, Any], limits: ServerLimits, people: People) -> int:
    with contextlib.ExitStack() as ends:
        for it, done in SIGNALS.items():
            ends.callback(signal.signal, it, signal.signal(it, done))
        keeper = None if words.save is None else ends.enter_context(contextlib.closing(Keeper(words.save, words.save_every)))
        replica = None if words.replica_of is None else ends.enter_context(contextlib.closing(Replica(words.replica_of)))
        store, began = store_of(words, keeper) if replica is None else (replica.store, f"as a replica of {words.replica_of}")
        ends.enter_context(store)
        if replica is None:
            store._engine.fit(0, 0, ROOM)
        raise_descriptors()
        server = Server(store, words.listen, people=people, limits=limits, keeper=keeper, began=began,
                        manager=Manager(os.environ), replica=replica)
        signal.signal(signal.SIGHUP, lambda *_: server.read_people())
        deadline = Deadline(lambda: ended(server, keeper))
        sys_turn = sys.getswitchinterval()
        sys.setswitchinterval(TURN)
        # (what is here by now stays to the end: a look through all of it for cycles would stop every question)
        gc.collect()
        gc.freeze()
        try:
            follow(server, words, how)
            tell(server, words)
            server.run(deadline.begin)
        except KeyboardInterrupt:  # (as a signal ends one that isn't there yet)
            server.end_feed()
        finally:
            gc.unfreeze()
            sys.setswitchinterval(sys_turn)
    if not server.is_asked:
        deadline.cancel()
    return deadline.status()


def ended(server: Server, keeper: Optional[Keeper]) -> int:
    """Tells how far the server came, and gives the status of its process."""
    bad = server.feeding.told()["bad"]
    skipped = f"; {bad} bad rows were passed over" if bad else ""
    stat = server.board.stat
    log.state("ended", f"ended at version {stat.version}, of {stat.edges} edges{skipped}", version=stat.version, edges=stat.edges,
              bad=bad)
    return int(keeper is not None and bool(keeper.fault))


def store_of(words: argparse.Namespace, keeper: Optional[Keeper]) -> Tuple[Store[Any, Any], str]:
    """The store that is served, and what it begins with."""
    options: Dict[str, Any] = {
        "blocks": words.blocks, "seats": records.MOST_SEATS, "endless": True,
        "units": Units(words.weight_scale, "iso" if words.dates else words.times, rounding=words.rounding)}
    if words.path is not None:
        opened = Store(words.path, sync=words.sync or "full", history=words.history, **options)
        found = opened.file.recovered
        said = f"{words.path} has version {found.version}: {found.batches} batches behind the base of version {found.base}"
        log.state("recovered", said, version=found.version, base=found.base, batches=found.batches)
        return opened, f"with version {found.version} of its file"
    store = None if keeper is None else keeper.restored(**options)
    if store is None or keeper is None:
        return Store(**options), "without an edge" if words.file is None else "with its feed"
    edges = store.stat().edges
    log.state("restored", f"{keeper.path} has {edges} edges", edges=edges)
    return store, keeper.told_of_file()


def follow(server: Server, words: argparse.Namespace, how: Dict[str, Any]) -> None:
    """Has the feed go in that is named."""
    if words.file is None:
        return
    if words.path is None or words.file == STANDARD_INPUT or not os.path.isfile(words.file):
        server.feeding.follow(followed(server.store, words.file, words, how))
        return
    files = FilesInTurn(server.store, words, how)
    first = files.next()
    server.feeding.readers.lost = files.lost
    if first is not None:
        server.feeding.follow(first, files)


class FilesInTurn:
    """What a store that has a file follows: the file that is named, first what is left of the one that stood there before, and
    then each one that takes its place."""

    def __init__(self, store: Store[Any, Any], words: argparse.Namespace, how: Dict[str, Any]) -> None:
        self._store, self._words = store, words
        self._how = {**how, "format": how.get("format") or form_of(words.file, how.get("encoding", "utf-8"))}
        self._files = Succession(words.file, store._engine.feeds, self._note)
        if self._files.is_another:
            before = ("isn't there any more" if self._files.before is None else
                      f"is {self._files.before}, and what isn't in of it goes in first")
            log.state("rotated", f"{words.file} is another file than the one that was followed last. That one {before}. A file "
                      "that stood there meanwhile, if there was one, isn't read")
        # Why rows may be lost, where they may.
        self.lost = ""
        if self._files.gone:
            self.lost = (f"{self._files.gone} of the files that stood there before aren't there any more, and may have had more "
                         "than is in")
            log.state("lost", f"{words.file}: {self.lost}", files=self._files.gone)

    def next(self) -> Optional[Following]:
        """The next one, for which this waits; `None` once it is closed."""
        file = self._files.next()
        if file is None:
            return None
        with file.file:  # (the one that follows it has it open by itself)
            return followed(self._store, file, self._words, self._how)

    def _note(self, mark: FeedMark) -> None:
        """Notes a file in the store's, by a batch of nothing. (Where that can't be the first batch of its rows does.)"""
        batch = Operations()
        batch.feed = mark.written(mark.place)
        with contextlib.suppress(StoreError):
            self._store._ledger.apply(batch, True)

    def close(self) -> None:
        self._files.close()


def followed(store: Store[Any, Any], feed: Any, words: argparse.Namespace, how: Dict[str, Any]) -> Following:
    """A feed that goes on where the store's file has it in to."""
    found = store.follow(feed, progress=False, every=words.every, keep=words.keep, ahead=words.ahead, batch=words.batch,
                         skip_bad=words.skip_bad, rejects=words.rejects, **how)
    if found._reads_again:
        log.state("read again", f"{found.name} is read from its begin, and what is in is passed over: in this encoding no byte "
                  "says where a line begins")
    return found


def tell(server: Server, words: argparse.Namespace) -> None:
    feed = {None: "the rows that a client posts", STANDARD_INPUT: "standard input"}.get(words.file, words.file)
    feed = feed if words.path is None else f"{words.path} and {feed}"
    feed = feed if words.replica_of is None else f"what {words.replica_of} has"
    alone = "this user alone" if server.address.path else "this machine alone"
    whom = "those that have a token" if server.people.are_any else alone
    print(f"misteluk: {server.url} serves {feed}, for {whom}", flush=True)
