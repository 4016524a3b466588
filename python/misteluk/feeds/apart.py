"""A feed that a process of its own reads, so that its rows cost the process that has the store little more than a call of C each
batch: Python runs one thread at a time, and those who ask the store have theirs."""
from __future__ import annotations

import logging
import os
import pickle
import subprocess
import sys
import threading
import time
from contextlib import nullcontext
from types import TracebackType
from typing import Any, Callable, ContextManager, Iterator, NamedTuple, Optional, Sequence, Type

from .following import Following
from .pipes import how_ended, received, widen
from .reader import AT_ITS_END, AT_ONCE, Wanted
from .rejects import Lines, Rejected
from .steps import FeedPlace
from ..engine.operations import Encoded, Numbered, Operations
from ..errors import StoreError
from ..values.answers import Commit
from ..values.parcels import Parcel

LOG = logging.getLogger("misteluk.feeds")
# For how many seconds a process may be silent that is to stop, and how many may be killed without a batch of theirs going in.
PATIENCE, TRIES = 30.0, 3
_CODE = "import sys; said, out, *sys.path = sys.argv[1:]; from misteluk.feeds.reader import main; main(int(said), int(out))"


class ReadFault(StoreError):
    """What ended the reading of a feed; `word` is that of its error."""

    def __init__(self, word: str, text: str) -> None:
        self.word = word
        super().__init__(text)


class Applied(NamedTuple):
    """What a batch did, and how many rows are in, to which line."""

    commit: Commit
    rows: int
    line: int


class Apart(Iterator[Applied]):
    """A feed that is followed as `Store.follow` says, but read by a process of its own. Each step is a batch that was applied.

    Where that process is killed, a batch that didn't come whole isn't in. Of a file another process then reads what is behind the
    rows that are in; this says so. The steps end by a `ReadFault`, which says how far they got, where the feed is none, so that
    what was read of it is lost, or where some were killed in turn and nothing went in. Where this process is killed that one
    ends."""

    def __init__(self, following: Following) -> None:
        self.store, self.name, self._terms = following.store, following.name, following._terms
        source = following._source
        self._recipe, self._begin, self._file = following.recipe, source.begin, os.dup(source.descriptor)
        self._is_input, self._rejects, self._mark = source.descriptor == 0, following.rejects, following.mark
        self.last_bad: Optional[Rejected] = None
        self.place = following.resumed
        following.close()
        self.ended_half = self._is_stopped = self._ends = self.is_left = False
        # What is called once another file took the place of this one (see `Following.on_left`).
        self.on_left: Callable[[], None] = lambda: None
        # In what a batch is applied.
        self.applying: "Callable[[], ContextManager[None]]" = nullcontext
        self.killed, self._in_vain = 0, 0
        self._lock, self._is_over = threading.Lock(), threading.Event()
        # Since when a batch is waited for; nothing while one is applied.
        self._since: Optional[float] = None
        self._out = self._say = -1
        try:
            self._start()
        except BaseException:
            self._give_back()
            os.close(self._file)
            raise
        if self._begin is None:  # (a pipe's writer is told where nobody reads it any more)
            os.close(self._file)
            self._file = -1

    def _start(self) -> None:
        """Begins a process that reads on from the place."""
        if self._begin is not None:
            os.lseek(self._file, self._begin, os.SEEK_SET)
        self._out, theirs = os.pipe()
        said, self._say = os.pipe()
        descriptor = 0 if self._is_input else self._file
        try:
            widen(self._out)
            words = [sys.executable, "-c", _CODE, str(said), str(theirs), *(it for it in sys.path if isinstance(it, str))]
            self.process = subprocess.Popen(words, stdin=None if self._is_input else subprocess.DEVNULL,
                                            stdout=subprocess.DEVNULL, pass_fds=(said, theirs, descriptor),
                                            start_new_session=True)
        finally:
            os.close(said)
            os.close(theirs)
        self._tell(pickle.dumps(Wanted(self.name, descriptor, self._recipe, self._terms.units, self.place)))
        if self._ends:
            self._tell(AT_ITS_END)

    def _give_back(self) -> None:
        ends, self._say, self._out = (self._say, self._out), -1, -1
        for it in ends:
            if it >= 0:
                os.close(it)

    def _tell(self, data: bytes) -> None:
        if self._say >= 0:
            try:
                os.write(self._say, data)
            except BrokenPipeError:  # (it has ended, which the next step finds)
                pass

    def __next__(self) -> Applied:
        while True:
            parcel = self._received()
            while parcel is None:
                self._start_again()
                parcel = self._received()
            head = parcel.head
            if "text" in head:
                raise ReadFault(head["word"], head["text"])
            if "left" in head:
                self._leave()
                continue
            if "place" not in head:
                self.ended_half = head["is_half"]
                raise StopIteration
            self._keep(head["skipped"])
            found = self._applied(parcel) if parcel.columns else None
            self.place, self._in_vain = FeedPlace(*head["place"]), 0
            self.last_bad = self.last_bad if head["last_bad"] is None else Rejected(*head["last_bad"])
            if found is not None:
                return found

    def _leave(self) -> None:
        """Takes in that another file took the place of this one, once. (Another reader says so again.)"""
        if not self.is_left:
            self.is_left = True
            self.on_left()

    def _keep(self, skipped: Optional[Sequence[Any]]) -> None:
        """Keeps rows that were skipped, before those that came with them go in. A feed whose rows aren't kept ends."""
        if skipped is None or self._rejects is None:
            return
        try:
            self._rejects.append(Lines(*skipped))
        except StoreError as fault:
            raise ReadFault(type(fault).__name__, f"{fault}; {self.told}") from fault

    def _received(self) -> Optional[Parcel]:
        self._since = time.monotonic()
        parcel = received(self._out)
        self._since = None
        return parcel

    def _start_again(self) -> None:
        """Has another process read on where one was killed. Raises `ReadFault` where that isn't to be."""
        status = self.process.wait()
        ended = f"the process that reads {self.name} {how_ended(status)}; {self.told}"
        with self._lock:
            is_killed = status < 0 and not self._is_stopped
            if self._begin is None or not is_killed or self._in_vain == TRIES:
                self.killed += is_killed
                lost = "what it had read behind them is lost" if self._begin is None else "what is behind them is not"
                raise ReadFault("ReaderEnded", f"{ended}, and {lost}")
            self._give_back()
            self._start()
            self.killed, self._in_vain = self.killed + 1, self._in_vain + 1
        LOG.warning(f"{ended}, and another one reads on")

    def _applied(self, parcel: Parcel) -> Applied:
        head, ledger = parcel.head, self.store._ledger
        place = FeedPlace(*head["place"])._replace(rejects=0 if self._rejects is None else self._rejects.size)
        kind_text, kind_ends, text, ends, codes, kinds, sources, targets, weights, times = parcel.columns
        for name, told in head["texts"].items():
            if self._terms.names.to_program(told) != name:
                raise ReadFault("BadName", f"{told!r} has another id here than {name}")
        numbered = Numbered(codes, kinds, sources, targets, weights, times, Encoded(kind_text.tobytes(), kind_ends),
                            Encoded(text.tobytes(), ends))
        batch = Operations(columns=numbered)
        batch.feed = None if self._mark is None else self._mark.written(place)
        try:
            with self.applying():
                commit = ledger.apply(batch, True, (self._terms, head["kinds"]))
        except StoreError as fault:
            rows = f"{place.rows - self.place.rows} rows, lines {head['first']} to {place.line}, aren't"
            raise ReadFault(getattr(fault, "word", "") or type(fault).__name__, f"{fault}; {self.told}, and {rows}") from fault
        return Applied(commit, place.rows, place.line)

    @property
    def behind(self) -> Optional[int]:
        """How many bytes of a file weren't read yet; `None` of anything else."""
        if self._begin is None or self._file < 0:
            return None
        try:
            return max(os.fstat(self._file).st_size - os.lseek(self._file, 0, os.SEEK_CUR), 0)
        except OSError:  # (it was closed meanwhile)
            return None

    @property
    def is_replaced(self) -> bool:
        """Whether the path of a file has another one by now, or none: what comes in there isn't read. (It is where those that
        take its place are followed too.)"""
        if self._begin is None or self._is_input or self._file < 0 or self._recipe.path is not None:
            return False
        try:
            return not os.path.samestat(os.stat(self.name), os.fstat(self._file))
        except FileNotFoundError:
            return True
        except OSError:  # (nobody knows)
            return False

    @property
    def has_ended(self) -> bool:
        return self._is_over.is_set()

    @property
    def told(self) -> str:
        return f"{self.place.rows} rows to line {self.place.line} are in"

    def stop(self) -> None:
        """Has what was read go in, and then ends the steps. Any thread may call it."""
        with self._lock:
            self._is_stopped = True
            self._tell(AT_ONCE)
        threading.Thread(target=self._watch, daemon=True).start()

    def end(self) -> None:
        """Has what the file has by now go in, and then ends the steps. Any thread may call it."""
        with self._lock:
            self._ends = True
            self._tell(AT_ITS_END)

    def _watch(self) -> None:
        """Kills the process where it is to stop, and nothing comes of it for long."""
        begun = time.monotonic()
        while not self._is_over.wait(PATIENCE / 20):
            since = self._since
            if since is not None and time.monotonic() - max(since, begun) > PATIENCE:
                self.process.kill()
                return

    def close(self) -> None:
        """Ends the process, and waits for that."""
        self._is_over.set()
        with self._lock:
            self._give_back()
            file, self._file = self._file, -1
        if file >= 0:
            os.close(file)
        try:
            self.process.wait(PATIENCE)
        except subprocess.TimeoutExpired:
            self.process.kill()
            self.process.wait()

    def __enter__(self) -> "Apart":
        return self

    def __exit__(self, kind: Optional[Type[BaseException]], fault: Optional[BaseException],
                 trace: Optional[TracebackType]) -> None:
        self.close()
