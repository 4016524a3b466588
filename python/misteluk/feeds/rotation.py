"""Files that stand at a path one after another, as those of a log that is rotated: none of them is passed over, and each is read
to its end and as long as somebody may write to it."""
from __future__ import annotations

import os
import threading
from collections import deque
from contextlib import suppress
from typing import IO, Callable, Deque, List, Mapping, Optional, Tuple

from .marks import Mark
from .steps import FeedMark
from ..errors import FeedFault

# How often it is looked which file stands at the path, in seconds; and by which endings a file is known that was packed.
LOOK, PACKED = 0.25, (".gz", ".xz", ".bz2", ".zst")


class Standing:
    """A file that is open and stands at a path, or stood there before, with its mark, by which it is known again. `found` says
    where it is, if it doesn't stand there any more."""

    def __init__(self, path: str, file: IO[bytes], found: str, mark: FeedMark) -> None:
        self.name = self.path = path
        self.file, self.found, self.mark = file, found, mark

    def fileno(self) -> int:
        return self.file.fileno()

    @property
    def has_more(self) -> bool:
        """Whether it has more than is in."""
        return self.mark.place.left or os.fstat(self.fileno()).st_size > self.mark.place.read


def earlier(path: str, feeds: Mapping[str, str]) -> List[Standing]:
    """The files that stood at a path before the one that is there now, in their turn, as far as they are beside it by another
    name."""
    mark = FeedMark.of(path, os.stat(path))
    before = [it for it in mark.known(feeds) if it.path == mark.path and it.file != mark.file]
    if not before:
        return []
    with os.scandir(os.path.dirname(mark.path)) as beside:
        names = {it.inode(): it.path for it in beside if it.is_file()}
    found = (_opened(path, names.get(it.file[1]), it) for it in before)
    return [it for it in found if it is not None]


def _opened(path: str, name: Optional[str], mark: FeedMark) -> Optional[Standing]:
    """The file of this name, where it is the one that was there: it has what was read of it. Of one of which nothing was read the
    name says so: the system gives the number of a file that was removed to any other."""
    if name is None:
        return None
    file = open(name, "rb", buffering=0)
    is_called_so = os.path.basename(name).startswith(os.path.basename(mark.path)) and not name.endswith(PACKED)
    if has(file.fileno(), mark) if mark.place.read else is_called_so:
        file.seek(mark.begin)
        return Standing(path, file, name, mark)
    file.close()
    return None


def _number(found: Optional[os.stat_result]) -> Optional[Tuple[int, int]]:
    return None if found is None else (found.st_dev, found.st_ino)


def has(file: int, mark: FeedMark) -> bool:
    """Whether a file has what was read of it by this mark."""
    place = mark.place
    return not place.read or Mark.of(file, mark.begin, place.read - mark.begin) == place.mark


def mark_of(path: str, file: int, begin: int, feeds: Mapping[str, str]) -> FeedMark:
    """The mark of a file that is followed alone. Raises `FeedFault` where another one was read by its path, and has more than is
    in."""
    mark = FeedMark.of(path, os.fstat(file), begin)
    mark = mark.in_turn(mark.known(feeds), lambda it: has(file, it))
    if not mark.place.done:
        _must_be_in(mark, feeds)
    return mark


def _must_be_in(mark: FeedMark, feeds: Mapping[str, str]) -> None:
    found = earlier(mark.path, feeds) if any(FeedMark.read(it).path == mark.path for it in feeds.values()) else []
    try:
        for it in found:
            if it.has_more:
                raise FeedFault(f"{mark.path} is another file than the one that was read by this name, which is {it.found} now "
                                "and has more than is in: follow that one first, to its end")
    finally:
        for it in found:
            it.file.close()


class Succession:
    """The files of a path, each in its turn: first those that were there before and aren't in, by what a store's file knows, and
    the last of them; then the one that stands there, and each that takes its place later. A thread opens each as soon as it
    stands there, and has it noted in the store's file: so none is missed that is rotated away before its turn, also over a
    restart."""

    def __init__(self, path: str, feeds: Mapping[str, str], note: Callable[[FeedMark], None]) -> None:
        self.path, self._feeds, self._note, self._lock = path, feeds, note, threading.Lock()
        known = [it for it in FeedMark.of(path, os.stat(path)).known(feeds) if it.path == os.path.realpath(path)]
        self._turn = known[-1].turn if known else 0
        found = earlier(path, feeds)
        self._files: Deque[Standing] = deque(it for it in found if it.has_more or it is found[-1])
        for it in found:
            if it not in self._files:
                it.file.close()
        self._last: Optional[os.stat_result] = None
        self._is_over = threading.Event()
        self._look()
        # Whether the file that stands there wasn't there before, though another one was; and where that one is now, if anywhere.
        self.is_another = bool(known) and self._turn > known[-1].turn
        self.before = found[-1].found if found and found[-1].mark.turn == known[-1].turn else None
        # How many aren't there any more and may have had more than is in: no later one had begun, or more was read of them.
        begun = max((it.turn for it in known if it.place.done), default=0)
        there = {it.mark.turn for it in found} | {it.turn for it in known if it.file == _number(self._last)}
        self.gone = sum(it.turn not in there and (it.place.left or it.turn >= begun) for it in known)
        threading.Thread(target=self._watch, name="rotation", daemon=True).start()

    def _watch(self) -> None:
        while not self._is_over.wait(LOOK):
            with suppress(OSError):
                self._look()

    def _look(self) -> None:
        """Opens the file that stands at the path, where it is another one than at the last look."""
        with self._lock:
            if self._last is not None and os.path.samestat(os.stat(self.path), self._last):
                return
            file = open(self.path, "rb", buffering=0)
            found = os.fstat(file.fileno())
            if self._is_over.is_set() or self._last is not None and os.path.samestat(found, self._last):
                file.close()
                return
            self._last, before = found, self._turn
            mark = self._mark(file)
            self._files.append(Standing(self.path, file, self.path, mark))
            if before and mark.turn > before:
                self._note(mark)

    def _mark(self, file: IO[bytes]) -> FeedMark:
        """A file's mark, by which it comes behind the last one where it is new."""
        number = file.fileno()
        mark = FeedMark.of(self.path, os.fstat(number))
        mark = mark.in_turn(mark.known(dict(self._feeds)), lambda it: has(number, it), self._turn)
        self._turn = max(self._turn, mark.turn)
        return mark

    def next(self) -> Optional[Standing]:
        """The next file, for which this waits; `None` once it is closed. Raises `OSError` where it can't be read."""
        while not self._is_over.is_set():
            with suppress(FileNotFoundError):  # (it was renamed, and another one isn't there yet)
                self._look()
            if self._files:
                return self._files.popleft()
            self._is_over.wait(LOOK)
        return None

    def close(self) -> None:
        with self._lock:
            self._is_over.set()
            while self._files:
                self._files.popleft().file.close()
