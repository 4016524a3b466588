"""A file or pipe that grows: its whole lines as they come, and the rows that are whole in them."""
from __future__ import annotations

import codecs
import io
import os
import select
import stat
import time
from collections import deque
from typing import Deque, Iterator, List, NamedTuple, Optional, Protocol, Union

from ..errors import FeedFault
from .feed import STANDARD_INPUT, Block, Feed, Path, Rows, Table, codec_of, feed_name, turned
from .marks import Mark, is_plain, is_replaced
from .notations import Notation
from .pipes import has_more

# How many bytes are read at once, and how many characters a line may have.
MOST_READ, MOST_LINE = 1 << 16, 1 << 20
# How long a file that has nothing new is left alone, in seconds. For how long another one has to stand at its path until that one
# may be read too, when all is in that this one had; how often it is looked at from then on; and for how long nothing comes of it
# once it was removed until it is let go.
REST, ROTATED, LATE_REST, REMOVED = 0.1, 1.0, 0.5, 60.0


class Opened(Protocol):
    """What has a descriptor, as a pipe from another program."""

    def fileno(self) -> int: ...


class Growing:
    """The whole lines of a file, a pipe, or standard input (`-`), as they come.

    A file is followed when it was read to its end, unless `until_end`; anything else ends where its writers do. A line that has
    no end yet is none, but at the end of all. A file that is cut short while it is read, or written anew, raises `FeedFault`.
    With a `path` it is told where another file took its place there (`is_left`); it is read on, since who has it open may write
    to it for long, and ends once it was removed and nothing came of it for a while, or where `end` is called.
    """

    def __init__(self, source: Union[Path, Opened], encoding: str = "utf-8", until_end: bool = False,
                 path: Optional[str] = None) -> None:
        codec = codec_of(encoding)
        if isinstance(source, (str, os.PathLike)):
            self.name, known = feed_name(source), 0 if source == STANDARD_INPUT else None
            if self.name.endswith(".gz"):
                raise ValueError(f"{self.name} is packed and can't be followed: unpack it on the way, zcat {self.name} | .. -")
            self._raw = open(source if known is None else known, "rb", buffering=0, closefd=known is None)
        else:
            self.name, known = str(getattr(source, "name", "feed")), source.fileno()
            is_ours = path is not None  # (who gives such a file closes it)
            self._raw = open(os.dup(known) if is_ours else known, "rb", buffering=0, closefd=is_ours)
        self._given = source  # (which would else close its descriptor when it's forgotten)
        self._file = self._raw.fileno()
        self._is_file = stat.S_ISREG(os.fstat(self._file).st_mode)
        self._is_followed = self._is_file and known != 0 and not until_end
        self._is_dry, self._path, self._codec = False, path, codec
        self._is_plain = self._is_file and is_plain(codec)
        # Since when another file stood at the path; whether all is read that this one had by then; and since when nothing came.
        self._replaced: Optional[float] = None
        self.is_left, self._still = False, time.monotonic()
        # Where the reading of a file begins, and how long it is at least where some of it was read before.
        self.begin = os.lseek(self._file, 0, os.SEEK_CUR) if self._is_file else None
        self.least, self._mark, self._before = 0, Mark(), ""
        decoder = codecs.getincrementaldecoder(codec)(errors="surrogateescape")
        self._decoder = io.IncrementalNewlineDecoder(decoder, translate=False)
        self.half = ""
        self.is_at_end = self.ended_half = False
        # Whoever waits for more hears this bell too, which any thread and a signal's handler may ring.
        self._bell, self._cord = os.pipe()
        os.set_blocking(self._cord, False)

    @property
    def descriptor(self) -> int:
        return self._file

    @property
    def place(self) -> int:
        """How far a file was read, in bytes; 0 of anything else."""
        return os.lseek(self._file, 0, os.SEEK_CUR) if self._is_file else 0

    @property
    def mark(self) -> str:
        """What tells that a file isn't the one any more that was read so far."""
        return self._mark.digest if self._is_file else ""

    def was_read(self, place: int, mark: str) -> None:
        """Says that a file was read to a place before, and which mark it had then."""
        self.least, self._before = place, mark

    def has(self, place: int, mark: str) -> bool:
        """Whether a file has what was read of it to a place, when it had this mark."""
        begin = self.begin or 0
        return Mark.of(self._file, begin, place - begin) == mark

    def go_to(self, place: int) -> None:
        """Goes on at a place where a line begins, in a file that was read further before."""
        begin = self.begin or 0
        self._mark = Mark.found(self._file, begin, place - begin)
        if not self.has(self.least, self._before):
            self._must_be_whole()
            raise self._anew()
        os.lseek(self._file, place, os.SEEK_SET)
        self._decoder.setstate((b"", 0))
        self.half = ""

    def before(self, rest: str) -> Optional[int]:
        """Where in a file the text begins of which this is the rest that isn't whole yet; `None` where that isn't known."""
        if not self._is_plain:
            return None
        data, state = self._decoder.getstate()  # (signs that aren't whole, and a carriage return that may have a line feed)
        encoded = (rest + self.half).encode("utf-8" if self._codec == "utf-8-sig" else self._codec, "surrogateescape")
        return self.place - len(encoded) - len(data) - (state & 1)

    @property
    def behind(self) -> Optional[int]:
        """How many bytes of a file aren't read yet; `None` of anything else."""
        return max(os.fstat(self._file).st_size - self.place, 0) if self._is_file else None

    @property
    def cord(self) -> int:
        """The descriptor of the bell's cord, for `signal.set_wakeup_fd`: Python then rings it for each signal that comes, also
        for one that the system gives to another thread than the one that waits."""
        return self._cord

    def ring(self) -> None:
        """Ends the waiting of whoever waits for more."""
        try:
            os.write(self._cord, b"!")
        except OSError:  # (it rang often, or nobody hears it any more)
            pass

    def wait(self, seconds: Optional[float], output: Optional[int] = None) -> bool:
        """Waits until there may be more, the bell rings, or so many seconds are over; `None` is for as long as it takes. Tells
        whether an output that is watched has lost its reader."""
        if self._is_file and not self._is_dry:
            seconds = 0.0
        elif self._is_file:
            rest = LATE_REST if self.is_left else REST
            seconds = min(rest, rest if seconds is None else seconds)
        poll = select.poll()
        poll.register(self._bell, select.POLLIN)
        if not self._is_file and not self.is_at_end:
            poll.register(self._file, select.POLLIN)
        if output is not None:
            poll.register(output, 0)
        ready = dict(poll.poll(None if seconds is None else max(seconds, 0.0) * 1000))
        return bool(output is not None and ready.get(output, 0) & (select.POLLERR | select.POLLHUP))

    def text(self) -> str:
        """The whole lines that are there and weren't given before, of some 64 KB at most."""
        if self.is_at_end or not (self._is_file or has_more(self._file, 0.0)):
            return ""
        data = os.read(self._file, MOST_READ)
        self._is_dry = not data
        if self._is_file and data:
            self._must_be_the_same(data)
            self._still = time.monotonic()
        if self._is_dry and self._is_followed:
            self._must_be_whole()
            self.is_left = self.is_left or self._was_replaced()
            if not self._is_gone():
                return ""
        self.is_at_end = not data
        text = self.half + self._decoder.decode(data, not data)
        end = max(text.rfind("\n"), text.rfind("\r")) + 1
        self.ended_half = self.is_at_end and end < len(text)
        end = len(text) if self.is_at_end else end
        self.half = text[end:]
        if len(self.half) > MOST_LINE:
            raise FeedFault(f"{self.name}: a line of more than {MOST_LINE} characters")
        return text[:end]

    @property
    def has_unread(self) -> bool:
        """Whether more is there than was read."""
        if self.is_at_end or self._raw.closed:
            return False
        if self._is_file:
            return os.lseek(self._file, 0, os.SEEK_CUR) < os.fstat(self._file).st_size
        poll = select.poll()
        poll.register(self._file, select.POLLIN)
        return any(it & select.POLLIN for _, it in poll.poll(0))

    def end(self) -> None:
        """Ends it where a file has its end now."""
        self._is_followed = False
        self.ring()

    def _was_replaced(self) -> bool:
        """Whether another file stands at the path for a while, as where a log was rotated: who writes went there by now, or
        still has this one open."""
        if self._path is None or not is_replaced(self._path, self._file):
            self._replaced = None
            return False
        now = time.monotonic()
        self._replaced = now if self._replaced is None else self._replaced
        return now >= self._replaced + ROTATED

    def _is_gone(self) -> bool:
        """Whether it was left and removed, and nobody seems to write to it any more."""
        return self.is_left and time.monotonic() > self._still + REMOVED and not os.fstat(self._file).st_nlink

    def _must_be_the_same(self, data: bytes) -> None:
        """Raises `FeedFault` where what a file had before isn't there any more by the time that more of it was read."""
        begin, mark = self.begin or 0, self._mark
        is_same = Mark.of(self._file, begin, mark.at) == mark.digest
        if is_same and self._before and not mark.at:
            is_same = self.has(self.least, self._before)
        if not is_same:
            self._must_be_whole()
            raise self._anew()
        mark.read(data)

    def _anew(self) -> FeedFault:
        return FeedFault(f"{self.name} was written anew while it was followed: what was read of it isn't there any more, and "
                         "what it has now isn't known")

    def _must_be_whole(self) -> None:
        at, size = max(self.place, self.least), os.fstat(self._file).st_size
        if size < at:
            raise FeedFault(f"{self.name} was cut to {size} bytes, and {at} were read of it: what it has now isn't known")

    def close(self) -> None:
        self._raw.close()
        bell, self._bell, self._cord = (self._bell, self._cord), -1, -1
        for it in bell:
            if it >= 0:
                os.close(it)

    def __del__(self) -> None:
        if "_cord" in self.__dict__:
            self.close()


class Begin(NamedTuple):
    """Where a row begins: how many lines are before it, and the byte of the file; 0 where that isn't known."""

    lines: int = 0
    byte: int = 0


class Incoming:
    """What comes of a feed: its rows, in the usual notation."""

    def __init__(self, source: Growing, rows: Rows, notation: Notation, names: str) -> None:
        self.source, self.rows, self.notation, self.names = source, rows, notation, names
        self.name = source.name
        # The last places of a file where a row begins, with how many lines are before them; and where it goes on.
        self._begins: Deque[Begin] = deque()
        self._next: Optional[Begin] = None

    def blocks(self) -> List[Block]:
        """The rows that are there and weren't given before."""
        found = list(self.rows.take(self.source.text(), self.source.is_at_end))
        if self._next is not None and self.rows.is_begun:
            self._go_to(self._next)
        place = self.source.before(self.rows.kept)
        if place is not None and Begin(self.rows.line, place) not in self._begins:
            self._begins.append(Begin(self.rows.line, place))
        return [it for block in found for it in self._turned(block)]

    def go_on(self, done: int, begin: "Begin") -> None:
        """Passes over the lines to one, and so reads on where a row begins before it; the first lines say what columns are."""
        self.rows.passed = done
        self._next = begin if begin.byte else None

    def _go_to(self, begin: "Begin") -> None:
        self._next = None
        if begin.byte > self.source.place:
            self.source.go_to(begin.byte)
            self.rows.line, self.rows.kept = begin.lines, ""

    def begin_before(self, line: int) -> "Begin":
        """The last place where a row begins that isn't behind this line."""
        while len(self._begins) > 1 and self._begins[1].lines <= line:
            self._begins.popleft()
        found = self._begins[0] if self._begins else Begin()
        return found if found.lines <= line else Begin()

    def _turned(self, block: Block) -> Iterator[Block]:
        feed = self.notation.turned(Feed(self.name, Table(lambda: iter((block,)))))
        return turned(feed, names=self.names).blocks()

    @property
    def is_half(self) -> bool:
        """Whether a line or row has begun that isn't whole yet."""
        return bool(self.source.half or self.rows.kept)
