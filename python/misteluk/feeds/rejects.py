"""Rows that can't be taken: the last one, and a file that has them all, from which they are loaded again once they are mended."""
from __future__ import annotations

import codecs
import csv
import fcntl
import io
import os
import stat
from contextlib import suppress
from dataclasses import dataclass
from typing import Any, List, NamedTuple, Optional, Protocol, Sequence

from .feed import STANDARD_INPUT, Path, TableForm, codec_of
from ..errors import FeedFault

# How many characters of a row are told.
MOST_TEXT = 200


@dataclass(frozen=True)
class Rejected:
    """A row that was skipped: its line, why it is bad, and its text, of which the first 200 characters are kept.

    >>> store.load([("bonn", "kassel", 230), ("bonn", "", 98)], by="set", skip_bad=True).last_bad.line
    2
    """

    line: int
    reason: str
    text: str


class Lines(NamedTuple):
    """Rows that were skipped, each as CSV; the line of the first of them; and the header that they stand below, or nothing."""

    first: int
    header: str
    rows: Sequence[str]


class Keeps(Protocol):
    """What keeps rows that were skipped, as a file does, and how long that is."""

    size: int

    def append(self, lines: Lines) -> None: ...

    def go_on(self, size: int) -> None: ...


def written(fields: Sequence[Any], sign: str) -> str:
    text = io.StringIO()
    csv.writer(text, delimiter=sign, lineterminator="\n").writerow(fields)
    return text.getvalue()


def rejected(line: int, reason: str, fields: Sequence[str], sign: str) -> Rejected:
    text = written(fields, sign).rstrip("\n")
    return Rejected(line, reason, text if len(text) <= MOST_TEXT else f"{text[:MOST_TEXT]} ..")


class Bin:
    """Rows that were skipped and aren't written yet."""

    def __init__(self) -> None:
        self._first, self._header = 0, ""
        self._rows: List[str] = []

    def put(self, line: int, reason: str, fields: Sequence[str], form: TableForm) -> None:
        if not self._rows:
            self._first = line
            self._header = written([*form.names, "line", "reason"], form.sign) if form.names else ""
        self._rows.append(written([*fields, line, reason], form.sign))

    def emptied(self) -> Optional[Lines]:
        """What there is, which is nobody's any more then."""
        rows, self._rows = self._rows, []
        return Lines(self._first, self._header, rows) if rows else None


class Rejects:
    """A file that rows are appended to which were skipped. It is opened for each writing: who moves it away has another one made.

    Raises `ValueError` where it is the feed itself, or would have to be packed, and `OSError` where it can't be written."""

    def __init__(self, path: Path, encoding: str, feed: Any = None) -> None:
        codec_of(encoding)
        self.path, self.encoding = os.fspath(path), encoding
        if self.path.endswith((".gz", ".xz", ".bz2")):
            raise ValueError(f"{self.path}: rows that are skipped are written as they came, and aren't packed")
        with suppress(OSError):
            if isinstance(feed, (str, os.PathLike, int)) and os.path.samestat(
                    os.stat(self.path), os.stat(0 if feed == STANDARD_INPUT else feed)):
                raise ValueError(f"{self.path} is the feed itself: have the rows that are skipped written to another file")
        self._is_begun = False
        # How long the file is behind the rows that were written last; and what it has behind those that are in for good.
        self.size, self._again, self._at = 0, b"", 0
        file = self._opened()
        self._see(file)
        os.close(file)

    def _opened(self) -> int:
        return os.open(self.path, os.O_WRONLY | os.O_APPEND | os.O_CREAT | os.O_CLOEXEC, 0o666)

    def _see(self, file: int) -> None:
        found = os.fstat(file)
        self.size = found.st_size if stat.S_ISREG(found.st_mode) else 0

    def go_on(self, size: int) -> None:
        """Passes over rows that the file has already behind so many bytes, by a process that was killed before they were in for
        good: they come again, in their order. (Who moved the file away has one that is shorter, of which all is looked at.)"""
        with suppress(OSError), open(self.path, "rb") as file:
            if self.size:
                begin = file.seek(size if size <= self.size else 0)
                mark = b"" if begin else self._bytes("", False)  # (of the order of bytes, which is no row's)
                self._again, self._at = file.read().removeprefix(mark), 0

    def _not_there(self, rows: Sequence[str]) -> Sequence[str]:
        """The rows that the file doesn't have yet: behind the first of them all are new."""
        end = self._bytes("\n", True)
        for count, row in enumerate(rows if self._again else ()):
            line = self._bytes(row, True)
            found = self._again.find(line, self._at)
            if found < 0 or found and self._again[max(found - len(end), 0):found] != end:
                self._again = b""
                return rows[count:]
            self._at = found + len(line)
        return [] if self._again else rows

    def append(self, lines: Lines) -> None:
        """Writes rows, all or none. Raises `FeedFault` where it can't."""
        lines = lines._replace(rows=self._not_there(lines.rows))
        if not lines.rows:
            return
        try:
            file = self._opened()
            try:
                self._append(file, lines)
            finally:
                os.close(file)
        except OSError as fault:
            raise self._fault(f"doesn't take the rows that are skipped ({fault.strerror})", lines) from fault

    def _fault(self, what: str, lines: Lines) -> FeedFault:
        return FeedFault(f"{self.path} {what}; the rows from line {lines.first} on aren't in")

    def _append(self, file: int, lines: Lines) -> None:
        if not stat.S_ISREG(os.fstat(file).st_mode):
            self._write(file, self._bytes(lines.header * (not self._is_begun) + "".join(lines.rows), self._is_begun))
            self._is_begun = True
            return
        fcntl.flock(file, fcntl.LOCK_EX)  # (another feed may have the same file)
        size = os.fstat(file).st_size
        ahead = lines.header if not size else "" if self._is_begun else self._from_before(lines)
        try:
            self._write(file, self._bytes(ahead + "".join(lines.rows), size > 0))
            self._see(file)
        except OSError:
            os.ftruncate(file, size)
            raise
        self._is_begun = True

    def _from_before(self, lines: Lines) -> str:
        """What is to stand behind the rows that were there before: the end of a line that has none. Raises `FeedFault` where
        they have another header."""
        with open(self.path, encoding=codec_of(self.encoding), errors="surrogateescape", newline="") as file:
            if file.read(len(lines.header)).rstrip("\r\n") != lines.header.rstrip("\n"):
                raise self._fault("has another header than the rows that are skipped: name another file for them", lines)
        end = self._bytes("\n", True)
        with open(self.path, "rb") as raw:
            raw.seek(-len(end), os.SEEK_END)
            return "" if raw.read() == end else "\n"

    def _bytes(self, text: str, is_behind: bool) -> bytes:
        """The text in the feed's encoding, with bytes that are none of it; where it has signs that have none, with escapes."""
        try:
            return self._encoded(text, is_behind, "surrogateescape")
        except UnicodeEncodeError:
            return self._encoded(text, is_behind, "backslashreplace")

    def _encoded(self, text: str, is_behind: bool, errors: str) -> bytes:
        encoder = codecs.getincrementalencoder(self.encoding)(errors)
        if is_behind:  # (a mark of the order of bytes stands at the beginning alone)
            encoder.setstate(0)
        return encoder.encode(text, True)

    @staticmethod
    def _write(file: int, data: bytes) -> None:
        left = memoryview(data)
        while left:
            left = left[os.write(file, left):]
