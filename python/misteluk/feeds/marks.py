"""By what a file is known again: its bytes at its begin and before the place to which it was read, and the file at its path."""
from __future__ import annotations

import hashlib
import os

# By how many bytes at its begin and before the place a file is known.
MARKED = 1 << 10


class Mark:
    """The first bytes of what was read of a file, and the last ones: by them it is seen that the file was written anew."""

    def __init__(self) -> None:
        self.at, self._head, self._tail = 0, b"", b""

    def read(self, data: bytes) -> None:
        """Takes what was read behind the rest."""
        self.at += len(data)
        self._head += data[:MARKED - len(self._head)]
        self._tail = (self._tail + data[-MARKED:])[-MARKED:]

    @property
    def digest(self) -> str:
        return hashlib.sha256(self._head + self._tail).hexdigest()

    @staticmethod
    def found(file: int, begin: int, at: int) -> "Mark":
        """The mark of a file from one place so many bytes on, as it is now."""
        mark, count = Mark(), min(at, MARKED)
        mark.at, mark._head, mark._tail = at, os.pread(file, count, begin), os.pread(file, count, begin + at - count)
        return mark

    @staticmethod
    def of(file: int, begin: int, at: int) -> str:
        """The digest of a file that was read from one place so many bytes on."""
        return Mark.found(file, begin, at).digest


def is_plain(codec: str) -> bool:
    """Whether each sign's bytes are its own, whatever stands before them: a file can then be read from the begin of any line. So
    UTF-8 is, and an encoding of one byte for each sign."""
    every = bytes(range(256))
    try:
        return codec == "utf-8-sig" or list(every.decode(codec, "surrogateescape")) == [
            bytes([it]).decode(codec, "surrogateescape") for it in every]
    except UnicodeError:
        return False


def is_replaced(path: str, file: int) -> bool:
    """Whether another file stands at the path of an open one."""
    try:
        return not os.path.samestat(os.stat(path), os.fstat(file))
    except OSError:  # (none is there, or nobody knows)
        return False
