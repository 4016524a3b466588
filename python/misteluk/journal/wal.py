"""Whether the -wal of a database was damaged, which SQLite doesn't say: it ends one at the first frame that isn't whole, and
drops what comes after it. (The form is that of "WAL-mode File Format" at sqlite.org.)"""
from __future__ import annotations

import os
import struct
from typing import Tuple

from ..values.texts import Path

_HEAD, _FRAME = struct.Struct(">8I"), struct.Struct(">6I")
_PAGE_SIZES = [512 << it for it in range(8)]
_LOW = 0xFFFF_FFFF


class _Sums:
    """The running checksum of a -wal."""

    def __init__(self, magic: int) -> None:
        self._pairs, self.found = struct.Struct(">2I" if magic & 1 else "<2I"), (0, 0)

    def add(self, part: bytes) -> Tuple[int, int]:
        a, b = self.found
        for x, y in self._pairs.iter_unpack(part):
            a = a + x + b & _LOW
            b = b + y + a & _LOW
        self.found = a, b
        return self.found


def commits_lost(path: Path) -> int:
    """How many commits are written in the -wal of a database behind the first one that isn't whole; -1 where its head isn't, and
    so nothing of it counts. Each commit is synced before the next one is written: only the last one may be torn by a crash, and
    what comes behind another one says that it was damaged. To be asked before SQLite opens the database."""
    try:
        with open(f"{os.fspath(path)}-wal", "rb") as file:
            data = file.read()
    except FileNotFoundError:
        return 0
    if len(data) < _HEAD.size:
        return 0
    magic, _, size, _, *salts, one, two = _HEAD.unpack(data[:_HEAD.size])
    sums, is_whole, lost = _Sums(magic), True, 0
    if sums.add(data[:24]) != (one, two) or size not in _PAGE_SIZES:
        return -1
    for at in _committed(data, size):
        begin = at + _FRAME.size
        _, commit, *found, one, two = _FRAME.unpack(data[at:begin])
        if is_whole:
            sums.add(data[at:at + 8])
            is_whole = found == salts and sums.add(data[begin:begin + size]) == (one, two)
        lost += not is_whole and found == salts and commit > 0
    return max(lost - 1, 0)


def _committed(data: bytes, size: int) -> range:
    """Where frames begin, up to the one that ends the last commit. (Behind it may be much of a load that a crash ended.)"""
    frames = range(_HEAD.size, len(data) - _FRAME.size - size + 1, _FRAME.size + size)
    last = next((it for it in reversed(range(len(frames))) if _FRAME.unpack_from(data, frames[it])[1]), -1)
    return frames[:last + 1]
