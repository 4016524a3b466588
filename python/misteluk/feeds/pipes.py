"""Pipes from and to other processes."""
from __future__ import annotations

import fcntl
import os
import select
import struct
from typing import Iterable, Optional

from ..values.parcels import Parcel, unpacked

# How many bytes a pipe is given room for, and what Linux calls its size; Python 3.9 has no name for it.
ROOM, F_SETPIPE_SZ = 1 << 20, 1031
# Before each parcel stands how long it is, in bytes.
_LENGTH = struct.Struct("=Q")


def widen(pipe: int) -> None:
    """Gives a pipe room for a whole batch, where the system lets it: who writes then wakes once, and not for each page that the
    other side takes out."""
    try:
        fcntl.fcntl(pipe, F_SETPIPE_SZ, ROOM)
    except OSError:
        pass


def has_more(file: int, seconds: float) -> bool:
    """Whether there is something to read, or the end, within so many seconds. (`select` takes no file from the 1,024th on.)"""
    poll = select.poll()
    poll.register(file, select.POLLIN)
    return bool(poll.poll(seconds * 1000))


def how_ended(status: int) -> str:
    """How a process came to its end, by the status that Python gives it."""
    return f"was ended by signal {-status}" if status < 0 else f"ended with status {status}"


def send(descriptor: int, parts: Iterable[bytes]) -> None:
    """Writes a parcel. Raises `BrokenPipeError` where nobody reads any more."""
    data = b"".join(parts)
    left = memoryview(_LENGTH.pack(len(data)) + data)
    while left:
        left = left[os.write(descriptor, left):]


def received(descriptor: int) -> Optional[Parcel]:
    """The next parcel; `None` where no whole one comes any more."""
    length = _exactly(descriptor, _LENGTH.size)
    data = None if length is None else _exactly(descriptor, *_LENGTH.unpack(length))
    return None if data is None else unpacked(data)


def _exactly(descriptor: int, size: int) -> Optional[bytearray]:
    """So many bytes; `None` where they don't come any more."""
    found, at = bytearray(size), 0
    while at < size:
        count = os.readv(descriptor, [memoryview(found)[at:]])
        if not count:
            return None
        at += count
    return found
