"""What a server allows its clients."""
from __future__ import annotations

import os
from contextlib import suppress
from typing import NamedTuple

from ..values.limits import within

# How many rows an answer is written by at once: short steps leave other questions their turn.
ROWS_AT_ONCE = 2_048
# The names of this machine.
LOOPBACK = ("localhost", "127.0.0.1", "::1")
# The header that names a server's run.
RUN = "misteluk-server"
# How many bytes of an answer's columns are written at once.
BYTES_AT_ONCE = 1 << 18
# How long a body is at most that is read on the loop: others wait meanwhile.
LITTLE = 1 << 16
# How many times as long as the longest body all that are read at once may be, and how many rows a post may have.
BODIES, MOST_ROWS = 8, 1_000_000
# How many values an array has at most that isn't a post's rows: of so many edges a client asks at once.
MOST_VALUES = 1 << 16
# How many questions one request may have.
MOST_QUESTIONS = 100
# For how many bytes of memory clients may hold a version where nothing is said, of how many at least and at most; and where the
# system tells how many a container has.
FOR_EACH, LEAST_VERSIONS, MOST_VERSIONS, OF_CONTAINER = 64 << 20, 16, 1_024, "/sys/fs/cgroup/memory.max"
# Within how many seconds a connection has to ask something that is let in, and how many that asked nothing yet a peer may have.
FIRST, STRANGERS = 10.0, 256
# Where a server listens, and how often it saves, if nothing is said; and how lines of its log may be written.
USUAL, USUAL_EVERY, FORMS = "127.0.0.1:7700", 60.0, ("text", "json")
# How many blocks a server's store has at first, if nothing is said; those that aren't used take no memory. Versions that clients
# hold need the blocks that batches replaced meanwhile, and a store without free ones begins anew: beside a quick feed it would do
# so again and again.
ROOM = 262_144


class TooLarge(ValueError):
    """A body is longer than the server takes."""


class ServerLimits(NamedTuple):
    """`idle`: after how many seconds of silence a client's version, or its seat as the feeder, is let go. `clients`: how many
    sessions there may be. `body`: how many bytes a request's body may have. `time`: how many seconds a question may take.
    `questions`: how many questions that go over the whole graph are answered at once, and a hundred times as many may wait.
    `versions`: how many versions clients may hold, besides the newest. `each`: how many questions one person may have under way,
    where the server knows people by their tokens. `publish`: every how many seconds what was fed becomes the newest version, so
    that those who come meanwhile share one; 0 is behind each batch."""

    idle: float = 60.0
    clients: int = 1_000
    body: int = 8 << 20
    time: float = 60.0
    questions: int = 4
    versions: int = 64
    each: int = 100
    publish: float = 0.0

    def checked(self) -> "ServerLimits":
        """Itself; raises `ValueError` where one of them is out of range."""
        within("clients", self.clients, 1, 100_000)
        within("body", self.body, 1_024, 1 << 30)
        within("questions", self.questions, 1, 64)
        within("versions", self.versions, 1, 100_000)
        within("each", self.each, 1, 100_000)
        for name in ("idle", "time"):
            if not 0 < getattr(self, name) <= 1e6:
                raise ValueError(f"{name} is a number of seconds above 0, and not {getattr(self, name)}")
        if not 0 <= self.publish <= 1e6:
            raise ValueError(f"publish is a number of seconds from 0 on, and not {self.publish}")
        return self


def versions_by_memory() -> int:
    """How many versions clients may hold by the memory that this process may have: one for so many bytes of it."""
    size = os.sysconf("SC_PHYS_PAGES") * os.sysconf("SC_PAGE_SIZE")
    with suppress(OSError, ValueError):  # (that of a container, where there is one that has a limit)
        with open(OF_CONTAINER, encoding="ascii") as file:
            size = min(size, int(file.read()))
    return min(max(size // FOR_EACH, LEAST_VERSIONS), MOST_VERSIONS)
