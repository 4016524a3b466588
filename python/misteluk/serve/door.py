"""The connections of a server: how many there may be, and for how long one stays that asked nothing that was let in.

Whoever has no token may open connections too. So each is a stranger's until a request of it is let in; a stranger has little
time, and where there is no room for another connection the one that has been a stranger's for the longest makes room.
"""
from __future__ import annotations

import contextlib
import json
import resource
from collections import Counter
from typing import Any, Dict, Optional

from . import wire
from .limits import FIRST, STRANGERS

# How many descriptors are for what is no connection, as files and pipes, and how many connections wait to be taken at most.
SPARE, QUEUE = 256, 1_024
# How many are there at least, and for how many seconds one that is refused stays, so that its client reads why.
LEAST, LINGER = 16, 1.0


def raise_descriptors() -> None:
    """Lets the process have as many descriptors as it may."""
    hard = resource.getrlimit(resource.RLIMIT_NOFILE)[1]
    with contextlib.suppress(OSError, ValueError):  # (a kernel may have a lower limit yet)
        resource.setrlimit(resource.RLIMIT_NOFILE, (hard, hard))


def room_for(wanted: int) -> int:
    """How many connections there may be, of so many that are wanted: each has a descriptor."""
    descriptors = resource.getrlimit(resource.RLIMIT_NOFILE)[0]
    return wanted if descriptors == resource.RLIM_INFINITY else min(wanted, max(descriptors - SPARE, LEAST))


class Door:
    """Who is in, by the transports of connections."""

    def __init__(self, most: int) -> None:
        self.most, self.first, self.strangers = most, FIRST, STRANGERS
        self._there: Dict[Any, Optional[str]] = {}
        # Those of which nothing was let in yet, the oldest first, with the timer of each; and how many of them a peer has.
        self._strangers: Dict[Any, Any] = {}
        self._of_peer: "Counter[Optional[str]]" = Counter()
        # How many were refused for lack of room.
        self.refused = 0

    @property
    def count(self) -> int:
        """How many connections there are."""
        return len(self._there)

    def enter(self, transport: Any, loop: Any) -> bool:
        """Takes a connection, and says whether there is room for it."""
        peer = _peer_of(transport)
        if peer is not None and self._of_peer[peer] >= self.strangers:
            self._refuse(next(it for it in self._strangers if self._there[it] == peer))
        if len(self._there) >= self.most:
            if not self._strangers:
                self.refused += 1
                return False
            self._refuse(next(iter(self._strangers)))
        self._there[transport] = peer
        self._strangers[transport] = loop.call_later(self.first, self._late, transport)
        self._of_peer[peer] += 1
        return True

    def let_in(self, transport: Any) -> None:
        """Notes that a request of a connection was let in."""
        timer = self._strangers.pop(transport, None)
        if timer is not None:
            timer.cancel()
            peer = self._there[transport]
            self._of_peer[peer] -= 1
            if not self._of_peer[peer]:
                del self._of_peer[peer]

    def leave(self, transport: Any) -> None:
        self.let_in(transport)
        self._there.pop(transport, None)

    def _late(self, transport: Any) -> None:
        self.leave(transport)
        transport.abort()

    def _refuse(self, transport: Any) -> None:
        self.refused += 1
        self.leave(transport)
        transport.write(REFUSED)
        transport.close()


def _peer_of(transport: Any) -> Optional[str]:
    """The address of who is at the other end; `None` at a Unix socket."""
    found = transport.get_extra_info("peername")
    return str(found[0]) if isinstance(found, tuple) and found else None


_TOLD = json.dumps(wire.fault("Full", "this server has no room for one more connection", 1)).encode("ascii") + b"\n"
REFUSED = (b"HTTP/1.1 503 Service Unavailable\r\ncontent-type: application/json\r\nretry-after: 1\r\nconnection: close\r\n"
           b"content-length: %d\r\n\r\n%s" % (len(_TOLD), _TOLD))
# What uvicorn's protocol gives, which isn't there where this is read: `protocol` joins the two.
_Protocol: Any = object


class AtDoor(_Protocol):  # type: ignore[misc]
    """uvicorn's protocol, of which each connection comes in by a door. It stands before one in a class."""

    door: Door
    is_refused, begun = False, 0.0
    timeout_keep_alive_task: Any = None

    def connection_made(self, transport: Any) -> None:
        super().connection_made(transport)
        self.is_refused = not self.door.enter(transport, self.loop)
        if self.is_refused:
            transport.write(REFUSED)
            transport.write_eof()
            self.loop.call_later(LINGER, transport.abort)

    def connection_lost(self, fault: Any) -> None:
        self.door.leave(self.transport)
        super().connection_lost(fault)

    def data_received(self, data: bytes) -> None:
        if self.is_refused:
            return
        super().data_received(data)
        if self.timeout_keep_alive_task is None and (self.cycle is None or self.cycle.response_complete):
            self._wait_for_head()
        else:
            self.begun = 0.0

    def _wait_for_head(self) -> None:
        """Ends the connection where the rest of a head doesn't come in time. (The next bytes stop this timer.)"""
        now = self.loop.time()
        self.begun = self.begun or now
        left = max(self.begun + self.door.first - now, 0.0)
        self.timeout_keep_alive_task = self.loop.call_later(left, self.transport.abort)


def protocol(door: Door) -> type:
    """What uvicorn makes for each connection: its own protocol, behind a door."""
    from uvicorn.protocols.http.auto import AutoHTTPProtocol
    return type("Connection", (AtDoor, AutoHTTPProtocol), {"door": door})
