"""What a server tells the service manager that began it (systemd's `sd_notify`): that it answers, that it lives, that it ends."""
from __future__ import annotations

import os
import socket
from contextlib import suppress
from typing import Any, MutableMapping, Optional

# How often within the time that the manager gives it is told that the server lives.
TIMES = 3


class Manager:
    """The service manager of an environment; where there is none, nothing is told."""

    def __init__(self, environment: Optional[MutableMapping[str, str]] = None) -> None:
        found = {} if environment is None else environment
        self._place = found.pop("NOTIFY_SOCKET", "")
        micros, process = found.pop("WATCHDOG_USEC", ""), found.pop("WATCHDOG_PID", "")
        is_mine = micros.isdigit() and process in ("", str(os.getpid()))
        # Every how many seconds it is told that the server lives.
        self.every = int(micros) / 1e6 / TIMES if self._place and is_mine and int(micros) else None

    def tell(self, *lines: str) -> None:
        """Sends lines, as `READY=1`. A manager that doesn't listen is none."""
        if self._place[:1] not in ("/", "@"):
            return
        place = f"\0{self._place[1:]}" if self._place[0] == "@" else self._place
        with suppress(OSError), socket.socket(socket.AF_UNIX, socket.SOCK_DGRAM | socket.SOCK_CLOEXEC) as link:
            link.connect(place)
            link.sendall("\n".join(lines).encode("utf-8"))

    def begin(self, loop: Any, status: str) -> None:
        """Tells that the server answers, and from here on that it lives, as long as this loop goes round."""
        self.tell("READY=1", f"STATUS={status}")
        self._live(loop)

    def _live(self, loop: Any) -> None:
        if self.every is not None:
            self.tell("WATCHDOG=1")
            loop.call_later(self.every, self._live, loop)

    def end(self) -> None:
        self.tell("STOPPING=1")
