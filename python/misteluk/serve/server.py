"""A server that runs: where it listens, and its end."""
from __future__ import annotations

import asyncio
import os
import secrets
import socket
import stat
import threading
from typing import TYPE_CHECKING, Any, Callable, List, NamedTuple, Optional

from . import log
from .board import Board
from .door import Door, protocol, room_for
from .feeding import Feeding
from .keeping import Keeper
from .limits import LOOPBACK, USUAL, ServerLimits
from .metrics import Counts
from .notify import Manager
from .people import People
from ..engine.protocol import LIBRARY
from ..errors import Missing, StoreError
from ..store import Store

if TYPE_CHECKING:
    from .replica import Replica

UNIX = "unix:"
# How many connections may be there for each client that may be, and for those that hold nothing.
CONNECTIONS = 64
# How many connections are taken at once at most: each has a descriptor before there is a word of who may stay.
AT_ONCE = 64


class Address(NamedTuple):
    """Where a server listens: at a host and port, or at the path of a Unix socket."""

    host: str = ""
    port: int = 0
    path: str = ""

    @staticmethod
    def of(text: str) -> "Address":
        """The address that a text says: `127.0.0.1:7700`, `[::1]:7700`, `unix:PATH`. Raises `ValueError` for another."""
        if text.startswith(UNIX) and len(text) > len(UNIX):
            return Address(path=text[len(UNIX):])
        host, mark, port = text.rpartition(":")
        if not mark or not host or not port.isascii() or not port.isdigit() or int(port) > 65_535:
            raise ValueError(f"an address is HOST:PORT, as {USUAL}, or unix:PATH, and not {text!r}")
        return Address(host[1:-1] if host.startswith("[") and host.endswith("]") else host, int(port))

    @property
    def is_of_here(self) -> bool:
        """Whether only this machine reaches it."""
        return bool(self.path) or self.host in LOOPBACK

    @property
    def url(self) -> str:
        host = f"[{self.host}]" if ":" in self.host else self.host
        return f"{UNIX}{self.path}" if self.path else f"http://{host}:{self.port}"

    def bound(self) -> "tuple[socket.socket, Address]":
        """A socket that listens there, and the address that it got. Raises `OSError`."""
        if self.path:
            return _bound_unix(self.path), self
        family, kind, proto, _, place = socket.getaddrinfo(self.host, self.port, type=socket.SOCK_STREAM)[0]
        found = socket.socket(family, kind, proto)
        try:
            found.setsockopt(socket.SOL_SOCKET, socket.SO_REUSEADDR, 1)
            found.bind(place)
            found.listen(128)
        except OSError as fault:
            found.close()
            raise _of(self.url, fault) from None
        return found, self._replace(port=found.getsockname()[1])


def _of(address: str, fault: OSError) -> OSError:
    """The fault with the address. (One that Python raises itself, as of a path that is too long, has no number.)"""
    return OSError(fault.errno, fault.strerror, address) if fault.errno else fault


def _bound_unix(path: str) -> socket.socket:
    """A Unix socket that its owner alone may use. One that a server left takes no place."""
    found = socket.socket(socket.AF_UNIX, socket.SOCK_STREAM)
    os.fchmod(found.fileno(), 0o600)  # (from which Linux makes the file's mode, so that it has it from the first)
    try:
        try:
            found.bind(path)
        except OSError:
            if not _is_left(path):
                raise
            os.unlink(path)
            found.bind(path)
        found.listen(128)
    except OSError as fault:
        found.close()
        raise _of(path, fault) from None
    return found


def _is_left(path: str) -> bool:
    """Whether a socket stands there that nobody listens at."""
    try:
        if not stat.S_ISSOCK(os.stat(path).st_mode):
            return False
        with socket.socket(socket.AF_UNIX, socket.SOCK_STREAM) as other:
            other.connect(path)
    except ConnectionRefusedError:
        return True
    except OSError:
        pass
    return False


class Server:
    """A store that is served. `start` begins to answer, in a thread of its own; `run` does so in this one, until it is ended."""

    def __init__(self, store: "Store[Any, Any]", listen: str = USUAL, *, people: Optional[People] = None,
                 limits: ServerLimits = ServerLimits(), keeper: Optional[Keeper] = None, began: str = "without an edge",
                 manager: Optional[Manager] = None, replica: "Optional[Replica]" = None) -> None:
        address, self.people = Address.of(listen), people or People()
        if not self.people.are_any and not address.is_of_here:
            raise ValueError(f"{listen} can be reached from other machines: that wants a token (--token-file)")
        if store._engine.name != LIBRARY:
            raise ValueError("a server has its store in its own process, and serves none of another server")
        self.limits, self.store, self._keeper, self._manager = limits.checked(), store, keeper, manager or Manager()
        self.replica = replica
        self._socket, self.address = address.bound()
        self.board = Board(store, self.limits)
        self.feeding, self.counts = Feeding(self.board, self.limits), Counts()
        self._runner, self._api = self._made(began)
        self._thread: Optional[threading.Thread] = None

    def _made(self, began: str) -> Any:
        """What runs the app, and the app."""
        try:
            import uvicorn
            from .app import Api
        except ImportError as fault:
            self._leave()
            raise Missing(f"{str(fault.name).partition('.')[0]}", "a server") from None
        from .ending import made
        from .health import Health
        from .gate import Gate, Run
        run = Run(secrets.token_urlsafe(9), began)
        self.door = Door(room_for(self.limits.clients + CONNECTIONS))
        health = Health(self.board, self.feeding, self._keeper, self.counts, self.door, self.replica)
        api = Api(self.board, self.feeding, self.limits, run, self._keeper, health, self.people)
        gate = Gate(api.shortcut(), self.people, bool(self.address.path), run, self.door, self.counts)
        config = uvicorn.Config(gate, http=protocol(self.door), log_level="critical", access_log=False,
                                lifespan="off", server_header=False, proxy_headers=False, backlog=AT_ONCE,
                                timeout_keep_alive=int(self.limits.idle) + 5)
        return made(uvicorn.Server, config, self._end, self._begin), api

    @property
    def url(self) -> str:
        return self.address.url

    @property
    def is_asked(self) -> bool:
        """Whether a thread is at an answer."""
        return bool(self._api.is_busy)

    def _begin(self) -> None:
        self._manager.begin(asyncio.get_running_loop(), f"serves {self.url}")

    def _end(self) -> None:
        self._manager.end()
        self._api.bell.close()
        self.end_feed()
        if self._keeper is None or not self._keeper.fault:  # (else it is tried once more, however long that takes)
            self._saved()

    def run(self, saved: Callable[[], None] = lambda: None) -> None:
        """Answers until a signal comes, or `stop` is called; then the feed ends, and all is let go. `saved` is called as soon as
        what came in is saved."""
        sweeping, keeper, self._saved = threading.Event(), self._keeper, saved
        beside = [threading.Thread(target=self._sweep, args=(sweeping,), name="sweeper", daemon=True)]
        if keeper is not None:
            beside.append(threading.Thread(target=keeper.run, args=(self.board,), name="keeper"))
        if self.limits.publish:
            beside.append(threading.Thread(target=self._publish, args=(sweeping,), name="publisher", daemon=True))
        for it in beside:
            it.start()
        if self.replica is not None:
            self.replica.begin(self.board)
        try:
            self._runner.run(sockets=[self._socket])
        finally:
            sweeping.set()
            self.end_feed()
            for it in beside:
                it.join()
            self.board.let_all_go()
            self._api.close()
            self.board.close()
            self._leave()

    def read_people(self) -> None:
        """Reads the people anew. Where their file has a fault, those that are known stay."""
        try:
            log.note("read", tokens=self.people.read_again())
        except (OSError, ValueError) as caught:
            log.fault(f"the tokens stay as they were: {caught}")

    def end_feed(self) -> None:
        """Takes no more rows, and saves what is in. It comes before all that may take long at the end, and once more after it."""
        self.feeding.close()
        if self._keeper is not None:
            self._keeper.stop()
            self._keeper.save_last(self.board)

    def _sweep(self, is_over: threading.Event) -> None:
        while not is_over.wait(min(self.limits.idle / 4, 5.0)):
            try:
                self.board.sweep()
            except StoreError:  # (the store was closed)
                return
            except Exception as fault:
                log.fault("sessions that were silent aren't let go", fault)

    def _publish(self, is_over: threading.Event) -> None:
        while not is_over.wait(self.limits.publish):
            try:
                self.feeding.publish()
            except Exception as fault:  # (as memory that is short: it is tried again)
                log.fault("the newest version isn't published", fault)

    def start(self) -> "Server":
        self._thread = threading.Thread(target=self.run, name="server")
        self._thread.start()
        return self

    def stop(self) -> None:
        """Ends it, and waits for that."""
        self._runner.should_exit = True
        if self._thread is not None:
            self._thread.join()

    def _leave(self) -> None:
        self._socket.close()
        if self.address.path:
            try:
                os.unlink(self.address.path)
            except FileNotFoundError:
                pass

    def __enter__(self) -> "Server":
        return self.start()

    def __exit__(self, *_: object) -> None:
        self.stop()


__all__: List[str] = ["Address", "ServerLimits", "Server"]
