"""How a version that a server holds for a client is kept while the client is silent, and given back where it is forgotten."""
from __future__ import annotations

import _thread
import atexit
import os
import queue
import sys
import threading
import time
import weakref
from typing import Any, Callable, List

from .talk import Talk
from ..errors import NotAllowed, SessionClosed, StoreError

# At most every how many seconds a server is told that a version is needed still, and how often within the time that it gives.
EVERY, TIMES = 20.0, 3
# What stands for each thread that was begun to give a version back and doesn't run yet, and for how many seconds an exit waits
# for these: a Python that ends while one begins may end by a fault of its memory.
_begun: List[object] = []
LONGEST = 5.0
os.register_at_fork(after_in_child=_begun.clear)  # (of a process's threads a fork has none)


class Hold:
    """What a client does for a version beside asking it, until `end`: with `keep_alive` a thread tells the server at intervals
    that it is needed still. It refers to the version's owner weakly: where that is forgotten, the version is given back, and the
    thread ends."""

    def __init__(self, owner: Any, talk: Talk, path: str, idle: float, keep_alive: bool) -> None:
        self._bell: "queue.SimpleQueue[None]" = queue.SimpleQueue()
        talk = talk.apart()
        self._forgotten = weakref.finalize(owner, _forgotten, self._bell, talk, path, os.getpid())
        self._forgotten.atexit = False
        if keep_alive:
            given = self._bell, talk, path, min(idle / TIMES, EVERY)
            threading.Thread(target=_keep, args=given, name=f"keeps {path}", daemon=True).start()

    def end(self) -> None:
        """The version is needed no more, and its owner sees to that by itself."""
        self._forgotten.detach()
        self._bell.put(None)


def _keep(bell: "queue.SimpleQueue[None]", talk: Talk, path: str, every: float) -> None:
    """Tells the server at intervals that the version is needed, until the bell rings or the server has let it go."""
    is_needed = True
    while is_needed:
        try:
            bell.get(timeout=every)
            is_needed = False
        except queue.Empty:
            is_needed = _is_kept(talk, path)
    talk.close()


def _is_kept(talk: Talk, path: str) -> bool:
    try:
        talk.call("PUT", path)
    except (SessionClosed, NotAllowed):
        return False
    except StoreError:  # (one that doesn't answer now may hold it still)
        pass
    return True


def _forgotten(bell: "queue.SimpleQueue[None]", talk: Talk, path: str, process: int) -> None:
    """Gives back a version that nobody has any more. This may come amid anything: it takes no lock and waits for nothing, and so
    it begins a thread without `threading`, which has locks."""
    bell.put(None)
    if os.getpid() == process and not sys.is_finalizing():
        run: Callable[..., object] = _run
        mark = object()
        _begun.append(mark)
        try:
            _thread.start_new_thread(run, (mark, talk, path))
        except RuntimeError:  # (there are too many: the server lets it go by itself)
            _begun.remove(mark)


def _run(mark: object, talk: Talk, path: str) -> None:
    _begun.remove(mark)
    _give_back(talk, path)


@atexit.register
def _wait() -> None:
    """Waits until each thread that was begun runs."""
    until = time.monotonic() + LONGEST
    while _begun and time.monotonic() < until:
        time.sleep(0.001)


def _give_back(talk: Talk, path: str) -> None:
    try:
        talk.ask("DELETE", path)
    except Exception:  # (nobody is there to be told; the server lets it go by itself)
        pass
    finally:
        talk.close()
