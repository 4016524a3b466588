"""What the machine itself gives to three threads: hashes on threads, which share nothing and stay in a processor's own cache, and
core tables in processes, each with a store of its own."""
from __future__ import annotations

import hashlib
import os
import subprocess
import sys
import threading
from typing import Any, List

from bench.measuring import stop
from bench.places import TOP

# Bytes that are hashed at once, and how often.
BYTES, TIMES = 1 << 17, 2_000


def hashes(threads: int) -> None:
    """So many hashes in each of so many threads: hashlib lets the interpreter's lock go."""
    block = bytes(BYTES)

    def make() -> None:
        for _ in range(TIMES):
            hashlib.sha256(block).digest()

    makers = [threading.Thread(target=make) for _ in range(threads)]
    for it in makers:
        it.start()
    for it in makers:
        it.join()


class Processes:
    """Three processes, each with a store that is loaded. They make tables when they are asked to, the first alone or all."""

    def __init__(self, edges: int) -> None:
        words = [sys.executable, "-B", "-m", "bench.stores.controls", str(edges)]
        ways: Any = {"stdin": subprocess.PIPE, "stdout": subprocess.PIPE, "cwd": TOP,
                     "env": {**os.environ, "PYTHONPATH": str(TOP / "python")}}
        self.processes = [subprocess.Popen(words, **ways) for _ in range(3)]
        self.answer(self.processes)

    def answer(self, asked: "List[subprocess.Popen[bytes]]") -> None:
        for it in asked:
            assert it.stdout
            if it.stdout.readline() != b"done\n":
                stop("a process that makes core tables ended")

    def make(self, count: int) -> None:
        """Core tables in so many of the processes at once."""
        asked = self.processes[:count]
        for it in asked:
            assert it.stdin
            it.stdin.write(b"make\n")
            it.stdin.flush()
        self.answer(asked)

    def close(self) -> None:
        for it in self.processes:
            it.communicate()


def serve(edges: int) -> None:
    """One of the processes: it says when it is ready, and when each round of tables is made."""
    from bench.calls import loaded
    from bench.stores.columns import Input, Store
    store = Store(Input(edges), loaded())
    store.load()
    store.prepare()
    print("done", flush=True)
    for _ in sys.stdin:
        store.on_threads(1)
        print("done", flush=True)
    store.close()


if __name__ == "__main__":
    serve(int(sys.argv[1]))
