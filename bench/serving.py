"""A server with a feed and clients, each a process of its own: what `serve` measures."""
from __future__ import annotations

import contextlib
import os
import pathlib
import queue
import random
import subprocess
import sys
import tempfile
import threading
import time
from multiprocessing import get_context
from typing import IO, Any, Callable, Dict, Iterator, List, NamedTuple, Tuple, cast

from bench.measuring import watch
from bench.places import TOP

NAMES, THREADS = 20_000, 8
QUESTIONS = ("edge", "has_vertex", "degrees")
# How a server reads the feed from its standard input.
FEED = ("-", "--add", "--source", "1", "--target", "2", "--weight", "3", "--time", "4", "--every", "200ms", "--keep", "500000")
Times = Dict[str, List[float]]


def rows(seed: int) -> Iterator[str]:
    """Rows of a feed without end, a hundred at a time: a few vertices have most edges."""
    chance, time_now = random.Random(seed), 0
    while True:
        yield "".join(f"v{int(NAMES * chance.random() ** 3)},v{chance.randrange(NAMES)},{chance.randrange(100)},{time_now + it}\n"
                      for it in range(100))
        time_now += 100


def feed(pipe: IO[str], rate: int, is_over: threading.Event) -> None:
    """Writes rows at a rate, or as fast as they are taken."""
    spent = watch()
    for count, part in enumerate(rows(1)):
        if is_over.is_set():
            return
        if rate:
            is_over.wait(max(0.0, count * 100 / rate - spent().elapsed))
        try:
            pipe.write(part)
            pipe.flush()
        except OSError:
            return


class Askers(NamedTuple):
    """So many clients, which pause for so many seconds behind each question; and how many replicas they ask beside the server."""

    number: int
    pause: float
    replicas: int = 0

    @property
    def told(self) -> str:
        return f"{self.number}{'' if self.pause else ', no pause'}{f', {self.replicas} replicas' if self.replicas else ''}"


def ask(url: str, seed: int, pause: float, until: float, times: Times) -> None:
    """A client: notes the seconds that each question took."""
    import misteluk
    chance, store = random.Random(seed), misteluk.connect(url)
    while time.time() < until:
        with store.open() as session:
            end = time.time() + 1
            session.degrees()
            while time.time() < min(end, until):
                source, target = f"v{int(NAMES * chance.random() ** 3)}", f"v{chance.randrange(NAMES)}"
                calls: Tuple[Callable[[], object], ...] = (
                    lambda: session.get_edges([("link", source, target)], missing=None), lambda: session.has_vertex(source),
                    lambda: session.degrees())
                for name, call in zip(QUESTIONS, calls):
                    spent = watch()
                    call()
                    times[name].append(spent().elapsed)
                    time.sleep(pause)
    store.close()


def clients(urls: List[str], count: int, seed: int, pause: float, seconds: float, ready: Any, go: Any,
            found: "queue.Queue[Times]") -> None:
    """A process of some clients, each a thread. They ask when it is told to go."""
    import misteluk  # noqa: F401
    times: Times = {it: [] for it in QUESTIONS}
    ready.release()
    go.wait()
    until = time.time() + seconds
    threads = [threading.Thread(target=ask, args=(urls[it % len(urls)], it, pause, until, times))
               for it in range(seed, seed + count)]
    for it in threads:
        it.start()
    for it in threads:
        it.join()
    found.put(times)


@contextlib.contextmanager
def server(*words: str) -> Iterator["subprocess.Popen[str]"]:
    """A server; it ends with the block."""
    process = subprocess.Popen([sys.executable, "-m", "misteluk", "serve", *words], stdin=subprocess.PIPE, stdout=subprocess.PIPE,
                               text=True, env={**os.environ, "PYTHONPATH": str(TOP / "python")})
    try:
        cast("IO[str]", process.stdout).readline()
        yield process
    finally:
        process.terminate()
        process.wait()


def fed_rows(store: Any) -> int:
    """How many rows of the feed came in so far."""
    return int(store._engine.talk.call("GET", "/v1/stat").json()["feed"]["rows"])


def asked(store: Any, urls: List[str], askers: Askers, seconds: float) -> Tuple[Times, float]:
    """The times of clients who ask for so long, and the rows a second that came in meanwhile."""
    spawn = get_context("spawn")
    found: "queue.Queue[Times]" = spawn.Queue()
    ready, go = spawn.Semaphore(0), spawn.Event()
    shares = [len(range(it, askers.number, THREADS)) for it in range(min(THREADS, askers.number))]
    running = [spawn.Process(target=clients, args=(urls, it, 100 * at, askers.pause, seconds, ready, go, found))
               for at, it in enumerate(shares)]
    for it in running:
        it.start()
    for _ in running:
        ready.acquire()
    before, spent = fed_rows(store), watch()
    go.set()
    times = [found.get(timeout=seconds + 60) for _ in running]
    time.sleep(max(0.0, seconds - spent().elapsed))
    taken = (fed_rows(store) - before) / spent().elapsed
    return {name: [it for some in times for it in some[name]] for name in QUESTIONS}, taken


def measured(room: pathlib.Path, rate: int, askers: Askers, seconds: float) -> Tuple[Times, float]:
    """The times of clients while a feed of this rate comes in, and its rows a second."""
    import misteluk
    with tempfile.TemporaryDirectory(dir=room) as name, contextlib.ExitStack() as opened:
        urls, file, is_over = [f"unix:{name}/socket"], [f"{name}/graph.db"] * (askers.replicas > 0), threading.Event()
        process = opened.enter_context(server(*file, *FEED, "--listen", urls[0]))
        for it in range(askers.replicas):
            urls.append(f"unix:{name}/replica{it}")
            opened.enter_context(server("--replica-of", *file, "--listen", urls[-1]))
        feeder = threading.Thread(target=feed, args=(process.stdin, rate, is_over))
        feeder.start()
        try:
            store = misteluk.connect(urls[0])
            time.sleep(2)
            times, taken = asked(store, urls, askers, seconds)
            store.close()
        finally:
            is_over.set()
            process.terminate()
            feeder.join()
    return times, taken
