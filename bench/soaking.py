"""A server under clients that hold a version, come and go, fall silent or are killed, and under readers that take little: what
`soak` watches."""
from __future__ import annotations

import collections
import http.client
import json
import os
import pathlib
import random
import signal
import socket
import subprocess
import sys
import threading
import time
from typing import IO, Any, Counter, Dict, List, Tuple, cast

from bench.measuring import of_process
from bench.places import TOP

NAMES, WINDOW, IDLE, KILLED_EVERY = 20_000, 100_000, 10.0, 5.0
# What clients of each sort may meet: all seats are taken by versions of those that were killed; and one that was silent for too
# long has its version let go, as another may whom a busy machine kept waiting as long between two connections.
HOLDS, COMES, SILENT = "holds", "comes and goes", "silent"
FORESEEN = {HOLDS: ("NoSeat", "Full"), COMES: ("NoSeat", "Full", "SessionClosed"), SILENT: ("NoSeat", "Full", "SessionClosed")}
# The eight clients, and from which of them on one may be killed.
CLIENTS, MORTAL = (HOLDS, HOLDS, SILENT, HOLDS, *[COMES] * 4), 3


def feed(pipe: IO[str], rate: int, new_names: int, is_over: threading.Event) -> None:
    """Writes so many rows a second: a few vertices have most edges, and so many names a second are new."""
    chance, begun = random.Random(1), time.monotonic()
    for count in range(0, 1 << 40, 100):
        if is_over.wait(max(0.0, begun + count / rate - time.monotonic())):
            return
        base = count * new_names // rate
        try:
            pipe.write("".join(f"v{base + int(NAMES * chance.random() ** 3)},v{base + chance.randrange(NAMES)},"
                               f"{chance.randrange(100)},{count + it}\n" for it in range(100)))
            pipe.flush()
        except OSError:
            return


def asked(session: Any, chance: random.Random, names: List[str]) -> None:
    vertex = chance.choice(names) if names else "v1"
    calls: List[Any] = [session.successors, session.levels, session.neighbors, session.predecessors]
    chance.choice(calls)(vertex)


def tell(sort: str, met: Counter[str]) -> None:
    """Tells in a line what a client met."""
    print(json.dumps({f"{sort}: {it}": count for it, count in met.items()}), flush=True)
    met.clear()


def holding(session: Any, chance: random.Random, met: Counter[str]) -> None:
    """Asks twice a second for half a minute to two, while later versions come: what it holds stays as it is."""
    first = session.version, session.edge_count, session.degrees().to_dict()
    for count in range(chance.randrange(60, 240)):
        asked(session, chance, list(first[2]))
        met["answers"] += 1
        if count % 10 == 9:
            is_same = (session.version, session.edge_count, session.degrees().to_dict()) == first
            met["the version as it was" if is_same else "another version than the one held"] += 1
            tell(HOLDS, met)
        time.sleep(0.5)


def coming(session: Any, chance: random.Random, met: Counter[str]) -> None:
    """Asks a few questions, one after another."""
    names = list(session.degrees())
    for _ in range(chance.randrange(5, 40)):
        asked(session, chance, names)
        met["answers"] += 1
        time.sleep(0.1)


def silent(session: Any, chance: random.Random, met: Counter[str]) -> None:
    """Asks once, is silent for longer than the server waits, and asks again."""
    names = list(session.degrees())  # (a name that nobody uses for long is let go)
    asked(session, chance, names)
    met["answers"] += 1
    time.sleep(2.5 * IDLE)
    asked(session, chance, names)
    met["an answer after its silence"] += 1


def client(url: str, sort: str, seed: str) -> None:
    """Does as clients of its sort do, again and again until it is killed; a line tells what each round met."""
    import misteluk
    chance, does = random.Random(seed), {HOLDS: holding, COMES: coming, SILENT: silent}[sort]
    while True:
        met: Counter[str] = collections.Counter()
        try:
            with misteluk.connect(url) as of_session, of_session.open() as session:
                does(session, chance, met)
        except misteluk.StoreError as fault:
            met[type(fault).__name__] += 1
            time.sleep(0.5)
        tell(sort, met)


class Clients:
    """The processes of clients, and what they met."""

    def __init__(self, url: str) -> None:
        self._url, self._seed, self.killed = url, 0, 0
        self.met: Counter[str] = collections.Counter()
        self._running = [self._begun(it) for it in CLIENTS]

    def _begun(self, sort: str) -> "subprocess.Popen[str]":
        self._seed += 1
        words = [sys.executable, "-m", "bench", "run", "soak", "--client", self._url, sort, str(self._seed)]
        process = subprocess.Popen(words, cwd=TOP, stdout=subprocess.PIPE, text=True)
        threading.Thread(target=self._read, args=(process.stdout,)).start()
        return process

    def _read(self, lines: IO[str]) -> None:
        for line in lines:
            try:
                self.met.update(json.loads(line))
            except ValueError:  # (one that was killed as it wrote)
                pass
        lines.close()

    def kill_one(self) -> None:
        at = random.randrange(MORTAL, len(CLIENTS))
        self._end(self._running[at])
        self._running[at] = self._begun(CLIENTS[at])
        self.killed += 1

    def _end(self, process: "subprocess.Popen[str]") -> None:
        if process.poll() is not None:
            self.met["ended by itself"] += 1
        process.send_signal(signal.SIGKILL)
        process.wait()

    def kill_all(self) -> None:
        for it in self._running:
            self._end(it)


def has_more(there: socket.socket, pace: int) -> bool:
    """Takes so many bytes of an answer, and says whether there may be more of it."""
    try:
        return not pace or bool(there.recv(pace))
    except OSError:
        return False


def read_slowly(path: str, pace: int, is_over: threading.Event) -> None:
    """Asks all edges, and takes so many bytes of them each tenth of a second; again and again."""
    while not is_over.is_set():
        with socket.socket(socket.AF_UNIX, socket.SOCK_STREAM) as there:
            there.connect(path)
            there.sendall(b"GET /v1/edges HTTP/1.1\r\nHost: localhost\r\nConnection: close\r\n\r\n")
            until = time.monotonic() + 4 * IDLE
            while not is_over.wait(0.1) and time.monotonic() < until and has_more(there, pace):
                pass


def status_of_post(path: str) -> int:
    """The status of the answer to one who posts a row."""
    connection = http.client.HTTPConnection("localhost")
    connection.sock = socket.socket(socket.AF_UNIX, socket.SOCK_STREAM)
    connection.sock.connect(path)
    try:
        connection.request("POST", "/v1/rows", b"add,link,a,b,1,1\n", {"Content-Type": "text/csv"})
        return connection.getresponse().status
    finally:
        connection.close()


def strange(met: Counter[str]) -> Dict[str, int]:
    """What clients met that none of their sort may meet; and what each time should have met them, if it never did."""
    must = f"{HOLDS}: the version as it was", f"{SILENT}: SessionClosed"
    foreseen = {*must, *(f"{sort}: {it}" for sort, them in FORESEEN.items() for it in (*them, "answers"))}
    return {**{it: count for it, count in met.items() if it not in foreseen}, **{it: 0 for it in must if not met[it]}}


class Watched:
    """A server, and what it takes."""

    def __init__(self, room: pathlib.Path) -> None:
        self.path, self._log = f"{room}/socket", room / "log"
        asked = ["serve", "-", "--add", "--source", "1", "--target", "2", "--weight", "3", "--time", "4", "--every", "200ms",
                 "--keep", str(WINDOW), "--idle", str(IDLE), "--listen", f"unix:{self.path}"]
        with open(self._log, "w", encoding="utf-8") as log:
            self.process = subprocess.Popen([sys.executable, "-m", "misteluk", *asked], stdin=subprocess.PIPE,
                                            stdout=subprocess.PIPE, stderr=log, text=True,
                                            env={**os.environ, "PYTHONPATH": str(TOP / "python")})
        cast("IO[str]", self.process.stdout).readline()

    @property
    def url(self) -> str:
        return f"unix:{self.path}"

    def taken(self) -> Tuple[float, int]:
        """Its memory in MiB, with that of the process that reads its feed, and its descriptors."""
        pid = self.process.pid
        reader, = pathlib.Path(f"/proc/{pid}/task/{pid}/children").read_text().split()
        return (of_process("VmRSS", pid) + of_process("VmRSS", reader)) / 1024, len(os.listdir(f"/proc/{pid}/fd"))

    def faults(self) -> List[str]:
        """What it wrote of faults of its own."""
        return self._log.read_text(encoding="utf-8").split("Traceback")[1:]


def stat_of(store: Any) -> Dict[str, Any]:
    found: Dict[str, Any] = store._engine.talk.call("GET", "/v1/stat").json()
    return found
