"""Whether a server stays as it is while clients come, go and are killed: half an hour of it, on this machine alone.

    python3 -m bench run soak --minutes 9 --new-names 1000         in place of 30; names come and go five times as fast

The standard input of `misteluk serve -` is a feed of 10,000 rows a second; its window holds 100,000, and names come and go. Eight
clients are processes. Three hold a version for up to two minutes and ask it, and it must stay as it is; four connect, ask, and
go; one is silent for 25 seconds, and must find its version closed. One of these four and a holder is killed (SIGKILL) every five
seconds, and another takes its place. One reader takes all edges at 160,000 bytes a second, another nothing of its answer, and one
that posts rows gets `Busy`.

A row, each minute or twelfth of a shorter time, has the most memory of the server and its feed's reader, and its most
descriptors, since the row before. Status 1: the last quarter took over 1.1 times the memory of the third; descriptors or versions
are left once all clients are gone; the server wrote a fault; a client met another one than `NoSeat`, `Full` and, if it doesn't
hold on, `SessionClosed`; or the silent one never met this, or no holder asked ten times.
"""
from __future__ import annotations

import argparse
import collections
import pathlib
import threading
import time
from typing import Any, Counter, Iterator, List, Tuple

from bench import measuring, soaking, tables
from bench.soaking import Clients, Watched, stat_of


def options(parser: argparse.ArgumentParser) -> None:
    parser.add_argument("--minutes", type=float, default=30.0)
    parser.add_argument("--rate", type=int, default=10_000, help="rows a second")
    parser.add_argument("--new-names", type=int, default=200, help="a second; idle ones are let go when there are 131,071")
    parser.add_argument("--client", nargs=3, metavar=("URL", "SORT", "SEED"), help=argparse.SUPPRESS)


class Soak:
    """The server, its clients, and what was seen of them: second, memory and descriptors; statuses of posts."""

    def __init__(self, server: Watched, store: Any) -> None:
        stat_of(store)  # (whose connection stays)
        self.server, self.store, self.before = server, store, server.taken()[1]
        self.clients = Clients(server.url)
        self.samples: List[Tuple[float, float, int]] = []
        self.statuses: Counter[int] = collections.Counter()

    def rows(self, seconds: float) -> Iterator[List[str]]:
        """A row each minute, or each twelfth of a short time."""
        begun, next_kill, since, every = time.monotonic(), soaking.KILLED_EVERY, 0.0, min(60.0, seconds / 12)
        rows_before, next_row = stat_of(self.store)["feed"]["rows"], every
        while time.monotonic() - begun < seconds:
            time.sleep(1)
            now = time.monotonic() - begun
            self.samples.append((now, *self.server.taken()))
            if now >= next_kill:
                next_kill += soaking.KILLED_EVERY
                self.clients.kill_one()
                self.statuses[soaking.status_of_post(self.server.path)] += 1
            if now >= next_row:
                stat, recent = stat_of(self.store), [it for it in self.samples if it[0] > since]
                rate = (stat["feed"]["rows"] - rows_before) / (now - since)
                counts = map(tables.count, (rate, len(stat["held"]), stat["edges"]))
                yield [f"{now / 60:.1f}", f"{max(it[1] for it in recent):.0f}", str(max(it[2] for it in recent)), *counts]
                rows_before, since, next_row = stat["feed"]["rows"], now, next_row + every

    def faults(self) -> Iterator[str]:
        """What isn't as it should be."""
        count = len(self.samples) if len(self.samples) > 3 else measuring.stop("the time was too short for four samples")
        quarters = [max(it[1] for it in self.samples[at * count // 4:(at + 1) * count // 4]) for at in range(4)]
        print(f"memory by quarters: {', '.join(f'{it:.0f}' for it in quarters)} MiB; {self.clients.killed} clients killed; met: "
              f"{dict(self.clients.met)}; posts: {dict(self.statuses)}")
        if quarters[3] > 1.1 * quarters[2]:
            yield "memory grows"
        after, held = self.server.taken()[1], stat_of(self.store)["held"]
        print(f"descriptors before and after: {self.before}, {after}; held at the end: {len(held)}")
        if after > self.before:
            yield f"{after - self.before} descriptors are left"
        if len(held) != 1 or held[0]["clients"]:
            yield f"versions are left: {held}"
        yield from (f"a fault in the server's log:{it}" for it in self.server.faults()[:1])
        if (strange := soaking.strange(self.clients.met)) or set(self.statuses) != {409}:
            yield f"clients met {strange}, posts {dict(self.statuses)}"


def watched(server: Watched, seconds: float, is_over: threading.Event, store: Any) -> List[str]:
    """Soaks a server that is fed, and returns what isn't as it should be."""
    time.sleep(5)
    soak = Soak(server, store)
    for pace in (16_000, 0):
        threading.Thread(target=soaking.read_slowly, args=(server.path, pace, is_over)).start()
    head = ["minute", "MiB at most", "descriptors at most", "rows a second", "versions held", "edges"]
    try:
        tables.show(head, soak.rows(seconds))
    finally:
        is_over.set()
        soak.clients.kill_all()
    time.sleep(3 * soaking.IDLE)
    return list(soak.faults())


def measure(words: argparse.Namespace, room: pathlib.Path) -> int:
    import misteluk
    if words.client:
        soaking.client(*words.client)
    server, is_over, no_feed = Watched(room), threading.Event(), threading.Event()
    feeder = threading.Thread(target=soaking.feed, args=(server.process.stdin, words.rate, words.new_names, no_feed))
    feeder.start()
    store = misteluk.connect(server.url)
    try:
        found = watched(server, 60 * words.minutes, is_over, store)
    finally:
        no_feed.set()
        server.process.terminate()
        status = server.process.wait()
        feeder.join()
        store.close()
    found += [f"the server ended in status {status}"] if status else []
    print(f"soak: {'; '.join(found) or 'as it should be'}")
    return int(bool(found))
