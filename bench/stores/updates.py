"""A log of updates as papers on stores of changing graphs describe it, and the C library, which applies it in batches while a
thread scans what it holds."""
from __future__ import annotations

import pathlib
import subprocess
import threading
from ctypes import c_uint64
from typing import Any, Dict, List, NamedTuple, Optional, Tuple

import numpy

from bench.calls import VIEW, loaded
from bench.measuring import watch
from bench.places import compiled
from bench.stores.caller import Caller, Names, operations
from bench.stores.growing import rmat
from misteluk.engine import interface

# Operations for each edge that stays, and the part of the log for which an edge that goes is there at the most.
FOR_EACH, STAYS = 10, 2 / 9
# How many batches are timed at the most, of how many operations those before are, and how many blocks there are.
TIMED, BEFORE, BLOCKS = 5_000, 1 << 16, 1 << 20
ONE = numpy.ones(1, "u8")


class Log(NamedTuple):
    """Operations' sorts, as the library has them, and their sources and targets."""

    sorts: Any
    sources: Any
    targets: Any
    vertices: int

    def first(self, batch: int) -> int:
        """Where the operations that are timed begin, in batches of this size."""
        return max(0, len(self.sorts) - TIMED * batch)


class Spent(NamedTuple):
    """How many operations were timed, and how many scans came beside, with elapsed seconds; how many edges leave each vertex."""

    operations: int
    seconds: float
    scans: int
    scanned: float
    degrees: Any


def pairs(shape: str, scale: int, count: int, chance: Any) -> Tuple[Any, Any]:
    """So many different pairs of vertices, in random order."""
    found = numpy.zeros(0, "u8")
    while len(found) < count:
        drawn = rmat(scale, 2 * count, chance) if shape == "rmat" else chance.integers(0, 1 << scale, (2, 2 * count), "u4")
        found = numpy.unique(numpy.concatenate((found, drawn[0].astype("u8") << numpy.uint64(32) | drawn[1])))
    found = chance.permutation(found)[:count]
    return (found >> numpy.uint64(32)).astype("u4"), (found & numpy.uint64(0xFFFFFFFF)).astype("u4")


def log_of(shape: str, scale: int, edges: int) -> Log:
    """Insertions of edges that stay, at random times, and of others of the same distribution, each of which is removed later: ten
    operations for each edge that stays."""
    chance = numpy.random.default_rng(7)
    others = (FOR_EACH - 1) * edges // 2
    sources, targets = pairs(shape, scale, edges + others, chance)
    begins = chance.random(edges + others)
    ends = begins[edges:] + chance.random(others) * numpy.minimum(STAYS, 1 - begins[edges:])
    order = numpy.argsort(numpy.concatenate((begins, ends)), kind="stable")
    sorts = numpy.repeat(numpy.array([interface.INSERT, interface.REMOVE], "u1"), (edges + others, others))
    sources, targets = (numpy.concatenate((it, it[edges:]))[order] for it in (sources, targets))
    return Log(sorts[order], sources, targets, 1 << scale)


class Reader:
    """A thread that makes the table of degrees of the version that it is given, and then of the next one."""

    def __init__(self, call: Caller, desk: Any, vertices: int) -> None:
        self.call, self.desk, self.count = call, desk, 0
        self.given, self.is_done, self.is_over = threading.Event(), threading.Event(), False
        self.table = [numpy.zeros(vertices, it) for it in ("u4", "u4", "i8")]
        self.held: Optional[Tuple[Any, Any]] = None
        self.thread = threading.Thread(target=self.scan)
        self.thread.start()
        self.is_done.set()

    def scan(self) -> None:
        while self.given.wait() and not self.is_over:
            self.given.clear()
            assert self.held
            size = self.call.size(self.held[0]).vertices
            self.call("version_degrees", self.held[0], VIEW, *(it[:size] for it in self.table))
            self.count += 1
            self.is_done.set()

    def give(self) -> None:
        """Gives it the last version, if it is done with the one before. (One thread at a time asks a desk: the writer.)"""
        if self.is_done.is_set():
            self.release()
            self.held = self.call.hold(self.desk)
            self.is_done.clear()
            self.given.set()

    def release(self) -> None:
        if self.held:
            self.call.release(self.desk, self.held)
            self.held = None

    def end(self) -> None:
        self.is_done.wait()
        self.release()
        self.is_over = True
        self.given.set()
        self.thread.join()


class Library:
    """A desk, and a log in columns of its."""

    def __init__(self, log: Log) -> None:
        self.call, self.log = Caller(loaded()), log
        self.desk = self.call.opened(log.vertices, 1, (1 << 32) - 1, BLOCKS)
        self.batch, self.done = interface.Batch(), c_uint64()
        self.call("batch_new", self.batch)
        count = len(log.sorts)
        times = numpy.arange(count, dtype="u8")
        self.columns = operations(b"e", ONE, *Names(log.vertices).words, log.sorts, numpy.zeros(count, "u4"), log.sources,
                                  log.targets, numpy.ones(count, "i8"), times)

    def apply(self, until: int, size: int, reader: Optional[Reader] = None) -> None:
        """Applies operations to below a place, in batches of a size."""
        while self.done.value < until:
            self.call("batch_columns", self.batch, self.columns, min(size, until - self.done.value), self.done)
            self.call.apply(self.desk, self.batch)
            self.call.collect(self.desk)
            if reader:
                reader.give()

    def run(self, size: int, scans: bool) -> Spent:
        first, count = self.log.first(size), len(self.log.sorts)
        self.apply(first, BEFORE)
        reader = Reader(self.call, self.desk, self.log.vertices) if scans else None
        spent = watch()
        self.apply(count, size, reader)
        seconds = spent().elapsed
        if reader:
            reader.end()
        scanned = spent().elapsed
        return Spent(count - first, seconds, reader.count if reader else 0, scanned, self.degrees())

    def degrees(self) -> Any:
        """How many edges leave each vertex, by the numbers of its name."""
        held = self.call.hold(self.desk)
        size = self.call.size(held[0])
        out, into, weights = (numpy.zeros(size.vertices, it) for it in ("u4", "u4", "i8"))
        self.call("version_degrees", held[0], VIEW, out, into, weights)
        text, ends = numpy.zeros(size.name_bytes, "u1"), numpy.zeros(size.vertices, "u8")
        self.call("version_names", held[0], 0, text, ends)
        self.call.release(self.desk, held)
        found = numpy.zeros(self.log.vertices, "u4")
        for name, degree in zip(self.names(text.tobytes(), ends.tolist()), out.tolist()):
            found[name] = degree
        return found

    def names(self, text: bytes, ends: List[int]) -> List[int]:
        return [int(text[begin + 1:end]) for begin, end in zip([0, *ends], ends)]

    def close(self) -> None:
        self.call.library.batch_free(self.batch)
        self.call.library.desk_free(self.desk)


def by_library(log: Log, size: int, scans: bool, _: pathlib.Path) -> Spent:
    store = Library(log)
    found = store.run(size, scans)
    store.close()
    return found


def by_maps(log: Log, size: int, scans: bool, room: pathlib.Path) -> Spent:
    """The same over plain maps (bench/cpp/stream.cpp)."""
    given, answer = room / "log", room / "degrees"
    with given.open("wb") as file:
        for it in (log.sorts.astype("u4"), log.sources, log.targets):
            it.tofile(file)
    words = [compiled("stream"), str(given), str(log.vertices), str(size), str(log.first(size)), str(int(scans)), str(answer)]
    lines = subprocess.run(words, stdout=subprocess.PIPE, text=True, check=True).stdout.split()
    return Spent(int(lines[1]), float(lines[2]), int(lines[4]), float(lines[5]), numpy.fromfile(answer, "u4"))


STORES: Dict[str, Any] = {"library": by_library, "maps": by_maps}
