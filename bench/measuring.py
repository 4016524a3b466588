"""The one way to measure: programs and calls in turns, processor time and elapsed time, instructions, misses, memory; medians.

What is given to a program and what it writes stay in files, so that this process stays small and takes no time meanwhile."""
from __future__ import annotations

import concurrent.futures
import gc
import math
import os
import pathlib
import re
import resource
import statistics
import subprocess
import sys
import time
from dataclasses import dataclass
from typing import Callable, Dict, List, Mapping, NoReturn, Sequence, Tuple, TypeVar, Union

Answer = TypeVar("Answer")
Key = TypeVar("Key")
Words = Sequence[str]
Script = Union[str, pathlib.Path]
# A cache of 1 MB, as the last one; and lines of 4,096 bytes, a model of a TLB with 64 and 1,536 entries.
LINES = ("--LL=1048576,16,64",)
PAGES = ("--D1=262144,4,4096", "--LL=6291456,12,4096")


def stop(text: str) -> NoReturn:
    sys.exit(f"bench: {text}")


@dataclass(frozen=True)
class Spent:
    """Seconds: elapsed, and of all processors together, of the user and of the system."""

    elapsed: float
    processor: float

    def __sub__(self, other: Spent) -> Spent:
        return Spent(self.elapsed - other.elapsed, self.processor - other.processor)

    def __truediv__(self, count: float) -> Spent:
        return Spent(self.elapsed / count, self.processor / count)


@dataclass(frozen=True)
class Spread:
    """The median of some figures, the least, and the greatest."""

    median: float
    least: float
    most: float


def spread(figures: Sequence[float]) -> Spread:
    return Spread(statistics.median(figures), min(figures), max(figures))


def percentile(figures: Sequence[float], percent: int) -> float:
    """The least figure that more than so many percent of them don't exceed."""
    return sorted(figures)[len(figures) * percent // 100]


def medians(runs: Sequence[Spent]) -> Spent:
    """The median of the elapsed times, and that of the processor times."""
    return Spent(statistics.median(it.elapsed for it in runs), statistics.median(it.processor for it in runs))


class Limit:
    """When no further turn is to begin: never, unless `--within` says so."""

    end = math.inf


def in_turns(works: Mapping[Key, Callable[[], Answer]], turns: int) -> Dict[Key, List[Answer]]:
    """What each work gives in each turn: in a turn, each is done once, so that a slow minute of the machine meets all of them.
    The first turn is always done."""
    found: Dict[Key, List[Answer]] = {name: [] for name in works}
    for turn in range(turns):
        if turn and time.monotonic() >= Limit.end:
            print(f"bench: {turn} of {turns} turns were done in the time", file=sys.stderr, flush=True)
            break
        for name, work in works.items():
            found[name].append(work())
    return found


def side_by_side(works: Mapping[Key, Callable[[], Answer]]) -> Dict[Key, Answer]:
    """What each work gives, as many at a time as there are processors. For counts alone: times would disturb each other."""
    with concurrent.futures.ThreadPoolExecutor(len(os.sched_getaffinity(0))) as pool:
        begun = {name: pool.submit(work) for name, work in works.items()}
        return {name: it.result() for name, it in begun.items()}


def run(words: Words, given: Script, lines: Script = os.devnull) -> Spent:
    """What a program takes that reads the file `given` and writes its lines into another. It must end in status 0."""
    with open(given, "rb") as source, open(lines, "wb") as out, open(os.devnull, "wb") as rest:
        begun = time.perf_counter()
        process = subprocess.Popen(words, stdin=source, stdout=out, stderr=rest)
        _, status, usage = os.wait4(process.pid, 0)
        elapsed = time.perf_counter() - begun
    process.returncode = os.waitstatus_to_exitcode(status)
    if process.returncode:
        stop(f"{' '.join(words)} ended in status {process.returncode} on {given}")
    return Spent(elapsed, usage.ru_utime + usage.ru_stime)


def watch() -> Callable[[], Spent]:
    """A watch that runs from now on: each call of it gives what this process spent since. Garbage is collected as usual, so it is
    for one of several threads, and for work that is part of a longer one."""
    def spent() -> Spent:
        return Spent(time.perf_counter() - elapsed, time.process_time() - processor)
    elapsed, processor = time.perf_counter(), time.process_time()  # (last, so that little else is in it)
    return spent


def timed(work: Callable[[], Answer]) -> Tuple[Answer, Spent]:
    """What some work in this process gives, and its time. Garbage is collected before and not meanwhile."""
    gc.collect()
    gc.disable()
    try:
        spent = watch()
        return work(), spent()
    finally:
        gc.enable()


def valgrind(tool: str, options: Words, words: Words, given: Script) -> str:
    """What valgrind says of a program that reads a file."""
    out = f"--{tool}-out-file=/dev/null"
    with open(given, "rb") as source:
        ran = subprocess.run(["valgrind", f"--tool={tool}", *([] if any(it.startswith(out[:20]) for it in options) else [out]),
                              *options, *words], stdin=source, stdout=subprocess.DEVNULL, stderr=subprocess.PIPE)
    told = ran.stderr.decode(errors="replace")
    if ran.returncode:
        stop(f"{' '.join(words)} ended in status {ran.returncode} under valgrind:\n{told}")
    return told


def number_in(pattern: str, text: str) -> int:
    """The number that a line of a program's text has."""
    found = re.search(pattern, text)
    if not found:
        stop(f"no figure like {pattern} in:\n{text}")
    return int(found.group(1).replace(",", ""))


def instructions(words: Words, given: Script, *options: str) -> int:
    """Instructions by callgrind: they don't change with what else the machine does."""
    return number_in(r"Collected : (\d+)", valgrind("callgrind", options, words, given))


def misses(words: Words, given: Script, model: Words = LINES) -> int:
    """How often data weren't in the last cache of a model: LINES counts cache lines, and PAGES counts page walks."""
    told = valgrind("cachegrind", ("--cache-sim=yes", *model), words, given)
    return number_in(r"LLd misses: +([\d,]+)", told)


def peak(words: Words, given: Script) -> int:
    """The peak resident memory in bytes, by GNU time: a program that this process started itself would be charged with this
    process's own size."""
    with open(given, "rb") as source:
        ran = subprocess.run(["/usr/bin/time", "--format", "%M", "--", *words], stdin=source, stdout=subprocess.DEVNULL,
                             stderr=subprocess.PIPE, text=True)
    if ran.returncode:
        stop(f"{' '.join(words)} ended in status {ran.returncode} on {given}:\n{ran.stderr}")
    return int(ran.stderr.splitlines()[-1]) * 1024


def peak_of_children() -> int:
    """The greatest peak resident memory in bytes of the processes that this one started and waited for; or this one's own size
    when it started one, if that is more."""
    return resource.getrusage(resource.RUSAGE_CHILDREN).ru_maxrss * 1024


def of_process(word: str, process: Union[int, str] = "self", file: str = "status") -> int:
    """A number that the kernel shows of a process: with VmRSS, VmHWM, Pss it is kilobytes, with syscw writes."""
    text = pathlib.Path(f"/proc/{process}/{file}").read_text()
    return sum(map(int, re.findall(rf"(?m)^{word}:\s+(\d+)", text)))
