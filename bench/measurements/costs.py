"""Compares what some forty scripts cost with the figures kept in bench/costs.txt: instructions, by callgrind; peak memory; how
often `stinger run` writes. No clause of a proof sees any of these, so that a cache that is never hit, a store that is never given
back or an answer in small pieces would pass for right. Scripts of records go to `stinger run`, those of calls to the library.

    python3 -m bench run costs             compares, and ends in status 1 where a figure is too far from the kept one
    python3 -m bench run costs --keep      keeps today's figures, where a change is meant: its commit says why
    python3 -m bench run costs NAME ..     compares these scripts alone

Instructions may be 1.02 of the kept ones, memory and writes 1.1 (DEARER). What has fallen as far is kept again (CHEAPER): else it
could rise as far again, unseen. What is in use after a script of calls was repeated may be 256 KiB more (LEAKS).

One worker runs each script but one, since how two share the work differs from run to run. The program is the proved one, of which
the figures are: a compiled one takes others, and is refused. Made with another glibc, valgrind or kit, figures are others too;
that is said first, and only what is more than a tenth above is refused then. Nothing is kept without valgrind and rt.
"""
from __future__ import annotations

import argparse
import concurrent.futures
import functools
import pathlib
import subprocess
from typing import BinaryIO, Callable, Dict, List, cast

from bench import scripts
from bench.catalog import is_here
from bench.cost_calls import CALLS, built, calls_cost, compiled_library
from bench.cost_scripts import SCRIPTS, WORKERS
from bench.kept_costs import Figures, Kept, Made, compare, made_now
from bench.measuring import instructions, of_process, side_by_side, stop
from bench.places import TOP, program, stinger_run, takes_program

KEPT = TOP / "bench/costs.txt"
LIBRARY = "library: "
NAMES = [*SCRIPTS, *(f"{LIBRARY}{it}" for it in CALLS)]


def options(parser: argparse.ArgumentParser) -> None:
    takes_program(parser)
    parser.add_argument("--keep", action="store_true", help="keep today's figures")
    parser.add_argument("--kept", type=pathlib.Path, default=KEPT, metavar="FILE", help="the kept figures (bench/costs.txt)")
    parser.add_argument("names", nargs="*", metavar="NAME", help="scripts (none: all)")


def feed(to: BinaryIO, script: bytes) -> None:
    to.write(script)
    to.flush()


def memory_and_writes(command: List[str], script: bytes) -> Figures:
    """The peak resident memory in kilobytes and the number of writes, as the kernel tells them of the process while it waits for
    one record more."""
    with subprocess.Popen(command, stdin=subprocess.PIPE, stdout=subprocess.PIPE) as process:
        into, out = cast(BinaryIO, process.stdin), cast(BinaryIO, process.stdout)
        with concurrent.futures.ThreadPoolExecutor(1) as pool:
            fed = pool.submit(feed, into, script + b"stat\n")
            left = script.count(b"stat\n") + 1
            while left and (line := out.readline()):
                left -= line.startswith(b"stat ")
            fed.result()
            found = {"kilobytes": of_process("VmHWM", process.pid), "writes": of_process("syscw", process.pid, "io")}
        into.close()
        out.read()
    if process.returncode or left:
        stop(f"{' '.join(command)} ended early, in status {process.returncode}")
    return found


def costs(words: argparse.Namespace, room: pathlib.Path, name: str) -> Figures:
    command, script = stinger_run(words, WORKERS.get(name, 1)), scripts.kept(room / name, SCRIPTS[name]())
    counted = {"instructions": instructions(command, script)} if is_here("valgrind") else {}
    return {**counted, **memory_and_writes(command, script.read_bytes())}


def counted(words: argparse.Namespace, room: pathlib.Path, names: List[str]) -> Dict[str, Figures]:
    """What each script costs."""
    works: Dict[str, Callable[[], Figures]] = {it: functools.partial(costs, words, room, it) for it in names if it in SCRIPTS}
    calls = [it for it in names if it not in works]
    if calls and not is_here("rt"):
        print("costs: the scripts of calls are passed over, since rt isn't here, which makes their program")
    elif calls:
        made = built(room, compiled_library())
        works.update({it: functools.partial(calls_cost, made, it[len(LIBRARY):]) for it in calls})
    return side_by_side(works)


def refuse(words: argparse.Namespace, now: Made) -> None:
    """Stops where figures would be compared with others, or kept as what they aren't."""
    wanted = ("proved" if words.kept == KEPT else now.program) if words.keep else Kept.read(words.kept).made.program
    if wanted != now.program:
        this, other = ("the proved" if it == "proved" else "an unproved" for it in (now.program, wanted))
        stop(f"{program(words.program)} is {this} program, and {words.kept} has figures of {other} one: run ./prove, which makes "
             "the proved one, or keep the figures of another in a file of their own (--kept FILE --keep)")


def measure(words: argparse.Namespace, room: pathlib.Path) -> int:
    if unknown := set(words.names) - set(NAMES):
        stop(f"no script {', '.join(sorted(unknown))}; there are {', '.join(NAMES)}")
    now = made_now(program(words.program))
    refuse(words, now)
    names = words.names or NAMES
    missing = [it for it in ("valgrind", "rt") if not is_here(it)]
    if missing and words.keep:
        stop(f"nothing is kept without {' and '.join(missing)}")
    if "valgrind" in missing:
        print("costs: no instructions are compared, since valgrind isn't here")
    found = counted(words, room, names)
    if words.keep:
        Kept(now, found).write(words.kept)
        return 0
    return compare(found, Kept.read(words.kept), now, loose=WORKERS)
