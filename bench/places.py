"""Where the programs are that a measurement runs: the proved one or the one that is named, and plain ones compiled here."""
from __future__ import annotations

import argparse
import filecmp
import functools
import os
import pathlib
import shlex
import subprocess
from typing import Dict, List, Optional

from bench.measuring import stop

TOP = pathlib.Path(__file__).resolve().parent.parent
OUT = TOP / "out/bench"
BLOCKS = 65_536


@functools.lru_cache(maxsize=None)
def proved(*words: str) -> str:
    """The proved program, or with the word `library` the proved library."""
    found = subprocess.run([str(TOP / "prove"), "--where", *words], stdout=subprocess.PIPE, stderr=subprocess.PIPE, text=True)
    if found.returncode:
        stop(f"{found.stderr.strip()} (or name another by MISTELUK_{'LIBRARY' if words else 'PROGRAM'})")
    return found.stdout.strip()


def is_proved(file: str) -> bool:
    """Whether a program is the proved one of the sources as they are."""
    found = subprocess.run([str(TOP / "prove"), "--where"], stdout=subprocess.PIPE, stderr=subprocess.DEVNULL, text=True)
    return found.returncode == 0 and filecmp.cmp(found.stdout.strip(), file, shallow=False)


def program(named: Optional[str] = None) -> str:
    """The program: the one that is named, that of MISTELUK_PROGRAM, or the proved one."""
    return named or os.environ.get("MISTELUK_PROGRAM") or proved()


def library() -> str:
    """The library: that of MISTELUK_LIBRARY, or the proved one."""
    return os.environ.get("MISTELUK_LIBRARY") or proved("library")


def stinger_run(words: argparse.Namespace, workers: Optional[int] = 1, blocks: int = BLOCKS) -> List[str]:
    """The words that run a script; without a number of workers it is the program's own choice."""
    return [program(words.program), "run", "--blocks", str(blocks), *(["--workers", str(workers)] if workers else [])]


def compiled(name: str) -> str:
    """A program of bench/rust, by rustc -O with the standard library, or of bench/cpp, by g++ -O3, compiled once for each form of
    its source."""
    source = next(it for it in (TOP / f"bench/rust/{name}.rs", TOP / f"bench/cpp/{name}.cpp") if it.exists())
    words = ["rustc", "--edition", "2021", "-O"] if source.suffix == ".rs" else ["g++", "-std=c++17", "-O3", "-pthread"]
    made = OUT / "bin" / name
    newest = max(it.stat().st_mtime for it in source.parent.iterdir())  # (one may be a module of another)
    if not made.exists() or made.stat().st_mtime < newest:
        made.parent.mkdir(parents=True, exist_ok=True)
        subprocess.run([*words, "-o", str(made), str(source)], check=True)
    return str(made)


def takes_program(parser: argparse.ArgumentParser) -> None:
    parser.add_argument("--program", metavar="FILE", help="another program than the proved one (or set MISTELUK_PROGRAM)")


def takes_store(parser: argparse.ArgumentParser) -> None:
    """What three measurements take: also a third store."""
    takes_program(parser)
    parser.add_argument("--store", metavar="COMMAND", help="measure a third store too: a command that reads such a script, "
                        "as 'other-store run --blocks 65536' (or set STORE)", default=os.environ.get("STORE", ""))


def stores(words: argparse.Namespace) -> Dict[str, List[str]]:
    """The stores that read the same scripts: ours with one worker, the plain store of maps, and the third one."""
    found = {"stinger": stinger_run(words), "maps": [compiled("map_store")]}
    return {**found, "third": shlex.split(words.store)} if words.store else found
