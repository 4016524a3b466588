"""`misteluk log`, `check` and `compact`: what a store's file has."""
from __future__ import annotations

import argparse
import sys
from typing import TYPE_CHECKING, Any, Callable, Dict

from ..feeds.spans import span
from ..store import Store

if TYPE_CHECKING:
    from ..journal.compaction import History


def history(text: str) -> History:
    """How many versions are kept, or how long, whose fault argparse tells."""
    try:
        return int(text) if text.isdecimal() else span(text)
    except ValueError as fault:
        raise argparse.ArgumentTypeError(str(fault)) from None


def add_commands(commands: Any) -> None:
    logs = commands.add_parser("log", help="print the batches of a store's file as a script for `stinger run`")
    logs.add_argument("file", help="a store's file, which may be written meanwhile")
    logs.add_argument("--since", type=int, metavar="N", help="the batches behind version N alone")
    checked = commands.add_parser("check", help="read a store's file whole, and replay it: status 1 where it isn't as it "
                                  "was written")
    checked.add_argument("file", help="a store's file, which may be written meanwhile")
    compact = commands.add_parser("compact", help="write the last version of a store's file as a base, and drop what is too old")
    compact.add_argument("file", help="a store's file, which no other process writes")
    compact.add_argument("--history", type=history, metavar="N|TIME", help="keep the last N versions, or those of so long ago, "
                         "as 30d; else all are kept")


def run_log(words: argparse.Namespace) -> int:
    from ..journal.logs import log
    for part in log(words.file, words.since):
        sys.stdout.write(part.decode("ascii"))
    return 0


def run_check(words: argparse.Namespace) -> int:
    from ..journal.checking import check
    found = check(words.file)
    print(*found.faults, sep="\n", end="\n" * bool(found.faults))
    print(f"{words.file}: versions {found.oldest} to {found.newest}, {found.batches} batches replayed, {found.bases} bases: "
          f"{len(found.faults)} fault{'s' * (len(found.faults) != 1)}")
    return 1 if found.faults else 0


def run_compact(words: argparse.Namespace) -> int:
    with Store(words.file) as store:
        done = store.file.compact(words.history)
    print(f"{words.file}: version {done.version} is a base of {done.bytes:,} bytes; {done.dropped} batches went, and versions "
          f"{done.oldest} to {done.version} are kept")
    return 0


RUN: Dict[str, Callable[[argparse.Namespace], int]] = {"log": run_log, "check": run_check, "compact": run_compact}
