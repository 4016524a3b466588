"""What `misteluk` does: load, restore, follow, serve, at, log, check, compact, view, doctor."""
from __future__ import annotations

import argparse
import code
import io
import os
import sys
import warnings
from contextlib import contextmanager, suppress
from typing import Any, Dict, Iterator, List, Optional

from . import around, doctor, file, follow as telling

from .. import files

from ..values import records
from ..values.limits import OF_SCRIPT
from ..errors import StoreError, exit_code_of
from ..feeds.feed import STANDARD_INPUT
from ..feeds.limits import check
from ..feeds.loading import load
from ..feeds.surveys import Survey, survey
from ..values.names import shown
from .options import columns_of, make_parser
from .questions import Question, all_lines
from ..page.view import View, view
from ..saving import is_saved, size_of
from ..session import Session
from ..store import Store
from ..values.units import Units


# What a run of a script takes.
OF_RUN: Dict[str, Any] = {"limits": OF_SCRIPT, "most_blocks": records.MOST_BLOCKS}


def form_of_feed(words: argparse.Namespace) -> Dict[str, Any]:
    return {"by": words.by, "units": Units(words.weight_scale, words.times, rounding=words.rounding), "names": words.names,
            "format": words.format, "columns": columns_of(words), "delimiter": words.delimiter, "header": words.header,
            "encoding": words.encoding, "decimal": words.decimal, "dates": words.dates, "third": words.third}


def read(words: argparse.Namespace) -> Survey:
    rejects = words.rejects if "rejects" in words else None
    found = survey(words.file, batch=words.batch, rejects=rejects, **form_of_feed(words))
    check(found, skip_bad=words.skip_bad, **(OF_RUN if "script" in words and words.script else {}))
    return found


def window(words: argparse.Namespace) -> Dict[str, Any]:
    return {"kind": words.of_kind, "since": words.since, "until": words.until}


def run_load(words: argparse.Namespace) -> int:
    if words.interactive and words.file == STANDARD_INPUT:
        raise ValueError("--interactive reads standard input, which is the file here")
    if (words.save or words.edges) and (words.script or words.dry_run):
        raise ValueError("--save and --edges are for what was loaded, and --script and --dry-run load nothing")
    must_be_places(words)
    found = read(words)
    tell(words, found)
    if words.script or words.dry_run:
        return 0
    with Store(blocks=words.blocks) as store:
        print(load(store, found, by=words.by, skip_bad=words.skip_bad))
        do_then(words, store)
    return 0


def run_restore(words: argparse.Namespace) -> int:
    must_be_places(words)
    with Store.restore(words.file, blocks=words.blocks) as store:
        stat = store.stat()
        print(f"{words.file}: {size_of(stat.vertices, stat.edges)} restored in {stat.used} of {store.blocks} blocks", flush=True)
        do_then(words, store)
    return 0


def run_at(words: argparse.Namespace) -> int:
    must_be_places(words)
    with Store.at(words.file, version=words.version, time=words.time) as store:
        stat = store.stat()
        print(f"{words.file}: {size_of(stat.vertices, stat.edges)} as of version {stat.version}", flush=True)
        do_then(words, store)
    return 0


def must_be_places(words: argparse.Namespace) -> None:
    """Raises where nothing can be written where it is to be, before anything is loaded for it."""
    for path in (words.save, words.edges):
        if path:
            files.ending_of(path)
            files.place_of(path)


def do_then(words: argparse.Namespace, store: Store[Any, Any]) -> None:
    """Saves and asks what is to be saved and asked of the last version, and gives a prompt where one is wanted."""
    with store.open() as session:
        if words.save:
            print(session.save(words.save), flush=True)
        if words.edges:
            count = session.edges(**window(words)).to_csv(words.edges)
            print(f"{words.edges}: {count} edge{'s' * (count != 1)} of version {session.version}", flush=True)
        for line in answer(words, session):
            print(line)
        if words.interactive:
            code.interact(f"`session` holds version {session.version} of `store`. Ctrl-D ends.",
                          local={"store": store, "session": session})


def tell(words: argparse.Namespace, found: Survey) -> None:
    """Prints what was counted, and writes the script that is asked for."""
    print(found, flush=True)
    if found.bad:
        print(f"{found.bad} bad rows passed over:", *(it.message for it in found.faults), sep="\n  ")
    if words.script:
        with open(words.script, "wb") as file:
            for part in found.parts:
                file.write(part.text + b"commit\ncollect\n")
        print(f"{found._records()} records written to {words.script}: stinger run --blocks {found._fitting()} < {words.script}")
        if len(found.terms.names):
            print(f"  {len(found.terms.names)} names and kinds stand in it as ids, ~~ and 20 signs")


def answer(words: argparse.Namespace, session: Session[Any, Any]) -> Iterator[str]:
    questions: List[Question] = [*words.ask]
    questions += [Question(f"levels from {shown(it)}", "levels", (it,)) for it in words.levels]
    for it in questions:
        yield from all_lines(it, session, words.top, words.column, window(words))


def run_follow(words: argparse.Namespace) -> int:
    with Store(blocks=words.blocks, endless=True) as store:
        return telling.follow(words, store, form_of_feed(words))


def run_serve(words: argparse.Namespace) -> int:
    from . import serve  # (which the others don't need)
    return serve.serve(words, form_of_feed(words))


def run_doctor(words: argparse.Namespace) -> int:
    told, is_well = doctor.look()
    print(*told, sep="\n")
    return 0 if is_well else 1


def run_view(words: argparse.Namespace) -> int:
    around.check(words)
    page = around_saved(words) if words.by is None else around_rows(words)
    page.save(words.output)
    print(f"{words.output}: {page}")
    return 0


def around_rows(words: argparse.Namespace) -> View:
    """The page of versions that a feed's rows make."""
    found = read(words)
    with Store(blocks=words.blocks) as store:
        return around.draw(words, store, found, window(words))


def around_saved(words: argparse.Namespace) -> View:
    """The page of the version that a file has which --save wrote."""
    if words.at is not None or words.at_line is not None:
        raise ValueError("a saved file has one version: --at and --at-line are for the rows of a feed")
    with Store.restore(words.file, blocks=words.blocks) as store:
        return view(store.open(), words.around, words.hops, most=words.most, title=words.title, labels=("the saved version", ""),
                    **window(words))


@contextmanager
def plain_warnings() -> Iterator[None]:
    """What is warned of is told as a fault is, without a line of the client's sources."""
    before, warnings.formatwarning = warnings.formatwarning, lambda text, *_, **__: f"misteluk: {text}\n"
    try:
        yield
    finally:
        warnings.formatwarning = before


def may_be_saved(words: argparse.Namespace) -> bool:
    """Whether a page is of a saved file, or of one that can't be read, which is told later."""
    try:
        return words.file != STANDARD_INPUT and is_saved(words.file)
    except OSError:
        return True


@plain_warnings()
def main(words: Optional[List[str]] = None) -> int:
    parser = make_parser()
    if "_ARGCOMPLETE" in os.environ:  # (a shell asks what a word may be)
        with suppress(ImportError):
            import argcomplete
            argcomplete.autocomplete(parser)
    parsed = parser.parse_args(words)
    if parsed.command == "view" and parsed.by is None and not may_be_saved(parsed):
        parser.error("one of the arguments --set --add is required, but for a saved file")
    for it in (sys.stdout, sys.stderr):
        if isinstance(it, io.TextIOWrapper):  # (a name that the terminal has no signs for)
            it.reconfigure(errors="backslashreplace")
    try:
        run = {"load": run_load, "restore": run_restore, "follow": run_follow, "serve": run_serve, "at": run_at, **file.RUN,
               "view": run_view, "doctor": run_doctor}
        status = run[parsed.command](parsed)
        if sys.stdout:
            sys.stdout.flush()
        return status
    except BrokenPipeError as fault:
        telling.leave_output()
        return exit_code_of(fault)
    except (StoreError, OSError, ValueError, KeyboardInterrupt) as fault:
        print(f"misteluk: {'interrupted' if isinstance(fault, KeyboardInterrupt) else fault}", file=sys.stderr)
        return exit_code_of(fault)
