"""`misteluk view`: the page of a vertex's neighborhood in a file's graph, also beside an earlier one."""
from __future__ import annotations

import argparse
from dataclasses import replace
from typing import Any, Dict, Optional, Tuple

from ..errors import FeedFault
from ..feeds.loading import load_in_steps
from ..feeds.surveys import Survey
from ..session import Session
from ..store import Store
from ..page.view import MOST_DRAWN, MOST_HOPS, USUAL_DRAWN, View, view


def add_options(parser: argparse.ArgumentParser) -> None:
    around = parser.add_argument_group("what it shows")
    around.add_argument("--around", metavar="NAME", required=True, help="the vertex in the middle")
    around.add_argument("--hops", type=int, default=2, metavar="N", help=f"how many edges the farthest are away, {MOST_HOPS} at "
                        "most (2)")
    around.add_argument("--most", type=int, default=USUAL_DRAWN, metavar="N", help="how many vertices are drawn, the nearest and "
                        f"heaviest; {MOST_DRAWN} at most ({USUAL_DRAWN})")
    beside = around.add_mutually_exclusive_group()
    beside.add_argument("--at", metavar="TIME", help="beside the graph as it was at this time, of a day at its end: that of the "
                        "rows up to it, which must come before all later ones")
    beside.add_argument("--at-line", type=int, metavar="N", help="beside the graph of the rows up to this line")


def check(words: argparse.Namespace) -> None:
    """Raises `ValueError` before a file is read where the page can't be made."""
    if not words.output.lower().endswith((".html", ".htm")):
        raise ValueError(f"a page's name ends in .html, and not as {words.output!r}")


def draw(words: argparse.Namespace, store: Store[Any, Any], found: Survey, window: Dict[str, Any]) -> View:
    """Loads the file, and makes the page of its last version, beside an earlier one where that is asked for."""
    label, at = "", 0
    if words.at is not None or words.at_line is not None:
        label = f"up to line {words.at_line}" if words.at is None else f"up to {words.at}"
        found, at = _cut(found, _rows_before(words, found))
        if at in (0, len(found.parts)):
            raise ValueError(f"{found.feed} has {'all its rows' if at else 'no row'} {label}: there is nothing to show beside")
    before: Optional[Session[Any, Any]] = None
    for done, _ in enumerate(load_in_steps(store, found, skip_bad=words.skip_bad), 1):
        if done == at:
            before = store.open()
    return view(store.open(), words.around, words.hops, before, most=words.most, title=words.title,
                labels=("the whole file", label), **window)


def _rows_before(words: argparse.Namespace, found: Survey) -> int:
    """How many rows are up to the time or line. Raises `FeedFault` where they aren't the first ones."""
    lines = found.parts.whole.lines
    if words.at is None:
        return sum(it <= words.at_line for it in lines)
    last = int(found.terms.units._time_to_program(words.at, is_end=True))
    is_late = [it > last for it in found.parts.whole.columns.times]
    rows = is_late.index(True) if True in is_late else len(is_late)
    if not all(is_late[rows:]):
        early = lines[is_late.index(False, rows)]
        raise FeedFault(f"{found.feed}:{early}: a row up to {words.at} stands behind line {lines[rows]}, which is later: no "
                        "version is the graph of that time. Order the rows by time, or say --at-line")
    return rows


def _cut(found: Survey, rows: int) -> Tuple[Survey, int]:
    """The survey with a batch that ends behind so many rows, and how many batches end there or before."""
    parts = found.parts.cut(rows)
    return replace(found, parts=parts), sum(it <= rows for it in parts.ends)
