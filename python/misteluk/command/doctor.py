"""`misteluk doctor`: which library stores have here, and what is to be known of it."""
from __future__ import annotations

import os
import pathlib
import platform
from typing import Callable, List, Tuple

from ..engine import interface
from ..engine.finding import OF_LIBRARY, VARIABLE as OF_PROGRAM, find_library, find_program
from ..engine.calling import opened
from ..errors import StoreError
from ..store import Store
from ..values import limits, records
from ..values.limits import Limits
from ..version import VERSION


def made(path: str) -> str:
    """Whether the library or program at this path was proved: the repository's proved crates have it in their `out`, a wheel has
    a note beside it, and an archive a page above it."""
    place = pathlib.Path(path).resolve()
    note, page = place.parent / "PROVED", place.parents[1] / "PROVED.md"
    if note.is_file():
        return f"proved ({note.read_text(encoding='utf-8').strip()})"
    if page.is_file():
        return f"{'not proved' if '**UNPROVED.**' in page.read_text(encoding='utf-8') else 'proved'} ({page})"
    if place.parent.name == "out" and place.parents[2].name == "crates":
        return "proved here"
    return "compiled, or of elsewhere: not known to be proved"


def most() -> str:
    """How much a store takes at most."""
    told = ", ".join(f"{Limits()._most_vertices(it):,} with {it}" for it in (2, 8, limits.MOST_KINDS))
    return (f"{limits.MOST_PRODUCT:,} vertices with 1 kind, {told}, unless Store(limits=..) says others; {limits.MOST_BLOCKS:,} "
            f"blocks; batches of {records.MOST_OPERATIONS:,}")


def find(of: Callable[[], str]) -> Tuple[str, bool]:
    """Where the library or program is, and by what it was made, or what is missing and the next step; and whether it is there."""
    try:
        path = of()
    except StoreError as fault:
        return str(fault), False
    return f"{path}; {made(path)}", True


def loaded() -> str:
    """The path of the library, which is loaded."""
    path = find_library()
    opened(path)
    return path


def look() -> Tuple[List[str], bool]:
    """What is told, and whether a store can be made."""
    told = [f"misteluk {VERSION} on Python {platform.python_version()}, {platform.system()} {platform.machine()}"]
    told += [f"{it} is {os.environ[it]}" for it in (OF_LIBRARY, OF_PROGRAM) if it in os.environ]
    library, is_there = find(loaded)
    told += [f"library: {library}" + f"; interface {interface.INTERFACE}" * is_there, f"program stinger: {find(find_program)[0]}"]
    if not is_there:
        return [*told, "no store can be made without the library: its line above says what to do"], False
    try:
        with Store() as store:
            store.insert("kind", "a", "b")
            store.commit()
            with store.open() as session:
                is_well = session.edge("kind", "a", "b") == (1, 0, 0)
            told.append(f"a store of {store.blocks} blocks and {store.seats} seats answers{'' if is_well else ' WRONGLY'}")
    except StoreError as fault:
        return [*told, f"no store can be made: {fault}"], False
    return [*told, f"limits: {most()}"], is_well
