"""Calls of the C library by ctypes: what `library`, `scale`, `walls` and `every_call` share."""
from __future__ import annotations

import array
from ctypes import sizeof
from typing import Any, List

from bench.measuring import stop
from bench.places import library
from misteluk.engine import interface
from misteluk.engine.interface import ANY_KIND, Code, Library

# All times and all kinds.
VIEW = interface.View(0, (1 << 64) - 1, ANY_KIND)


class Refused(Exception):
    """A code that isn't OK, where the caller goes on."""

    def __init__(self, code: Code) -> None:
        super().__init__(code.name)
        self.code = code


def loaded() -> Any:
    """The library, with the types of its calls."""
    return Library(library())


def must(code: int) -> None:
    if code != Code.OK:
        stop(f"a call was refused: {Code(code).name}")


def limits(names: int, kinds: int, batches: int, weight: int = 1 << 40) -> interface.Limits:
    return interface.Limits(sizeof(interface.Limits), names, kinds, batches, weight)


def written_to(words: "List[int]") -> interface.EdgeColumns:
    """Columns for edges, each by where it stands and its length."""
    return interface.EdgeColumns(sizeof(interface.EdgeColumns), *words)


def at(values: "array.array[int]") -> int:
    """Where an array begins."""
    return values.buffer_info()[0]


def columns(kinds: str, count: int) -> List[Any]:
    return [array.array(it, bytes(array.array(it).itemsize * count)) for it in kinds]
