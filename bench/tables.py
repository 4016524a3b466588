"""Tables as the pages have them, and numbers in one form."""
from __future__ import annotations

from typing import Iterable, List, Optional, Sequence, TextIO

ABSENT = "-"


def show(head: Sequence[str], rows: Iterable[Sequence[str]], to: Optional[TextIO] = None) -> None:
    """Prints a table in Markdown, each row as soon as it is there."""
    print(f"| {' | '.join(head)} |\n|{'---|' * len(head)}", file=to, flush=True)
    for row in rows:
        print(f"| {' | '.join(row)} |", file=to, flush=True)


def seconds(time: Optional[float]) -> str:
    """Seconds in a unit that fits; less than nothing is what a difference of two times may be."""
    if time is None:
        return ABSENT
    for scale, unit in ((1, "s"), (1e3, "ms")):
        if abs(time) * scale >= 0.1:
            return f"{time * scale:.3g} {unit}"
    return f"{time * 1e6:.3g} µs"


def count(number: float) -> str:
    return f"{number:,.0f}"


def megabytes(size: float) -> str:
    return f"{size / 2**20:,.1f} MiB"


def ratio(one: float, other: float) -> str:
    """Of two figures; a difference of two times may be no time at all, and then there is none."""
    return f"{one / other:.2f}" if min(one, other) > 0 else "lost"


def columns(head: Sequence[str], parts: Sequence[Sequence[str]]) -> List[List[str]]:
    """Rows of a table whose columns are given."""
    return [list(row) for row in zip(head, *parts)]
