"""Tables as they are written, part by part: as JSON, or as CSV for those who ask for it."""
from __future__ import annotations

import csv
import io
import json
import re
from typing import Any, Callable, Dict, Iterator, List, Mapping, Sequence

from .limits import ROWS_AT_ONCE
from ..values.texts import for_json

# The rows of a column from one place to another.
Part = Callable[[int, int], Sequence[Any]]
# How tables are written that are asked for so, and the mark of that among what a question is asked with.
CSV, AS_CSV = "text/csv; charset=utf-8; header=present", " csv"
_RANGE = re.compile(r"\s*([^\s;,]+)\s*((?:;[^,]*)?)")
_WEIGHT = re.compile(r";\s*q=([01](?:\.\d{0,3})?)\s*(?:;|$)", re.I)


def wants_csv(accept: str) -> bool:
    """Whether the header `Accept` prefers CSV to JSON: of two that weigh the same, the first."""
    weights: Dict[str, float] = {}
    for it in accept.split(","):
        found = _RANGE.fullmatch(it.rstrip())
        weight = None if found is None else _WEIGHT.search(found[2])
        if found is not None:
            weights.setdefault(found[1].lower(), 1.0 if weight is None else float(weight[1]))
    order = [it for it in weights if it in ("text/csv", "application/json")]
    return bool(order) and weights.get("text/csv", 0.0) > 0 and max(order, key=lambda it: weights[it]) == "text/csv"


def columns(head: Dict[str, Any], count: int, parts: Dict[str, Part], given: Mapping[str, Any]) -> Iterator[bytes]:
    """Columns of one length: as lists by name, or as rows of CSV, which have no head."""
    return _rows_of_csv(count, parts) if AS_CSV in given else _columns_of_json(head, count, parts)


def _columns_of_json(head: Dict[str, Any], count: int, parts: Dict[str, Part]) -> Iterator[bytes]:
    yield json.dumps({**head, "rows": count}).encode("ascii")[:-1] + b', "columns": {'
    for before, (name, part) in zip(["", *[", "] * len(parts)], parts.items()):
        yield f'{before}"{name}": ['.encode("ascii")
        for at in range(0, count, ROWS_AT_ONCE):
            rows = json.dumps(list(part(at, min(at + ROWS_AT_ONCE, count))), default=for_json)[1:-1]
            yield (f", {rows}" if at else rows).encode("ascii")
        yield b"]"
    yield b"}}\n"


def _rows_of_csv(count: int, parts: Dict[str, Part]) -> Iterator[bytes]:
    text = io.StringIO(newline="")
    rows = csv.writer(text)
    rows.writerow(parts)
    for at in range(0, count, ROWS_AT_ONCE):
        rows.writerows(zip(*(_plain(part(at, min(at + ROWS_AT_ONCE, count))) for part in parts.values())))
        yield text.getvalue().encode("utf-8")
        text.seek(0)
        text.truncate()
    yield text.getvalue().encode("utf-8")


def _plain(values: Sequence[Any]) -> List[Any]:
    return [it if it is None or isinstance(it, (str, int, float)) else for_json(it) for it in values]
