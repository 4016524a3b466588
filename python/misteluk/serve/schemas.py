"""The forms of a server's answers, as OpenAPI tells them."""
from __future__ import annotations

from typing import Any, Dict, Sequence

from .limits import ServerLimits
from .board import HeldVersion, LeaseTold
from ..values.answers import COUNTS, Edge
from ..values.diff import MOMENTS

Schema = Dict[str, Any]
WHOLE: Schema = {"type": "integer", "minimum": 0}
NUMBER: Schema = {"type": "number"}
TEXT: Schema = {"type": "string"}
TRUTH: Schema = {"type": "boolean"}
# A weight or time: a number, or a text of a decimal or a date.
MARK: Schema = {"oneOf": [{"type": "number"}, {"type": "string"}]}


def of(needed: Dict[str, Schema], **more: Schema) -> Schema:
    """An object that has these fields, and may have more of these, but no others."""
    return {"type": "object", "required": list(needed), "properties": {**needed, **more}, "additionalProperties": False}


def rows_of(schema: Schema) -> Schema:
    return {"type": "array", "items": schema}


def or_null(schema: Schema) -> Schema:
    return {**schema, "nullable": True}


# What is in each column of a table.
_OF_COLUMN = {**dict.fromkeys(("weight", "first", "recent", "weight_out", "weight_in"), MARK),
              **dict.fromkeys(("level", "out", "into", "core"), WHOLE),
              **dict.fromkeys((f"{it}_{when}" for it in Edge._fields for when in MOMENTS), or_null(MARK)),
              "state": {"type": "string", "enum": ["gone", "new", "changed"]}}
# What a question's table has besides its columns.
BESIDE: Dict[str, Dict[str, Schema]] = {
    "names": {"found": WHOLE}, "diff": dict.fromkeys(("from", "gone", "new", "changed"), WHOLE)}


def table(columns: Sequence[str], **more: Schema) -> Schema:
    """A table: how many rows it has, and each column by its name."""
    return of({"version": WHOLE, "rows": WHOLE, **more,
               "columns": of({it: rows_of(_OF_COLUMN.get(it, TEXT)) for it in columns})})


EDGE = of({"weight": MARK, "first": MARK, "recent": MARK})
FAULT = of({"error": TEXT, "reason": TEXT}, retry_after=WHOLE, denied=TRUTH, status=WHOLE, stat={"type": "object"})
RECEIPT = of({it: WHOLE for it in ("version", *COUNTS)})
SESSION = of({"session": TEXT, "version": WHOLE, "vertices": WHOLE, "idle": NUMBER})
FEED = of({"state": TEXT, "rows": WHOLE, "rows_a_second": NUMBER, "bad": WHOLE, "expired": WHOLE}, by=TEXT, behind=WHOLE,
          last_bad=of({"line": WHOLE, "reason": TEXT}), half_line=TRUTH, readers_killed=WHOLE, replaced=TRUTH, rotated=WHOLE,
          late=WHOLE, lost=TEXT, error=TEXT, reason=TEXT)
SAVED = of({"version": or_null(WHOLE), "seconds": or_null(NUMBER)}, state=TEXT, error=TEXT, reason=TEXT)
FILE = of({"oldest": WHOLE, "bytes": WHOLE}, base=WHOLE, fault=TEXT)
REPLICA = of({"behind": WHOLE, "seconds": NUMBER}, reason=TEXT)
LOG = of({"newest": WHOLE, "settings": {"type": "object"}}, rows={"type": "array"}, base=or_null({"type": "object"}))
_OF_FIELD = {"is_last": TRUTH, "session": TEXT, "owner": TEXT, "silent": NUMBER}
STAT = of({
    "server": TEXT, "began": TEXT, "saved": or_null(SAVED), "file": or_null(FILE), "replica": or_null(REPLICA),
    "version": WHOLE, "vertices": WHOLE, "edges": WHOLE,
    "operations_kept": or_null(WHOLE), "seats": WHOLE, "feed": FEED,
    "blocks": of({"all": WHOLE, "grow": TRUTH, "free": WHOLE, "retired": WHOLE, "used": WHOLE}),
    "held": rows_of(of({it: _OF_FIELD.get(it, WHOLE) for it in HeldVersion._fields})),
    "limits": of({it: NUMBER for it in ServerLimits._fields}),
    "units": of({"weight_scale": WHOLE, "times": TEXT, "decimals": TEXT, "rounding": or_null(TEXT)})})
SESSIONS = of({"sessions": rows_of(of({it: _OF_FIELD.get(it, WHOLE) for it in LeaseTold._fields}))})
STATUS = of({"status": TEXT})
RATE = of({"step": WHOLE, "age": NUMBER, "rows": rows_of(WHOLE), "total": WHOLE})
# What an event has: `touched` is null where it isn't known what the batches behind a version touched, as for a new reader.
EVENT = of({"version": WHOLE, "vertices": WHOLE, "edges": WHOLE, "rows": WHOLE, "rows_a_second": NUMBER, "expired": WHOLE,
            "touched": or_null(of({"after": WHOLE, "count": WHOLE}, names=rows_of(TEXT)))})
# What each question that has no table answers.
ANSWERS = {"edge": of({"version": WHOLE, "edge": or_null(EDGE)}), "path": of({"version": WHOLE, "path": or_null(rows_of(TEXT))}),
           "view": TEXT}
SEVERAL = of({"version": WHOLE, "answers": rows_of({"type": "object"})})
