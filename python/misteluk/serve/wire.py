"""What a server and its clients in Python write to each other: a version's columns as they are in memory, and faults.

A client in Python asks as an engine is asked, in the engine's terms, so that its sessions are those of a store in the process.
Columns go as a parcel.
"""
from __future__ import annotations

import json
from array import array
from typing import Any, Dict, Iterator, List, Mapping, Optional, Sequence, Tuple

from ..engine.protocol import WHOLE, Denied, Held, Scope
from ..errors import Misread
from ..values import records
from ..values.names import MARK, NameTable
from ..values.parcels import packed

# The media types of what is written.
COLUMNS, JSON = "application/octet-stream", "application/json"
# How many bytes a row of a table has at most.
WIDEST = 16


def loaded(data: bytes) -> Any:
    """What an answer of JSON has. Raises `Misread` where it is none."""
    try:
        return json.loads(data.decode("utf-8"))
    except ValueError:
        raise Misread("the server's answer is no JSON") from None


# Questions, as `Held` is asked.

def _more(call: str, given: Mapping[str, Any]) -> Tuple[Any, ...]:
    """What a call is asked with beside a scope and a name."""
    if call == "within":
        return _steps(given.get("steps")), given.get("either") is True
    return (_text(given.get("target")),) if call == "path" else ()


def asked(held: Held, call: str, given: Mapping[str, Any], named: "Named") -> Iterator[bytes]:
    """What a held version answers to a call of `Held`. Raises `ValueError` for a call that there isn't, and `Denied`."""
    if call in ("names", "kinds"):
        return iter([named.told(held.names() if call == "names" else held.kinds())])
    if call == "found":
        return iter([found(held, given.get("ends", ()))])
    if call not in CALLS:
        raise ValueError(f"a version isn't asked for {call!r}")
    scope = _scope(given)
    of_name = [_text(given.get("name"))] if CALLS[call] else []
    told: Any = getattr(held, call)(scope, *of_name, *_more(call, given))
    if call == "levels":
        told = array("I", told[0]), told[1]
    return packed([told] if isinstance(told, array) else told)


def found(held: Held, ends: Sequence[Sequence[object]]) -> bytes:
    """The edges with these ends: what each has, `null`, or the word of what the version lacks."""
    marks = held.found([(_text(kind), _text(source), _text(target)) for kind, source, target in ends])
    told = ["null" if it is None else f'"{it.word}"' if isinstance(it, Denied) else "[%d, %d, %d]" % it for it in marks]
    return f"[{', '.join(told)}]".encode("ascii")


def few(held: Any, given: Mapping[str, Any], most: int) -> Optional[bytes]:
    """What a held version of the library answers to `out_of`, in any order, where the edges are so many at most; else `None`."""
    found = held.few_out_of(_scope(given), _text(given.get("name")), most)
    return None if found is None else b"".join(packed(found))


def is_of_all(given: Mapping[str, Any]) -> bool:
    """Whether a question is one over all edges, of any kind and time."""
    return _scope(given) == WHOLE


# The calls that give columns, and whether they are of a name.
CALLS = {"degrees": False, "weights_in": False, "labels": False, "cores": False, "edges": False, "levels": True, "within": True,
         "path": True, "out_of": True, "into": True}


def _scope(given: Mapping[str, Any]) -> Scope:
    kind = given.get("kind")
    since, until = _time(given.get("since", 0)), _time(given.get("until", records.MOST_TIME))
    return Scope(None if kind is None else _text(kind), since, until)


def _text(value: object) -> str:
    """A name in the engine's terms."""
    reason = records.name_reason(value) if isinstance(value, str) else "a name is a text"
    if reason:
        raise ValueError(reason)
    return str(value)


def _steps(value: object) -> int:
    if type(value) is not int or value < 0:
        raise ValueError("a number of steps is a whole number from 0 on")
    return value


def _time(value: object) -> int:
    if type(value) is not int or not 0 <= value <= records.MOST_TIME:
        raise ValueError("a time is a whole number from 0 on")
    return value


class Named:
    """How names are told, with the texts of those that are ids. What was told of many last is kept, since versions that follow
    one another mostly have the same, or some more."""

    def __init__(self, table: NameTable) -> None:
        self._table = table
        # Names of which none is an id, and how they were told.
        self._last: Tuple[Sequence[str], bytes] = (), b""

    def told(self, names: Sequence[str]) -> bytes:
        last, told = self._last
        known = len(last)
        if not known or len(names) < known or names[:known] != last:
            known, told = 0, b""
        more = names[known:]
        ids = [it for it in more if it.startswith(MARK)]
        if ids:
            texts = {it: text for it, text in zip(ids, map(self._table.to_user, ids)) if text != it}
            return _json({"names": names, "texts": texts})
        if more:
            added = _json(more)[1:-1]
            told = b"%b, %b" % (told, added) if known else added
            if len(names) > len(last) // 2:  # (what an id stands for may be known later)
                self._last = names, told
        return b'{"names": [%b], "texts": {}}' % told


def taken(told: Dict[str, Any], table: NameTable) -> List[str]:
    """The names that were told, whose texts the table takes. Raises `ValueError` where a text isn't its id's."""
    for name, text in told["texts"].items():
        if table.to_program(text) != name:
            raise ValueError(f"the server has {name} for {text!r}")
    return list(told["names"])


def _json(value: Any) -> bytes:
    return json.dumps(value).encode("ascii")


# Faults.

def fault(word: str, reason: str, after: Optional[int] = None, **more: Any) -> Dict[str, Any]:
    """What is told of a fault."""
    return {"error": word, "reason": reason, **({} if after is None else {"retry_after": after}), **more}
