"""Faults as a client is told them."""
from __future__ import annotations

from typing import Any, Dict, MutableMapping, Tuple

from starlette.responses import Response

from . import wire
from .board import Full
from .flow import WORD, as_json
from .limits import TooLarge
from .log import without_paths
from ..engine.protocol import Denied
from ..errors import TABLE, JournalError, Refused, StoreError

# What is told of names that a version doesn't have.
REASONS = {"NoVertex": "the version has no vertex of this name; a later one may",
           "NoKind": "the version has no edge of this kind, and never had; a later one may"}


def told_fault(fault: Exception, scope: MutableMapping[str, Any], place: str = "") -> Response:
    """A fault as a client is told it, whose request notes its word; not where the store's file is, which is at this place."""
    scope[WORD] = "TooLarge" if isinstance(fault, TooLarge) else status_and_word(fault)[1]
    if isinstance(fault, Full):
        return as_json(wire.fault(fault.word, str(fault), fault.after), 503, {"retry-after": str(fault.after)})
    if isinstance(fault, TooLarge):
        return as_json(wire.fault("TooLarge", str(fault)), 413, {"connection": "close"})
    status, word = status_and_word(fault)
    more: Dict[str, Any] = {"denied": True} if isinstance(fault, Denied) else {}
    if isinstance(fault, Denied) and fault.stat is not None:
        stat = dict(vars(fault.stat))
        more["stat"] = {"names": stat.pop("vertices"), **stat}
    told = told_of(fault, word)
    told = without_paths(told, place, "the store's file") if isinstance(fault, JournalError) else told
    return as_json(wire.fault(word, told, **more), status)


def told_of(fault: Exception, word: str) -> str:
    """The reason of a fault that has this word."""
    told = REASONS.get(word) or (fault.message if isinstance(fault, Refused) else str(fault))
    return told[len(word) + 2:] if told.startswith(f"{word}: ") else told


def status_and_word(fault: Exception) -> Tuple[int, str]:
    word = getattr(fault, "word", "") or type(fault).__name__
    is_known = isinstance(fault, (StoreError, Denied))
    return TABLE[word].status if is_known and word in TABLE else 400, word if is_known else "BadRequest"
