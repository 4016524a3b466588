"""Lengths of time as a caller says them: how long a feed waits for a commit, and how long an edge is kept."""
from __future__ import annotations

import re
from datetime import timedelta
from fractions import Fraction
from typing import Any, Optional, Union

from ..values import records
from ..values.limits import within
from ..values.dates import MICROSECOND
from ..values.units import Units

Span = Union[str, int, float, timedelta]
# A day, in microseconds, and what is told of a length of time.
USUAL_AHEAD = 86_400_000_000
_UNITS = {"years": 31_556_952_000_000, "days": USUAL_AHEAD, "hours": 3_600_000_000, "minutes": 60_000_000, "seconds": 1_000_000}
_SPAN = re.compile(r"(\d+(?:\.\d+)?)(ms|s|m|h|d|w)", re.A)
# How many microseconds each has.
_LENGTHS = {"ms": 1_000, "s": 10 ** 6, "m": 60 * 10 ** 6, "h": 3_600 * 10 ** 6, "d": 86_400 * 10 ** 6, "w": 604_800 * 10 ** 6}


def span(text: str) -> timedelta:
    """A length of time: `500ms`, `1.5s`, `10m` (minutes), `12h`, `14d`, `2w`. Raises `ValueError` for another text, and for one
    that is no whole number of microseconds."""
    found = _SPAN.fullmatch(text)
    if not found:
        raise ValueError(f"a length of time is a number with ms, s, m, h, d or w behind it, as 500ms or 14d, and not {text!r}")
    length = Fraction(found[1]) * _LENGTHS[found[2]]
    if length.denominator != 1:
        raise ValueError(f"a length of time is a whole number of microseconds, and {text} isn't")
    try:
        return timedelta(microseconds=int(length))
    except OverflowError:
        raise ValueError(f"{text} is longer than Python's times are") from None


def seconds_of(every: Span) -> float:
    """A length of time as seconds; a number is so many."""
    if isinstance(every, str) and not re.fullmatch(r"\d+(?:\.\d+)?", every, re.A):
        every = span(every)
    seconds = every.total_seconds() if isinstance(every, timedelta) else float(every)
    if not 0 <= seconds < 1e9:
        raise ValueError(f"every is a number of seconds from 0 on, and not {every}")
    return seconds


def ahead_time(ahead: Optional[Span], kept: Optional[int], units: Units[Any, Any]) -> Optional[int]:
    """How far ahead of the clock a row may be, in microseconds: a day where edges are kept for a time, if nothing is said."""
    if ahead is None:
        return USUAL_AHEAD if kept is not None and units.has_dates else None
    if not units.has_dates:
        raise ValueError("ahead is for times that are dates (--times iso): of numbers nobody knows how far they are ahead")
    return kept_time(ahead, units, "ahead")


def shown_length(length: int) -> str:
    """So many microseconds in the largest unit of which they are two or more."""
    for name, size in _UNITS.items():
        if length >= 2 * size:
            return f"{length // size} {name}"
    return f"{length / 1e6:g} seconds"


def kept_time(keep: Optional[Span], units: Units[Any, Any], what: str = "keep") -> Optional[int]:
    """How long an edge is kept, in the program's times: microseconds where times are dates, and else a whole number of what the
    feed counts in."""
    if keep is None:
        return None
    if isinstance(keep, str) and not keep.isdigit():
        keep = span(keep)
    if isinstance(keep, timedelta) != units.has_dates:
        raise ValueError(f"{what} is a length of time, as 14d, since times are dates here" if units.has_dates else
                         f"{what} is a whole number of what the times count, since they are no dates here (--times iso)")
    if isinstance(keep, float) and not keep.is_integer():
        raise ValueError(f"{what} is a whole number of what the times count, and not {keep}")
    length = keep // MICROSECOND if isinstance(keep, timedelta) else int(keep)
    return within(what, length, 0, records.MOST_TIME)
