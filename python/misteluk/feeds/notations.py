"""How a file writes numbers and dates, where it isn't 12.50 and 2024-03-05: by what is said, and never by a guess."""
from __future__ import annotations

import re
from datetime import date
from typing import Dict, Iterator, NamedTuple, Optional

from .feed import Block, Feed, Table, came_of
from ..values.texts import together
from ..values.dates import MICROSECOND
from ..values.units import EPOCH, each_once

DECIMALS = (".", ",")
# For each form of a date its pattern; behind the date a time of day may stand, which is taken as it is.
DATES: Dict[str, "re.Pattern[str]"] = {
    "dd.mm.yyyy": re.compile(r"(?P<day>\d{1,2})\.(?P<month>\d{1,2})\.(?P<year>\d{4})(?P<rest>(?:[ T].*)?)", re.A),
    "dd/mm/yyyy": re.compile(r"(?P<day>\d{1,2})/(?P<month>\d{1,2})/(?P<year>\d{4})(?P<rest>(?:[ T].*)?)", re.A),
    "mm/dd/yyyy": re.compile(r"(?P<month>\d{1,2})/(?P<day>\d{1,2})/(?P<year>\d{4})(?P<rest>(?:[ T].*)?)", re.A),
}
# Numbers since 1970: how many microseconds each of them is.
SINCE_1970 = {"seconds": 1_000_000, "milliseconds": 1_000, "microseconds": 1}
TIMES = (*DATES, *SINCE_1970)
_SINCE = re.compile(r"(\d{1,17})(?:\.(\d{1,15}))?", re.A)
_WHOLE = re.compile(r"[-+]?\d+", re.A)
_FRACTION = re.compile(r"[-+]?\d+,\d+", re.A)


class Notation(NamedTuple):
    """The sign before decimals, "." or ",", and the form of dates, as "dd.mm.yyyy" or "milliseconds", or `None` for those of
    ISO 8601."""

    decimal: str = "."
    dates: Optional[str] = None

    def checked(self) -> "Notation":
        """Itself; raises `ValueError` where there is no such notation."""
        if self.decimal not in DECIMALS:
            raise ValueError(f"decimal is '.' or ',', and not {self.decimal!r}")
        if self.dates is not None and self.dates not in TIMES:
            raise ValueError(f"dates is {', '.join(map(repr, TIMES))}, or None for ISO 8601, and not {self.dates!r}")
        return self

    def turned(self, feed: Feed) -> Feed:
        if self == Notation():
            return feed

        def blocks() -> Iterator[Block]:
            for it in feed.blocks():
                weights = each_once(with_point, it.weights) if self.decimal == "," else it.weights
                times = each_once(self.date_of, it.times) if self.dates else it.times
                yield it._replace(weights=weights, times=times, came=came_of(it))
        return Feed(feed.name, Table(blocks))

    def date_of(self, text: str) -> str:
        """The date as 2024-03-05, with what stands behind it; a text of another form, or a day that no month has, as it is."""
        if self.dates in SINCE_1970:
            return date_since(text, self.dates)
        found = DATES[self.dates or ""].fullmatch(text.strip())
        if not found:
            return text
        try:
            return date(*(int(found[it]) for it in ("year", "month", "day"))).isoformat() + found["rest"]
        except ValueError:
            return text


def date_since(text: str, unit: str) -> str:
    """The date of a number of seconds, milliseconds or microseconds since 1970, which may have decimals. What is finer than a
    microsecond is given so that it is refused and says why; a text that is no such number, or is beyond 9999, as it is."""
    found = _SINCE.fullmatch(text.strip())
    if not found:
        return text
    count, rest = divmod(int(found[1] + (found[2] or "").ljust(15, "0")) * SINCE_1970[unit], 10 ** 15)
    if rest:
        return f"{text} (in {unit}; it has more than microseconds, which would be cut off)"
    try:
        return (EPOCH + MICROSECOND * count).isoformat()
    except OverflowError:
        return text


def pointed(text: str) -> Optional[str]:
    """The number as 1234.50 that is written 1234,50 or 1.234,50; `None` for what isn't surely one of these, as 1.234."""
    number = text.strip()
    if _WHOLE.fullmatch(number) or _FRACTION.fullmatch(number):
        return number.replace(",", ".")
    return together(number, ",")


def with_point(text: str) -> str:
    """The number as 1234.50 where it is surely one; else what is given so that it is refused and says why."""
    number = pointed(text)
    return number if number is not None else f"{text} (where decimals stand behind a comma)" if text else text
