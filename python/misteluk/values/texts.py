"""Values of Python, numpy and pandas as texts: equal numbers and moments have one text, whatever their type."""
from __future__ import annotations

import os
import re
from datetime import datetime, timedelta, timezone
from decimal import Decimal
from numbers import Integral, Real
from typing import Any, Optional, Union

# A file's path.
Path = Union[str, "os.PathLike[str]"]
MINUTE = timedelta(minutes=1)
# A float that is whole and beyond this is no weight and no time, and is told as it is printed.
_FAR = 1e19


def _parted(between: str, decimal: str) -> "re.Pattern[str]":
    """Numbers with a sign between thousands where there is no doubt of it: a sign before decimals follows, or there are two."""
    point = re.escape(decimal)
    return re.compile(rf"[-+]?\d{{1,3}}([{between}' \u00a0\u202f])\d{{3}}(?:(?:\1\d{{3}})*{point}\d+|(?:\1\d{{3}})+)", re.A)


_PARTED = {".": _parted(",", "."), ",": _parted(".", ",")}


def together(number: str, decimal: str = ".") -> Optional[str]:
    """The number as 1234.56 that is written 1,234.56, or 1.234,56 where that is the sign before decimals, in groups of three;
    `None` for a text that surely is none, as 1,234, which may be either."""
    found = _PARTED[decimal].fullmatch(number)
    return number.replace(found[1], "").replace(decimal, ".") if found else None


def text_of(value: Any) -> str:
    """The value as a text: a number that is whole without decimals, as 5 of 5.0, and else as it is printed; a moment with its
    zone."""
    kind = type(value)
    if kind is int:
        return str(value)
    if kind is float:  # (these are the most, and are looked at by less)
        return str(int(value)) if value.is_integer() and -_FAR < value < _FAR else str(value)
    if isinstance(value, str):
        return str.__str__(value)
    if isinstance(value, datetime):
        return str(value) if value.tzinfo is None else _moment(value)
    if isinstance(value, (Real, Decimal)) and not isinstance(value, Integral):
        return _number(value)
    # (numpy's own moments of whole hours have no minutes, which a date has)
    return f"{value}:00" if str(getattr(value, "dtype", "")) == "datetime64[h]" and value == value else str(value)


def _number(value: Any) -> str:
    try:
        whole = int(value) if abs(float(value)) < _FAR else None
    except (ArithmeticError, ValueError):  # (a number of Python that has no float)
        whole = None
    return str(value) if whole is None or whole != value else str(whole)


def _moment(value: datetime) -> str:
    """A zone whose offset has seconds, which no date has, is told in UTC."""
    offset = value.utcoffset()
    return str(value.astimezone(timezone.utc) if offset and offset % MINUTE else value)


def for_json(value: Any) -> Any:
    """What JSON has no form for: a decimal weight as a text, which keeps all its digits, and a time as a text of ISO 8601."""
    if isinstance(value, Decimal):
        return str(value)
    if isinstance(value, datetime):
        return value.isoformat()
    raise TypeError(f"{type(value).__name__} has no form in JSON")
