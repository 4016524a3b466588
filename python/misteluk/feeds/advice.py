"""What helps against faults: by what stands there, and never what was done already or can't help."""
from __future__ import annotations

import codecs
import re
from typing import Any, Iterable, NamedTuple, Optional

from ..values import records
from ..errors import BadName, BadSlot, BadTime, BadWeight, Refused
from .notations import DATES, TIMES, Notation, pointed
from ..values.units import ISO, PLAIN, Units

# What is left of a float that was worked out: more digits than any scale takes.
_A_FLOAT = re.compile(r"-?[0-9]+\.[0-9]{9,}")
# Letters and no digit, as the name of a column.
_A_WORD = re.compile(r"\D*[^\W\d]\D*")
_A_NUMBER = re.compile(r"[-+]?[0-9]+\.[0-9]+")
_KEPT_BYTES = re.compile("[\udc80-\udcff]")
# The numbers of decimals that a scale is advised for: cents where fewer would do, and as many as a weight can have.
_DECIMALS = range(2, 13)


class Reading(NamedTuple):
    """How a feed was read: a file's encoding and the sign before its decimals, which a feed that is none has not; the units; the
    form of dates, where one was said; whether line 1 was read as a row, since its columns are numbers and nobody said more."""

    encoding: Optional[str]
    decimal: Optional[str]
    units: Units[Any, Any]
    dates: Optional[str] = None
    is_headless: bool = False


def as_written(fault: records.Fault, decimal: str) -> records.Fault:
    """The fault with an amount as its file writes it, by the sign before decimals."""
    if decimal != "," or fault.word != BadWeight.word or not _A_NUMBER.fullmatch(fault.value or ""):
        return fault
    return fault._replace(value=(fault.value or "").replace(".", ","))


def _is_weight(text: str, units: Units[Any, Any]) -> bool:
    try:
        return records.weight_reason(units._weight_to_program(text)) is None
    except ValueError:
        return False


def _is_date(text: str) -> bool:
    try:
        return bool(Units(times=ISO)._time_to_program(text))
    except ValueError:
        return False


def _scale_for(text: str) -> int:
    """The scale by which a number with decimals is a whole number of parts; 0 where it is none, or where none is enough."""
    scales = (10 ** it for it in _DECIMALS)
    return next((it for it in scales if _is_weight(text, Units(it))), 0) if "." in text else 0


def advice_for(fault: records.Fault, units: Units[Any, Any] = PLAIN) -> Optional[str]:
    """What helps where a record has such a field; "" where nothing does, and `None` where its word's advice does."""
    value = fault.value or ""
    if fault.word == BadWeight.word:
        return _by_scale(_scale_for(value) if units.scale == 1 else 0)
    if fault.word == BadTime.word:
        return None if not units.has_dates and _is_date(value) else ""
    if fault.word == BadSlot.word:
        return None if value in map(str, range(records.MOST_SEATS)) else ""
    return None


def _by_scale(scale: int) -> str:
    told = f"Amounts with decimals are taken by a store with Units(weight_scale={scale}) (--weight-scale {scale})"
    return told if scale else ""


def advise(faults: Iterable[Refused], how: Reading) -> None:
    """Gives each fault of a feed that was read so the advice that its value asks for, instead of its word's. Of weights that
    need several scales all are told the greatest."""
    told = [(it, it.fault.value) for it in faults if it.fault and it.fault.value is not None]
    scale = max((_scale_for(pointed(value) or value) for it, value in told if isinstance(it, BadWeight)), default=0)
    for it, value in told:
        is_line_1 = it.place is not None and it.place.line == 1
        if how.is_headless and is_line_1 and isinstance(it, (BadWeight, BadTime)) and _A_WORD.fullmatch(value):
            it.advice = "Line 1 may be a header, which is no row: header=True (--header)"
        elif isinstance(it, BadName):
            it.advice = _of_name(value, how.encoding)
        elif isinstance(it, BadWeight):
            it.advice = _of_weight(value, how, scale)
        elif isinstance(it, BadTime):
            it.advice = _of_time(value, how)


def _of_name(value: str, encoding: Optional[str]) -> str:
    if encoding is None or not _KEPT_BYTES.search(value):
        return ""
    other = "latin-1" if codecs.lookup(encoding).name == "cp1252" else "cp1252"
    return f"The file isn't {encoding}: say its encoding, as encoding='{other}' (--encoding {other})"


def _of_weight(value: str, how: Reading, scale: int) -> str:
    number = pointed(value)
    value = number if how.decimal == "," and number is not None else value
    if how.encoding is None and how.units.scale != 1 and _A_FLOAT.fullmatch(value) and not _scale_for(value):
        return "Sums of floats have more digits than were added: round them before, as by frame.round(2)"
    if "," not in value or number is None:
        return _by_scale(scale if how.units.scale == 1 and _scale_for(value) else 0)
    if how.decimal != ".":
        return ""
    if _is_weight(number, how.units):
        return "Amounts as 12,50 are read by decimal=',' (--decimal ,)"
    if how.units.scale != 1 or not _scale_for(number):
        return ""
    return f"Amounts as 12,50 are read by decimal=',' and Units(weight_scale={scale}) (--decimal , --weight-scale {scale})"


def _of_time(value: str, how: Reading) -> str:
    if _is_date(value):
        return "" if how.units.has_dates else BadTime.advice
    forms = [it for it in TIMES if _is_date(Notation(dates=it).date_of(value))]
    told = ", ".join(f"dates={it!r}" for it in forms)
    if any(it in DATES for it in forms):
        return f"Dates that begin with a day or month are read by what they are: {told} (--dates)"
    if forms:
        return f"Numbers since 1970 are read as dates by what they count: {told} (--dates)"
    return f"A time is read as {how.dates} here, a day that there is, or as 2024-05-01" if how.dates in DATES else ""
