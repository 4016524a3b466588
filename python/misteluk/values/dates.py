"""Dates as texts, in one form, which doesn't depend on what this Python's own reader takes."""
from __future__ import annotations

import re
from array import array
from datetime import date, datetime, timedelta
from typing import Optional, Sequence

MICROSECOND = timedelta(microseconds=1)
SECOND, DAY = 10 ** 6, 86_400 * 10 ** 6
FORM = "a time is a date here, as 2024-05-01 or 2024-05-01T12:00:00.250+02:00 (times='iso')"
_EPOCH = datetime(1970, 1, 1)
_FIRST_DAY = _EPOCH.toordinal()
END = (date(9999, 12, 31).toordinal() + 1 - _FIRST_DAY) * DAY
_HOUR, _SIXTIETH = r"(?:[01]\d|2[0-3])", r"[0-5]\d"
_DATE = re.compile(rf"(\d{{4}}-\d\d-\d\d)(?:[T ]({_HOUR}):({_SIXTIETH})(?::({_SIXTIETH})(?:[.,](\d+))?)?)?"
                   rf"(?:Z|([+-])({_HOUR}):({_SIXTIETH}))?", re.A)
# The forms of dates without a zone and a fraction of a second, and what makes them of such dates: each digit 0, and T a space.
_FORMS = {b"0000-00-00", b"0000-00-00 00:00", b"0000-00-00 00:00:00"}
_AS_FORM = bytes.maketrans(b"123456789T", b"000000000 ")


def microseconds_of(text: str, *, is_end: bool = False) -> int:
    """The microseconds since 1970 of a date: YYYY-MM-DD, behind which T or a space may stand with HH:MM, HH:MM:SS or
    HH:MM:SS.ffffff, and then Z or a zone as +HH:MM; in UTC where there is none. `is_end`: of a day without a time of day its last
    microsecond. Raises `ValueError` for another text, and where it is finer than microseconds, which would be cut off."""
    found = _DATE.fullmatch(text.strip())
    try:
        days = date.fromisoformat(found[1]).toordinal() - _FIRST_DAY if found else None
    except ValueError:  # (a day that no month has)
        days = None
    if found is None or days is None:
        raise ValueError(FORM)
    hour, minute, second, digits, sign, hours, minutes = found.groups("0")[1:]
    if digits[6:].strip("0"):
        raise ValueError("a date has at most microseconds, and what is beyond them would be cut off")
    zone = (int(hours) * 60 + int(minutes)) * (-60 if sign == "-" else 60)
    seconds = (int(hour) * 60 + int(minute)) * 60 + int(second) - zone
    time = days * DAY + seconds * SECOND + int(digits[:6].ljust(6, "0"))
    if is_end and found[2] is None:
        time += DAY - 1
    if time < 0:
        raise ValueError("a date is not before 1970")
    if time >= END:
        raise ValueError("a date is in the years 1970 to 9999")
    return time


def all_microseconds(texts: Sequence[str]) -> "Optional[array[int]]":
    """The microseconds since 1970 of dates, where it is seen at once that each is one, without a zone and a fraction of a second;
    `None` for others, which may be some too."""
    lines = "\n".join(texts)
    if not lines.isascii():
        return None
    forms = lines.encode("ascii").translate(_AS_FORM).split(b"\n")
    if len(forms) != len(texts) or not _FORMS.issuperset(forms) or " 24:" in lines or "T24:" in lines:  # (as some Pythons take)
        return None
    try:
        found = list(map(datetime.fromisoformat, texts))
    except ValueError:  # (a day that no month has)
        return None
    return None if min(found) < _EPOCH else array("Q", [(it - _EPOCH) // MICROSECOND for it in found])
