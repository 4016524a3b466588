"""What a record is: its fields, the rules that each field keeps, and the first rule that is broken, in the program's order.

The program is the judge. These rules say beforehand what it will say, and name the field and the reason, which it doesn't;
`tests/test_records.py` holds them against the program itself.
"""
from __future__ import annotations

import re
from array import array
from functools import partial
from typing import Callable, Dict, Iterable, List, NamedTuple, Optional, Sequence, Tuple

from .fields import Fields

ANY = "*"
MOST_NAME = 64
MOST_WEIGHT = 1 << 40
MOST_TIME = (1 << 63) - 1
MOST_OPERATIONS = 4_096
MOST_KINDS = 64
MOST_BATCHES = 65_536
MOST_RECORDS = 999_999
BLOCK_EDGES = 32
LEAST_BLOCKS, MOST_BLOCKS, USUAL_BLOCKS = 16, 65_536, 16_384
MOST_SEATS, USUAL_SEATS = 16, 2

# The fields behind the first one, by command.
FORMATS: Dict[str, Tuple[str, ...]] = {
    "i": ("kind", "source", "target", "weight", "time"),
    "a": ("kind", "source", "target", "amount", "time"),
    "r": ("kind", "source", "target"),
    "x": ("time",),
    "commit": (),
    "open": ("slot",),
    "close": ("slot",),
    "bfs": ("slot", "source", "kind or *", "lo", "hi"),
    "comp": ("slot", "kind or *", "lo", "hi"),
    "core": ("slot", "kind or *", "lo", "hi"),
    "deg": ("slot", "kind or *", "lo", "hi"),
    "edge": ("slot", "kind", "source", "target"),
    "collect": (),
    "stat": (),
    "rebase": ("slot",),
}
OPERATIONS = ("i", "a", "r", "x")
NAME_FIELDS = ("kind", "kind or *", "source", "target")
WEIGHT_FIELDS = ("weight", "amount")
TIME_FIELDS = ("time", "lo", "hi")

_NAME = re.compile(r"[!-~]{1,64}")
_DIGITS = re.compile(r"[0-9]{1,19}")
_TO_BE_QUOTED, _QUOTES_AND_ENDS = re.compile(r'[",\r\n]'), re.compile(r'["\r\n]')
_NAMES = re.compile(r"(?:[!-~]{1,64}\n)*")


class Fault(NamedTuple):
    """A rule that a record breaks: the program's word for it, which field, what stands there, and why it is refused."""

    word: str
    field: Optional[str]
    value: Optional[str]
    reason: str

    def __str__(self) -> str:
        place = "" if self.field is None else f"{self.field} {shown(self.value or '')}: "
        return f"{place}{self.reason}"


def shown(value: str) -> str:
    """The value within quotes, cut where it is long."""
    return repr(value) if len(value) <= 80 else f"{value[:70]!r}.. ({len(value)} characters)"


def name_reason(name: str) -> Optional[str]:
    """Why this is no name, or `None`."""
    if _NAME.fullmatch(name):
        return None
    if not name:
        return "a name has at least one byte"
    outside = next((it for it in name if not "!" <= it <= "~"), None)
    if outside is None:
        return f"a name has at most {MOST_NAME} bytes, and this has {len(name)}"
    what = "a space" if outside == " " else repr(outside)
    return f"a name has printable ASCII signs alone, from ! to ~, and this has {what}"


def kind_reason(kind: str) -> Optional[str]:
    """Why this is no kind, or `None`."""
    return "a kind is not *, which stands for any kind in a request" if kind == ANY else name_reason(kind)


def weight_reason(text: str) -> Optional[str]:
    """Why this is no weight or amount, or `None`."""
    if not _DIGITS.fullmatch(text[1:] if text.startswith("-") else text):
        return "a weight is a whole number, of at most 19 digits"
    return None if -MOST_WEIGHT <= int(text) <= MOST_WEIGHT else f"a weight is from -{MOST_WEIGHT} to {MOST_WEIGHT} (2^40)"


def time_reason(text: str) -> Optional[str]:
    """Why this is no time, or `None`."""
    if not _DIGITS.fullmatch(text):
        return "a time is a whole number that isn't negative, of at most 19 digits"
    return None if int(text) <= MOST_TIME else f"a time is at most {MOST_TIME}"


def slot_reason(text: str, seats: int) -> Optional[str]:
    """Why this is no slot of so many, or `None`."""
    if not _DIGITS.fullmatch(text):
        return "a slot is a whole number"
    return None if int(text) < seats else f"the slots are 0 to {seats - 1}"


# The word and the reason why a field is refused, whatever the store has; of a slot how many there are decides.
RULES: Dict[str, Tuple[str, Callable[[str], Optional[str]]]] = {
    **dict.fromkeys(NAME_FIELDS, ("BadName", name_reason)), "kind": ("BadName", kind_reason),
    **dict.fromkeys(WEIGHT_FIELDS, ("BadWeight", weight_reason)), **dict.fromkeys(TIME_FIELDS, ("BadTime", time_reason))}
# The words in the order in which the program tells them.
ORDER = ("BadCommand", "BadFields", "BadName", "BadWeight", "BadTime", "BadSlot")


def faults_of(fields: Sequence[str], seats: int = USUAL_SEATS) -> List[Fault]:
    """The rules that a record breaks whatever the store has, in the program's order: the first one is the one it tells."""
    command = fields[0] if fields else ""
    if command not in FORMATS:
        reason = "no command of this name; a command stands alone in the first field, with no space"
        return [Fault("BadCommand", "command", command, reason)]
    names = FORMATS[command]
    if len(fields) - 1 != len(names):
        wanted = ",".join((command, *names))
        return [Fault("BadFields", None, None, f"{len(fields)} fields, where {wanted} has {len(names) + 1}")]
    found: List[Fault] = []
    for field, value in zip(names, fields[1:]):
        word, reason_of = RULES.get(field, ("BadSlot", partial(slot_reason, seats=seats)))
        found.extend(Fault(word, field, value, it) for it in (reason_of(value),) if it is not None)
    return sorted(found, key=lambda it: ORDER.index(it.word))


def quoted(field: str) -> str:
    """The field as RFC 4180 writes it."""
    return '"' + field.replace('"', '""') + '"' if _TO_BE_QUOTED.search(field) else field


def record(fields: Sequence[str]) -> str:
    """The record of these fields, with the end of its line; a lone empty field is quoted, since a blank line is no record."""
    text = ",".join(fields)
    if text.count(",") != len(fields) - 1 or _QUOTES_AND_ENDS.search(text):
        text = ",".join(map(quoted, fields))
    return (text or '""') + "\n"


def are_names(texts: Iterable[str]) -> bool:
    """Whether each text is a name, seen at once."""
    lines = [*texts, ""]
    text = "\n".join(lines)
    return _NAMES.fullmatch(text) is not None and text.count("\n") == len(lines) - 1


def whole_numbers(texts: Sequence[str], code: str, digits: int) -> "Optional[array[int]]":
    """The numbers that texts are, where it is seen at once that each is a whole one of at most so many signs, a minus sign where
    the array's code has one; `None` for others, which may be some too."""
    if isinstance(texts, Fields):
        return texts.whole_numbers(code, digits)
    signs = "".join(texts)
    plain = signs if code.isupper() else signs.replace("-", "")
    if not (plain.isdigit() and signs.isascii() and len(max(texts, key=len)) <= digits):
        return None
    try:
        return array(code, list(map(int, texts)))  # (of a list sooner than of what gives one after another)
    except ValueError:  # (as of an empty text, or of one with a sign within)
        return None


def split_record(text: str) -> List[str]:
    """The fields of one record that `record` wrote."""
    if '"' not in text:
        return text.rstrip("\n").split(",")
    return [it[1:-1].replace('""', '"') if it.startswith('"') else it
            for it in re.findall(r'(?:^|,)("(?:[^"]|"")*"|[^,"]*)', text.rstrip("\n"))]
