"""A client's rows and records as operations, each of which is looked at.

Rows are a person's, in the user's terms, with any text as a name. A client in Python sends records, which are in the engine's
terms: those of `stinger run`, by which each fault has its word.
"""
from __future__ import annotations

from typing import Any, List, Optional, Sequence, Tuple

from ..engine.operations import COMMANDS as OF_RECORDS, Operations, Row, row_of
from ..errors import refusal
from ..feeds.terms import Terms
from ..values import records

# What a client calls an operation, and the command of its record.
COMMANDS = {"insert": "i", "add": "a", "remove": "r", "expire": "x"}
# How many signs a record of an operation has at most: three names within quotes, each sign twice, and two numbers.
LONGEST = 3 * (2 * records.MOST_NAME + 2) + 2 * 20 + 6


def checked_operations(text: str) -> Operations:
    """Records of operations that a client sent. Raises a `Refused` where one breaks a rule."""
    if text.count("\n") > records.MOST_OPERATIONS or len(text) > LONGEST * records.MOST_OPERATIONS:
        raise refusal("BatchFull")
    *lines, rest = text.split("\n")
    found = None if rest else _plain_rows(lines)
    if found is not None:
        return Operations(found)
    rows: List[Row] = []
    for at, line in enumerate([*lines, *filter(None, [rest])], 1):
        fields = records.split_record(line)
        faults = records.faults_of(fields)
        if faults:
            raise refusal(faults[0].word, f"row {at}: {faults[0]}", advice="")
        if fields[0] not in records.OPERATIONS or records.record(fields) != f"{line}\n" or rest:
            raise refusal("BadCommand", f"row {at} is no operation", advice="")
        rows.append(row_of(fields))
    return Operations(rows)


def checked_rows(rows: Sequence[Sequence[str]], first: int, terms: Terms) -> List[Tuple[str, ...]]:
    """A client's rows as records, each with its command. Raises a `Refused` for one that is none, by its number."""
    asked = [(COMMANDS.get(row[0] if row else "", ""), *row[1:]) for row in rows]
    for at, fields in enumerate(asked, first):
        if not fields[0]:
            raise refusal("BadCommand", f"row {at}: an operation is {', '.join(COMMANDS)}", advice="")
        faults = terms.faults_of(fields)
        if faults:
            told = terms.refusal(faults[0])
            raise refusal(faults[0].word, f"row {at}: {told.fault or faults[0]}")
    return asked


def seen_rows(rows: Sequence[Sequence[str]], terms: Terms) -> Optional[List[Row]]:
    """The operations of a client's rows, where each is seen at once to be an insertion or addition of names that are the engine's
    as they stand; else `None`."""
    if set(map(len, rows)) != {6}:
        return None
    words, kinds, sources, targets, weights, times = zip(*rows)
    if not set(words) <= {"insert", "add"} or not terms.knows({*kinds, *sources, *targets}):
        return None
    numbers: Any = terms.units._weights_of(weights), terms.units._times_of(times)
    if any(None in it for it in numbers):
        return None
    return list(zip((OF_RECORDS.index(COMMANDS[it]) for it in words), kinds, sources, targets, *numbers))


def _plain_rows(lines: Sequence[str]) -> Optional[List[Row]]:
    """The operations of records, where each is seen at once to be an insertion or addition that keeps every rule; else `None`."""
    fields = [it.split(",") for it in lines]
    if not fields or set(map(len, fields)) != {6} or '"' in "".join(lines):
        return None
    commands, kinds, sources, targets, weights, times = zip(*fields)
    numbers: Any = records.whole_numbers(weights, "q", 12), records.whole_numbers(times, "Q", 18)
    names = {*kinds, *sources, *targets}
    if not set(commands) <= {"i", "a"} or None in numbers or records.ANY in kinds or not records.are_names(names):
        return None
    return list(zip(map(OF_RECORDS.index, commands), kinds, sources, targets, *numbers))
