"""Operations as the records of a script, by whole columns, and back."""
from __future__ import annotations

from array import array
from typing import Any, List, Optional

from .operations import COMMANDS, FORMS, INSERT, REMOVE, Dictionary, Numbered, row_of
from ..values import records
from ..values.fields import Fields, data_of, numpy_for

# How many signs a weight and a time have at most that numpy reads.
WEIGHT_SIGNS, TIME_SIGNS = 14, 18


class Records:
    """The records of operations, which are columns, some at once: each name is made a field once."""

    def __init__(self, columns: Numbered) -> None:
        self._columns = columns
        self._kinds, self._names = (list(map(records.quoted, it.names)) for it in (columns.of_kinds, columns.of_names))

    def text(self, rows: slice) -> str:
        codes, kinds, sources, targets, weights, times = (it[rows] for it in self._columns[:6])
        of_kinds, of_names = self._kinds.__getitem__, self._names.__getitem__
        fields = map(of_kinds, kinds), map(of_names, sources), map(of_names, targets), weights, times
        if codes.count(INSERT) == len(codes):  # (as nearly all are)
            return "".join([f"i,{kind},{source},{target},{weight},{time}\n"
                            for kind, source, target, weight, time in zip(*fields)])
        return "".join([FORMS[code].format(*row) for code, *row in zip(codes, *fields)])


def operations_in(text: str) -> Numbered:
    """The operations of a script's whole lines."""
    numpy = numpy_for(len(text))
    found = None if numpy is None else _operations_at_once(numpy, text)
    if found is not None:
        return found
    lines = (it for it in text.splitlines() if it[1] == ",")
    return Numbered.of(list(map(row_of, map(records.split_record, lines))))


def _operations_at_once(numpy: Any, text: str) -> Optional[Numbered]:
    """The same by the places of fields; `None` for a script that has quotes, other operations than insertions and removals, or
    long numbers."""
    if '"' in text or not text.isascii() or not text.endswith("\n"):
        return None
    data = data_of(numpy, text)
    ends = numpy.flatnonzero((data == ord(",")) | (data == ord("\n")))
    last = numpy.flatnonzero(data[ends] == ord("\n"))
    first = numpy.concatenate([[0], last[:-1] + 1])
    begins = numpy.concatenate([[0], ends[:-1] + 1])
    counts = last - first
    is_operation = counts > 0
    first, counts, letters = first[is_operation], counts[is_operation], data[begins[first[is_operation]]]
    is_insertion = letters == ord(COMMANDS[INSERT])
    is_right = numpy.where(is_insertion, counts == 5, (letters == ord(COMMANDS[REMOVE])) & (counts == 3))
    if not is_right.all() or (ends[first] - begins[first] != 1).any():
        return None

    def fields(at: int, rows: Any) -> Fields:
        return Fields(text, data, begins[rows + at], ends[rows + at])
    of_kinds, of_names = Dictionary(), Dictionary()
    names = [fields(1, first).numbered(of_kinds.column), *(fields(at, first).numbered(of_names.column) for at in (2, 3))]
    numbers = [fields(at, first[is_insertion]).whole_numbers(code, signs)
               for at, code, signs in ((4, "q", WEIGHT_SIGNS), (5, "Q", TIME_SIGNS))]
    if None in numbers:
        return None
    marks: List["array[int]"] = []
    for code, it in zip("qQ", numbers):
        column = numpy.zeros(len(first), dtype="int64")
        column[is_insertion] = numpy.asarray(it).astype("int64")
        marks.append(array(code, column.tobytes()))
    codes = array("B", numpy.where(is_insertion, INSERT, REMOVE).astype("uint8").tobytes())
    return Numbered._make([codes, *names, *marks, of_kinds, of_names])
