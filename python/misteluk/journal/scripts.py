"""Batches as records of `stinger run`, and back: what a store's file has of them."""
from __future__ import annotations

import re
from ctypes import c_uint64, create_string_buffer, string_at
from typing import Any, Iterable, List, Sequence

from ..engine.calling import LibraryFlight, check
from ..engine.interface import Code, Library
from ..engine.operations import COMMANDS, Numbered, Operations, row_of
from ..values import records

_CODES = {it: code for code, it in enumerate(COMMANDS)}
# Records with fewer fields than six.
_REMOVAL, _EXPIRY = re.compile("^r,.*$", re.M), re.compile("^x,(.*)$", re.M)
# For how many bytes of records there is room from the first batch on, and how much room is kept for the next one at most.
LEAST_ROOM, MOST_ROOM = 1 << 16, 1 << 20


class Writer:
    """Writes batches as records, by the library, in whose handles they are."""

    def __init__(self, library: Library) -> None:
        self._library, self._length = library, c_uint64()
        self._text = create_string_buffer(LEAST_ROOM)

    def records_of(self, flight: LibraryFlight) -> bytes:
        """The records of a batch that is on its way, one line each. Raises `NoMemory`, and nothing was done then."""
        text = self._text
        code = self._library.batch_records(flight.owned.raw, text, len(text), self._length)
        if code == Code.BAD_LENGTH:
            text = create_string_buffer(self._length.value)
            code = self._library.batch_records(flight.owned.raw, text, len(text), self._length)
            self._text = text if len(text) <= MOST_ROOM else self._text
        check(code)
        return string_at(text, self._length.value)


def operations_of(texts: Iterable[bytes]) -> Operations:
    """The operations whose records `Writer` wrote, batch by batch, one behind another."""
    found = Numbered.of(())
    for text in texts:
        some = Numbered.by(found.of_kinds, found.of_names, *_columns_of(text.decode("ascii")))
        for column, more in zip(found[:6], some[:6]):
            column.extend(more)
    return Operations(columns=found)


def _columns_of(text: str) -> Sequence[Sequence[Any]]:
    """The fields of records as columns: all at once, where none is quoted."""
    if '"' in text or not text:
        rows = [row_of(records.split_record(line)) for line in text.splitlines()]
        return list(zip(*rows)) or ((),) * 6
    fields = _fields_of(text)
    weights, times = (list(map(int, fields[at::6])) for at in (4, 5))
    return list(map(_CODES.__getitem__, fields[0::6])), fields[1::6], fields[2::6], fields[3::6], weights, times


def _fields_of(text: str) -> List[str]:
    """The fields of records, six of each."""
    count = text.count("\n")
    if text.count("\ni,") + text.count("\na,") < count - 1 or text[0] not in "ia":
        text = _EXPIRY.sub(r"x,,,,0,\1", _REMOVAL.sub(r"\g<0>,0,0", text))
    fields = text[:-1].replace("\n", ",").split(",")
    if len(fields) != 6 * count:
        raise ValueError("these are no records of operations")
    return fields
