"""Numbers that an answer gives out, and how much of an answer is shown."""
from __future__ import annotations

import sys
from array import array
from typing import Any, Callable, Iterator, List, Sequence, Tuple, Union, overload

# How many rows an answer shows as a whole, and how many of the first and of the last ones where there are more: as pandas does.
ROWS_WHOLE, ROWS_AT_ENDS = 60, 5
# What numpy calls the numbers of an array.
_FORMS = {"I": "u4", "q": "i8", "Q": "u8"}


class ReadOnlyArray(Sequence[int]):
    """An array of whole numbers that nobody can change: a session has the same numbers in its memory.

    It is read as an `array.array` is, by place and by slices, and equals one of the same numbers. `numpy.asarray` gives a view of
    it, without a copy, that can't be written to: take `numpy.array(it)`, `array("q", it)` or `list(it)` to change something.
    """

    __slots__ = ("_numbers",)

    def __init__(self, numbers: "array[int]") -> None:
        self._numbers = numbers

    @property
    def typecode(self) -> str:
        """The numbers' type, as an `array.array` calls it."""
        return self._numbers.typecode

    @property
    def itemsize(self) -> int:
        """How many bytes a number has."""
        return self._numbers.itemsize

    @property
    def __array_interface__(self) -> "dict[str, Any]":
        """Where numpy finds the numbers. (As a buffer they would lead back to the array that has them, which can be changed.)"""
        address, count = self._numbers.buffer_info()
        if not count:
            return {"version": 3, "typestr": self._form, "shape": (0,), "data": b""}
        return {"version": 3, "typestr": self._form, "shape": (count,), "data": (address, True)}

    @property
    def _form(self) -> str:
        return ("<" if sys.byteorder == "little" else ">") + _FORMS[self._numbers.typecode]

    def __len__(self) -> int:
        return len(self._numbers)

    @overload
    def __getitem__(self, at: int) -> int: ...

    @overload
    def __getitem__(self, at: slice) -> "ReadOnlyArray": ...

    def __getitem__(self, at: Union[int, slice]) -> "Union[int, ReadOnlyArray]":
        found = self._numbers[at]
        return ReadOnlyArray(found) if isinstance(found, array) else found

    def __iter__(self) -> Iterator[int]:
        return iter(self._numbers)

    def __contains__(self, it: object) -> bool:
        return it in self._numbers

    def __eq__(self, other: object) -> bool:
        numbers = other._numbers if isinstance(other, ReadOnlyArray) else other
        if isinstance(numbers, array):
            return self._numbers == numbers
        return NotImplemented

    __hash__ = None  # type: ignore[assignment]  # (as an array's)

    def tolist(self) -> List[int]:
        """The numbers as a list."""
        return self._numbers.tolist()

    def tobytes(self) -> bytes:
        """The numbers as they are in memory."""
        return self._numbers.tobytes()

    def __reduce__(self) -> Any:
        return ReadOnlyArray, (self._numbers[:],)

    def __repr__(self) -> str:
        shown = cut(len(self), lambda first, end: list(map(str, self._numbers[first:end])), "numbers")
        return f"ReadOnlyArray({self.typecode!r}, [{shown[0]}]){shown[1]}"


def cut(count: int, rows: Callable[[int, int], List[str]], what: str) -> Tuple[str, str]:
    """Rows as one text: all of them, or the first and the last ones where they are many, and then how many there are. `rows`
    gives those from one place to another."""
    if count <= ROWS_WHOLE:
        return ", ".join(rows(0, count)), ""
    return ", ".join([*rows(0, ROWS_AT_ENDS), "..", *rows(count - ROWS_AT_ENDS, count)]), f" of {count:,} {what}"
