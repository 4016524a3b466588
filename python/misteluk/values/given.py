"""Columns of values as a caller gave them, which are texts once somebody asks: arrays of numpy, columns of pandas, and lists.

What is seen to be right of many rows at once, numbers, dates and names, is taken so, without a text for each row; a name is a
text once. All else is read as texts, and says what is wrong. Both give the same.
"""
from __future__ import annotations

from array import array
from datetime import date, datetime, timezone
from decimal import ROUND_HALF_EVEN, Context, Decimal, Inexact, InvalidOperation, Overflow, Subnormal
from functools import cached_property
from typing import Any, Callable, List, Optional, Sequence, Tuple

from . import records
from .columns import FieldColumn, NumbersOf, whole
from .dates import END
from .fields import numpy_for
from .units import Units

# What makes texts of some values, of which the first has this number.
TextsOf = Callable[[Any, int], Sequence[str]]
# By how many more than rows the numbers of a column may differ that are looked up in a table.
ROOM_BESIDE = 1 << 16
# How many microseconds a unit of numpy's dates has; and how many of them a microsecond has.
_LONG = {"D": 86_400 * 10 ** 6, "h": 3_600 * 10 ** 6, "m": 60 * 10 ** 6, "s": 10 ** 6, "ms": 1_000, "us": 1}
_NANOSECONDS = 1_000
# Up to how many parts a float is surely a decimal number of them; and how near to a half one is that is rounded by its text.
_SURE, _NEAR = float(1 << 40) - 1, 0.001
# What multiplies decimal numbers exactly, or not at all; and what rounds them.
_EXACT = Context(prec=60, Emin=-300, Emax=300, traps=[Inexact, InvalidOperation, Overflow, Subnormal])
_ROUNDING = Context(prec=60, rounding=ROUND_HALF_EVEN)


class Whole:
    """A column as a whole, of which only the texts are known."""

    def __init__(self, numpy: Any, source: Any, texts_of: TextsOf, values: Any = None) -> None:
        self.numpy, self.source, self.texts_of, self.values = numpy, source, texts_of, values

    def texts(self, first: int, end: int) -> Sequence[str]:
        """The texts of some rows."""
        rows = getattr(self.source, "iloc", self.source)
        return self.texts_of(rows[first:end], first + 1)

    def numbered(self, rows: slice, numbers_of: NumbersOf, of: object) -> "Optional[array[int]]":
        return None

    def weights(self, rows: slice, units: Units[Any, Any]) -> "Optional[array[int]]":
        return None

    def times(self, rows: slice, units: Units[Any, Any]) -> "Optional[array[int]]":
        return None


class Given(FieldColumn):
    """Some rows of a column that was given."""

    def __init__(self, of: Whole, first: int, end: int) -> None:
        self._of, self._first, self._end = of, first, end

    @cached_property
    def _texts(self) -> Sequence[str]:
        return self._of.texts(self._first, self._end)

    @property
    def texts(self) -> Sequence[str]:
        return self._texts

    def __len__(self) -> int:
        return self._end - self._first

    def some(self, rows: slice) -> "Given":
        first, end, _ = rows.indices(len(self))
        return Given(self._of, self._first + first, self._first + max(first, end))

    def numbered(self, numbers_of: NumbersOf, of: object) -> "Optional[array[int]]":
        return self._of.numbered(slice(self._first, self._end), numbers_of, of)

    def weights(self, units: Units[Any, Any]) -> "Optional[array[int]]":
        return self._of.weights(slice(self._first, self._end), units)

    def times(self, units: Units[Any, Any]) -> "Optional[array[int]]":
        return self._of.times(slice(self._first, self._end), units)


class Texts(Whole):
    """A list of texts."""

    def texts(self, first: int, end: int) -> Sequence[str]:
        found: Sequence[str] = self.source[first:end]
        return found

    def numbered(self, rows: slice, numbers_of: NumbersOf, of: object) -> "Optional[array[int]]":
        return numbers_of(self.source[rows])

    def weights(self, rows: slice, units: Units[Any, Any]) -> "Optional[array[int]]":
        return whole(units._weights_of(self.source[rows]))

    def times(self, rows: slice, units: Units[Any, Any]) -> "Optional[array[int]]":
        return whole(units._times_of(self.source[rows]))


class Decimals(Whole):
    """A list of decimal numbers."""

    def weights(self, rows: slice, units: Units[Any, Any]) -> "Optional[array[int]]":
        scale, most = Decimal(units.scale), records.MOST_WEIGHT
        try:
            parts = [_EXACT.multiply(it, scale) for it in self.source[rows]]
            if not (-most <= min(parts) and max(parts) <= most):
                return None
            if units.rounding is not None:
                return array("q", map(int, map(_ROUNDING.to_integral_value, parts)))
            found = array("q", map(int, parts))
        except (ArithmeticError, ValueError):  # (of one that is no number, or has more digits than are looked at here)
            return None
        return found if found.tolist() == parts else None


class Coded(Whole):
    """A column that has a code for each name, as a categorical of pandas has; a name is a text once."""

    def codes(self) -> "Tuple[Any, int]":
        """Each row's code, less than 0 where a value is missing, and how many codes there are."""
        raise NotImplementedError

    def names(self, codes: Any) -> Sequence[str]:
        """The names that codes stand for."""
        raise NotImplementedError

    @cached_property
    def _coded(self) -> "Tuple[Any, Any]":
        """Each row's code, and each code's number, -1 where it isn't known."""
        codes, count = self.codes()
        return codes, self.numpy.full(count, -1, dtype="int64")

    _whose: object = None

    def numbered(self, rows: slice, numbers_of: NumbersOf, of: object) -> "Optional[array[int]]":
        codes, numbers = self._coded
        codes = codes[rows]
        if codes.min() < 0:
            return None
        if self._whose != of:
            numbers.fill(-1)
            self._whose = of
        found = numbers[codes]
        if found.min() < 0:
            new, first = self.numpy.unique(codes[found < 0], return_index=True)
            new = new[self.numpy.argsort(first)]  # (in the order in which they came)
            of_new = numbers_of(self.names(new))
            if of_new is None:
                return None
            numbers[new] = self.numpy.asarray(of_new)
            found = numbers[codes]
        return array("I", found.astype("uint32").tobytes())


class Categories(Coded):
    """A categorical of pandas, or a dictionary of Arrow."""

    def __init__(self, numpy: Any, source: Any, texts_of: TextsOf, codes: Any, categories: Any) -> None:
        super().__init__(numpy, source, texts_of, codes)
        self._categories = categories

    def codes(self) -> "Tuple[Any, int]":
        return self.values, len(self._categories)

    def names(self, codes: Any) -> Sequence[str]:
        return self.texts_of(self._categories[codes], 1)


class Dictionary(Sequence[Any]):
    """Values by codes, of which each stands for one of a few, and -1 for none."""

    def __init__(self) -> None:
        self.codes = array("q")
        self.categories: List[Any] = []

    def __len__(self) -> int:
        return len(self.codes)

    def __getitem__(self, at: Any) -> Any:
        known = self.categories
        if isinstance(at, slice):
            return [None if it < 0 else known[it] for it in self.codes[at]]
        return self[at:at + 1][0]


class Numbers(Coded):
    """An array of whole numbers."""

    @cached_property
    def _least(self) -> int:
        return int(self.values.min())

    @cached_property
    def _known(self) -> Any:
        """Each number once, in order, where there isn't one for each number from the least to the greatest."""
        count = int(self.values.max()) - self._least + 1
        return None if count <= 4 * len(self.values) + ROOM_BESIDE else self.numpy.unique(self.values)

    def codes(self) -> "Tuple[Any, int]":
        if self._known is not None:
            return self.numpy.searchsorted(self._known, self.values), len(self._known)
        codes = (self.values - self.values.dtype.type(self._least)).astype("int64")
        return codes, int(codes.max()) + 1

    def names(self, codes: Any) -> Sequence[str]:
        found = codes.astype(object) + self._least if self._known is None else self._known[codes]
        return list(map(str, found.tolist()))

    def weights(self, rows: slice, units: Units[Any, Any]) -> "Optional[array[int]]":
        values, most = self.values[rows], records.MOST_WEIGHT // units.scale
        if values.max() > most or values.min() < -most:
            return None
        return array("q", (values.astype("int64") * units.scale).tobytes())

    def times(self, rows: slice, units: Units[Any, Any]) -> "Optional[array[int]]":
        values = self.values[rows]
        if values.min() < 0 or values.max() > records.MOST_TIME or units.has_dates and values.any():
            return None
        return array("Q", values.astype("uint64").tobytes())


class Floats(Whole):
    """An array of floats. One stands for the number that it is printed as."""

    def weights(self, rows: slice, units: Units[Any, Any]) -> "Optional[array[int]]":
        with self.numpy.errstate(all="ignore"):
            parts = self._parts(rows, units)
        return None if parts is None else array("q", parts.astype("int64").tobytes())

    def _parts(self, rows: slice, units: Units[Any, Any]) -> Any:
        """The parts of floats; `None` where one of them has none, or may have none. A float of 64 bits is printed with so many
        decimals at most where the one next to the number with that many is the same: such numbers have less than 15 digits."""
        numpy, values, scale = self.numpy, self.values[rows], units.scale
        product = values.astype("float64") * scale
        found = numpy.rint(product)
        is_right = found / scale == values
        if not (abs(product) <= _SURE).all() or scale > 1 and not (units._is_decimal and values.dtype == "float64"):
            return None
        if is_right.all():
            return found
        if units.rounding is None or values.dtype != "float64":
            return None
        for at in numpy.flatnonzero(~is_right & (abs(abs(product - found) - 0.5) < _NEAR)).tolist():
            found[at] = units._weights_of(self.texts(rows.start + at, rows.start + at + 1))[0]
        return found

    def times(self, rows: slice, units: Units[Any, Any]) -> "Optional[array[int]]":
        values = self.values[rows]
        with self.numpy.errstate(all="ignore"):
            is_right = (values >= 0) & (values <= _SURE) & (self.numpy.rint(values) == values)
        if not is_right.all() or units.has_dates and values.any():
            return None
        return array("Q", values.astype("uint64").tobytes())


class Moments(Whole):
    """An array of numpy's dates, in UTC."""

    def times(self, rows: slice, units: Units[Any, Any]) -> "Optional[array[int]]":
        unit, count = self.numpy.datetime_data(self.values.dtype)
        values = self.values[rows].astype("int64")
        if not units.has_dates or count != 1 or unit not in {**_LONG, "ns": 1} or values.min() < 0:  # (so is one that is none)
            return None
        if unit == "ns":
            values, rest = self.numpy.divmod(values, _NANOSECONDS)
            if rest.any():
                return None
        factor = _LONG.get(unit, 1)
        return array("Q", (values * factor).astype("uint64").tobytes()) if values.max() < END // factor else None


def given(column: Any, texts_of: TextsOf) -> Optional[Given]:
    """A column of values by what they are, where numpy is there and the rows are worth it; `texts_of` gives the texts of some."""
    numpy = numpy_for(len(column))
    return None if numpy is None else Given(_whole_of(numpy, column, texts_of), 0, len(column))


def _whole_of(numpy: Any, column: Any, texts_of: TextsOf) -> Whole:
    dtype: Any = getattr(column, "dtype", None)
    if hasattr(column, "cat"):
        return Categories(numpy, column, texts_of, column.cat.codes.to_numpy(), column.cat.categories)
    if isinstance(column, Dictionary):
        return Categories(numpy, column, texts_of, numpy.asarray(column.codes), numpy.array([*column.categories, None])[:-1])
    if getattr(dtype, "tz", None) is not None:
        return Moments(numpy, column, texts_of, column.to_numpy("datetime64[ns]"))
    if type(dtype).__module__.partition(".")[0] != "numpy" or dtype.kind in "OU":
        values = column if isinstance(column, list) else column.tolist()
        return _of_list(numpy, column, texts_of, values)
    values = column.to_numpy() if hasattr(column, "to_numpy") else column
    forms = {"i": Numbers, "u": Numbers, "f": Floats, "M": Moments}
    return forms.get(values.dtype.kind, Whole)(numpy, column, texts_of, values)


def _of_list(numpy: Any, column: Any, texts_of: TextsOf, values: List[Any]) -> Whole:
    """A column of objects by what they are, where they are all the same."""
    kinds = set(map(type, values))
    if kinds == {str}:
        return Texts(numpy, values, texts_of)
    if kinds == {Decimal}:
        return Decimals(numpy, values, texts_of)
    try:
        if kinds == {int}:
            return Numbers(numpy, column, texts_of, numpy.array(values, dtype="int64"))
        if kinds == {float}:
            return Floats(numpy, column, texts_of, numpy.array(values))
        if kinds == {date}:
            return Moments(numpy, column, texts_of, numpy.array(values, dtype="datetime64[D]"))
        if kinds == {datetime} and {it.tzinfo for it in values} <= {None, timezone.utc}:
            plain = [it.replace(tzinfo=None) for it in values]
            return Moments(numpy, column, texts_of, numpy.array(plain, dtype="datetime64[us]"))
    except OverflowError:  # (of a number that is too large for any name, weight or time but as a text)
        pass
    return Whole(numpy, column, texts_of)
