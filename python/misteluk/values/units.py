"""The store's units: weights as decimals and times as dates, where the program has whole numbers."""
from __future__ import annotations

import re
from array import array
from dataclasses import dataclass, replace
from datetime import date, datetime, timezone
from decimal import Context, Decimal, InvalidOperation
from fractions import Fraction
from functools import lru_cache
from typing import TYPE_CHECKING, Any, Callable, Generic, Iterable, Literal, Optional, Sequence, Union, overload

from . import records
from .answers import Edge, T, W
from .dates import MICROSECOND, all_microseconds, microseconds_of
from .texts import together

Amount = Union[int, float, Decimal, str]
Moment = Union[int, str, date]
EPOCH = datetime(1970, 1, 1, tzinfo=timezone.utc)
Times = Literal["number", "iso"]
Decimals = Literal["decimal", "float"]
Rounding = Literal["half-even"]
NUMBER: Times = "number"
ISO: Times = "iso"
HALF_EVEN: Rounding = "half-even"
_DECIMAL = re.compile(r"[-+]?(?:[0-9]+\.?[0-9]*|\.[0-9]+)(?:[eE]([-+]?[0-9]+))?")
# How many signs a number may have that is looked at: a longer one is beyond every limit, and takes long.
MOST_SIGNS = 400
# What shifts a weight's decimals, of which none has more digits: 2^40 parts of 2^-40.
_EXACT = Context(prec=64)


def _decimal(text: str) -> Decimal:
    """The number that a text is. Raises `ValueError` for another text, and for one that would take long."""
    found = _DECIMAL.fullmatch(text) if len(text) <= MOST_SIGNS else None
    try:
        if found and int(found[1] or 0) > -MOST_SIGNS:
            return Decimal(text)
    except InvalidOperation:  # (it has a power that no number has)
        pass
    raise ValueError("a weight is a decimal number")


@lru_cache(maxsize=None)
def _places_of(scale: int) -> Optional[int]:
    """How many decimal places a part of so many has: 2 for a hundredth, 3 for an eighth; `None` where they have no end."""
    return next((it for it in range(64) if 10 ** it % scale == 0), None)


@dataclass(frozen=True)
class Units(Generic[W, T]):
    """What weights and times are counted in; `Store`, `load`, `connect` and what else has units take the same ones.

    >>> with Store(units=Units(weight_scale=100, times="iso")) as bank:
    ...     loaded = bank.load([("ana", "bob", "0.10", "2024-03-05", "transfer")], by="add")
    ...     print(bank.open().edge("transfer", "ana", "bob").recent)
    2024-03-05 00:00:00+00:00

    - `weight_scale`: into how many parts 1 is divided, as 100 for cents; a divisor of a power of ten, up to 2^40. Weights are
      then `Decimal`s; 1 leaves them whole numbers. A weight is given as an int, a `Decimal`, a float by its `repr`, or a text.
    - `times`: "number" for whole numbers from 0 to 2^63 - 1, or "iso" for dates from 1970 to 9999: a `datetime`, a `date`, or a
      text as 2024-05-01 or 2024-05-01T12:00:00.250+02:00, in UTC without a zone. An edge without a time has 1970's first moment.
    - `decimals`: answers have weights as "decimal" (`decimal.Decimal`, exact) or "float".
    - `rounding`: "half-even" rounds a weight between two parts to the nearest, and to the even one in the middle. Without it such
      a weight is refused (`BadWeight`).

    What isn't given is as the store, the file or the server has it; a new store counts whole numbers. Other values raise
    `ValueError`."""

    weight_scale: Optional[int] = None
    times: Optional[Times] = None
    decimals: Decimals = "decimal"
    rounding: Optional[Rounding] = None

    if TYPE_CHECKING:
        scale: int
        has_dates: bool
        are_plain: bool

        @overload
        def __init__(self: Units[int, int], weight_scale: Literal[1], times: Literal["number"],
                     decimals: Decimals = ..., rounding: Optional[Rounding] = ...) -> None: ...

        @overload
        def __init__(self: Units[int, datetime], weight_scale: Literal[1], times: Literal["iso"],
                     decimals: Decimals = ..., rounding: Optional[Rounding] = ...) -> None: ...

        @overload
        def __init__(self: Units[float, int], weight_scale: int, times: Optional[Literal["number"]] = ..., *,
                     decimals: Literal["float"], rounding: Optional[Rounding] = ...) -> None: ...

        @overload
        def __init__(self: Units[float, datetime], weight_scale: int, times: Literal["iso"], decimals: Literal["float"],
                     rounding: Optional[Rounding] = ...) -> None: ...

        @overload
        def __init__(self: Units[Decimal, int], weight_scale: int, times: Optional[Literal["number"]] = ...,
                     decimals: Literal["decimal"] = ..., rounding: Optional[Rounding] = ...) -> None: ...

        @overload
        def __init__(self: Units[Decimal, datetime], weight_scale: int, times: Literal["iso"],
                     decimals: Literal["decimal"] = ..., rounding: Optional[Rounding] = ...) -> None: ...

        @overload
        def __init__(self: Units[Any, Any], weight_scale: Optional[int] = ..., times: Optional[Times] = ...,
                     decimals: Decimals = ..., rounding: Optional[Rounding] = ...) -> None: ...

        def __init__(self, *given: Any, **named: Any) -> None: ...

    def __post_init__(self) -> None:
        scale = 1 if self.weight_scale is None else self.weight_scale
        if self.times not in (None, NUMBER, ISO) or self.decimals not in ("decimal", "float"):
            raise ValueError("times is 'number' or 'iso', decimals is 'decimal' or 'float'")
        if self.rounding not in (None, HALF_EVEN):
            raise ValueError(f"rounding is 'half-even' or None, and not {self.rounding!r}")
        if not hasattr(scale, "__index__"):
            raise TypeError(f"weight_scale is a whole number, as 100 for cents, and not {scale!r}")
        if not 1 <= scale <= records.MOST_WEIGHT or _places_of(scale) is None:
            raise ValueError(f"weight_scale is from 1 to 2^40, and divides a power of ten; {scale} doesn't")
        # (they are asked for at each operation)
        self.__dict__.update(scale=scale, has_dates=self.times == ISO, are_plain=scale == 1 and self.times != ISO)

    @property
    def _are_given(self) -> bool:
        """Whether any of them says what the store's numbers mean."""
        return self.weight_scale is not None or self.times is not None

    def _or_those(self, other: Units[Any, Any]) -> Units[Any, Any]:
        """These, and of what isn't given here the other's."""
        return Units(other.weight_scale if self.weight_scale is None else self.weight_scale, self.times or other.times,
                     self.decimals, self.rounding or other.rounding)

    def _settled(self) -> Units[W, T]:
        """The same with a scale and times that are given."""
        return replace(self, weight_scale=self.scale, times=self.times or NUMBER)

    def __str__(self) -> str:
        return f"weight_scale={self.scale}, times={self.times or NUMBER!r}"

    @property
    def _is_decimal(self) -> bool:
        """Whether a part has so many decimals, and all numbers with as many are whole numbers of parts."""
        return bool(self.scale == 10 ** (_places_of(self.scale) or 0))

    def _shows_as(self, other: Units[Any, Any]) -> bool:
        """Whether weights and times are the same for a user."""
        return self._same_as(other) and self.decimals == other.decimals

    def _same_as(self, other: Units[Any, Any]) -> bool:
        """Whether the program's numbers mean the same; how decimals are shown is apart."""
        return self.scale == other.scale and self.has_dates == other.has_dates

    # To the program: texts, of which each is the program's number; those that are none raise `ValueError` with the reason.

    def _weight_to_program(self, text: str) -> str:
        text = together(text.strip()) or text
        if self.scale == 1 and self.rounding is None:
            return text
        value = _decimal(text.strip())
        limit = Decimal(records.MOST_WEIGHT) / self.scale
        if not -limit <= value <= limit:
            raise ValueError(f"a weight is from -{limit} to {limit} (2^40 parts, of which one has {self.scale})")
        parts = Fraction(value) * self.scale
        if parts.denominator != 1 and self.rounding is None:
            scale, places = self.scale, len(str(self.scale)) - 1
            if scale != 10 ** places:
                raise ValueError(f"a weight is a whole number of parts, of which one has {scale} (weight_scale)")
            raise ValueError(f"a weight has at most {places} decimal{'s' * (places != 1)} here (weight_scale {scale})")
        return str(round(parts))  # (of a Fraction: to the nearest, or the even one of two)

    def _time_to_program(self, text: str, *, is_end: bool = False) -> str:
        """Of a day that ends a window its last microsecond. 0 is the time of what has none, and the first; the greatest time is
        the end of a window that has none."""
        if not self.has_dates or text in ("0", str(records.MOST_TIME)):
            return text
        return str(microseconds_of(text, is_end=is_end))

    def _weights_of(self, texts: Sequence[str]) -> Sequence[Optional[int]]:
        """The program's weights for many texts; `None` for what is none."""
        places = _places_of(self.scale) or 0
        found = None
        if self.scale == 1 and self.rounding is None:
            found = records.whole_numbers(texts, "q", 12)
        elif self.scale == 10 ** places:
            found = _with_places(texts, places)
        return found if found is not None else each_once(self._weight_of, texts)

    def _weight_of(self, text: str) -> Optional[int]:
        try:
            whole = self._weight_to_program(text)
        except ValueError:
            return None
        return None if records.weight_reason(whole) else int(whole)

    def _times_of(self, texts: Sequence[str]) -> Sequence[Optional[int]]:
        """The program's times for many texts; `None` for what is none."""
        found = records.whole_numbers(texts, "Q", 18) if not self.has_dates else all_microseconds(texts)
        return found if found is not None else each_once(self._time_of, texts)

    def _time_of(self, text: str) -> Optional[int]:
        try:
            whole = self._time_to_program(text)
        except ValueError:
            return None
        return None if records.time_reason(whole) else int(whole)

    # To the user.

    def _weight_to_user(self, weight: int) -> Any:
        if self.scale == 1:
            return weight
        if self.decimals == "float":
            return weight / self.scale
        places = _places_of(self.scale) or 0
        return _EXACT.scaleb(Decimal(weight * 10 ** places // self.scale), -places)

    def _time_to_user(self, time: int) -> Any:
        return time if not self.has_dates else EPOCH + MICROSECOND * time

    def _all_weights_to_user(self, weights: Sequence[int]) -> Sequence[Any]:
        return weights if self.scale == 1 else each_once(self._weight_to_user, weights)

    def _all_times_to_user(self, times: Sequence[int]) -> Sequence[Any]:
        return times if not self.has_dates else each_once(self._time_to_user, times)

    def _weights_as_text(self, weights: Sequence[int]) -> Iterable[str]:
        """Weights as they are printed."""
        return map(str, weights) if self.scale == 1 else each_once(lambda it: str(self._weight_to_user(it)), weights)

    def _times_as_text(self, times: Sequence[int]) -> Iterable[str]:
        """Times as they are printed: numbers, or dates as `datetime.isoformat` has them."""
        return map(str, times) if not self.has_dates else each_once(lambda it: str(self._time_to_user(it).isoformat()), times)

    def _edge_to_user(self, weight: int, first: int, recent: int) -> Edge[Any, Any]:
        """The edge, with its weight and times in these units."""
        if self.are_plain:
            return Edge(weight, first, recent)
        return Edge(self._weight_to_user(weight), self._time_to_user(first), self._time_to_user(recent))


def each_once(turn: Callable[[Any], Any], values: Sequence[Any]) -> list[Any]:
    """The values turned; those that are the same are turned once."""
    turned = {it: turn(it) for it in set(values)}
    return list(map(turned.__getitem__, values))


def _with_places(texts: Sequence[str], places: int) -> Optional[array[int]]:
    """The parts that decimal numbers have, of which one has 10 to the power of so many places, where it is seen at once that each
    is such a number, within the limits; `None` for others, which may be some too."""
    signs = "".join(texts)
    if not (signs.replace("-", "").replace(".", "").isdigit() and signs.isascii() and len(max(texts, key=len)) <= 12):
        return None
    zeros = "0" * places
    try:
        parted = [it.partition(".") for it in texts]
        found = array("q", [int(whole + (rest + zeros)[:places]) for whole, _, rest in parted])
    except ValueError:
        return None
    is_right = all(whole not in ("", "-") and len(rest) <= places for whole, _, rest in parted)
    most = records.MOST_WEIGHT
    return found if is_right and -most <= min(found) and max(found) <= most else None


PLAIN: Units[Any, Any] = Units()


def units_given(units: Any) -> Units[Any, Any]:
    """The units that a caller gives, or plain ones. Raises `TypeError` where they are none."""
    if units is not None and not isinstance(units, Units):
        raise TypeError(f"units are said as Units(weight_scale=100, times='iso'), and not as {units!r}")
    return units or PLAIN
