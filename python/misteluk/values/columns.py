"""Columns of a feed's fields, which are texts once somebody asks, and are taken at once where that can be."""
from __future__ import annotations

from array import array
from typing import TYPE_CHECKING, Any, Callable, Iterator, Optional, Sequence, overload

if TYPE_CHECKING:
    from .units import Units

# What gives the numbers of names, where each is one.
NumbersOf = Callable[[Sequence[str]], "Optional[array[int]]"]


class FieldColumn(Sequence[str]):
    """Texts, of which some can be taken at once: as the numbers of names, as weights or as times. Each of these is `None` where
    that isn't seen to be so of each, though it may be."""

    @property
    def texts(self) -> Sequence[str]:
        """The texts, each by itself."""
        raise NotImplementedError

    def some(self, rows: slice) -> "FieldColumn":
        raise NotImplementedError

    def numbered(self, numbers_of: NumbersOf, of: object) -> "Optional[array[int]]":
        """The numbers of names, by what gives those of texts. `of` tells whose numbers they are, and is another one once any of
        them isn't the same any more."""
        return None

    def weights(self, units: "Units[Any, Any]") -> "Optional[array[int]]":
        """The program's weights."""
        return None

    def times(self, units: "Units[Any, Any]") -> "Optional[array[int]]":
        """The program's times."""
        return None

    def __len__(self) -> int:
        return len(self.texts)

    def __iter__(self) -> Iterator[str]:
        return iter(self.texts)

    @overload
    def __getitem__(self, at: int) -> str: ...

    @overload
    def __getitem__(self, at: slice) -> "FieldColumn": ...

    def __getitem__(self, at: Any) -> Any:
        return self.some(at) if isinstance(at, slice) else self.texts[at]


class Same(FieldColumn):
    """One text, so many times."""

    def __init__(self, text: str, count: int) -> None:
        self._text, self._count = text, count

    @property
    def texts(self) -> Sequence[str]:
        return [self._text] * self._count

    def some(self, rows: slice) -> "Same":
        return Same(self._text, len(range(*rows.indices(self._count))))

    def __len__(self) -> int:
        return self._count

    def numbered(self, numbers_of: NumbersOf, of: object) -> "Optional[array[int]]":
        found = numbers_of([self._text])
        return None if found is None else found * self._count

    def weights(self, units: "Units[Any, Any]") -> "Optional[array[int]]":
        return self._times("q", units._weights_of([self._text])[0])

    def times(self, units: "Units[Any, Any]") -> "Optional[array[int]]":
        return self._times("Q", units._times_of([self._text])[0])

    def _times(self, code: str, value: Optional[int]) -> "Optional[array[int]]":
        return None if value is None else array(code, (value,)) * self._count


def whole(found: Sequence[Optional[int]]) -> "Optional[array[int]]":
    """Numbers that were found at once, or nothing."""
    return found if isinstance(found, array) else None
