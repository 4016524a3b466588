"""How much a store takes at most, and numbers that have a least and a greatest value."""
from __future__ import annotations

from dataclasses import dataclass
from typing import List, Optional

# What no limits pass: vertices, kinds, batches, blocks and weights; and with the largest weights vertices times kinds (so that a
# sum of weights has room in its type).
MOST_VERTICES, MOST_KINDS, MOST_PRODUCT, MOST_BATCHES, MOST_BLOCKS = 67_108_863, 64, 8_388_606, (1 << 32) - 1, 4_293_918_719
MOST_WEIGHT = 1 << 40


@dataclass(frozen=True, repr=False)
class Limits:
    """How much a store in this process takes at most. Without it, that is as much as the library has room for.

    >>> Limits(vertices=100_000, kinds=4)
    Limits(vertices=100000, kinds=4)
    >>> with Store(limits=Limits(vertices=2)) as small:
    ...     small.load(roads, by="set")
    Traceback (most recent call last):
    misteluk.errors.OverLimit: rows has 4 vertices, where the store takes 2. ...

    `vertices` and `kinds` include those whose edges are all removed: at most 8,388,606 vertices for one kind, half as many for
    two, 131,071 for 64. `batches` is how many a store takes until it starts over, at most 4,294,967,295; with fewer it keeps each
    operation until then. `weight` is the greatest weight, at most 2^40, in parts if the store has a `weight_scale`; with a
    smaller one there may be more vertices, up to 67,108,863. An operation with a greater weight, or whose sum would be greater,
    counts as `overflowed`: it makes its names known and changes nothing else. Other limits raise `ValueError`."""

    vertices: Optional[int] = None
    kinds: Optional[int] = None
    batches: Optional[int] = None
    weight: Optional[int] = None

    @property
    def _product(self) -> int:
        """How many vertices times kinds there may be: so many that one weight for each, and one more, are below 2^63."""
        return MOST_PRODUCT if self.weight is None else ((1 << 63) - 1) // self.weight - 1

    def _most_vertices(self, kinds: int) -> int:
        """How many vertices there may be beside so many kinds."""
        return min(MOST_VERTICES, self._product // kinds)

    def _checked(self) -> Limits:
        """Itself; raises `ValueError` where there can't be such limits."""
        within("kinds", self.kinds or 1, 1, MOST_KINDS)
        within("batches", self.batches or 1, 1, MOST_BATCHES)
        within("weight", self.weight or 1, 1, MOST_WEIGHT)
        if 0 in vars(self).values():
            raise ValueError(f"a limit is 1 or more, and these are {self}")
        within("vertices", self.vertices or 1, 1, self._most_vertices(self.kinds or 1))
        return self

    def __repr__(self) -> str:
        return f"Limits({', '.join(f'{name}={it}' for name, it in vars(self).items() if it is not None)})"

    def _over(self, vertices: int, kinds: int) -> List[str]:
        """What is more than these limits take, in words; nothing where all has room."""
        most_kinds = self.kinds or min(MOST_KINDS, self._product // (self.vertices or 1))
        of_kinds = self.kinds if self.kinds else max(min(kinds, most_kinds), 1)
        most, beside = self.vertices or self._most_vertices(of_kinds), f" beside {of_kinds} kind{'s' * (of_kinds != 1)}"
        found = ((vertices, "vertices", most, "" if self.vertices else beside), (kinds, "kinds", most_kinds, ""))
        return [f"{count:,} {what}, where the store takes {limit:,}{more}" for count, what, limit, more in found if count > limit]

    @property
    def _advice(self) -> str:
        """How a store may take more."""
        if self == OF_SCRIPT:
            return "A store of the client takes more"
        if self.vertices or self.kinds:
            return f"Make the store with more than {self}"
        is_most = self._most_vertices(1) == MOST_VERTICES
        return "No store takes more" + ("" if is_most else ", but vertices beside smaller weights (Limits(weight=..))")

    def _shape(self, vertices: int, kinds: int) -> Limits:
        """The limits for a desk of so many vertices and kinds, for which there is room: with some room to grow."""
        least = max(vertices, self.vertices or 1)
        roomy = (it for it in (8, 16, 32, MOST_KINDS) if kinds <= it and it * least <= self._product)
        room = self.kinds if self.kinds else next(roomy, max(kinds, 1))
        return Limits(self.vertices or self._most_vertices(room), room, self.batches or MOST_BATCHES, self.weight)


# Those of what runs a script.
OF_SCRIPT = Limits(65_536, 64, 65_536)


def within(name: str, value: int, least: int, most: int) -> int:
    """The value; raises `ValueError` where it is less or more than may be."""
    if not least <= value <= most:
        raise ValueError(f"{name} is from {least:,} to {most:,}, and not {value:,}")
    return value
