"""What was asked of a version before, and is kept as long as there is room."""
from __future__ import annotations

from array import array
from typing import Dict, Optional, Sequence

# How many bytes of tables a version keeps.
MOST_KEPT = 64 << 20


class Answers:
    """Tables that were asked for, by what was asked: the latest ones, as long as they have at most `MOST_KEPT` bytes, or the last
    one. It has no lock, which an interrupt could leave behind: what a thread misses meanwhile is asked for again."""

    def __init__(self) -> None:
        self._found: "Dict[object, Sequence[array[int]]]" = {}

    def __len__(self) -> int:
        return len(self._found)

    def get(self, asked: object) -> "Optional[Sequence[array[int]]]":
        found = self._found.pop(asked, None)
        if found is not None:
            self._found[asked] = found  # (as the latest one)
        return found

    def put(self, asked: object, columns: "Sequence[array[int]]") -> None:
        self._found[asked] = columns
        sizes = {key: sum(len(it) * it.itemsize for it in found) for key, found in list(self._found.items())}
        left = sum(sizes.values())
        for key in list(sizes)[:-1]:
            if left > MOST_KEPT:
                left -= sizes[key]
                self._found.pop(key, None)
