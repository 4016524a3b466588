"""Posts of rows that wait for their turn."""
from __future__ import annotations

from typing import Iterable, Optional, Sequence

from .people import EVERYONE, Person
from ..errors import SessionClosed
from ..values.answers import Commit


class WaitingPost:
    """A post's rows, whose they are, by which seat and which key; and what became of them."""

    def __init__(self, rows: Iterable[Sequence[str]], name: Optional[str] = None, person: Person = EVERYONE,
                 key: Optional[str] = None) -> None:
        self.rows, self.name, self.person, self.key = rows, name, person, key
        self.answer: Optional[Commit] = None
        self.fault: Optional[BaseException] = None

    def told(self) -> Commit:
        """What the post did. Raises what it was refused by."""
        if self.fault is not None:
            raise self.fault
        if self.answer is None:
            raise SessionClosed("this post was given up")
        return self.answer
