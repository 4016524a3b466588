"""Any text as a name: what is no name of the program stands for itself by a table, which the client alone keeps.

The program's names are 1 to 64 printable ASCII signs without spaces. Such a name goes as it is. Another text, as one in
Cyrillic, with spaces, or longer, goes as an id, `~~` and 20 signs that are made of the text: the same text has the same id in
each store and script. A name that has the form of an id goes as an id too, so no two texts are one in the program.
"""
from __future__ import annotations

import re
import threading
from itertools import islice
from typing import Dict, Iterable, Mapping, NamedTuple, Optional, Sequence, Tuple, Union

from . import records

# What an id begins with. A record without it has no id, nor a name that looks like one.
MARK = "~~"
_AN_ID = re.compile(r"~~[A-Za-z0-9_-]{20}")
_A_HALF = re.compile("[\ud800-\udfff]")


def text_reason(text: str) -> Optional[str]:
    """Why this text is no name, or `None`: it is empty, or has bytes that were no text."""
    if not text:
        return records.name_reason(text)
    half = _A_HALF.search(text)
    return f"a name is a text, and this has {half[0]!r}, which is a byte that was none" if half else None


def id_of(text: str, turn: int = 0) -> str:
    """The id of a text. Of another turn it is another one: should two texts have one id, the second takes its next."""
    import base64  # (most names need none of these, and they take long to be loaded)
    import hashlib
    made = hashlib.blake2b(text.encode("utf-8"), digest_size=15, salt=turn.to_bytes(16, "big")).digest()
    return MARK + base64.urlsafe_b64encode(made).decode("ascii")


def is_plain(text: str) -> bool:
    """Whether the text goes as it is: it is a name of the program, and no id."""
    return records.name_reason(text) is None and not _AN_ID.fullmatch(text)


def must_be_texts(names: Iterable[object]) -> None:
    """Raises `TypeError` where one of the names or kinds is no text, as a number of a frame: its text is the name."""
    for it in names:
        if not isinstance(it, str):
            raise TypeError(f"a kind and a name are texts, and not {it!r}")


class NameTable:
    """Texts that are no names of the program, each with its id. A text once told keeps its id. One table may be used from
    several threads."""

    def __init__(self) -> None:
        self._ids: Dict[str, str] = {}
        self._texts: Dict[str, str] = {}
        self._lock = threading.Lock()

    def __len__(self) -> int:
        return len(self._ids)

    def to_program(self, text: str, *, keep: bool = True) -> str:
        """What stands for the text in the program. With `keep=False`, as for a question, a text that was never told is not kept:
        its id then is one that no told text has. Raises `ValueError` where the text is no name (see `text_reason`)."""
        known = self._ids.get(text)
        if known is not None:
            return known
        if is_plain(text):
            return text
        reason = text_reason(text)
        if reason:
            raise ValueError(reason)
        with self._lock:
            turn = 0
            while self._texts.get(id_of(text, turn), text) != text:
                turn += 1
            found = id_of(text, turn)
            if keep:
                self._texts[found] = text
                self._ids[text] = found
            return found

    def to_user(self, name: str) -> str:
        """The text that a name of the program stands for."""
        return self._texts.get(name, name)

    def all_to_user(self, names: Sequence[str]) -> Sequence[str]:
        """The texts of many names, as those of a table."""
        known = self._texts
        return [known.get(it, it) for it in names] if known else names

    def since(self, count: int) -> Dict[str, str]:
        """The texts behind the first ones, so many, by their ids."""
        return dict(islice(self._texts.items(), count, None))

    def put(self, texts: Mapping[str, str]) -> None:
        """Takes texts by their ids, as a saved file has them, into a table that is empty yet."""
        with self._lock:
            self._texts.update(texts)
            self._ids.update((text, name) for name, text in texts.items())

    def take(self, other: "NameTable") -> None:
        """Takes the texts of another table, as of a feed that was counted before there was a store. Raises `ValueError` where
        one of them has another id here, which two texts with one id would have to be the reason for."""
        if other is self:
            return
        for text, name in list(other._ids.items()):
            if self.to_program(text) != name:
                raise ValueError(f"{text!r} goes as {self.to_program(text)} here, and as {name} in what was counted: count again")


def shown(text: Union[str, object]) -> str:
    """The text for a line of a terminal: one that has signs which aren't printed, as an end of line, within quotes."""
    told = str(text)
    return told if told.isprintable() else repr(told)


class Called(NamedTuple):
    """A call as it is made; its text is for what is told of it."""

    call: str
    given: Tuple[object, ...] = ()
    named: Mapping[str, object] = {}

    def __str__(self) -> str:
        return f"{self.call}({', '.join([*map(repr, self.given), *(f'{name}={it!r}' for name, it in self.named.items())])})"
