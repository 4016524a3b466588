"""Who may ask a server for what: people by their tokens, each with a role.

A file has a line `NAME ROLE TOKEN` for each of them; blank lines and those that begin with `#` count for nothing. A name may have
several tokens, as the old and the new one while its owner changes them. A file of one word has a token for everyone.
"""
from __future__ import annotations

import hashlib
import os
import re
from typing import Dict, Iterator, NamedTuple, Optional, Tuple

from ..errors import NotAllowed

# What a person may do: each role may do all that those before it may. Without a role one sees what has no data.
ROLES = ("none", "read", "feed", "admin")
_NAME = re.compile(r"[\w.@+-]{1,64}", re.A)
# How long a token is at least.
LEAST = 8


class Person(NamedTuple):
    """Who asks: a name, and a role."""

    name: str
    role: str

    def may(self, role: str) -> bool:
        """Whether this role is theirs, or one that is less."""
        return ROLES.index(self.role) >= ROLES.index(role)

    def must_own(self, owner: "Person", what: str) -> None:
        """Raises `NotAllowed` where this is another's, unless they are an admin."""
        if self.name != owner.name and not self.may("admin"):
            raise NotAllowed(f"this {what} is another's: an admin may use or end it")


# Who asks a server without people of its own, or by the one token of all; and who isn't known.
EVERYONE, NOBODY = Person("everyone", "admin"), Person("nobody", "none")


class People:
    """The people that a server knows, by their tokens. Without any, whoever reaches the server is `EVERYONE`."""

    def __init__(self, path: Optional[str] = None, token: Optional[str] = None) -> None:
        self._path = path
        self._known = dict(_of_token(token)) if token is not None else _read(path) if path is not None else {}
        # How often they were read anew: who looked somebody up before has to again.
        self.changes = 0

    @property
    def are_any(self) -> bool:
        return bool(self._known)

    def known(self, token: str) -> Optional[Person]:
        """Whose token this is. (It is looked up by its sum: how long that takes tells nothing of a token.)"""
        return self._known.get(_sum(token))

    def read_again(self) -> int:
        """Reads the file anew, and gives how many tokens it has. Where it has a fault, those that were known stay, and this
        raises `ValueError` or `OSError`."""
        if self._path is not None:
            found = _read(self._path)
            if EVERYONE in found.values() and EVERYONE not in self._known.values():
                raise ValueError(f"{self._path} had a line for each of several people, and has one word")
            self._known = found
            self.changes += 1
        return len(self._known)


def people_of(path: Optional[str]) -> People:
    """The people of a file, or those who have the token of the variable MISTELUK_TOKEN. Raises `ValueError` for a file that
    others may read, or that has a fault."""
    return People(path, None if path is not None else os.environ.get("MISTELUK_TOKEN") or None)


def _sum(token: str) -> bytes:
    return hashlib.sha256(token.encode("utf-8", "surrogateescape")).digest()


def _read(path: str) -> Dict[bytes, Person]:
    with open(path, encoding="utf-8") as file:
        if os.fstat(file.fileno()).st_mode & 0o077:
            raise ValueError(f"{path} can be read by others: chmod 600 {path}")
        text = file.read()
    lines = [(at, it.split()) for at, it in enumerate(text.split("\n"), 1) if it.strip() and not it.lstrip().startswith("#")]
    if [len(words) for _, words in lines] == [1]:
        return dict(_of_token(lines[0][1][0]))
    found: Dict[bytes, Person] = {}
    for at, words in lines:
        if len(words) != 3 or not _NAME.fullmatch(words[0]) or words[1] not in ROLES[1:]:
            raise ValueError(f"{path}:{at}: a line is NAME ROLE TOKEN, with a role of {', '.join(ROLES[1:])}")
        try:
            (known, _), = _of_token(words[2])
        except ValueError as fault:
            raise ValueError(f"{path}:{at}: {fault}") from None
        if known in found:
            raise ValueError(f"{path}:{at}: this token is another line's too")
        found[known] = Person(words[0], words[1])
    if not found:
        raise ValueError(f"{path} has no token")
    if not text.endswith("\n"):  # (so it may be being written)
        raise ValueError(f"{path}:{lines[-1][0]}: the last line has no end")
    return found


def _of_token(token: str) -> Iterator[Tuple[bytes, Person]]:
    """The token of everyone. Raises `ValueError` for one that is too short, or has other signs."""
    if len(token) < LEAST or not token.isascii() or not token.isprintable() or " " in token:
        raise ValueError(f"a token has at least {LEAST} printable ASCII signs, and no space")
    yield _sum(token), EVERYONE
