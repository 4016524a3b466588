"""What the words of a clause or of a definition stand for, by the imports of their file."""
from __future__ import annotations

import re
from typing import Dict, Iterator, NamedTuple

import statements

IMPORT = re.compile(r"^ *(?:pub |ghost )*use (Rattle\.[^;\n]*)", re.M)
WORD = re.compile(r"[A-Za-z_][\w']*(?:\.[A-Za-z_][\w']*)*")
Names = Dict[str, str]


class Part(NamedTuple):
    """A part of a text, and the path of what it names, if it may name anything."""

    text: str
    path: str


def names_of(text: str) -> Names:
    """Returns the whole path of each word that a file imports: `A.B.{C, D as e}` brings in C and e."""
    found: Names = {}
    for path in IMPORT.findall(text):
        for name in statements.spread(path):
            whole, _, other = name.partition(" as ")
            found[other.strip() or whole.strip().rpartition(".")[2]] = whole.strip()
    return found


def parts(text: str, names: Names) -> Iterator[Part]:
    """Yields a text in parts: its words that an import explains, with their paths, and what stands between."""
    place = 0
    for word in WORD.finditer(text):
        first, _, rest = word[0].partition(".")
        if first not in names:
            continue
        yield Part(text[place:word.start()], "")
        yield Part(word[0], names[first] + (f".{rest}" if rest else ""))
        place = word.end()
    yield Part(text[place:], "")
