"""The definitions of `specs/`, as texts with the comment before each, and what a path of a clause leads to."""
from __future__ import annotations

import pathlib
from typing import Dict, Iterator, List, NamedTuple

import statements
from crate_docs.imports import Names, names_of


class Definition(NamedTuple):
    crate: str
    module: str
    name: str
    text: str
    names: Names

    @property
    def anchor(self) -> str:
        return f"{self.crate}.{self.module}.{self.name}"


def start_of(lines: List[str], line: int) -> int:
    """Returns the place of the comment right before a line, or of the line."""
    while line > 0 and lines[line - 1].startswith("--"):
        line -= 1
    return line


def trimmed(lines: List[str]) -> str:
    """Returns the lines without the headings and blank lines at their end."""
    while lines and (not lines[-1].strip() or lines[-1].startswith(("--", "use ", "pub use "))):
        lines = lines[:-1]
    return "\n".join(lines)


def in_file(crate: str, path: pathlib.Path) -> Iterator[Definition]:
    text = path.read_text(encoding="utf-8")
    lines = text.splitlines()
    found = list(statements.statements(lines, True))
    own = {name: f"Rattle.{crate}.specs.{path.stem}.{name}" for _, name, _ in found}
    names = {**names_of(text), **own}
    starts = [start_of(lines, number - 1) for number, _, _ in found] + [len(lines)]
    for (_, name, _), start, end in zip(found, starts, starts[1:]):
        yield Definition(crate, path.stem, name, trimmed(lines[start:end]), names)


def read_definitions(top: pathlib.Path, crates: List[str]) -> Dict[str, Definition]:
    """Returns the definitions of these crates by their anchors."""
    found = (it for crate in crates for path in sorted((top / "crates" / crate / "specs").glob("*.antt"))
             for it in in_file(crate, path))
    return {it.anchor: it for it in found}


def anchors_of(path: str) -> Iterator[str]:
    """Yields what a path may lead to, the longest first: `Rattle.CRATE.specs.FILE.NAME` to a definition, with fields of it after
    that, and `Rattle.CRATE.specs.declared.FILE.TYPE..` to a type."""
    words = path.split(".")
    if len(words) < 5 or words[0] != "Rattle" or words[2] != "specs":
        return
    crate = words[1]
    if words[3] != "declared":
        yield f"{crate}.{words[3]}.{words[4]}"
    elif len(words) > 5:
        yield f"{crate}.{words[6] if words[5] == 'TheConstants' and len(words) > 6 else words[5]}"
