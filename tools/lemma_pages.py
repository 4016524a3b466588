"""The pages of lemmas in each crate's proofs/, as crates/LEMMAS.md lists them."""
from __future__ import annotations

import pathlib
import re
from typing import Iterator, List

from crate_docs.sources import crates_below

TOP = pathlib.Path(__file__).resolve().parent.parent
PAGE = "crates/LEMMAS.md"
BEFORE = """# Lemmas

<!-- `tools/lemma-index` writes this page from the head of each file. -->

Look here before you prove a lemma: another crate may have it. `rt lemma` finds one by its type. A crate may cite the lemmas of
the crates that it stands on ([the map](../CONTRIBUTING.md#the-map)).
"""


def head(text: str) -> str:
    """Returns the first sentence of the comment that a file begins with."""
    lines: List[str] = []
    for line in text.splitlines():
        if not line.startswith("--"):
            break
        lines.append(line.lstrip("- ").strip())
    return re.split(r"(?<=\.)\s", " ".join(lines), maxsplit=1)[0].rstrip(".").replace("|", "\\|")


def rows(folder: pathlib.Path) -> Iterator[str]:
    for path in sorted(folder.glob("*.antt")):
        if path.stem != "Lib":
            yield f"| [{path.stem}]({folder.parent.name}/proofs/{path.name}) | {head(path.read_text(encoding='utf-8'))} |"


def page(top: pathlib.Path) -> str:
    parts = [BEFORE]
    for name in crates_below((top / "crates.txt").read_text(encoding="utf-8")):
        listed = list(rows(top / "crates" / name / "proofs"))
        if listed:
            parts.append("\n".join([f"## {name}\n", "| page | about |", "|---|---|", *listed]) + "\n")
    return "\n".join(parts)


def stale(top: pathlib.Path) -> Iterator[str]:
    """Yields each page of lemmas without a first line, and whether the index has other lines."""
    for path in sorted(top.glob("crates/*/proofs/*.antt")):
        if path.stem != "Lib" and not head(path.read_text(encoding="utf-8")):
            yield f"{path.relative_to(top)}: its first line doesn't say what its lemmas are about"
    index = top / PAGE
    if not index.is_file() or index.read_text(encoding="utf-8") != page(top):
        yield f"{PAGE} is stale: tools/lemma-index writes it"
