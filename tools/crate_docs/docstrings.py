"""Docstrings as HTML: paragraphs, lists, code. Whatever they say is text: no mark of theirs becomes an element but these."""
from __future__ import annotations

import html
import re
from typing import List

FENCE = re.compile(r"^```.*?^```$", re.M | re.S)
LINKED = re.compile(r"\[(`[^`\]]+`)\](?:\([^)\s]*\))?")


def spans(text: str) -> str:
    """Returns a line's text with its code as elements."""
    parts = re.split(r"`([^`]*)`", LINKED.sub(r"\1", text))
    return "".join(f"<code>{html.escape(it)}</code>" if place % 2 else html.escape(it) for place, it in enumerate(parts))


def paragraph(lines: List[str]) -> str:
    first = next((at for at, line in enumerate(lines) if line.startswith("- ")), len(lines))
    said = f"<p>{spans(' '.join(lines[:first]))}</p>" if first else ""
    if first == len(lines):
        return said
    entries = re.split(r"^- ", "\n".join(lines[first:]), flags=re.M)[1:]
    return said + "<ul>" + "".join(f"<li>{spans(' '.join(it.split()))}</li>" for it in entries) + "</ul>"


def prose(text: str) -> str:
    return "".join(paragraph(part.splitlines()) for part in re.split(r"\n\s*\n", text.strip("\n")) if part.strip())


def rendered(doc: str) -> str:
    """Returns a docstring as HTML."""
    found, place = [], 0
    for fence in FENCE.finditer(doc):
        found.append(prose(doc[place:fence.start()]))
        code = "\n".join(fence[0].splitlines()[1:-1])
        found.append(f"<pre><code>{html.escape(code)}</code></pre>")
        place = fence.end()
    return "".join([*found, prose(doc[place:])])


def first_sentence(doc: str, long: int = 200) -> str:
    """Returns the first sentence of a docstring, on one line and without links; of one that is long its first part."""
    plain = LINKED.sub(r"\1", " ".join(re.split(r"\n\s*\n", doc.strip(), maxsplit=1)[0].split()))
    # A full stop ends one, but not two as between `a` .. `b`, nor one before a small letter.
    first = re.split(r"(?<=[^.][.?!])\s+(?=[^a-z])", plain)[0]
    return first if len(first) <= long else re.split(r"[;:] ", first)[0].rstrip(".") + "."
