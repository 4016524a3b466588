"""The part of each crate's README that is made: its public calls, and what a change to it costs."""
from __future__ import annotations

import pathlib
import re
from typing import Dict, Iterator, List

from crate_docs.docstrings import first_sentence
from crate_docs.sources import Call, Crate, crates_below, read_crate, section

FIRST = "<!-- What follows is written by tools/docs --readmes, up to the next comment. -->"
LAST = "<!-- End of what is written. -->"
# So many functions have a row each; of more there is one for each file.
ROWS = 12


def cell(text: str) -> str:
    return text.replace("|", "\\|")


def code(names: List[str]) -> str:
    return ", ".join(f"`{it}`" for it in dict.fromkeys(names))


def function_rows(functions: List[Call]) -> Iterator[str]:
    if len(functions) <= ROWS:
        yield from (f"| [`{it.name}`]({it.place}) | {cell(first_sentence(it.doc))} | |" for it in functions)
        return
    for place in dict.fromkeys(it.place for it in functions):
        yield f"| [functions]({place}) | | {code([it.name for it in functions if it.place == place])} |"


def rows(crate: Crate) -> Iterator[str]:
    yield from function_rows([it for it in crate.functions if not it.name.startswith("law_")])
    others = []
    for kind in crate.kinds.values():
        called = [it.name for it in kind.calls if not it.of]
        if called:
            yield f"| [`{kind.name}`]({kind.place}) | {cell(first_sentence(kind.doc))} | {code(called)} |"
        else:
            others.append(kind.name)
    if others:
        yield f"| other types | | {code(others)} |"
    laws = [it.name for it in crate.functions if it.name.startswith("law_")]
    if laws:
        yield f"| laws | | {code(laws)} |"
    for below, names in crate.handed_on.items():
        yield f"| from `{below}` | handed on | {code(names)} |"


def above(name: str, below: Dict[str, List[str]]) -> List[str]:
    """Returns the crates that stand on a crate, directly or not."""
    found = {it for it, named in below.items() if name in named}
    while True:
        more = {it for it, named in below.items() if found & set(named)} | found
        if more == found:
            return sorted(found)
        found = more


def costs(page: str) -> Dict[str, str]:
    """Returns each crate's minutes, as CONTRIBUTING's map has them: one item for each crate of a row, or one for all. A crate
    that wasn't measured has none."""
    found: Dict[str, str] = {}
    for line in section(page, "The map").splitlines():
        cells = [it.strip() for it in line.strip("|").split("|")]
        names = re.findall(r"`(\w+)`", cells[0])
        minutes = [it.strip() for it in cells[-1].split(",")]
        each = zip(names, minutes if len(minutes) == len(names) else minutes * len(names))
        found.update((name, count) for name, count in each if re.fullmatch(r"(?:over )?\d+", count))
    return found


def cost_line(name: str, below: Dict[str, List[str]], minutes: Dict[str, str]) -> str:
    count = len(above(name, below))
    who = {0: "no crate stands on it", 1: "one crate stands on it"}.get(count, f"{count} crates stand on it")
    unit = "minute" if minutes.get(name) == "1" else "minutes"
    cost = f" costs {minutes[name]} {unit} of processor time" if name in minutes else " has to be proved"
    return (f"A change{cost} ([the map](../../CONTRIBUTING.md#the-map)): {who}.\n"
            f"`rt ci $(tools/crates-above {name})` proves all of it.")


def part(crate: Crate, below: Dict[str, List[str]], minutes: Dict[str, str]) -> str:
    listed = list(rows(crate))
    table = ["| | what it is | calls |", "|---|---|---|", *listed] if listed else ["It has no public calls."]
    stands = [it for it in below[crate.name] if it in below]
    kit = [it for it in below[crate.name] if it not in below]
    on = f"It stands on {code(stands)}" if stands else "It stands on no other crate of this repository"
    more = f", and takes {code(kit)} from the kit." if kit else "."
    lines = [FIRST, "", *table, "", on + more, "", *cost_line(crate.name, below, minutes).splitlines(), "", LAST]
    return "\n".join(wrapped for line in lines for wrapped in wrap(line))


def wrap(line: str, width: int = 130) -> Iterator[str]:
    while len(line) > width and not line.startswith(("|", "<!--")):
        at = line.rindex(" ", 0, width + 1)
        yield line[:at]
        line = line[at + 1:]
    yield line


def with_part(text: str, made: str) -> str:
    """Returns a README with what is made in place of what stood there, or at its end."""
    before, first, rest = text.partition(FIRST)
    if not first:
        return f"{text.rstrip()}\n\n## Public calls\n\n{made}\n" if text.strip() else f"{made}\n"
    return before + made + rest.partition(LAST)[2]


def readmes(top: pathlib.Path) -> Iterator["tuple[pathlib.Path, str, str]"]:
    """Yields the path of each crate's README, what it has, and what it should have."""
    below = crates_below((top / "crates.txt").read_text(encoding="utf-8"))
    page = top / "CONTRIBUTING.md"
    minutes = costs(page.read_text(encoding="utf-8")) if page.is_file() else {}
    for name in below:
        path = top / "crates" / name / "README.md"
        text = path.read_text(encoding="utf-8") if path.is_file() else ""
        yield path, text, with_part(text, part(read_crate(path.parent), below, minutes))


def stale(top: pathlib.Path) -> Iterator[str]:
    """Yields the READMEs that aren't as they should be."""
    for path, text, wanted in readmes(top):
        if not text:
            yield f"{path.relative_to(top)} is missing"
        elif text != wanted:
            yield f"{path.relative_to(top)}: its list is stale: tools/docs --readmes writes it"


def written(top: pathlib.Path) -> Iterator[pathlib.Path]:
    """Writes the READMEs that aren't as they should be, and yields their paths."""
    for path, text, wanted in readmes(top):
        if text != wanted:
            path.write_text(wanted, encoding="utf-8")
            yield path.relative_to(top)
