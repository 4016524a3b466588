"""Statements of `specs/` and `proofs/`: the definitions, and the lemmas by their name and type."""
from __future__ import annotations

import collections
import itertools
import pathlib
import re
from typing import Callable, Dict, FrozenSet, Iterator, List, Set, Tuple

ITEM = re.compile(r"(?P<words>(?:(?:pub|abbrev|unfoldable) )*)(?P<kind>(?:record|data) )?(?P<name>[^\s:]+) ")
APART = ("--", "use ", "pub use ", "mod ", "pub mod ", "infix", "unfolding ")
# Names that stand in several crates' specs, and why.
SEVERAL = {"AreExamples": "each crate's record of what its examples come to"}
BOUND = re.compile(r"[({]([^(){}:]+) :")
WORD = re.compile(r"[^\s(){},;.]+")


def indent_of(line: str) -> int:
    return len(line) - len(line.lstrip())


def block_end(lines: List[str], start: int, is_within: Callable[[str], bool]) -> int:
    """Returns the place behind a block that begins at a line, without the blank lines at its end."""
    end = start + 1
    while end < len(lines) and is_within(lines[end]):
        end += 1
    while not lines[end - 1].strip():
        end -= 1
    return end


def is_deeper(indent: int, may_be_blank: bool = False) -> Callable[[str], bool]:
    return lambda line: indent_of(line) > indent if line.strip() else may_be_blank


def spread(path: str) -> List[str]:
    """Returns the names that an import brings in, each as a path: `A.{B.c, D}` as `A.B.c` and `A.D`."""
    head, brace, rest = path.partition("{")
    if not brace:
        return [path.strip()] if path.strip() else []
    parts: List[str] = []
    depth, part = 0, ""
    for letter in rest.rpartition("}")[0]:
        depth += {"{": 1, "}": -1}.get(letter, 0)
        if letter == "," and depth == 0:
            parts.append(part)
            part = ""
        else:
            part += letter
    return [head.strip() + name for it in [*parts, part] for name in spread(it.strip())]


def imports(text: str, crates: Set[str]) -> Dict[str, str]:
    """Returns which crate of the repository a word that a file imports comes from."""
    found = {}
    for path in re.findall(r"^(?:pub )?use ([^\n]*)", text, re.M):
        for name in spread(path):
            whole, _, other = name.partition(" as ")
            parts = whole.strip().split(".")
            if parts[0] == "Rattle" and len(parts) > 1 and parts[1] in crates:
                found[other.strip() or parts[-1]] = parts[1]
    return found


def cases_end(lines: List[str], place: int, indent: int, name: str) -> int:
    """Returns where the cases of a definition end that stand from this place on."""
    case = " " * indent + name + " "
    while place < len(lines) and lines[place].startswith(case):
        place = block_end(lines, place, is_deeper(indent))
    return place


def statements(lines: List[str], is_definitions: bool) -> Iterator[Tuple[int, str, str]]:
    """Yields each statement of a file: its line, its name, and its text with what the modules round it take.

    A lemma's proof is no part of it, and a definition's cases are. A goal that a proof file answers is no statement."""
    around: List[Tuple[int, List[str]]] = []
    place = 0
    while place < len(lines):
        line, indent = lines[place], indent_of(lines[place])
        bare = line.strip()
        around = [it for it in around if not bare or it[0] < indent]
        item = ITEM.match(bare)
        end = block_end(lines, place, is_deeper(indent))
        if not bare or bare.startswith(APART):
            end = place + 1
        elif bare.startswith("module "):
            end = 1 + next(it for it in range(place, len(lines)) if lines[it].rstrip().endswith("where"))
            around.append((indent, lines[place:end]))
        elif item and item["kind"]:
            end = block_end(lines, place, is_deeper(indent, may_be_blank=True))
            yield place + 1, item["name"], text_of(around, lines[place:end], item["words"])
        elif item and re.match(r"\S+ : (?!goal\.)", bare[len(item["words"]):]):
            if is_definitions or "abbrev" in item["words"] or "unfoldable" in item["words"]:
                end = cases_end(lines, end, indent, item["name"])
            yield place + 1, item["name"], text_of(around, lines[place:end], item["words"])
        place = end


def text_of(around: List[Tuple[int, List[str]]], lines: List[str], words: str) -> str:
    whole = [line.strip() for line in itertools.chain(*(head for _, head in around), [lines[0].strip()[len(words):]], lines[1:])]
    return " ".join(" ".join(line for line in whole if not line.startswith("--")).split())


def doubled(top: pathlib.Path) -> List[Tuple[str, List[str]]]:
    """Returns each statement that stands more than once, by its name and places: the same text, in words of the same crates."""
    paths = [it for kind in ("specs", "proofs") for it in sorted(top.glob(f"crates/*/{kind}/**/*.antt"))]
    crates = {it.relative_to(top).parts[1] for it in paths}
    found: Dict[Tuple[str, str, FrozenSet[Tuple[str, str]]], List[str]] = collections.defaultdict(list)
    for path in paths:
        text = path.read_text(encoding="utf-8")
        place = path.relative_to(top)
        said_here = list(statements(text.splitlines(), place.parts[2] == "specs"))
        origins = {name: place.parts[1] for _, name, _ in said_here} | imports(text, crates)
        for line, name, said in said_here:
            own = {name, *itertools.chain(*(it.split() for it in BOUND.findall(said)))}
            words = frozenset((it, origins[it]) for it in set(WORD.findall(said)) - own if it in origins)
            found[name, said, words].append(f"{place}:{line}")
    return [(name, places) for (name, _, _), places in found.items() if len(places) > 1]


def told_twice(top: pathlib.Path) -> Iterator[str]:
    """Yields each statement that stands more than once."""
    twice: Dict[str, List[str]] = collections.defaultdict(list)
    for name, places in doubled(top):
        twice[name] += places
    for name, places in twice.items():
        yield f"{name} stands in {' and in '.join(places)}"


def in_several(top: pathlib.Path) -> Iterator[str]:
    """Yields each name of definitions in the specs of several crates, but for those of SEVERAL."""
    found: Dict[str, Set[str]] = collections.defaultdict(set)
    for path in sorted(top.glob("crates/*/specs/**/*.antt")):
        for _, name, _ in statements(path.read_text(encoding="utf-8").splitlines(), True):
            found[name].add(path.relative_to(top).parts[1])
    for name, crates in sorted(found.items()):
        if len(crates) > 1 and name not in SEVERAL:
            yield f"{name} is defined in the specs of {' and of '.join(sorted(crates))}"
