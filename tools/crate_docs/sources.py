"""The public items of a crate as its sources state them: docstrings, signatures, clauses, types and their models.

What is read is text as `rt fmt` lays it out: an item begins at its indentation and ends at a line of the same indentation.
"""
from __future__ import annotations

import pathlib
import re
from dataclasses import dataclass, field, replace
from typing import Dict, Iterator, List, NamedTuple, Tuple

from crate_docs.imports import Names, names_of

CLAUSE = re.compile(r"\s*(requires|ensures\*?)\s")
NAMED = re.compile(r"(requires|ensures\*?)\s+(?:([a-z_]\w*)\s+)?(\{.*\})(?:\s+by\s+\{.*\})?;?", re.S)
HEAD = re.compile(r"(?:pub(?:\([a-z]+\))? )?(?:unsafe )?(?:extern \"C\" )?(fn|struct|enum|const|trait|type|impl)\b")
EXPORT = re.compile(r"^pub use (\w+)::(?:\{([^}]*)\}|(\w+));", re.M)
MODEL = re.compile(r"^ *ghost (?:Value|view|invariant)\b.*?\};$", re.M | re.S)
OFFERED = ("#[unsafe(no_mangle)]", "#[repr(C)]")


class Clause(NamedTuple):
    word: str
    name: str
    text: str


@dataclass(frozen=True)
class Call:
    """A function with its contract; `names` resolves the words of its clauses."""

    name: str
    place: str
    doc: str
    head: str
    clauses: Tuple[Clause, ...]
    names: Names
    of: str = ""


@dataclass
class Kind:
    """A type, a trait or a constant: how it is declared, how contracts see it, and its calls."""

    name: str
    place: str
    doc: str
    text: str
    names: Names
    model: List[str] = field(default_factory=list)
    traits: List[str] = field(default_factory=list)
    calls: List[Call] = field(default_factory=list)


@dataclass
class Crate:
    name: str
    doc: str = ""
    kinds: Dict[str, Kind] = field(default_factory=dict)
    functions: List[Call] = field(default_factory=list)
    handed_on: Dict[str, List[str]] = field(default_factory=dict)

    def calls(self) -> Iterator[Call]:
        yield from self.functions
        for kind in self.kinds.values():
            yield from kind.calls


class Item(NamedTuple):
    """The lines of an item without its indentation, what stands before it, and which kind of item it is."""

    kind: str
    name: str
    doc: str
    attributes: List[str]
    lines: List[str]


def is_end(line: str) -> bool:
    return not line.startswith(" ") and line.endswith(("}", ";"))


def end_of(lines: List[str], start: int) -> int:
    """Returns the place after an item. That of a trait's function may be the end of its last clause."""
    for place in range(start, len(lines)):
        is_last = lines[place].endswith(";") and (place + 1 == len(lines) or not lines[place + 1].strip())
        if is_end(lines[place]) or is_last and CLAUSE.match(lines[start + 1] if start + 1 < len(lines) else ""):
            return place + 1
    return len(lines)


def name_of(kind: str, line: str) -> str:
    found = re.search(rf"\b{kind} (\w+)", line)
    return found[1] if found else ""


def items(lines: List[str]) -> Iterator[Item]:
    doc: List[str] = []
    attributes: List[str] = []
    place = 0
    while place < len(lines):
        line, end = lines[place], place + 1
        head = HEAD.match(line)
        if line.startswith("///"):
            doc.append(line[3:].removeprefix(" "))
        elif line.startswith("#["):
            attributes.append(line)
        elif head:
            end = end_of(lines, place)
            yield Item(head[1], name_of(head[1], line), "\n".join(doc), attributes, lines[place:end])
        if head or not line.startswith(("///", "#[")):
            doc, attributes = [], []
        place = end


def head_end(lines: List[str]) -> int:
    """Returns how many lines a function's signature and clauses have: to the one that opens its body."""
    for place, line in enumerate(lines):
        if not line.startswith(" ") and line.endswith(("{", "{}", ";")):
            return place + 1
    return len(lines)


def clause_of(text: str) -> Clause:
    found = NAMED.fullmatch(text.strip())
    if not found:
        word, _, rest = text.strip().partition(" ")
        return Clause(word, "", rest)
    return Clause(found[1], found[2] or "", found[3][1:-1].strip())


def call_of(item: Item, place: str, names: Names) -> Call:
    lines = item.lines[:head_end(item.lines)]
    starts = [at for at, line in enumerate(lines) if CLAUSE.match(line)] + [len(lines)]
    last = len(lines) - 1
    # (the line that opens the body is no part of the last clause)
    body = last if lines[last] in ("{", "{}") else last + 1
    head = re.sub(r"\s*(?:\{\}?|;)$", "", "\n".join(lines[:min(starts[0], body)]))
    clauses = ("\n".join(lines[at:min(to, body)]) for at, to in zip(starts, starts[1:]))
    return Call(item.name, place, item.doc, head, tuple(clause_of(it) for it in clauses), names)


def shown(item: Item) -> str:
    """Returns a declaration without its private fields."""
    derives = [it for it in item.attributes if it.startswith("#[derive")]
    if item.kind != "struct" or len(item.lines) < 3:
        return "\n".join([*derives, *item.lines])
    kept, pending, is_cut = [], [], False
    for line in item.lines[1:-1]:
        if line.startswith(("    ///", "    //")):
            pending.append(line)
            continue
        is_kept = line.startswith(("    pub ", "    ghost ", "     "))
        kept += [*pending, line] if is_kept else []
        pending, is_cut = [], is_cut or not is_kept
    return "\n".join([*derives, item.lines[0], *kept, *(["    // private fields"] if is_cut else []), item.lines[-1]])


def without_bounds(text: str) -> str:
    """Returns the head of an `impl` without what stands in pointed brackets."""
    before = ""
    while before != text:
        before, text = text, re.sub(r"<[^<>]*>", "", text)
    return text


def impl_of(item: Item) -> Tuple[str, str]:
    """Returns the trait, if any, and the type of an `impl`."""
    head = " ".join(item.lines[:head_end(item.lines)]).replace("->", "")
    found = re.match(r"impl ?(?:([\w:]+) for )?&?(?:'\w+ )?(\w+)", without_bounds(head))
    return (found[1] or "", found[2]) if found else ("", "")


def inner(item: Item) -> List[str]:
    return [line[4:] if line.startswith("    ") else line for line in item.lines[1:-1]]


def add_impl(kind: Kind, item: Item, place: str, names: Names) -> None:
    trait, _ = impl_of(item)
    text = "\n".join(item.lines)
    if trait == "Model":
        kind.model += MODEL.findall(text)
        return
    calls = (call_of(it, place, names) for it in items(inner(item)) if it.kind == "fn")
    if not trait:
        kind.calls += [it for it in calls if it.head.startswith("pub fn")]
        return
    kind.traits.append(trait)
    kind.calls += [replace(it, of=trait) for it in calls if it.clauses]


def kind_of(item: Item, place: str, names: Names) -> Kind:
    kind = Kind(item.name, place, item.doc, shown(item), names)
    if item.kind == "trait":
        kind.calls = [call_of(it, place, names) for it in items(inner(item)) if it.kind == "fn"]
        facts = (it for it in item.lines if re.match(r" +ghost \w+:", it))
        kind.text = "\n".join([item.lines[0].removesuffix(" {"), *facts])
    return kind


def is_shown(item: Item, module: str, exported: Dict[str, str]) -> bool:
    """Whether lib.rt hands an item on, or has it, or C calls it."""
    is_offered = any(it.startswith(OFFERED) for it in item.attributes)
    return item.lines[0].startswith("pub ") and (exported.get(item.name) == module or is_offered or module == "lib")


def add_file(crate: Crate, path: pathlib.Path, exported: Dict[str, str]) -> List[Item]:
    """Adds what a file offers, and returns what it implements."""
    text = path.read_text(encoding="utf-8")
    names, place = names_of(text), f"src/{path.name}"
    found = list(items(text.splitlines()))
    for item in found:
        if item.kind == "fn" and is_shown(item, path.stem, exported):
            crate.functions.append(call_of(item, place, names))
        elif item.kind != "impl" and is_shown(item, path.stem, exported):
            crate.kinds[item.name] = kind_of(item, place, names)
    return [it for it in found if it.kind == "impl"]


def read_crate(folder: pathlib.Path) -> Crate:
    """Returns what a crate offers: what its lib.rt names, and what C calls."""
    crate = Crate(folder.name)
    first = next((it for it in (folder / "src/lib.rt", folder / "src/main.rt") if it.is_file()), None)
    if first is None:
        return crate
    text = first.read_text(encoding="utf-8")
    crate.doc = "\n".join(re.findall(r"^//! ?(.*)$", text, re.M))
    own = re.findall(r"^(?:pub )?mod (\w+);", text, re.M)
    exported: Dict[str, str] = {}
    for module, several, one in EXPORT.findall(text):
        named = [it.strip().rpartition(" ")[2] for it in (several or one).split(",") if it.strip()]
        if module in own:
            exported.update(dict.fromkeys(named, module))
        else:
            crate.handed_on[module] = named
    # (all files before what they implement: a file may have an `impl` of a type of another one)
    paths = [it for it in sorted((folder / "src").glob("*.rt")) if it.stem not in ("main", "tests")]
    for path, impls in [(it, add_file(crate, it, exported)) for it in paths]:
        for item in impls:
            if impl_of(item)[1] in crate.kinds:
                add_impl(crate.kinds[impl_of(item)[1]], item, f"src/{path.name}", names_of(path.read_text(encoding="utf-8")))
    return crate


def section(page: str, title: str) -> str:
    """Returns what stands below a page's heading, up to the next one as high or higher; nothing if the page hasn't it."""
    found = re.search(rf"(?m)^(#+) {re.escape(title)}$", page)
    return re.split(rf"(?m)^#{{1,{len(found[1])}}} ", page[found.end():], maxsplit=1)[0] if found else ""


# The line of crates.txt above programs of one's own, which no page shows.
OWN = "# Programs of your own."


def crates_below(text: str) -> Dict[str, List[str]]:
    """Returns the crates that each line of crates.txt names, in its order, down to the line OWN."""
    parts = [row.partition("#")[0].partition(":") for row in text.partition(f"\n{OWN}\n")[0].splitlines()]
    return {head.split()[0]: below.split() for head, _, below in parts if head.strip()}
