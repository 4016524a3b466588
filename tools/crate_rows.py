"""The rows of crates.txt: which crates they list, on which each stands, and where the rows, CONTRIBUTING's map and the sources
differ."""
import functools
import pathlib
import re

from crate_docs.sources import OWN, section

TOP = pathlib.Path(__file__).resolve().parent.parent
PAGE = TOP / "CONTRIBUTING.md"


def rows_in(text):
    return [row for line in text.splitlines() if (row := line.partition("#")[0]).strip()]


def rows():
    return rows_in((TOP / "crates.txt").read_text(encoding="utf-8"))


def crates():
    return [row.partition(":")[0].split()[0] for row in rows()]


@functools.lru_cache(maxsize=None)
def own_crates():
    """Returns the crates below the line OWN of crates.txt."""
    below = (TOP / "crates.txt").read_text(encoding="utf-8").partition(f"\n{OWN}\n")[2]
    return {row.partition(":")[0].split()[0] for row in rows_in(below)}


def unnamed():
    page = PAGE.read_text(encoding="utf-8")
    listed, own = crates(), own_crates()
    for name in listed:
        if name not in own and f"`{name}`" not in page:
            yield f"CONTRIBUTING.md doesn't name {name}"
    for folder in sorted((TOP / "crates").iterdir()):
        if folder.name not in listed and any(folder.glob("src/*.rt")):
            yield f"crates.txt doesn't list {folder.name}"


def misplaced():
    part = section(PAGE.read_text(encoding="utf-8"), "The map")
    lines = [line.split("|")[1] for line in part.splitlines() if line.startswith("| ")]
    places = {name: at for at, cell in enumerate(lines) for name in re.findall(r"`(\w+)`", cell)}
    for row in rows():
        name, _, below = row.partition(":")
        crate = name.split()[0]
        for it in below.split():
            if crate in places and places.get(it, 0) > places[crate]:
                yield f"CONTRIBUTING.md: the map has {crate} in a row above {it}, on which it stands"


def named_in(path):
    """Returns what may be crates that a file names: what stands before a path."""
    code = re.sub(r"^\s*(?://|--).*$", "", path.read_text(encoding="utf-8"), flags=re.M)
    found = set(re.findall(r"\bRattle\.(\w+)", code))
    if path.suffix == ".rt":
        found |= set(re.findall(r"(?<![\w.:])(\w+)::", code))
        found |= set(re.findall(r"^\s*(?:pub )?use (\w+)(?: as \w+)?;", code, re.M))
    return found


def named_by(crate):
    """Returns what may be crates that a crate's sources, specs and proofs name."""
    found = set()
    for part in ("src", "specs", "proofs"):
        for path in (TOP / "crates" / crate / part).rglob("*"):
            found |= named_in(path) if path.suffix in (".rt", ".antt") else set()
    return found - {crate}


def misnamed():
    listed = crates()
    for row in rows():
        name, _, below = row.partition(":")
        crate, below = name.split()[0], {it for it in below.split() if it in listed}
        named = named_by(crate) & set(listed)
        for it in sorted(named - below):
            yield f"crates.txt: the row of {crate} doesn't have {it}, which it names"
        for it in sorted(below - named):
            yield f"crates.txt: the row of {crate} has {it}, which it doesn't name"
