#!/usr/bin/env python3
"""Which tools there are, and tools/README.md, which is made from that list.

    tools/catalog.py            writes the page
    tools/catalog.py --check    says whether it has other lines, and which tool has none; status 1 if so
"""
from __future__ import annotations

import pathlib
import re
import sys
from dataclasses import dataclass
from typing import Iterator, List

TOOLS = pathlib.Path(__file__).resolve().parent
PAGE = TOOLS / "README.md"
GATE = "`./check`"
# How a command may be called, and how a module or a folder of modules.
COMMAND, MODULE = re.compile(r"[a-z]+(?:-[a-z]+)*|test_[a-z]+"), re.compile(r"[a-z]+(?:_[a-z]+)*(?:\.py)?")
BEFORE = """# Tools

<!-- `tools/catalog.py` writes this page from its list. -->

Run each at the top of the repository: `tools/NAME --help`, or the head of its file, says more. `./check` runs the tools that its
rows name, and says which part failed.

Names: the words of a command are joined by hyphens (`crates-above`), those of a module, in `.py`, by underscores. What begins
with `test_` is a test that `./check` runs. What begins with `try-` takes too long for it, or needs more than it has.
"""


@dataclass(frozen=True)
class Tool:
    """A file or folder of tools/: what it does, and who runs it, if that isn't its reader by hand."""

    name: str
    does: str
    run_by: str = "by hand"


PARTS = {
    "What `./check` runs": [
        Tool("habits.py", "checks habits of pages, scripts, names and commits, in ten seconds", GATE),
        Tool("gate-times", "runs the proofs, and prints the processor time of each crate", GATE),
        Tool("side-by-side", "runs the parts of `./check --unproved`, as many at once as there are processors", GATE),
        Tool("test_parts", "compiles the tests of [tests/parts](../tests/parts/README.md) without a proof, and runs them", GATE),
        Tool("test_library", "tests the library through C; the tests are in `library_tests`", GATE),
        Tool("test_programs.py", "tests how `./stinger` and `./prove` build, with a stand-in for the toolchain", GATE),
        Tool("test_examples.py", "tests which program `examples/check` runs, its scripts, and the parts of `./check`", GATE),
        Tool("test_docs.py", "tests `docs`, and the page that it writes in a browser", GATE),
        Tool("test_bench.py", "tests the [measurements](../bench/README.md)", GATE),
        Tool("test_costs.py", "tests which figures the measurement `costs` keeps and refuses", GATE),
    ],
    "While you write a patch": [
        Tool("crates-above", "names the crates to prove after a change of one"),
        Tool("docs", "writes a page of all public calls with their contracts; `--readmes` the lists in the crates' READMEs"),
        Tool("wrong-bodies", "tries the wrong bodies that `./check` doesn't: the prover must refuse each"),
        Tool("wrong-python", "makes wrong bodies of the client, and prints those that its tests don't refuse"),
        Tool("interface", "writes what Python declares of `include/misteluk.h`", "`test_library`, or by hand"),
        Tool("help-pages", "writes manual page and completions from the program's help", "`python/check`, or by hand"),
        Tool("lemma-index", "writes the [index of lemmas](../crates/LEMMAS.md)", "`habits.py`, or by hand"),
        Tool("catalog.py", "writes this page", "`habits.py`, or by hand"),
    ],
    "Before a release": [
        Tool("refuse-each-growth", "refuses each request for memory of the tests `refused_..`"),
        Tool("refuse-each-request", "refuses each request for memory of whole runs of the program"),
        Tool("try-journal", "kills writers of a store's file, cuts the power, damages bytes, fills the disk"),
        Tool("try-networkx", "runs networkx's own tests over graphs of held versions"),
        Tool("try-next-library", "runs a program of today's header with a library whose structs have grown"),
        Tool("proof-numbers", "counts functions, clauses and lemmas, for [PROOF](../docs/PROOF.md)"),
        Tool("draw-pictures", "draws the pictures of the pages"),
        Tool("draw-served", "draws the page of a server", "`draw-pictures`"),
        Tool("release", "makes the archive and the wheel of a commit that passed `./check`"),
        Tool("try-release", "tries both in a minimal tree of Debian"),
    ],
    "Modules": [
        Tool("crate_docs", "reads sources and specs: for `docs` and `habits.py`", ""),
        Tool("crate_rows.py", "reads `crates.txt`, and finds where it differs from the map and the sources", ""),
        Tool("changes.py", "finds the changes that `wrong-python` makes of a module, and survivors that are none", ""),
        Tool("docstrings.py", "reads the docstrings of the client", ""),
        Tool("lemma_pages.py", "reads the pages of lemmas", ""),
        Tool("lengths.py", "measures files and bodies", ""),
        Tool("library_tests", "has the tests of `test_library`", ""),
        Tool("linking.py", "links the shared and the static library", ""),
        Tool("programs.py", "makes program and library, for `./stinger` and `./prove`", ""),
        Tool("statements.py", "reads the definitions and lemmas of `specs/` and `proofs/`", ""),
        Tool("test_copy.py", "copies the crates together with the tests of tests/parts", ""),
    ],
}


def page() -> str:
    lines = [BEFORE]
    for title, tools in PARTS.items():
        lines += [f"## {title}\n", "| tool | what it does | run |", "|---|---|---|"]
        lines += [f"| [`{it.name}`]({it.name}) | {it.does} | {it.run_by or 'imported'} |" for it in tools] + [""]
    return "\n".join(lines).rstrip("\n") + "\n"


def astray(top: pathlib.Path) -> Iterator[str]:
    """Yields each tool without a line or with another style of name, each line without a tool or that says something else of the
    gate than `./check` does, and whether the page has other lines."""
    listed = [it for tools in PARTS.values() for it in tools]
    names = [it.name for it in listed]
    there = {it.name for it in (top / "tools").iterdir() if it.name not in ("README.md", "__pycache__", ".mypy_cache")}
    yield from (f"tools/{it} has no line in tools/catalog.py" for it in sorted(there - set(names)))
    yield from (f"tools/catalog.py has a line of {it}, which isn't there" for it in names if it not in there)
    for it in sorted(there):
        is_module = it.endswith(".py") or (top / "tools" / it).is_dir()
        if not (MODULE if is_module else COMMAND).fullmatch(it):
            yield f"tools/{it}: {'words of a module are joined by _' if is_module else 'words of a command are joined by -'}"
    gate = set(re.findall(r"(?m)^(?!#)[^#\n]*?tools/([\w.-]+)", (top / "check").read_text(encoding="utf-8")))
    for tool in listed:
        if (tool.name in gate) != (tool.run_by == GATE):
            yield f"tools/catalog.py: ./check {'runs' if tool.name in gate else 'does not run'} {tool.name}"
    if not (top / "tools/README.md").is_file() or (top / "tools/README.md").read_text(encoding="utf-8") != page():
        yield "tools/README.md is stale: tools/catalog.py writes it"


def main(words: List[str]) -> int:
    if words == ["--check"]:
        found = list(astray(TOOLS.parent))
        print("\n".join(found), end="\n" if found else "")
        return 1 if found else 0
    if words:
        sys.exit(__doc__)
    PAGE.write_text(page(), encoding="utf-8")
    return 0


if __name__ == "__main__":
    sys.exit(main(sys.argv[1:]))
