"""Programs in Rattle that are no crates of crates.txt: their texts stand here, and are compiled, unproved, in a copy of the
crates."""
from __future__ import annotations

import itertools
import pathlib
import re
import shutil
import subprocess
import sys
import tempfile
from typing import Iterator, Tuple

from bench.measuring import stop
from bench.places import OUT, TOP

# What the copy runs, where `programs` means the copy: it compiles what isn't there yet, or is of other sources.
COMPILE = """import pathlib, sys
sys.path.insert(0, "tools")
import programs
made, name = pathlib.Path(sys.argv[1]), sys.argv[2]
programs.main(lambda *_: programs.make(programs.Program(made, name, "src"), "compiling", programs.compiled))"""
# It may wait, as a program does that shares a store; nobody judges the number here.
ROW = "{name} may_wait=16: misteluk anyhow\n"


def texts(name: str) -> str:
    return "\n".join(it.read_text() for it in sorted((TOP / "bench/rattle" / name).glob("*.txt")))


def compiled(name: str) -> str:
    """The program whose modules are bench/rattle/NAME/*.txt, compiled as ./stinger compiles the sources."""
    made = OUT / "bin" / name
    made.parent.mkdir(parents=True, exist_ok=True)
    with tempfile.TemporaryDirectory(prefix=f"{name}-", dir=OUT) as room:
        copy = pathlib.Path(room)
        for folder in ("crates", "tools", "include"):
            shutil.copytree(TOP / folder, copy / folder, ignore=shutil.ignore_patterns("out", "__pycache__"))
        for file in ("HANDLES", "crates.txt"):
            shutil.copy(TOP / file, copy / file)
        with open(copy / "crates.txt", "a") as rows:
            rows.write(ROW.format(name=name))
        for it in (TOP / "bench/rattle" / name).glob("*.txt"):
            source = copy / "crates" / name / "src" / f"{it.stem}.rt"
            source.parent.mkdir(parents=True, exist_ok=True)
            shutil.copy(it, source)
        if subprocess.run([sys.executable, "-B", "-c", COMPILE, str(made), name], cwd=copy, stdin=subprocess.DEVNULL).returncode:
            stop(f"{name} can't be compiled")
    return str(made)


def public_calls() -> Iterator[Tuple[str, str, bool]]:
    """Each public function that the crate `misteluk` has under a name of its own: its type, its name, and whether it is called on
    a value of the type. A function without a type has none."""
    for crate, names in re.findall(r"pub use (\w+)::\{?([^;}]*)\}?;", (TOP / "crates/misteluk/src/lib.rt").read_text()):
        sources = [it.read_text() for it in sorted((TOP / "crates" / crate / "src").rglob("*.rt"))]
        for name, text in itertools.product(filter(None, map(str.strip, names.split(","))), sources):
            yield from (("", name, False) for _ in re.findall(rf"(?m)^pub fn {name}\b", text))
            kinds = rf"(?ms)^(?:impl(?:<[^{{]*?>)? {name}\b(?! for)|pub trait {name}\b)[^\n]*\{{\n(.*?)^\}}"
            for body in re.findall(kinds, text):
                found = re.findall(r"(?ms)^    (?:pub )?fn (\w+)(?:<.*?>)?\(\s*(&?(?:mut |'\w+ )*self\b)?", body)
                private = re.findall(r"(?m)^    fn (\w+)", body) if "pub fn" in body else []
                yield from ((name, call, bool(of)) for call, of in found if call not in private)


def is_called(text: str, kind: str, name: str, is_method: bool) -> bool:
    """Whether a text calls it; a method of that name on another type counts, too."""
    before = r"\." if is_method else rf"\b{kind}::" if kind else r"(?<![\w.:])"
    return re.search(rf"{before}{name}(?:::<[^(]*>)?\(", text) is not None
