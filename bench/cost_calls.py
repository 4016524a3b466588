"""The scripts of calls over the library whose costs are kept: bench/c/costs.c has them, and says what each turn of one does.

They run over the compiled library, which no proof has seen: the kit's clang makes the same bytes of the same sources, and
`./check` takes that library anyway. What a call costs there is not what it costs in the proved library, but what makes it dearer
there does so in both. The proved one would have the gate prove misteluk_c once more, which takes six minutes of processor time.
"""
from __future__ import annotations

import importlib
import pathlib
import re
import subprocess
import sys
from typing import Any, Dict, List

from bench.catalog import is_here
from bench.measuring import instructions, stop
from bench.places import TOP

SOURCE = TOP / "bench/c/costs.c"
CALLS: List[str] = re.findall(r'(?m)^    \{"([^"]+)", prepare_', SOURCE.read_text(encoding="utf-8"))
FLAGS = "--no-default-config -O1 -Wall -Wextra -Werror -fPIE -nostdinc".split()


def tools() -> Any:
    sys.path.append(str(TOP / "tools"))
    return importlib.import_module("programs")


def compiled_library() -> pathlib.Path:
    """The compiled library of the sources as they are, which is compiled where it has to be."""
    programs = tools()
    programs.make(programs.COMPILED_LIBRARY, "compiling", programs.compiled_library)
    return pathlib.Path(programs.COMPILED_LIBRARY.path)


def built(room: pathlib.Path, library: pathlib.Path) -> pathlib.Path:
    """The program of bench/c/costs.c over a library, by the toolchain's own compiler and linker."""
    kit = tools().find_kit() / "toolchain"
    code, made = room / "costs.o", room / "costs"
    for name, text in tools().linking.HEADERS.items():
        (room / name).write_text(text)
    begin, end = ([kit / "lib" / it for it in names] for names in (
        ("Scrt1.o", "crti.o"), ("libc.so.6", "libc_nonshared.a", "crtn.o")))
    words: List[Any] = ["-pie", "-dynamic-linker", "/lib64/ld-linux-x86-64.so.2", "-rpath", library.parent, "-o", made]
    subprocess.run([kit / "bin/clang", *FLAGS, f"-I{room}", f"-I{TOP / 'include'}", "-c", "-o", code, SOURCE], check=True)
    subprocess.run([kit / "bin/ld.lld", *words, *begin, code, library, *end], check=True)
    return made


def calls_cost(program: pathlib.Path, name: str) -> Dict[str, int]:
    """What a script of calls costs: the instructions of its turns, and the most memory in use, as malloc tells it; and how many
    bytes more are in use when it was repeated, of which none are kept."""
    words = [str(program), name]
    counted = {}
    if is_here("valgrind"):
        counted = {"instructions": instructions(words, "/dev/null", "--toggle-collect=counted")}
    ran = subprocess.run([*words, "memory"], stdout=subprocess.PIPE, text=True)
    if ran.returncode:
        stop(f"the script of calls {name} ended in status {ran.returncode}:\n{ran.stdout}")
    most, more = map(int, ran.stdout.split())
    return {**counted, "kilobytes": most >> 10, "writes": 0, "left": more}
