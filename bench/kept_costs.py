"""The kept figures of costs: the file, what it says of how they were made, and which figure is too far from its kept one."""
from __future__ import annotations

import os
import pathlib
import re
import subprocess
from dataclasses import dataclass
from typing import Container, Dict, List, Optional

from bench.catalog import is_here
from bench.measuring import stop
from bench.places import is_proved

Figures = Dict[str, int]
# How far a figure may be from its kept one. Instructions and writes repeat to the digit; resident memory by two in a hundred.
BARS = {"instructions": 1.02, "kilobytes": 1.1, "writes": 1.02}
# The same of a script that two workers share, as it falls out, and of all where glibc, valgrind or kit are others.
LOOSE = 1.1
# Below these a figure says little: a page more, or a line that another library's version writes.
LEAST = {"instructions": 1_000_000, "kilobytes": 1_024, "writes": 10}
# How many bytes more may be in use when a script of calls was repeated: what malloc keeps at hand.
LEFT = 256 * 1024
HEAD = ["# What these scripts cost stinger run, and calls the compiled library: instructions, peak kilobytes, writes.",
        "# `python3 -m bench run costs --keep` writes this."]
MADE = "# Made of the {} program, with {}."


@dataclass(frozen=True)
class Made:
    """What figures are of and were made with: a `proved` program or an `unproved` one; glibc, valgrind and kit."""

    program: str
    tools: str


def first_line(*words: str) -> str:
    if not is_here(words[0]):
        return f"no {words[0]}"
    told = subprocess.run(words, stdout=subprocess.PIPE, stderr=subprocess.DEVNULL, text=True).stdout
    return (told.split() or [f"no {words[0]}"])[0]


def made_now(program: str) -> Made:
    tools = os.confstr("CS_GNU_LIBC_VERSION"), first_line("valgrind", "--version"), first_line("rt", "version")
    return Made("proved" if is_proved(program) else "unproved", ", ".join(map(str, tools)))


@dataclass
class Kept:
    made: Made
    rows: Dict[str, Figures]

    @classmethod
    def read(cls, file: pathlib.Path) -> Kept:
        """The figures of the file: a line each script, its name last."""
        text = file.read_text()
        found = re.search(MADE.format(r"(\w+)", "(.+)"), text)
        if not found:
            stop(f"{file} doesn't say what its figures were made with: --keep writes them again")
        rows = [line.split(maxsplit=3) for line in text.splitlines() if line and not line.startswith("#")]
        return cls(Made(found[1], found[2]), {row[3]: dict(zip(LEAST, map(int, row[:3]))) for row in rows})

    def write(self, file: pathlib.Path) -> None:
        head = [*HEAD, MADE.format(self.made.program, self.made.tools)]
        rows = [f"{row['instructions']:>13} {row['kilobytes']:>9} {row['writes']:>7}  {name}" for name, row in self.rows.items()]
        file.write_text("".join(f"{line}\n" for line in head + rows))


def verdict(found: Figures, before: Optional[Figures], bars: Dict[str, float], is_here_made: bool = True) -> List[str]:
    """The words for a script whose figures are too far from the kept ones: DEARER, CHEAPER or LEAKS; and NEW where none are."""
    words = ["LEAKS"] if found.get("left", 0) > LEFT else []
    if before is None:
        return [*words, "NEW"]
    for what in bars.keys() & found.keys():
        now, then = (max(it[what], LEAST[what]) for it in (found, before))
        words += ["DEARER"] * (now > bars[what] * then) + ["CHEAPER"] * (is_here_made and then > bars[what] * now)
    return sorted(set(words))


def show(name: str, found: Figures, before: Figures, words: List[str]) -> None:
    """Shows each figure next to the kept one, behind the words for what is wrong."""
    told = [f"{count:,} {what}" + (f" ({count / max(before[what], 1):.3f})" if what in before else "")
            for what, count in found.items()]
    print(f"{' '.join(words) or 'ok':>7}  {name}: {', '.join(told)}", flush=True)


def compare(found: Dict[str, Figures], kept: Kept, now: Made, loose: Container[str] = ()) -> int:
    """Compares all that was found, some by the loose bars, and returns the status to end in."""
    is_here_made = kept.made.tools == now.tools
    if not is_here_made:
        print(f"costs: the kept figures were made with {kept.made.tools}, and these with {now.tools}: they differ, and only what "
              "is more than a tenth above is refused")
    count = 0
    met: List[str] = []
    wide = {what: max(bar, LOOSE) for what, bar in BARS.items()}
    for name, row in found.items():
        words = verdict(row, kept.rows.get(name), BARS if is_here_made and name not in loose else wide, is_here_made)
        show(name, row, kept.rows.get(name, {}), words)
        met += words
        count += bool(words)
    if {"CHEAPER", "NEW"} & set(met):
        print("costs: what is CHEAPER or NEW is to be kept, so that it stays so: python3 -m bench run costs --keep")
    print(f"{len(found) - count} passed, {count} failed")
    return 1 if count else 0
