#!/usr/bin/env python3
"""What the program shows at a terminal: ./at_a_terminal.py PROGRAM prints for each run what it shows there, and its lines.

A script that is typed there is told to be awaited, and no progress is shown over it; `--help` and `drive` await none. Where it
comes through a pipe, progress is shown, and of the lines those are counted that are `commit`.
"""
from __future__ import annotations

import os
import pty
import re
import subprocess
import sys
import termios
import time
from typing import List, Sequence, Tuple

PAUSE = 0.3  # seconds, longer than a line of progress stands


def terminal() -> Tuple[int, int]:
    """Both ends of a terminal, which doesn't show what is typed."""
    outer, inner = pty.openpty()
    how = termios.tcgetattr(inner)
    how[3] &= ~termios.ECHO
    termios.tcsetattr(inner, termios.TCSANOW, how)
    return outer, inner


def run_at_a_terminal(words: Sequence[str], pieces: Sequence[bytes], is_typed: bool) -> Tuple[str, str]:
    """What is shown on the terminal, and the lines, of a run that is given these pieces one after another."""
    outer, inner = terminal()
    given = inner if is_typed else subprocess.PIPE
    with subprocess.Popen(words, stdin=given, stdout=subprocess.PIPE, stderr=inner) as run:
        to = outer if is_typed or run.stdin is None else run.stdin.fileno()
        for it in pieces:
            os.write(to, it)
            time.sleep(PAUSE)
        lines = run.communicate(timeout=20)[0].decode()
    os.write(inner, b".")
    shown = b""
    while not shown.endswith(b"."):
        shown += os.read(outer, 4_096)
    return shown[:-1].decode().replace("\r\n", "\n"), lines


def miscounted(shown: str, script: bytes) -> List[str]:
    """The lines of progress that tell another number of commits than their lines have, or none of all lines."""
    lines = script.splitlines()
    told = re.findall(r"\rreading: (\d+) lines, 0\.0 MB, (\d+) commits, \d+ s\x1b\[K", shown)
    wrong = [f"{commits} commits in {count} lines" for count, commits in told
             if int(commits) != lines[:int(count)].count(b"commit")]
    return wrong if told and int(told[-1][0]) == len(lines) else [*wrong, "not all lines"]


def main(program: str) -> None:
    typed = [b"commit\n", b"commit\n", b"\4"]
    for arguments, pieces in (["--help"], []), (["drive", "--readers", "1"], []), (["run", "now"], []), (["run"], typed):
        shown, lines = run_at_a_terminal([program, *arguments], pieces, True)
        told = "the help" if lines.startswith("A store of a directed graph") else lines.rstrip("\n")
        print(f"{' '.join(arguments)}\n{shown}{told}")
    pieces = [b"com\n", b"open,commit\n", b"commit,\n", b"commit\r\n", b"commits\n", b"commit\n"]
    shown, _ = run_at_a_terminal([program, "run"], pieces, False)
    print("through a pipe:", ", ".join(miscounted(shown, b"".join(pieces))) or "counted right")


if __name__ == "__main__":
    main(*sys.argv[1:])
