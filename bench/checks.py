"""What is expected and what came: each difference is printed, and makes the status 1."""
from __future__ import annotations

import importlib
import sys
import traceback
from typing import Any, Callable

from bench.calls import Refused
from bench.measuring import of_process
from misteluk.engine.interface import Code


def same(found: Any, wanted: Any) -> bool:
    """Whether two values are equal, or each of their items; of arrays, whatever their types."""
    if hasattr(found, "__array__") or hasattr(wanted, "__array__"):
        return bool(importlib.import_module("numpy").array_equal(found, wanted))
    if isinstance(found, (list, tuple)) and isinstance(wanted, (list, tuple)):
        return len(found) == len(wanted) and all(map(same, found, wanted))
    return bool(found == wanted)


def short(value: Any) -> str:
    text = " ".join(repr(value).split())
    return text if len(text) <= 200 else f"{text[:200]} .."


class Checks:
    """Counts what was compared. A part that compared nothing is a failure, too."""

    def __init__(self) -> None:
        self.passed = self.failed = 0

    def equal(self, what: str, found: Any, wanted: Any) -> None:
        if same(found, wanted):
            self.passed += 1
            return
        self.failed += 1
        print(f"FAILED  {what}: {short(found)}, and not {short(wanted)}", flush=True)

    def refused(self, what: str, code: Code, call: Callable[..., object], *given: Any) -> None:
        """Whether a call is refused with this code."""
        try:
            call(*given)
        except Refused as refusal:
            self.equal(what, refusal.code.name, code.name)
        else:
            self.equal(what, "OK", code.name)

    def part(self, name: str, do: Callable[[], object]) -> None:
        """Does a part, whose fault is a failure as well, and says what memory this process has and had."""
        before = self.passed + self.failed
        try:
            do()
        except Exception:  # (a part that can't go on fails, and the next one is done)
            self.failed += 1
            print(f"FAILED  {name}: {traceback.format_exc(limit=-3)}", flush=True)
        self.equal(f"{name}: something was compared", self.passed + self.failed > before, True)
        now, most = (of_process(word) / 2**20 for word in ("VmRSS", "VmHWM"))
        count = self.passed + self.failed - before
        print(f"{name}: {count} compared, {now:.1f} GiB, at most {most:.1f}", file=sys.stderr, flush=True)

    def status(self) -> int:
        print(f"{self.passed} passed, {self.failed} failed")
        return 1 if self.failed else 0
