"""What is told on a terminal while a feed is read and loaded."""
from __future__ import annotations

import sys
import time
from typing import Any, Optional

# From how many on it is told of edges.
MANY = 20_000


class Progress:
    """Tells on a terminal how far it is: by tqdm where that is there."""

    def __init__(self, what: str, total: Optional[int], shown: Optional[bool], of: str = "records") -> None:
        self.bar: Any = None
        self.shown = sys.stderr.isatty() if shown is None else shown
        self.what, self.total, self.of, self.count = what, total, of, 0
        self.begun = self.told = time.monotonic()
        if self.shown:
            try:
                import tqdm
                self.bar = tqdm.tqdm(desc=what, total=total, unit=f" {of}", file=sys.stderr)
            except ImportError:
                pass

    def step(self, count: int) -> None:
        self.count += count
        if self.bar is not None:
            self.bar.update(count)
        elif self.shown and time.monotonic() - self.told > 0.2:
            self.told = time.monotonic()
            rate = self.count / (self.told - self.begun)
            of = f" of {self.total}" if self.total else ""
            print(f"\r\033[K{self.what}: {self.count}{of} {self.of}, {rate:.0f} a second", end="", file=sys.stderr, flush=True)

    def clear(self) -> None:
        """Takes the line from the terminal until the next step."""
        if self.bar is not None:
            self.bar.clear()
        elif self.shown:
            print("\r\033[K", end="", file=sys.stderr, flush=True)

    def end(self) -> None:
        if self.bar is not None:
            self.bar.close()
        elif self.shown:
            print("\r\033[K", end="", file=sys.stderr, flush=True)
        self.bar, self.shown = None, False
