"""How many rows came in: of late, and over an hour."""
from __future__ import annotations

import threading
from collections import deque
from typing import Any, Callable, Deque, Dict, List, Tuple

# Over how many seconds the feed's rate is told.
RATED = 10.0
# For how many steps of so many seconds it is known how many rows came in: an hour.
STEP, STEPS = 10, 360


class Rate:
    """How many rows came in of late. Any thread may call it."""

    def __init__(self, clock: Callable[[], float]) -> None:
        self._clock, self._begun = clock, clock()
        self._rows: Deque[Tuple[float, int]] = deque()
        # The steps in which rows came in, by their number since the beginning, with how many.
        self._steps: Deque[Tuple[int, int]] = deque(maxlen=STEPS)
        self.total, self._lock = 0, threading.Lock()

    def add(self, rows: int) -> None:
        with self._lock:
            self.total += rows
            now = self._clock()
            self._rows.append((now, rows))
            while len(self._rows) > 2 and self._rows[0][0] < now - RATED:
                self._rows.popleft()
            step = self._step(now)
            before = self._steps.pop()[1] if self._steps and self._steps[-1][0] == step else 0
            self._steps.append((step, before + rows))

    def _step(self, now: float) -> int:
        return int(now - self._begun) // STEP

    def a_second(self) -> float:
        """Rows a second, over the last ten seconds."""
        now = self._clock()
        rows = sum(rows for when, rows in list(self._rows) if when >= now - RATED)
        return rows / min(max(now - self._begun, 1.0), RATED)

    def told(self) -> Dict[str, Any]:
        """How many rows came in within each step of the last hour, or since the server began: the last step goes on still, and
        `age` says for how many seconds it has."""
        with self._lock:
            now, known = self._clock(), dict(self._steps)
        last = self._step(now)
        rows: List[int] = [known.get(it, 0) for it in range(max(last - STEPS + 1, 0), last + 1)]
        return {"step": STEP, "age": round(now - self._begun - last * STEP, 1), "rows": rows, "total": self.total}
