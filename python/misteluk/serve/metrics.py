"""What a server counts of the requests that it answered, and what it tells of itself in the text form of Prometheus."""
from __future__ import annotations

from bisect import bisect_left
from typing import Any, Dict, Iterable, Iterator, List, Mapping, Tuple

# Within how many seconds answers are counted; and the calls of which an answer waits for what is to come.
BOUNDS = (0.001, 0.005, 0.025, 0.1, 0.5, 2.5, 10.0, 60.0)
WAITING = ("events", "stat_after")
PREFIX = "misteluk_"
# A number of the server: its name, what it is, its kind, and its values by labels.
Number = Tuple[str, str, str, Iterable[Tuple[Mapping[str, str], float]]]


class Spread:
    """How many answers of a call took how long."""

    def __init__(self) -> None:
        self.counts, self.seconds = [0] * (len(BOUNDS) + 1), 0.0

    def add(self, seconds: float) -> None:
        self.counts[bisect_left(BOUNDS, seconds)] += 1
        self.seconds += seconds


class Counts:
    """What was answered, by calls; and what was refused, by words. (The event loop alone counts.)"""

    def __init__(self) -> None:
        self.answers: Dict[str, Spread] = {}
        self.requests: Dict[Tuple[str, str], int] = {}
        self.refused: Dict[str, int] = {}

    def answered(self, call: str, status: int, seconds: float) -> None:
        key = call, str(status)
        self.requests[key] = self.requests.get(key, 0) + 1
        if call not in WAITING:
            self.answers.setdefault(call, Spread()).add(seconds)

    def refuse(self, word: str) -> None:
        self.refused[word] = self.refused.get(word, 0) + 1

    def text(self) -> Iterator[str]:
        """The counts, as lines."""
        yield from of_numbers([
            ("requests_total", "Requests that were answered, by call and status.", "counter",
             [({"call": call, "status": status}, count) for (call, status), count in self.requests.items()]),
            ("refused_total", "Requests that were refused, by the error's word.", "counter",
             [({"error": word}, count) for word, count in self.refused.items()])])
        if self.answers:
            yield from _head("answer_seconds", "How long answers took, by call.", "histogram")
        for call, spread in self.answers.items():
            yield from _of_spread(call, spread)


def _of_spread(call: str, spread: Spread) -> Iterator[str]:
    count = 0
    for bound, some in zip((*BOUNDS, "+Inf"), spread.counts):
        count += some
        yield _line("answer_seconds_bucket", {"call": call, "le": str(bound)}, count)
    yield _line("answer_seconds_sum", {"call": call}, spread.seconds)
    yield _line("answer_seconds_count", {"call": call}, count)


def of_numbers(numbers: Iterable[Number]) -> Iterator[str]:
    """Numbers as lines; one that has no value isn't told."""
    for name, about, kind, values in numbers:
        lines: List[str] = [_line(name, labels, value) for labels, value in values]
        if lines:
            yield from _head(name, about, kind)
            yield from lines


def gauge(name: str, about: str, value: Any, kind: str = "gauge") -> Number:
    """A number without labels; `None` is none."""
    return name, about, kind, [] if value is None else [({}, float(value))]


def _head(name: str, about: str, kind: str) -> Iterator[str]:
    yield f"# HELP {PREFIX}{name} {about}\n"
    yield f"# TYPE {PREFIX}{name} {kind}\n"


def _line(name: str, labels: Mapping[str, str], value: float) -> str:
    told = ",".join(f'{label}="{_escaped(text)}"' for label, text in labels.items())
    number = int(value) if float(value).is_integer() else value
    return f"{PREFIX}{name}{{{told}}} {number}\n" if told else f"{PREFIX}{name} {number}\n"


def _escaped(text: str) -> str:
    return text.replace("\\", "\\\\").replace('"', '\\"').replace("\n", "\\n")
