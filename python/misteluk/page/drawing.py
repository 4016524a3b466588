"""A neighborhood as pictures in SVG, one for each version, with the vertices at the same places."""
from __future__ import annotations

from datetime import datetime
from html import escape
from math import sqrt
from typing import Any, Dict, List, NamedTuple, Optional, Sequence, Tuple

from ..values.answers import Edge
from .layout import HEIGHT, WIDTH, Box, Label, Point, free_place, label_within, labels, place, short
from ..values.names import shown
from .neighborhood import CHANGED, Key, Neighborhood, Side

# How far apart edges between the same two vertices bend, and how long an arrow's head is.
BEND, HEAD = 26.0, 8.0
# How far from the border the middle of a loop is at least, where its weight stands.
ROOM = 24.0
# How far an edge's middle goes aside to keep off other vertices, as it is tried.
SHIFTS = (0.0, 14.0, -14.0, 26.0, -26.0, 40.0, -40.0)
# Up to so many edges are bent around vertices.
MOST_BENT = 300
# Up to so many edges are drawn with their weights, and names keep off the lines.
MOST_WEIGHTS, MOST_KEPT_OFF = 40, 90
# Where there are more edges, those that are kept are drawn paler.
MOST_PLAIN = 120
# How many edges are drawn at most: more can't be told apart, and take a browser long.
MOST_LINES = 1_000
# Where an edge's weight may stand, as parts of its line, and where names keep off it.
PARTS = (0.5, 0.42, 0.58, 0.34, 0.66, 0.26, 0.74, *(it / 22 for it in range(1, 22)))


def text_of(value: Any) -> str:
    """A name, a count or a weight as the page has it: numbers with a comma between thousands."""
    return shown(value) if isinstance(value, str) else f"{value:,}".replace("-", "\N{MINUS SIGN}")


def time_text(value: Any) -> str:
    """A time as the page has it: a number as it is, and a date alone where a time is a day's beginning."""
    if not isinstance(value, datetime):
        return str(value)
    is_day = not (value.hour or value.minute or value.second or value.microsecond)
    return value.date().isoformat() if is_day else value.replace(tzinfo=None).isoformat(" ")


class Curve(NamedTuple):
    """An edge's line, its head, and points on it: halfway, and then others to either side."""

    line: str
    head: str
    points: List[Point]


def _numbers(*values: float) -> str:
    return " ".join(f"{it:.1f}" for it in values)


def _head(tip: Point, across: float, down: float, size: float = HEAD) -> str:
    """A triangle with its tip at the point, in the direction of a vector of length 1."""
    x, y = tip[0] - across * size, tip[1] - down * size
    wide = size * 0.42
    return f"M{_numbers(*tip)}L{_numbers(x - down * wide, y + across * wide)}L{_numbers(x + down * wide, y - across * wide)}Z"


def curve(begin: Point, end: Point, radii: Tuple[float, float], bend: float) -> Curve:
    """From one vertex's rim to another's; `bend` is how far the middle is aside, to the left of the way."""
    across, down = end[0] - begin[0], end[1] - begin[1]
    length = sqrt(across * across + down * down) or 1.0
    x = (begin[0] + end[0]) / 2 + down / length * bend * 2
    y = (begin[1] + end[1]) / 2 - across / length * bend * 2
    starts, ends = _toward(begin, (x, y), radii[0] + 1), _toward(end, (x, y), radii[1] + 2)
    way = _toward(end, (x, y), radii[1] + 2 + HEAD * 0.8)
    size = sqrt((end[0] - x) * (end[0] - x) + (end[1] - y) * (end[1] - y)) or 1.0
    points = [_on_curve(begin, (x, y), end, part) for part in PARTS]
    return Curve(f"M{_numbers(*starts)}Q{_numbers(x, y, *way)}", _head(ends, (end[0] - x) / size, (end[1] - y) / size), points)


def _on_curve(begin: Point, by: Point, end: Point, part: float) -> Point:
    """The point of a quadratic curve so far from its beginning, as a part of 1."""
    a, b, c = (1 - part) * (1 - part), 2 * part * (1 - part), part * part
    return a * begin[0] + b * by[0] + c * end[0], a * begin[1] + b * by[1] + c * end[1]


def _toward(point: Point, other: Point, length: float) -> Point:
    """The place so far from the point on the way to another."""
    across, down = other[0] - point[0], other[1] - point[1]
    whole = sqrt(across * across + down * down) or 1.0
    return point[0] + across / whole * length, point[1] + down / whole * length


def loop(at: Point, radius: float, turn: int) -> Curve:
    """From a vertex to itself, above it, or below where that has no room; a later one is farther away."""
    high = 26.0 + 10 * turn
    way = -1 if at[1] - radius - 0.75 * high > ROOM else 1
    x, y = at[0], at[1] + way * radius
    line = f"M{_numbers(x - 4, y)}C{_numbers(x - high, y + way * high, x + high, y + way * high, x + 4, y + 4 * way)}"
    points = [(x, y + 0.75 * way * high), (x, y + way * (0.75 * high + 11))]
    return Curve(line, _head((x + 3, y - way), -0.35, -0.94 * way), points)


class Drawing:
    """The pictures of a neighborhood."""

    def __init__(self, it: Neighborhood) -> None:
        self.it = it
        self.names = it.names[:it.drawn]
        self.number = {name: at for at, name in enumerate(it.names)}
        self.hop = it.hop
        self.edge_number = {key: at for at, key in enumerate(it.states)}
        drawn = set(self.names)
        among = [key for key in it.states if drawn.issuperset(key[1:])]
        self.states, self.among = {key: it.states[key] for key in among[:MOST_LINES]}, len(among)
        pairs = sorted({(self.number[source], self.number[target]) for _, source, target in self.states})
        self.at = place([self.hop[name] for name in self.names], pairs)
        self.radii = [self._radius(name) for name in self.names]
        self.curves = self._curves()
        self.has_weights = len(self.states) <= MOST_WEIGHTS and len(set(self._all_weights())) > 1
        lines = [point for it in self.curves.values() for point in it.points] if len(self.curves) <= MOST_KEPT_OFF else []
        self.labels, taken = labels(self.at, self.radii, [short(shown(name)) for name in self.names], lines)
        self.weights = self._weights(taken) if self.has_weights else {}

    @property
    def has_all_edges(self) -> bool:
        """Whether all edges among the vertices are drawn, of which there are `among`."""
        return len(self.states) == self.among

    @property
    def unlabeled(self) -> int:
        """How many vertices have no room for their name."""
        return sum(it is None for it in self.labels)

    def _all_weights(self) -> List[Any]:
        return [side.edges[key].weight for side in self.it.sides for key in self.states if key in side.edges]

    def _radius(self, name: str) -> float:
        """By how many edges a vertex has, in the version where it has more."""
        degrees = [side.degrees[name] for side in self.it.sides if name in side.degrees]
        most = max((degree.out + degree.into for degree in degrees), default=0)
        return round(min(13.0, 4.5 + 1.1 * sqrt(most)) + (2 if self.hop[name] == 0 else 0), 1)

    def _curves(self) -> Dict[Key, Curve]:
        """A curve for each edge of a version: it is the same in both pictures."""
        groups: Dict[Tuple[int, ...], List[Key]] = {}
        for key in sorted(self.states):
            groups.setdefault(tuple(sorted(self.number[it] for it in key[1:])), []).append(key)
        found: Dict[Key, Curve] = {}
        for (low, high), keys in groups.items():
            found.update(zip(keys, self._between(keys, low, high) if low != high else
                             [loop(self.at[low], self.radii[low], turn) for turn in range(len(keys))]))
        return found

    def _between(self, keys: Sequence[Key], low: int, high: int) -> List[Curve]:
        """The curves of edges between the same two vertices. They bend apart, and, where that can be, around other vertices: an
        edge through a third one would seem to end there."""
        others = self._beside(low, high) if len(self.states) <= MOST_BENT else []
        best: Tuple[int, List[Curve]] = (len(others) * len(keys) * len(PARTS) + 1, [])
        for shift in SHIFTS:
            bends = [shift + BEND * (turn - (len(keys) - 1) / 2) / 2 for turn in range(len(keys))]
            curves = [self._curve(key, bend if self.number[key[1]] == low else -bend) for key, bend in zip(keys, bends)]
            through = sum(abs(x - a) < near and abs(y - b) < near for it in curves for x, y in it.points for a, b, near in others)
            best = min(best, (through, curves), key=lambda it: it[0])
            if not through:
                break
        return best[1]

    def _beside(self, low: int, high: int) -> List[Tuple[float, float, float]]:
        """The vertices that an edge between two others may go through, each with how near it may come."""
        (left, right), (top, foot) = (sorted(ends) for ends in zip(self.at[low], self.at[high]))
        far = SHIFTS[-2] + 18
        return [(x, y, radius + 5) for it, ((x, y), radius) in enumerate(zip(self.at, self.radii))
                if it not in (low, high) and left - far < x < right + far and top - far < y < foot + far]

    def _curve(self, key: Key, bend: float) -> Curve:
        begin, end = self.number[key[1]], self.number[key[2]]
        return curve(self.at[begin], self.at[end], (self.radii[begin], self.radii[end]), bend)

    def _weights(self, taken: List[Box]) -> Dict[Key, Point]:
        """Where each edge's weight stands: on its line, beside what is there already."""
        found: Dict[Key, Point] = {}
        for key, state in self.states.items():
            points = self.curves[key].points
            widest = max((text_of(side.edges[key].weight) for side in self.it.sides if key in side.edges), key=len)
            others = [point for other, it in self.curves.items() if other != key for point in it.points]
            found[key] = free_place(points[1:7] if state == CHANGED else points[:7], widest, taken, others)
        return found

    def picture(self, side: Side) -> str:
        """The picture of one version."""
        edges = [self._edge(key, side.edges[key]) for key in reversed(list(self.states)) if key in side.edges]
        vertices = [self._vertex(at, side) for at in reversed(range(len(self.names)))]
        told = f"{len(vertices)} vertices and {len(edges)} edges of {side.label}"
        many = " many" if len(self.states) > MOST_PLAIN else ""
        return (f'<svg class="picture{many}" viewBox="0 0 {WIDTH:.0f} {HEIGHT:.0f}" role="group" aria-label="{escape(told)}">\n'
                f"<g>\n{''.join(edges)}</g>\n<g>\n{''.join(vertices)}</g>\n</svg>")

    def _edge(self, key: Key, edge: Edge[Any, Any]) -> str:
        kind, source, target = key
        state, drawn = self.states[key], self.curves[key]
        told = f"{shown(source)} \N{RIGHTWARDS ARROW} {shown(target)}: {text_of(edge.weight)}\n{shown(kind)}, first " \
               f"{time_text(edge.first)}, recent {time_text(edge.recent)}" + (f"\n{state}" if len(self.it.sides) > 1 else "")
        x, y = drawn.points[0]
        dot = f'<circle class="dot" cx="{x:.1f}" cy="{y:.1f}" r="3.4"/>' if state == CHANGED else ""
        x, y = self.weights.get(key, (0.0, 0.0))
        weight = f'<text class="weight" x="{x:.1f}" y="{y + 4:.1f}">{text_of(edge.weight)}</text>' if key in self.weights else ""
        return (f'<g class="edge {state}" data-edge="{self.edge_number[key]}" data-from="{self.number[source]}" '
                f'data-to="{self.number[target]}"><title>{escape(told)}</title><path class="near" d="{drawn.line}"/>'
                f'<path class="line" d="{drawn.line}"/><path class="head" d="{drawn.head}"/>{dot}{weight}</g>\n')

    def _vertex(self, at: int, side: Side) -> str:
        name, (x, y), radius = self.names[at], self.at[at], self.radii[at]
        hops = side.hops.get(name)
        where = ("not in this version" if name not in side.degrees else "farther away in this version" if hops is None else
                 "in the middle" if hops == 0 else f"{hops} hop{'s' * (hops != 1)} away")
        degree = side.degrees.get(name)
        told = f"{shown(name)}\n{where}" + (f"\n{degree.out} out, {degree.into} in, weight out {text_of(degree.weight_out)}"
                                              if degree else "")
        away = " away" if hops is None else ""
        return (f'<g class="vertex hop{min(self.hop[name], 3)}{away}" data-vertex="{at}" tabindex="0" role="button" '
                f'aria-label="{escape(shown(name))}"><title>{escape(told)}</title><circle cx="{x:.1f}" cy="{y:.1f}" '
                f'r="{radius:.1f}"/>{self._label(at, name)}</g>\n')

    def _label(self, at: int, name: str) -> str:
        """The vertex's name; where there is no room, it is to be seen while the vertex is pointed at."""
        found: Optional[Label] = self.labels[at]
        hidden = "" if found else " hidden"
        text = short(shown(name))
        where = found or label_within(self.at[at], self.radii[at], text)
        return (f'<text class="name{hidden}" x="{where.x:.1f}" y="{where.y:.1f}" text-anchor="{where.anchor}">{escape(text)}'
                "</text>")


def sample(state: str) -> str:
    """How edges of a state are drawn, for the legend and the tables."""
    dot = '<circle class="dot" cx="17" cy="6" r="3.4"/>' if state == CHANGED else ""
    return (f'<svg class="sample" viewBox="0 0 34 12" aria-hidden="true"><g class="edge {state}"><path class="line" d="M1 6H26"/>'
            f'<path class="head" d="{_head((33.0, 6.0), 1.0, 0.0)}"/>{dot}</g></svg>')
