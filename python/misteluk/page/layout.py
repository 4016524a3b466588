"""Places for the vertices of a picture and for their labels: the same for the same graph, each time.

Vertices begin on rings by hop, each in the slice of the one that it was reached from; then springs along edges and a push between
all pairs let them settle. Nothing is drawn by lot.
"""
from __future__ import annotations

import unicodedata
from math import cos, pi, sin, sqrt
from typing import Dict, List, NamedTuple, Optional, Sequence, Set, Tuple

Point = Tuple[float, float]
Pair = Tuple[int, int]
WIDTH, HEIGHT = 680.0, 540.0
# What is kept free at a side, for labels, and at the top and the foot.
SIDE, EDGE = 74.0, 30.0
# How often the vertices settle at most, and how many pairs are looked at in all: a picture is made in a second.
MOST_ROUNDS, MOST_PAIRS = 320, 1_200_000
# A label is wider than high, so vertices that stand beside each other are kept farther apart than those above each other.
BESIDE = 1.45
LETTER, LINE = 6.7, 13.0
# Letters and signs that are wider than others, capitals aside.
BROAD = "mwMW@%\N{EM DASH}"
MOST_SIGNS = 22
# How much of a label may be covered, as a part of it; one that would be covered more is not written.
MOST_COVERED = 0.12


class Label(NamedTuple):
    """Where a label stands: its anchor's point, and "start", "middle" or "end"."""

    x: float
    y: float
    anchor: str


class Box(NamedTuple):
    left: float
    top: float
    right: float
    bottom: float

    def shared(self, other: "Box") -> float:
        """The area that both have."""
        across = min(self.right, other.right) - max(self.left, other.left)
        down = min(self.bottom, other.bottom) - max(self.top, other.top)
        return across * down if across > 0 and down > 0 else 0.0


def neighbors_of(count: int, pairs: Sequence[Pair]) -> List[List[int]]:
    """Each vertex's neighbors, without itself, in order."""
    found: List[Set[int]] = [set() for _ in range(count)]
    for a, b in pairs:
        if a != b:
            found[a].add(b)
            found[b].add(a)
    return [sorted(it) for it in found]


def place(hops: Sequence[int], pairs: Sequence[Pair]) -> List[Point]:
    """A place for each vertex, by its hops from the first one and the pairs that edges join."""
    beside = neighbors_of(len(hops), pairs)
    at = _rings(hops, beside)
    if len(hops) > 2:
        _settle(at, hops, beside)
    return _fitted(at)


def _rings(hops: Sequence[int], beside: Sequence[Sequence[int]]) -> List[List[float]]:
    """The first places: the first vertex in the middle, each other one on its hop's ring, in the slice of its parent."""
    children: Dict[Optional[int], List[int]] = {}
    for it, hop in enumerate(hops):
        parent = next((other for other in beside[it] if hops[other] == hop - 1), None if it == 0 else 0)
        children.setdefault(parent, []).append(it)
    leaves: Dict[int, int] = {}
    for it in sorted(range(len(hops)), key=lambda it: -hops[it]):
        leaves[it] = max(1, sum(leaves.get(child, 1) for child in children.get(it, [])))
    at = [[0.0, 0.0] for _ in hops]
    slices: List[Tuple[int, float, float]] = [(0, 0.0, 1.0)]
    while slices:
        parent, begin, end = slices.pop()
        step = (end - begin) / leaves[parent]
        for child in children.get(parent, []):
            width = step * leaves[child]
            angle = 2 * pi * (begin + width / 2)
            # (rounded, since the last digits of a sine are a machine's own)
            at[child] = [round(hops[child] * cos(angle), 6), round(hops[child] * sin(angle), 6)]
            slices.append((child, begin, begin + width))
            begin += width
    return at


def _settle(at: List[List[float]], hops: Sequence[int], beside: Sequence[Sequence[int]]) -> None:
    """Moves the vertices, less from round to round; the first one stays in the middle."""
    count = len(at)
    rounds = max(40, min(MOST_ROUNDS, 2 * MOST_PAIRS // (count * count)))
    ideal = 2.2 * max(hops) / sqrt(count) if max(hops) else 1.0
    for turn in range(rounds):
        push = _pushes(at, ideal)
        _pull(at, push, beside, ideal)
        most = ideal * (0.6 * (1 - turn / rounds) + 0.02)
        for it in range(1, count):
            _hold_to_ring(at[it], push[it], hops[it])
            across, down = push[it]
            length = sqrt(across * across + down * down) or 1.0
            scale = min(length, most) / length
            at[it][0] += across * scale
            at[it][1] += down * scale


def _pushes(at: Sequence[Sequence[float]], ideal: float) -> List[List[float]]:
    """How each vertex is pushed off by all others."""
    across_all, down_all = [it[0] / BESIDE for it in at], [it[1] for it in at]
    push_across, push_down = [0.0] * len(at), [0.0] * len(at)
    strength = ideal * ideal
    for it, (x, y) in enumerate(zip(across_all, down_all)):
        mine_across = mine_down = 0.0
        for other in range(it):
            across, down = x - across_all[other], y - down_all[other]
            force = strength / (across * across + down * down + 1e-6)
            across, down = across * force, down * force
            mine_across += across
            mine_down += down
            push_across[other] -= across
            push_down[other] -= down
        push_across[it] += mine_across
        push_down[it] += mine_down
    return [[across, down] for across, down in zip(push_across, push_down)]


def _pull(at: Sequence[Sequence[float]], push: List[List[float]], beside: Sequence[Sequence[int]], ideal: float) -> None:
    """Adds how each vertex is drawn to its neighbors; one that has many draws each less."""
    for it, others in enumerate(beside):
        for other in others:
            across, down = at[other][0] - at[it][0], at[other][1] - at[it][1]
            length = sqrt(across * across + down * down)
            force = length / ideal / sqrt(max(len(others), len(beside[other])))
            push[it][0] += across * force
            push[it][1] += down * force


def _hold_to_ring(point: Sequence[float], push: List[float], hop: int) -> None:
    """Adds a pull to the vertex's ring, so that hops can be seen."""
    length = sqrt(point[0] * point[0] + point[1] * point[1]) or 1.0
    force = 0.9 * (hop - length) / length
    push[0] += point[0] * force
    push[1] += point[1] * force


def _fitted(at: Sequence[Sequence[float]]) -> List[Point]:
    """The places in the picture's own measure, as far apart as there is room."""
    if len(at) == 1:
        return [(WIDTH / 2, HEIGHT / 2)]
    found: List[Tuple[float, ...]] = []
    for axis, (room, margin) in enumerate(((WIDTH, SIDE), (HEIGHT, EDGE))):
        values = [it[axis] for it in at]
        least, most = min(values), max(values)
        scale = (room - 2 * margin) / (most - least) if most - least > 1e-9 else 0.0
        middle = (least + most) / 2
        found.append(tuple(round(room / 2 + (it - middle) * scale, 1) for it in values))
    return list(zip(found[0], found[1]))


# Labels.

def short(text: str) -> str:
    """The text as a label has it: at most so many signs."""
    return text if len(text) <= MOST_SIGNS else text[:MOST_SIGNS - 1] + "\N{HORIZONTAL ELLIPSIS}"


def width_of(text: str) -> float:
    """About how wide a label is."""
    wide = sum(unicodedata.east_asian_width(it) in "WF" for it in text)
    other = sum(it > "\u02ff" for it in text) - wide
    broad = 0.25 * sum(map(str.isupper, text)) + 0.45 * sum(it in BROAD for it in text)
    return LETTER * (len(text) + 0.9 * wide + 0.12 * max(other, 0) + broad) + 2


def _box(label: Label, width: float) -> Box:
    left = label.x - {"start": 0.0, "middle": width / 2, "end": width}[label.anchor]
    return Box(left, label.y - LINE + 3, left + width, label.y + 3)


def _choices(point: Point, radius: float) -> List[Label]:
    """Where a vertex's label may stand, the best place first: outward from the middle."""
    x, y = point
    gap = radius + 4
    right, left = Label(x + gap, y + 4, "start"), Label(x - gap, y + 4, "end")
    above, below = Label(x, y - gap - 1, "middle"), Label(x, y + gap + 10, "middle")
    slope = 0.75 * gap
    corners = [Label(x + slope, y - slope, "start"), Label(x + slope, y + slope + 9, "start"),
               Label(x - slope, y - slope, "end"), Label(x - slope, y + slope + 9, "end")]
    sides = [right, left] if x >= WIDTH / 2 else [left, right]
    ends = [below, above] if y >= HEIGHT / 2 else [above, below]
    is_flat = abs(x - WIDTH / 2) > 0.5 * abs(y - HEIGHT / 2)
    return [*(sides[:1] + ends[:1] if is_flat else ends[:1] + sides[:1]), ends[1], sides[1], *corners]


def _is_out(box: Box) -> bool:
    """Whether a border of the picture cuts it."""
    return box.left < 2 or box.right > WIDTH - 2 or box.top < 2 or box.bottom > HEIGHT - 2


def label_within(at: Point, radius: float, text: str) -> Label:
    """A place within the picture for a label that has no room beside the others, and stands over them while it is to be seen."""
    choices = _choices(at, radius)
    return next((it for it in choices if not _is_out(_box(it, 1.15 * width_of(text)))), choices[0])


def labels(at: Sequence[Point], radii: Sequence[float], texts: Sequence[str],
           lines: Sequence[Point] = ()) -> Tuple[List[Optional[Label]], List[Box]]:
    """A place for each vertex's label, those of the first vertices first, or `None` where there is no room beside the vertices
    and the labels before it; and the room that vertices and labels take. `lines` are points that a label covers unwillingly."""
    taken = [Box(x - it, y - it, x + it, y + it) for (x, y), it in zip(at, radii)]
    found: List[Optional[Label]] = []
    for it, text in enumerate(texts):
        width = width_of(text) * (1 if it else 1.15)  # (the first one's is bold)
        best: Tuple[float, Optional[Label]] = (width * LINE * MOST_COVERED + 6.0 * len(lines) if it else 1e9, None)
        for rank, choice in enumerate(_choices(at[it], radii[it])):
            box = _box(choice, width)
            cost = 2.0 * rank + 1e6 * _is_out(box) + sum(map(box.shared, taken)) + 6.0 * _covered(box, lines)
            best = min(best, (cost, choice), key=lambda it: it[0])
        if best[1] is not None:
            taken.append(_box(best[1], width))
        found.append(best[1])
    return found, taken


def free_place(choices: Sequence[Point], text: str, taken: List[Box], lines: Sequence[Point] = ()) -> Point:
    """The point for a small text's middle that covers least of what is taken, and few of the points of lines; its room is taken
    then."""
    half = width_of(text) * 0.42
    boxes = [Box(x - half, y - 9, x + half, y + 3) for x, y in choices]
    costs = [sum(map(box.shared, taken)) + 6.0 * _covered(box, lines) + 2.0 * rank for rank, box in enumerate(boxes)]
    best = costs.index(min(costs))
    taken.append(boxes[best])
    return choices[best]


def _covered(box: Box, points: Sequence[Point]) -> int:
    return sum(box.left < x < box.right and box.top < y < box.bottom for x, y in points)
