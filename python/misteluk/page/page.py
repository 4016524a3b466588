"""A page of a neighborhood: one HTML text that needs nothing else, with pictures in SVG, tables and a search field.

Names stand in it as text alone, never in its script, and it may load nothing (its Content-Security-Policy says so).
"""
from __future__ import annotations

import pkgutil
from html import escape
from typing import Any, Iterator, List, NamedTuple, Optional, Sequence, Tuple

from .drawing import Drawing, sample, text_of, time_text
from ..values.names import shown
from .neighborhood import CHANGED, GONE, KEPT, MOST_ASKED, MOST_EDGES, MOST_VERTICES, NEW, STATES, Key, Neighborhood

# What the legend says of a state.
TOLD = {GONE: "gone", NEW: "new", CHANGED: "changed (weight or time)", KEPT: "kept"}
BEFORE_AND_AFTER = ("before", "after", "\N{PLUS-MINUS SIGN}")
POLICY = "default-src 'none'; style-src 'unsafe-inline'; script-src 'unsafe-inline'"


class Column(NamedTuple):
    """A column of a table, or those below one head."""

    text: str
    below: Tuple[str, ...] = ()
    is_text: bool = False


def _part(name: str) -> str:
    """A file of the package."""
    return (pkgutil.get_data(__package__ or "misteluk", name) or b"").decode("utf-8")


def script() -> str:
    """The one script that a page has, the same in each."""
    return f"\n{_part('page.js')}"


def style() -> str:
    """How a page looks, also the one of a server."""
    return _part("base.css")


def counted(count: int, word: str) -> str:
    """How many there are, in words."""
    many = "vertices" if word == "vertex" else f"{word}s"
    return f"{count:,} {word if count == 1 else many}"


def _heads(columns: Sequence[Column]) -> str:
    """The heads of a table, which order it."""
    def button(text: str) -> str:
        at = len(ordered)
        ordered.append(text)
        return f'<button type="button" data-column="{at}">{escape(text)}</button>'
    ordered: List[str] = []
    upper, lower = [], []
    high = ' rowspan="2"' if any(it.below for it in columns) else ""
    for it in columns:
        kind = ' class="text"' if it.is_text else ""
        if it.below:
            upper.append(f'<th colspan="{len(it.below)}">{escape(it.text)}</th>')
            lower += [f"<th>{button(text)}</th>" for text in it.below]
        else:
            upper.append(f"<th{kind}{high}>{button(it.text)}</th>")
    return "".join(f"<tr>{''.join(row)}</tr>" for row in (upper, lower) if row)


def _name(text: str) -> str:
    """A cell of a name."""
    return f'<td class="text"><div>{escape(shown(text))}</div></td>'


def _number(value: Any, kind: str = "") -> str:
    """A cell of a count or weight; where there is none it has a dash."""
    if value is None:
        return f'<td class="none{kind}" data-value="">\N{EN DASH}</td>'
    return f'<td class="number{kind}" data-value="{value}">{text_of(value)}</td>'


def _both(values: Sequence[Any]) -> str:
    """A cell for each version's value; and for two one of the difference, with its sign. What isn't there counts as 0."""
    cells = _number(values[0], " lead") + "".join(map(_number, values[1:]))
    if len(values) == 1:
        return cells
    before, after = (0 if it is None else it for it in values)
    more = after - before
    more = round(more, 9) if isinstance(more, float) else more
    way, sign = ("less", "") if more < 0 else ("more", "+") if more > 0 else ("none", "")
    return f'{cells}<td class="{way}" data-value="{more}">{sign}{text_of(more)}</td>'


def _time(values: Sequence[Any]) -> str:
    """A cell of an edge's time: the last version's that has it, and the one before where it was another."""
    was = f' title="before: {time_text(values[0])}"' if values[0] != values[-1] else ""
    return f'<td class="time" data-value="{values[-1]}"{was}>{time_text(values[-1])}</td>'


class Page:
    """The parts of a page."""

    def __init__(self, it: Neighborhood, title: Optional[str] = None) -> None:
        self.it, self.drawing = it, Drawing(it)
        self.title = title or f"Around {shown(it.around)}"
        self.is_two = len(it.sides) == 2
        self.states = it.states
        self.below = BEFORE_AND_AFTER if self.is_two else ()

    def text(self) -> str:
        """All of it."""
        pictures, tables = self._pictures(), f'<div class="tables">\n{self._vertices()}{self._edges()}</div>\n'
        return (f'<!DOCTYPE html>\n<html lang="en">\n<head>\n<meta charset="utf-8">\n'
                f'<meta http-equiv="Content-Security-Policy" content="{POLICY}">\n'
                f'<meta name="viewport" content="width=device-width, initial-scale=1">\n<title>{escape(self.title)}</title>\n'
                f"<style>\n{style()}{_part('page.css')}</style>\n</head>\n<body>\n<main>\n{self._header()}{self._legend()}"
                f'<div class="{"both" if self.is_two else "alone"}">\n{pictures}{tables}</div>\n{self._notes()}</main>\n'
                f"<script>{script()}</script>\n</body>\n</html>\n")

    def _header(self) -> str:
        sides = " beside ".join(side.label for side in self.it.sides)
        within = f"within {counted(self.it.hops, 'hop')} of {shown(self.it.around)}, direction ignored"
        about = f"{_begun(sides)}. {counted(self.it.found, 'vertex')} {within}; {self.it.window}."
        large = '<button id="large" type="button" aria-pressed="false">Larger</button>' if self.is_two else ""
        drawn = f'<p class="drawn" id="drawn">{escape(self._drawn())}: which, is told below.</p>' if self._is_part() else ""
        return (f'<header>\n<div><h1>{escape(self.title)}</h1><p class="about">{escape(about)}</p>{drawn}</div>\n'
                '<div class="search"><output id="told"></output><input id="search" type="search" autocomplete="off" '
                f'placeholder="Find a name" aria-label="Find a name">{large}</div>\n</header>\n')

    def _is_part(self) -> bool:
        """Whether some of the vertices or edges aren't drawn."""
        return self.it.drawn < self.it.found or not self.drawing.has_all_edges

    def _drawn(self) -> str:
        vertices, drawn = f"{self.it.drawn:,} of {counted(self.it.found, 'vertex')}", self.drawing
        edges = "" if drawn.has_all_edges else f", and {len(drawn.states):,} of {counted(drawn.among, 'edge')} among these"
        return f"Drawn are {vertices}{edges}"

    def _legend(self) -> str:
        """What marks mean, with how many edges have each."""
        counts = self.it.counts()
        items = [f'<li id="{state}">{sample(state)}<b>{counts[state]:,}</b> {told}</li>' for state, told in TOLD.items()
                 if self.is_two]
        hops = ["in the middle", "1 hop", "2 hops", "3 hops or more"][:self.it.hops + 1]
        rings = [(f"hop{at}", text) for at, text in enumerate(hops)]
        if self.is_two and any(set(side.hops) < set(self.it.names) for side in self.it.sides):
            rings.append(("hop3 away", "not so near in this version"))
        if len(self.it.names) < self.it.found:
            items.append(f'<li class="is">among the nearest {len(self.it.names):,} of {counted(self.it.found, "vertex")}</li>')
        items += [f'<li class="is"><svg class="sample" style="width:14px" viewBox="0 0 14 12" aria-hidden="true">'
                  f'<g class="vertex {kind}"><circle cx="7" cy="6" r="5.5"/></g></svg>{text}</li>' for kind, text in rings]
        return f'<ul class="legend">\n{"".join(items)}\n</ul>\n'

    def _pictures(self) -> str:
        cards = []
        for side, when in zip(self.it.sides, BEFORE_AND_AFTER):
            vertices = sum(name in side.hops for name in self.drawing.names)
            edges = sum(key in side.edges for key in self.drawing.states)
            head = f"{when.capitalize()}: {side.label}" if self.is_two else _begun(side.label)
            cards.append(_card(head, f"{counted(vertices, 'vertex')}, {counted(edges, 'edge')}", self.drawing.picture(side)))
        return f'<div class="pictures">\n{"".join(cards)}</div>\n'

    def _vertices(self) -> str:
        columns = [Column("name", is_text=True), Column("hops"), *(Column(it, self.below) for it in ("out", "in", "weight out"))]
        rows = []
        for at, name in enumerate(self.it.names[:MOST_VERTICES]):
            degrees = [side.degrees.get(name) for side in self.it.sides]
            counts = [_both([None if it is None else getattr(it, field) for it in degrees])
                      for field in ("out", "into", "weight_out")]
            cells = f'{_name(name)}{_number(self.it.hop[name])}{"".join(counts)}'
            rows.append(f'<tr data-vertex="{at}" data-name="{escape(name)}" tabindex="-1">{cells}</tr>\n')
        return _table("vertices", "Vertices", f"degrees in the whole version; {self.it.window}", columns, rows)

    def _edges(self) -> str:
        has_kinds = len({key[0] for key in self.states}) > 1
        words = [*([""] if self.is_two else []), "from", "to", *(["kind"] if has_kinds else [])]
        columns = [*(Column(it, is_text=True) for it in words), Column("weight", self.below), Column("first"), Column("recent")]
        number = {name: at for at, name in enumerate(self.it.names)}
        rows = []
        for at, (key, state) in zip(range(MOST_EDGES), self.states.items()):
            kind, source, target = key
            mark = f'<td class="mark" data-value="{STATES.index(state)}"><div>{sample(state)}{state}</div></td>'
            cells = [mark if self.is_two else "", _name(source), _name(target), _name(kind) if has_kinds else "", self._told(key)]
            rows.append(f'<tr data-edge="{at}" data-from="{number[source]}" data-to="{number[target]}">{"".join(cells)}</tr>\n')
        about = "times are in UTC" if any(hasattr(it, "tzinfo") for it in self._times()) else ""
        return _table("edges", "Edges", about, columns, rows)

    def _times(self) -> Iterator[Any]:
        return (edge.recent for side in self.it.sides for edge in side.edges.values())

    def _told(self, key: Key) -> str:
        """The cells of an edge's weight in each version, and of its times in the last one that has it."""
        edges = [side.edges.get(key) for side in self.it.sides]
        told = [it for it in edges if it is not None]
        times = _time([it.first for it in told]), _time([it.recent for it in told])
        return _both([None if it is None else it.weight for it in edges]) + "".join(times)

    def _notes(self) -> str:
        it, told = self.it, []
        if self._is_part():
            turns = "in turn those with an edge gone, with a new one, with one that changed and without, and "
            told.append(f"{self._drawn()}: the nearest, {turns if self.is_two else ''}of these the heaviest, by the edges that "
                        "join them to nearer ones.")
        if not self.drawing.has_all_edges:
            told.append(f"Of the edges {'those gone, new or changed come first, then ' if self.is_two else ''}the nearest and of "
                        "these the heaviest are drawn.")
        if len(it.names) > MOST_VERTICES:
            told.append(f"The table has {MOST_VERTICES:,} of {counted(len(it.names), 'vertex')}.")
        if len(self.states) > MOST_EDGES:
            told.append(f"The table has {MOST_EDGES:,} of {counted(len(self.states), 'edge')}.")
        if not it.is_whole:
            told.append(f"Vertices farther away weren't looked for: those that are nearer have more than {MOST_ASKED:,} edges.")
        if self.drawing.unlabeled:
            told.append(f"{counted(self.drawing.unlabeled, 'name')} found no room in the pictures: point at a vertex to see it.")
        told.append("Point at a vertex or a row to see it in the pictures; click to keep it; Escape lets go.")
        return f'<p class="note" id="notes">{escape(" ".join(told))}</p>\n'


def _begun(text: str) -> str:
    """The text as a sentence begins."""
    return text[:1].upper() + text[1:]


def _card(title: str, about: str, what: str) -> str:
    told = f"<span>{escape(about)}</span>" if about else ""
    return f'<section class="card"><div class="head"><h2>{escape(title)}</h2>{told}</div>\n{what}\n</section>\n'


def _table(name: str, title: str, about: str, columns: Sequence[Column], rows: Sequence[str]) -> str:
    table = f'<table id="{name}">\n<thead>{_heads(columns)}</thead>\n<tbody>\n{"".join(rows)}</tbody>\n</table>'
    return _card(title, about, f'<div class="scroll">{table}</div>')
