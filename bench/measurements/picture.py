"""Draws the figures that `compare` kept: for each work the time of each program as a ratio to the store of maps, on a log
scale."""
from __future__ import annotations

import argparse
import csv
import html
import math
import pathlib
from typing import Dict, List, Tuple

from bench.measuring import stop

NAMES = {"maps": "store of maps", "third": "the same shape in Rust", "stinger": "stinger run"}
WORKS = {"bfs": "levels", "comp": "labels", "core": "core numbers", "deg": "degrees"}
WORKS |= {f"sparse {word}": f"{name}, a tree" for word, name in WORKS.items()} | {"sparse load": "load, a tree"}
COLORS = {"maps": "#7f7f7f", "third": "#1f77b4", "stinger": "#d62728"}
LEFT, RIGHT, TOP, ROW, WIDTH = 190, 24, 64, 26, 760
Row = Tuple[str, Dict[str, float]]


def options(parser: argparse.ArgumentParser) -> None:
    parser.add_argument("figures", type=pathlib.Path, nargs="?", default=pathlib.Path("docs/pictures/compare.csv"),
                        help="the figures (docs/pictures/compare.csv)")
    parser.add_argument("picture", type=pathlib.Path, nargs="?", help="the picture (the same name with .svg)")


def read(path: pathlib.Path) -> List[Row]:
    """Returns the ratios to the maps of each work that has a time for them, as (work, {program: ratio}). The start is left out,
    in which the maps do nothing."""
    with open(path, newline="") as file:
        rows = [row for row in csv.DictReader(file) if row["unit"] == "s" and row["work"] != "start"]
    times = [(WORKS.get(row["work"], row["work"]), {name: float(row[name]) for name in NAMES if row.get(name)}) for row in rows]
    return [(work, {name: time / of["maps"] for name, time in of.items()}) for work, of in times if of.get("maps", 0) > 0]


class Picture:
    def __init__(self, rows: List[Row]) -> None:
        ratios = [ratio for _, of in rows for ratio in of.values()]
        self.low, self.high = math.log2(min(ratios)) - 0.3, math.log2(max(ratios)) + 0.3
        self.rows, self.height = rows, TOP + ROW * len(rows) + 40
        self.parts: List[str] = []

    def x(self, ratio: float) -> float:
        return LEFT + (math.log2(ratio) - self.low) / (self.high - self.low) * (WIDTH - LEFT - RIGHT)

    def text(self, x: float, y: float, text: str, anchor: str = "start", color: str = "#333") -> None:
        self.parts.append(f'<text x="{x:.1f}" y="{y:.1f}" text-anchor="{anchor}" fill="{color}">{html.escape(text)}</text>')

    def scale(self) -> None:
        """A line for each power of two, the one at 1 stronger."""
        bottom = TOP + ROW * len(self.rows)
        for power in range(math.ceil(self.low), math.floor(self.high) + 1):
            x, color = self.x(2.0**power), "#999" if power == 0 else "#e3e3e3"
            self.parts.append(f'<line x1="{x:.1f}" y1="{TOP - 8}" x2="{x:.1f}" y2="{bottom}" stroke="{color}"/>')
            self.text(x, bottom + 18, f"{2**power}" if power >= 0 else f"1/{2**-power}", "middle")
        self.text(WIDTH - RIGHT, bottom + 34, "processor time, as a multiple of the store of maps", "end")

    def row(self, place: int, work: str, of: Dict[str, float]) -> None:
        y = TOP + ROW * place + ROW / 2
        ends = [self.x(ratio) for ratio in of.values()]
        self.text(LEFT - 12, y + 4, work, "end")
        self.parts.append(f'<line x1="{min(ends):.1f}" y1="{y}" x2="{max(ends):.1f}" y2="{y}" stroke="#ccc"/>')
        for name, ratio in of.items():
            title = f"<title>{html.escape(f'{NAMES[name]}: {ratio:.2f}')}</title>"
            self.parts.append(f'<circle cx="{self.x(ratio):.1f}" cy="{y}" r="5" fill="{COLORS[name]}">{title}</circle>')

    def legend(self) -> None:
        shown = [name for name in NAMES if any(name in of for _, of in self.rows)]
        for place, name in enumerate(shown):
            x = LEFT + 190 * place
            self.parts.append(f'<circle cx="{x}" cy="26" r="5" fill="{COLORS[name]}"/>')
            self.text(x + 12, 30, NAMES[name])

    def svg(self) -> str:
        self.legend()
        self.scale()
        for place, (work, of) in enumerate(self.rows):
            self.row(place, work, of)
        size = f'viewBox="0 0 {WIDTH} {self.height}" width="{WIDTH}" height="{self.height}"'
        head = f'<svg xmlns="http://www.w3.org/2000/svg" {size}'
        style = 'font-family="sans-serif" font-size="13"'
        ground = f'<rect width="{WIDTH}" height="{self.height}" fill="white"/>'
        return "\n".join([f"{head} {style}>", ground, *self.parts, "</svg>", ""])


def measure(words: argparse.Namespace, _: pathlib.Path) -> None:
    rows = read(words.figures)
    if not rows:
        stop(f"{words.figures} has no row with a time of the maps")
    (words.picture or words.figures.with_suffix(".svg")).write_text(Picture(rows).svg())
