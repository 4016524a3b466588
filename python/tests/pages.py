"""What the tests of pages share: a reader of a page's text, and where headless Chromium is, if it is there."""
from __future__ import annotations

import shutil
from html.parser import HTMLParser
from typing import Dict, List, Optional, Tuple

CHROMIUM = next(filter(None, map(shutil.which, ("chromium", "chromium-browser", "google-chrome"))), None)
NO_CHROMIUM = "chromium is not there"
EMPTY = {"meta", "input", "path", "circle", "br", "link"}


class Reader(HTMLParser):
    """The tables of a page by their ids, as texts of cells; its pictures, as the classes and data of their groups with what is
    told of them; the texts of elements that have an id; and how often each kind of element stands in it."""

    def __init__(self, page: str) -> None:
        super().__init__()
        self.tables: Dict[str, List[List[str]]] = {}
        self.pictures: List[List[Dict[str, str]]] = []
        self.texts: Dict[str, str] = {}
        self.elements: Dict[str, int] = {}
        self._open: List[Tuple[str, Dict[str, str]]] = []
        self.feed(page)
        self.close()

    def handle_starttag(self, tag: str, given: List[Tuple[str, Optional[str]]]) -> None:
        attributes = {name: value or "" for name, value in given}
        self.elements[tag] = self.elements.get(tag, 0) + 1
        if tag == "table":
            self.tables[attributes["id"]] = []
        elif tag == "tr":
            self._table().append([])
        elif tag in ("td", "th"):
            self._table()[-1].append("")
        elif tag == "svg" and "picture" in attributes.get("class", ""):
            self.pictures.append([])
        elif tag == "g" and self._is_in("svg", "picture") and "class" in attributes:
            self.pictures[-1].append({**attributes, "told": ""})
        if tag not in EMPTY:
            self._open.append((tag, attributes))

    handle_startendtag = handle_starttag

    def handle_endtag(self, tag: str) -> None:
        while tag not in EMPTY and self._open and self._open.pop()[0] != tag:
            pass

    def handle_data(self, text: str) -> None:
        for _, attributes in self._open:
            if "id" in attributes:
                self.texts[attributes["id"]] = self.texts.get(attributes["id"], "") + text
        if any(tag in ("td", "th") for tag, _ in self._open):
            self._table()[-1][-1] += text
        elif self._is_in("title", "") and self._is_in("svg", "picture"):
            self.pictures[-1][-1]["told"] += text

    def _table(self) -> List[List[str]]:
        return list(self.tables.values())[-1]

    def _is_in(self, tag: str, kind: str) -> bool:
        return any(it == tag and kind in attributes.get("class", "") for it, attributes in self._open)

    def groups(self, picture: int, kind: str) -> List[Dict[str, str]]:
        """The groups of a picture that have a class."""
        return [it for it in self.pictures[picture] if kind in it["class"].split()]
