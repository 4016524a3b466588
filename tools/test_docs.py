#!/usr/bin/env python3
"""Tests of tools/docs: over a small tree with hostile texts, over this repository, and in headless Chromium where it is there."""
from __future__ import annotations

import html
import json
import pathlib
import re
import shutil
import subprocess
import sys
import tempfile
import unittest
from html.parser import HTMLParser
from typing import Dict, List, Optional, Set, Tuple

TOP = pathlib.Path(__file__).resolve().parent.parent
BROWSERS = ("chromium", "chromium-browser", "google-chrome")
CHROMIUM: Optional[str] = next((it for it in (shutil.which(name) for name in BROWSERS) if it), None)
EMPTY = {"meta", "link", "input"}
HOSTILE = "</pre></script><script>hostile()</script><img src=x onerror=hostile()> & \"quoted\" 'it'"
LOW = f"""//! A crate of `boxes`, and {HOSTILE}
#![tactic(auto)]

mod boxes;

pub use boxes::{{BoxError, LIMIT, SmallBox, is_small}};
"""
BOXES = f"""//! Boxes.

ghost use Rattle.std.specs.Prelude.{{◌≡◌, ℕ}};
ghost use Rattle.low.specs.Sizes as sizes;
ghost use Rattle.low.specs.Sizes.{{IsSmall}};

/// How large a box is at most.
pub const LIMIT: u32 = 9;

/// Why there is no box.
#[derive(Clone, Copy, Debug)]
pub enum BoxError {{
    /// {HOSTILE}
    TooLarge,
}}

/// A box with a size. {HOSTILE}
///
/// - `first`: {HOSTILE}
/// - second
///
/// ```
/// let small = SmallBox::new(3)?; // {HOSTILE}
/// ```
#[derive(Debug)]
pub struct SmallBox {{
    pub size: u32,
    hidden: u32,
}}

impl Model for SmallBox {{
    ghost Value = {{ ℕ }};

    ghost view = {{ λ b. sizes.size_of b }};
}}

impl SmallBox {{
    /// A box of this size, e.g. of 3. See [`is_small`]. {HOSTILE}
    pub fn new(
        size: u32,
    ) -> Result<SmallBox, BoxError>
        requires few {{ size < 10 }}
        ensures small {{ IfOk result (λ b. IsSmall b.size)
            × sizes.twice size ≡ size }}
        ensures {{ "</script>" ≡ "{HOSTILE}" }}
    {{
        let private = 1;
        Ok(SmallBox {{ size, hidden: private }})
    }}

    /// Not for others.
    fn secret(&self) {{}}
}}

impl Clone for SmallBox {{
    /// A copy.
    fn clone(&self) -> SmallBox
        ensures {{ result ≡ self.now }}
    {{
        secret(self)
    }}
}}

/// Whether it is small.
pub fn is_small(size: u32) -> bool
    ensures {{ IsTrue result ↔ IsSmall size }}
{{
    size < 10
}}

/// Not handed on.
pub fn unexported() {{}}
"""
SIZES = f"""use Rattle.std.specs.Prelude.{{ℕ, ◌<◌}}

-- Sizes

-- a size is small: {HOSTILE}
abbrev pub IsSmall : ℕ → Type 0
IsSmall size = bounded size 10

abbrev pub bounded : ℕ → ℕ → Type 0
bounded size most = size < most

abbrev pub size_of : SmallBox → ℕ
size_of b = b.size

abbrev pub twice : ℕ → ℕ
twice size = size + size

abbrev pub cited_by_nothing : ℕ
cited_by_nothing = 7
"""
MAP = "# Contributing\n\n## Architecture\n\n### The map\n\n| crate | cost |\n|---|---|\n| `low`, `high` | 7, 2 |\n\n## More\n"


class Reader(HTMLParser):
    """A page's text, its ids, where its links lead, its elements with their counts, and the text of what has an id."""

    def __init__(self, page: str) -> None:
        super().__init__()
        self.ids: List[str] = []
        self.links: Set[str] = set()
        self.elements: Dict[str, int] = {}
        self.texts: Dict[str, str] = {}
        self.attributes: Set[str] = set()
        self._open: List[Tuple[str, str]] = []
        self.feed(page)
        self.close()

    def handle_starttag(self, tag: str, given: "List[Tuple[str, Optional[str]]]") -> None:
        attributes = {name: value or "" for name, value in given}
        self.elements[tag] = self.elements.get(tag, 0) + 1
        self.attributes |= set(attributes)
        if "id" in attributes:
            self.ids.append(attributes["id"])
        if tag == "a":
            self.links.add(attributes["href"])
        if tag not in EMPTY:
            self._open.append((tag, attributes.get("id", "")))

    def handle_endtag(self, tag: str) -> None:
        while self._open and self._open.pop()[0] != tag:
            pass

    def handle_data(self, text: str) -> None:
        for _, name in self._open:
            if name:
                self.texts[name] = self.texts.get(name, "") + text


class Case(unittest.TestCase):
    def assert_sound(self, page: Reader) -> None:
        """Each link leads to something on the page, each id stands once, and there is one script and nothing that is loaded."""
        self.assertEqual({it for it in page.links if not it.startswith("#") or it[1:] not in page.ids}, set())
        self.assertEqual(len(page.ids), len(set(page.ids)))
        self.assertEqual((page.elements["script"], page.elements["style"]), (1, 1))
        self.assertEqual(set(page.elements) & {"img", "iframe", "object", "form", "base"}, set())
        self.assertEqual({it for it in page.attributes if it.startswith("on") or it == "src"}, set())


class Tree(Case):
    """A tree of two crates, the upper one of a program."""

    def setUp(self) -> None:
        room = tempfile.TemporaryDirectory()
        self.addCleanup(room.cleanup)
        self.top = pathlib.Path(room.name)
        shutil.copytree(TOP / "tools/crate_docs", self.top / "tools/crate_docs")
        for it in ("tools/docs", "tools/statements.py"):
            shutil.copy(TOP / it, self.top / it)
        self.write("crates.txt", "# Crates.\nlow: csv\nhigh may_wait=2: low\n")
        self.write("CONTRIBUTING.md", MAP)
        self.write("crates/low/src/lib.rt", LOW)
        self.write("crates/low/src/boxes.rt", BOXES)
        self.write("crates/low/specs/Sizes.antt", SIZES)
        self.write("crates/high/src/main.rt", "//! A program.\n\nfn main() {}\n")

    def write(self, name: str, text: str) -> None:
        path = self.top / name
        path.parent.mkdir(parents=True, exist_ok=True)
        path.write_text(text, encoding="utf-8")

    def run_it(self, *words: str) -> "Tuple[int, str, str]":
        ran = subprocess.run([sys.executable, str(self.top / "tools/docs"), *words], stdout=subprocess.PIPE,
                             stderr=subprocess.PIPE, text=True, cwd="/", timeout=60)
        return ran.returncode, ran.stdout, ran.stderr

    def page(self, *crates: str) -> str:
        path = self.top / "page.html"
        self.assertEqual(self.run_it("--out", str(path), *crates), (0, "", ""))
        return path.read_text(encoding="utf-8")


class Trees(Tree):
    def test_shows_calls_with_their_contracts(self) -> None:
        page = Reader(self.page())
        self.assert_sound(page)
        call = page.texts["low.SmallBox::new"]
        clauses = ("requires few", "size < 10", "ensures small", "× sizes.twice size ≡ size")
        for it in (*clauses, "pub fn new(\n    size: u32,\n)"):
            self.assertIn(it, call)
        self.assertNotIn("private", call)
        self.assertIn("ghost view = { λ b. sizes.size_of b };", page.texts["low.SmallBox"])
        self.assertIn("pub size: u32", page.texts["low.SmallBox"])
        self.assertNotIn("hidden", page.texts["low.SmallBox"])
        self.assertTrue(page.texts["low.SmallBox::clone"].endswith("ensures result ≡ self.now"))
        self.assertEqual([it for it in page.ids if re.search("secret|unexported|main|cited_by_nothing", it)], [])

    def test_leads_to_the_definitions_that_are_cited(self) -> None:
        page = Reader(self.page("low"))
        cited = {f"low.Sizes.{it}" for it in ("IsSmall", "bounded", "size_of", "twice")}
        self.assertEqual({it for it in page.ids if it.startswith("low.Sizes.")}, cited)
        self.assertLessEqual({f"#{it}" for it in cited}, page.links)
        self.assertEqual(page.elements["details"], 4)
        self.assertIn("-- a size is small", page.texts["low.Sizes.IsSmall"])
        self.assertNotIn("abbrev pub bounded", page.texts["low.Sizes.IsSmall"])

    def test_hostile_texts_are_texts(self) -> None:
        page = self.page()
        read = Reader(page)
        for it in ("low", "low.SmallBox", "low.BoxError", "low.SmallBox::new", "low.Sizes.IsSmall"):
            self.assertIn(HOSTILE, read.texts[it])
        self.assertEqual(page.count("<script"), 1)
        self.assertEqual(page.count("</script"), 1)

    def test_an_unknown_crate_is_refused(self) -> None:
        status, lines, faults = self.run_it("--out", str(self.top / "page.html"), "low", "lower")
        self.assertEqual((status, lines, faults), (1, "", "docs: crates.txt has no line of lower\n"))
        self.assertFalse((self.top / "page.html").exists())

    def test_writes_the_lists_and_says_which_are_stale(self) -> None:
        self.assertEqual(self.run_it("--check")[:2], (1, "crates/low/README.md is missing\ncrates/high/README.md is missing\n"))
        self.write("crates/low/README.md", "# low\n\nBoxes.\n")
        self.assertEqual(self.run_it("--check")[1].splitlines()[0],
                         "crates/low/README.md: its list is stale: tools/docs --readmes writes it")
        self.assertEqual(self.run_it("--readmes")[0], 0)
        self.assertEqual(self.run_it("--check"), (0, "", ""))
        text = (self.top / "crates/low/README.md").read_text()
        self.assertTrue(text.startswith("# low\n\nBoxes.\n\n## Public calls\n"))
        self.assertIn("| [`SmallBox`](src/boxes.rt) | A box with a size. | `new` |\n", text)
        self.assertIn("| [`is_small`](src/boxes.rt) | Whether it is small. | |\n", text)
        self.assertIn("| other types | | `LIMIT`, `BoxError` |\n", text)
        self.assertIn("It stands on no other crate of this repository, and takes `csv` from the kit.\n", text)
        self.assertIn("costs 7 minutes", text)
        self.assertIn("one crate stands on it.\n`rt ci $(tools/crates-above low)`", text)

    def test_a_crate_that_was_not_measured_takes_no_other_s_cost(self) -> None:
        self.write("crates.txt", "low:\nhigh: low\nroof: high\n")
        self.write("crates/roof/src/main.rt", "//! Another program.\n\nfn main() {}\n")
        self.write("CONTRIBUTING.md", MAP.replace("`low`, `high` | 7, 2", "`low`, `high`, `roof` | 7, not measured, over 2"))
        self.assertEqual(self.run_it("--readmes")[0], 0)
        costs = {it: (self.top / f"crates/{it}/README.md").read_text() for it in ("low", "high", "roof")}
        self.assertIn("A change costs 7 minutes", costs["low"])
        self.assertIn("A change has to be proved (", costs["high"])
        self.assertIn("A change costs over 2 minutes", costs["roof"])

    def test_a_list_is_stale_once_its_source_has_changed(self) -> None:
        self.run_it("--readmes")
        self.write("crates/low/README.md", (self.top / "crates/low/README.md").read_text() + "\n## Choices\n\nNone.\n")
        self.assertEqual(self.run_it("--check"), (0, "", ""))
        self.write("crates/low/src/boxes.rt", BOXES.replace("pub fn new(", "pub fn of_size("))
        self.assertEqual(self.run_it("--check")[1], "crates/low/README.md: its list is stale: tools/docs --readmes writes it\n")
        self.assertEqual(self.run_it("--readmes")[1], "crates/low/README.md\n")
        text = (self.top / "crates/low/README.md").read_text()
        self.assertIn("| `of_size` |", text)
        self.assertTrue(text.endswith("\n## Choices\n\nNone.\n"))


class Repository(Case):
    def test_the_page_of_all_crates(self) -> None:
        """Each public function that a library's file has under a name that lib.rt hands on is on the page, with its clauses."""
        with tempfile.TemporaryDirectory() as room:
            path = pathlib.Path(room, "page.html")
            subprocess.run([sys.executable, str(TOP / "tools/docs"), "--out", str(path)], check=True, timeout=60)
            page = Reader(path.read_text(encoding="utf-8"))
        self.assert_sound(page)
        text = (TOP / "crates/block_reclamation/src/board.rt").read_text(encoding="utf-8").partition("impl Board {")[2]
        calls = re.findall(r"^    pub fn (\w+)", text, re.M)
        self.assertGreater(len(calls), 5)
        self.assertEqual([it for it in calls if f"block_reclamation.Board::{it}" not in page.ids], [])
        shown = "".join(page.texts[f"block_reclamation.Board::{it}"] for it in calls)
        clauses = re.findall(r"^        (requires|ensures) (?:(\w+) )?\{ (.*) \}$", text, re.M)
        self.assertEqual([it for it in clauses if it[2] not in shown or f"{it[0]} {it[1]}" not in shown], [])
        declared = set(re.findall(r"\b(misteluk_\w+)\(", (TOP / "include/misteluk.h").read_text(encoding="utf-8")))
        offered = {it.partition(".")[2] for it in page.ids if it.startswith("misteluk_c.misteluk_")}
        self.assertLessEqual(offered, declared)
        self.assertGreater(len(offered), 30)

    def test_the_facade_has_the_names_of_its_page(self) -> None:
        """What docs/RATTLE.md says that the crate `misteluk` re-exports, which nobody generates, is what it does re-export."""
        page = (TOP / "docs/RATTLE.md").read_text(encoding="utf-8")
        table = page.split("\n## What the crate re-exports\n")[1].split("\n## ")[0]
        listed = re.findall(r"`(\w+)`", table)
        facade = (TOP / "crates/misteluk/src/lib.rt").read_text(encoding="utf-8")
        groups = re.findall(r"^pub use \w+::(?:\{([^}]*)\}|(\w+));", facade, re.M)
        self.assertEqual(sorted(re.findall(r"\w+", " ".join(many or one for many, one in groups))), sorted(set(listed)))


DEEDS = """<script>
    const seen = {};
    const field = document.getElementById("search");
    const visible = () => Array.from(document.querySelectorAll(".item"))
        .filter((it) => it.getClientRects().length).map((it) => it.id);
    const type = (text) => { field.value = text; field.dispatchEvent(new Event("input"));
        return [visible(), document.getElementById("count").textContent]; };
    seen.all = visible().length;
    seen.one = type("WHETHER small");
    seen.clause = type("few size");
    seen.none = type("absent");
    seen.section = document.getElementById("low").hidden;
    location.hash = "#low.Sizes.bounded";
    lead();
    seen.opened = document.getElementById("low.Sizes.bounded").open;
    seen.cleared = [field.value, visible().length];
    seen.wide = document.scrollingElement.scrollWidth - window.innerWidth;
    document.body.innerHTML = ""; document.body.textContent = JSON.stringify(seen);
</script>"""


@unittest.skipUnless(CHROMIUM, "chromium is not there")
class Browsers(Tree):
    def browse(self, page: str) -> "Tuple[str, str]":
        """What headless Chromium makes of a page as wide as a phone, and what it said meanwhile."""
        path = self.top / "shown.html"
        path.write_text(page, encoding="utf-8")
        command = [CHROMIUM or "", "--headless", "--no-sandbox", "--disable-gpu", "--disable-extensions", "--no-first-run",
                   "--enable-logging=stderr", f"--user-data-dir={self.top}/browser", "--window-size=500,900", "--dump-dom",
                   path.as_uri()]
        ran = subprocess.run(command, stdout=subprocess.PIPE, stderr=subprocess.PIPE, timeout=120, check=True)
        return ran.stdout.decode("utf-8"), ran.stderr.decode("utf-8", "replace")

    def test_searching_and_following_a_link(self) -> None:
        shown, said = self.browse(self.page().replace("</body>", DEEDS + "</body>"))
        self.assertEqual([line for line in said.splitlines() if "CONSOLE" in line], [])
        body = re.search(r"<body[^>]*>(.*)</body>", shown, re.S)
        assert body
        seen = json.loads(html.unescape(body[1]))
        # (six items of `low`, and the four definitions that they cite)
        self.assertEqual(seen["one"], [["low.is_small"], "1 of 10"])
        self.assertEqual(seen["clause"], [["low.SmallBox::new"], "1 of 10"])
        self.assertEqual((seen["none"], seen["section"]), ([[], "0 of 10"], True))
        self.assertEqual((seen["all"], seen["cleared"]), (10, ["", 10]))
        self.assertTrue(seen["opened"])
        self.assertLessEqual(seen["wide"], 0)

    def test_an_error_would_be_seen(self) -> None:
        _, said = self.browse(self.page().replace("</body>", "<script>absent();</script></body>"))
        self.assertEqual(len([line for line in said.splitlines() if "CONSOLE" in line and "absent is not defined" in line]), 1)


if __name__ == "__main__":
    unittest.main()
