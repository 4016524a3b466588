"""The page of a view in Chromium: what it says there, what a reader's deeds show, and its colors."""
import html
import json
import pathlib
import unittest

import test_view
from browsing import Browser
from pages import CHROMIUM, NO_CHROMIUM, Reader
from support import Case
from test_view import AFTER, BEFORE, ODD, rows_of

from misteluk import view
from misteluk.page.neighborhood import CHANGED, GONE, KEPT, NEW

GONE_COLOR, NEW_COLOR, CHANGED_COLOR = "#d55e00", "#0072b2", "#93509e"
# A frame that has a process of its own may be late for what is seen.
IN_ONE = ("--disable-features=IsolateSandboxedIframes",)
# What is done to a page by a reader, and what is seen then: names of vertices and edges by their classes, and rows that are left.
DEEDS = """<script>
    const names = (query) => [...new Set(all(query).map((it) => it.getAttribute("aria-label") ?? it.dataset.edge))].sort();
    const rows = (table, cell) => all(`#${table} tbody tr:not(.out)`).map((it) => it.cells[cell].textContent).sort();
    const all = (query) => [...document.querySelectorAll(query)], seen = {};
    const look = (deed) => { seen[deed] = {lit: names(".vertex.lit"), found: names(".vertex.found"), core: names(".vertex.core"),
        edges: all(".edge.lit").length, rows: rows("vertices", 0), edgeRows: rows("edges", 1),
        told: document.getElementById("told").textContent, focused: document.body.classList.contains("focused")}; };
    const vertex = (name, deed) => all(`.vertex[aria-label="${name}"]`)[0].dispatchEvent(new Event(deed));
    const search = document.getElementById("search");
    const type = (text) => { search.value = text; search.dispatchEvent(new Event("input")); };
    look("nothing");
    vertex("ben", "mouseenter"); look("point"); vertex("ben", "mouseleave"); look("away");
    type("AN"); look("search"); type(""); vertex("funnel", "click"); look("click");
    document.dispatchEvent(new KeyboardEvent("keydown", {key: "Escape"})); look("escape");
    all("#edges tbody tr")[0].dispatchEvent(new Event("mouseenter")); look("row");
    const wide = () => all(".pictures section")[0].getBoundingClientRect().width;
    const before = wide(); document.getElementById("large").click(); seen.larger = wide() / before;
    all("#vertices th button")[2].click(); seen.order = all("#vertices tbody tr").map((it) => it.cells[2].textContent);
    document.body.innerHTML = ""; document.body.textContent = JSON.stringify(seen);
</script>"""


@unittest.skipUnless(CHROMIUM, NO_CHROMIUM)
class Browsers(Case):
    pair = test_view.Views.pair

    def browse(self, name, page, *size):
        """A browser that shows a page."""
        browser = Browser(IN_ONE)
        self.addCleanup(browser.close)
        browser.size(*size or (1300, 900))
        browser.go(pathlib.Path(self.file(name, page)).as_uri())
        return browser

    def test_the_page_in_chromium(self):
        """It shows what its text says, runs no script but its own, and loads nothing."""
        store = self.store(*BEFORE)
        for it in ODD:
            store.insert("transfer", it, "funnel", 1)
        store.commit()
        first = store.open()
        self.feed(store, *AFTER)
        found = view(first, "funnel", beside=store.open())
        dom = Reader(self.browse("page.html", found.html).see("document.documentElement.outerHTML"))
        self.assertEqual({row[0] for row in rows_of(dom, "vertices")}, {*ODD, "ana", "ben", "boss", "funnel", "offshore", "zed"})
        self.assertEqual([dom.texts[it].split()[0] for it in (GONE, NEW, CHANGED, KEPT)], ["1", "1", "1", "10"])
        self.assertEqual(dom.elements["script"], 1)

    def test_pointing_searching_clicking(self):
        first, last = self.pair(BEFORE, AFTER)
        page = view(first, "funnel", beside=last).html
        browser = self.browse("deeds.html", page.replace("</body>", DEEDS + "</body>"))
        seen = json.loads(browser.see("document.body.textContent"))
        every = sorted(["ana", "ben", "boss", "funnel", "offshore", "zed"])
        self.assertEqual((seen["nothing"]["focused"], seen["nothing"]["rows"], seen["nothing"]["told"]), (False, every, ""))
        self.assertEqual((seen["point"]["core"], seen["point"]["lit"], seen["point"]["edges"]), (["ben"], ["ben", "funnel"], 1))
        self.assertEqual((seen["away"]["focused"], seen["escape"]["focused"]), (False, False))
        self.assertEqual((seen["search"]["found"], seen["search"]["rows"], seen["search"]["told"]), (["ana"], ["ana"], "1 of 6"))
        self.assertEqual(seen["search"]["edgeRows"], ["ana", "boss"])
        self.assertEqual((seen["click"]["lit"], seen["click"]["edges"]), (["ana", "ben", "funnel", "offshore", "zed"], 6))
        self.assertEqual(seen["click"]["edgeRows"], ["ana", "ben", "funnel", "zed"])
        self.assertEqual(len(seen["escape"]["edgeRows"]), 5)
        self.assertEqual((seen["row"]["lit"], seen["row"]["edges"]), (["ben", "funnel"], 1))
        self.assertTrue(1.8 < seen["larger"] < 2.2, seen["larger"])
        self.assertEqual(seen["order"], ["1", "1", "1", "1", "0", "–"])

    def test_no_border_cuts_a_name(self):
        """Whether it is seen always, while it is pointed at, or bold: of 150 vertices with the widest names most have no room."""
        store = self.store(*(f"insert k hub {'W' * 20}{it} 1 1" for it in range(149)))
        page = view(store.open(), "hub", most=150).html
        look = ("<script>const cut = [];\nfor (const it of document.querySelectorAll('.picture .name')) {\n"
                "    it.style.fontWeight = 600;\n    const box = it.getBBox();\n"
                "    const wide = it.ownerSVGElement.viewBox.baseVal.width;\n"
                "    if (box.x < 0 || box.x + box.width > wide) cut.push(it.textContent);\n}\n"
                "const count = document.querySelectorAll('.picture .name').length;\n"
                "document.body.textContent = JSON.stringify({cut, count});</script>")
        seen = json.loads(self.browse("wide.html", page.replace("</body>", look + "</body>")).see("document.body.textContent"))
        self.assertEqual((seen["count"], seen["cut"]), (150, []))

    def test_a_window_that_narrows(self):
        """Names are larger in a narrow one, and no border cuts them then, whichever way it was before."""
        store = self.store(*(f"insert transfer a-name-of-some-length-{it} hub 1 1" for it in range(16)))
        view(store.open(), "hub", hops=1).save(self.room / "page.html")
        browser = Browser()
        self.addCleanup(browser.close)
        browser.go(f"file://{self.room}/page.html")
        cut = ("[...document.querySelectorAll('.picture .name')].map((it) => [it.getBBox(), "
               "it.ownerSVGElement.viewBox.baseVal.width]).filter(([box, width]) => box.x < 0 || box.x + box.width > width)"
               ".length")
        size = "getComputedStyle(document.querySelector('.picture .hop1 .name')).fontSize"
        for width, wanted in ((1280, "12px"), (375, "19px"), (1280, "12px"), (340, "19px")):
            browser.size(width, 900, width < 400)
            browser.wait_for(f"{size} === '{wanted}'")
            browser.wait_for(f"{cut} === 0")

    def test_colors(self):
        """Gone edges are red in the picture before and not in the one after, new ones blue after and not before; the one that
        changed is in both. A notebook's styles don't reach the frame."""
        first, last = self.pair(BEFORE, AFTER)
        found = view(first, "funnel", beside=last)
        bare = found.html.replace("</head>", "<style>header, .legend, .tables, .note { display: none }</style></head>")
        frame = ("<style>* { background: #d55e00 !important; margin: 0 }</style>"
                 f'<iframe srcdoc="{html.escape(bare)}" sandbox="allow-scripts" width="880" height="440" frameborder="0">'
                 "</iframe>")
        for page in (bare, frame):
            *size, found = self.browse("page.html", page, 880, 440).pixels((GONE_COLOR, NEW_COLOR, CHANGED_COLOR))
            self.assertEqual(size, [880, 440])
            counts = dict(zip((GONE_COLOR, NEW_COLOR, CHANGED_COLOR), found))
            self.assertTrue(counts[GONE_COLOR][0] > 8 and counts[GONE_COLOR][1] == 0, counts)
            self.assertTrue(counts[NEW_COLOR][0] == 0 and counts[NEW_COLOR][1] > 40, counts)
            self.assertTrue(min(counts[CHANGED_COLOR]) > 8, counts)


if __name__ == "__main__":
    unittest.main()
