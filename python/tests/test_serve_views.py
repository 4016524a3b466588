"""The views of the server's page in Chromium: addresses, tables, a path, filters, a hold over a reload, and how they are read."""
import json
import unittest

from browsing import Browser
from pages import CHROMIUM, NO_CHROMIUM
from serving import FEED, ServeCase
from support import as_soon_as

# The least contrast of texts by WCAG 2.1 (AA), and how it is measured: of each element with a text of its own, by its color and
# the first color behind it.
CONTRAST = """(() => {
    const part = (it) => { const x = it / 255; return x <= 0.03928 ? x / 12.92 : ((x + 0.055) / 1.055) ** 2.4; };
    const light = (color) => { const [r, g, b] = color.match(/[\\d.]+/g).map(Number);
                               return 0.2126 * part(r) + 0.7152 * part(g) + 0.0722 * part(b); };
    const behind = (it) => { for (let at = it; at; at = at.parentElement) { const color = getComputedStyle(at).backgroundColor;
                             if (!/, 0\\)|transparent/.test(color)) return color; } return 'rgb(255, 255, 255)'; };
    return [...document.querySelectorAll('main *')].filter((it) => it.offsetParent && !it.disabled
        && [...it.childNodes].some((one) => one.nodeType === 3 && one.data.trim())).map((it) => {
        const [a, b] = [light(getComputedStyle(it).color), light(behind(it))].sort((x, y) => y - x);
        return [it.textContent.trim().slice(0, 30), (a + 0.05) / (b + 0.05)];
    }).filter(([, ratio]) => ratio < 4.5);
})()"""


@unittest.skipUnless(CHROMIUM, NO_CHROMIUM)
class Views(ServeCase):
    def open(self, hash_of=""):
        browser = Browser()
        self.addCleanup(browser.close)
        browser.go(f"{self.server.url}/{hash_of}")
        browser.wait_for("document.getElementById('edges').textContent !== '–'")
        return browser

    def fill(self, browser, form, **values):
        for name, value in values.items():
            browser.see(f"document.getElementById({json.dumps(name)}).value = {json.dumps(value)}")
        browser.see(f"document.getElementById({json.dumps(form)}).requestSubmit()")

    def seen(self, browser, part):
        """The text of a part, once it is seen."""
        return browser.wait_for(f"!document.getElementById('{part}').hidden && document.getElementById('{part}').innerText")

    def page(self, browser, vertex):
        return browser.wait_for(f"document.title === {json.dumps(vertex + ' · Misteluk')} && "
                                "!document.getElementById('view').hidden && document.getElementById('view').srcdoc")

    def test_addresses(self):
        """Each view has one: another browser sees the same by it; Back leads to the one before."""
        self.fed()
        browser = self.open()
        self.fill(browser, "look", vertex="funnel", hops="1")
        self.assertIn("Around funnel", self.page(browser, "funnel"))
        first = browser.see("location.hash")
        self.assertEqual(first, "#vertex=funnel&hops=1")
        self.fill(browser, "top-form", top="weights_in")
        self.assertIn("most weight in", self.seen(browser, "top-part"))
        self.assertEqual(browser.see("[location.hash, document.title, document.getElementById('view').hidden]"),
                         ["#top=weights_in", "Top by weight in · Misteluk", True])
        browser.see("history.back()")
        self.page(browser, "funnel")
        browser.go("about:blank")
        browser.go(f"{self.server.url}/#from=boss&to=offshore")
        self.assertIn("3 steps in version 1", self.seen(browser, "walk-part"))
        self.assertEqual(browser.see("[document.getElementById('from').value, document.getElementById('to').value]"),
                         ["boss", "offshore"])
        browser.see("document.querySelectorAll('#walk a')[1].click()")
        self.assertIn("Around ana", self.page(browser, "ana"))
        self.assertEqual(browser.logged, [])

    def test_a_colleague_s_version(self):
        """An address names the version beside, which another browser holds; one that nobody holds any more is said to be gone."""
        self.fed()
        hers = self.open()
        hers.see("document.getElementById('hold').click()")
        hers.wait_for("document.getElementById('held').textContent.includes('this page')")
        self.post("/v1/rows", {"rows": [["add", "transfer", "zed", "funnel", 7, 5]]})
        browser = self.open("#vertex=funnel&hops=1&beside=1")
        self.assertIn("Version 1 beside version 2", self.page(browser, "funnel"))
        hers.see("document.querySelector('#held button').click()")
        as_soon_as(lambda: [it["version"] for it in self.ask("/v1/stat").json["held"]] == [2])
        browser.see("location.hash = '#vertex=ana&hops=1&beside=1'")
        browser.wait_for("document.getElementById('fault').textContent.includes(\"version 1 isn't held\")")

    def reload(self, browser):
        browser.see("window.isOld = true")
        browser._call("Page.reload")
        browser.wait_for("!window.isOld && document.readyState === 'complete'")

    def test_a_hold_over_a_reload(self):
        self.fed()
        browser = self.open()
        browser.see("document.getElementById('hold').click()")
        browser.wait_for("document.getElementById('held').textContent.includes('this page')")
        self.reload(browser)
        browser.wait_for("!window.isOld && document.getElementById('held')?.textContent.includes('this page')")
        self.assertEqual([it["clients"] for it in self.ask("/v1/stat").json["held"]], [1])
        self.server.board.let_all_go()  # (the page notices within 20 s, or at a reload)
        browser.wait_for("document.getElementById('fault')?.textContent.includes('Version 1, which this page held, is lost')")
        browser.see("document.getElementById('hold').click()")
        browser.wait_for("document.getElementById('held').textContent.includes('this page')")

    def test_a_click_expands(self):
        """A vertex that is chosen in the picture has a button, and a double click opens its neighborhood."""
        self.fed()
        browser = self.open("#vertex=boss&hops=1")
        self.page(browser, "boss")
        browser.wait_for("document.getElementById('view').style.height !== ''")
        say = "dispatchEvent(new MessageEvent('message', {{source: document.getElementById('view').contentWindow, data: {}}}))"
        browser.see(say.format("{ chosen: 'ana' }"))
        self.assertEqual(browser.see("document.getElementById('expand').textContent"), "Expand ana")
        browser.see("document.getElementById('expand').click()")
        self.assertIn("Around ana", self.page(browser, "ana"))
        browser.wait_for("document.getElementById('view').style.height !== ''")
        browser.see(say.format("{ opened: 'funnel' }"))
        self.assertIn("Around funnel", self.page(browser, "funnel"))
        other = say.replace("document.getElementById('view').contentWindow", "window")
        browser.see(other.format("{ opened: 'ben' }"))
        browser.see(say.format("{ opened: 5, chosen: null, height: 'x' }"))
        self.assertEqual(browser.see("location.hash"), "#vertex=funnel&hops=1")

    def test_the_frame_says_what_was_chosen(self):
        """The page of a neighborhood, in a page that shows it: a click, another, and a double click."""
        self.fed(["add", "k", "a\"b<i>", "hub", 1, 1])
        page = self.ask("/v1/view?around=hub&hops=1").body.decode()
        path = self.file("frame.html", "<iframe id='it'></iframe><script>window.told = []; "
                         "addEventListener('message', (event) => told.push(event.data)); "
                         f"document.getElementById('it').srcdoc = {json.dumps(page).replace('</', '<' + chr(92) + '/')}</script>")
        browser = Browser(options=("--allow-file-access-from-files",))
        self.addCleanup(browser.close)
        browser.go(f"file://{path}")
        browser.wait_for("told.length > 0")
        row = "document.getElementById('it').contentDocument.querySelector('#vertices tr[data-vertex=\"1\"]')"
        for event in ("click", "click", "dblclick"):
            browser.see(f"{row}.dispatchEvent(new MouseEvent('{event}', {{bubbles: true}}))")
        browser.wait_for("told.some((it) => 'opened' in it)")
        self.assertEqual(browser.see("told.filter((it) => !('height' in it))"),
                         [{"chosen": 'a"b<i>'}, {"chosen": ""}, {"opened": 'a"b<i>'}])

    def test_tables_and_filters(self):
        """The rows and their order are those that the server says; a kind and a window count for each view."""
        self.fed()
        browser = self.open()
        rows = "[...document.querySelectorAll('#top-rows tr')].map((it) => [...it.cells].map((one) => one.textContent))"
        self.fill(browser, "top-form", top="weight")
        self.seen(browser, "top-part")
        self.assertEqual(browser.see(rows), [["funnel", "3,850"], ["boss", "2,100"], ["ana", "980"], ["ben", "950"],
                                             ["offshore", "0"]])
        self.fill(browser, "top-form", top="weight", kind="owes")
        browser.wait_for(f"{rows}[0][0] === 'boss'")
        self.assertEqual(browser.see("[location.hash, document.getElementById('filters').open]"), ["#top=weight&kind=owes", True])
        self.fill(browser, "look", vertex="funnel", hops="1", kind="transfer", since="2", until="9")
        self.assertIn("Around funnel", self.page(browser, "funnel"))
        self.assertEqual(browser.see("location.hash"), "#vertex=funnel&hops=1&kind=transfer&since=2&until=9")
        browser.see("window.saved = []; URL.createObjectURL = (blob) => { saved.push(blob); return '#top=out'; }; "
                    "HTMLAnchorElement.prototype.click = function () { saved.push(this.download); }; location.hash = '#top=out'")
        self.seen(browser, "top-part")
        browser.see("document.getElementById('csv').click()")
        browser.wait_for("saved.length === 2")
        text = browser.see("saved[0].text()")
        self.assertEqual(text.encode(), self.ask("/v1/degrees?by=out", Accept="text/csv").body)
        self.assertEqual(browser.see("saved[1]"), "edges-out-version-1.csv")

    def test_no_path(self):
        self.fed()
        browser = self.open("#from=offshore&to=ana")
        self.assertIn("No path leads there in version 1.", self.seen(browser, "walk-part"))
        self.fill(browser, "walk-form", **{"from": "nobody", "to": "ana"})
        browser.wait_for("document.getElementById('fault').textContent.includes('no vertex of this name')")
        self.assertEqual(browser.see("document.getElementById('walk-part').hidden"), True)

    def test_a_server_that_is_gone(self):
        """Each number says since when it stands still."""
        self.fed()
        browser = self.open()
        ages = "[...document.querySelectorAll('.tiles .age')].map((it) => it.textContent)"
        self.assertEqual(browser.see(ages), [""] * 4)
        browser.see("window.asked = fetch; window.fetch = () => Promise.reject(new TypeError('gone')); 0")
        found = browser.wait_for(f"{ages}.every((it) => it !== '') && {ages}")
        self.assertRegex(found[0], r"^no answer since \d\d:\d\d:\d\d$")
        self.assertEqual(len(set(found)), 1)
        browser.see("window.fetch = window.asked; 0")
        browser.wait_for(f"{ages}.every((it) => it === '')")

    def test_contrast_keys_and_a_phone(self):
        """In light and dark each text is read; each field and button is named and reached; nothing is wider than a phone."""
        self.fed()
        browser = self.open("#top=out")
        self.seen(browser, "top-part")
        browser.see("document.getElementById('filters').open = true; window.asked = fetch; "
                    "window.fetch = () => Promise.reject(new TypeError('gone')); 0")
        browser.wait_for("document.querySelector('.tiles .age').textContent !== ''")
        for scheme in ("light", "dark"):
            browser._call("Emulation.setEmulatedMedia", features=[{"name": "prefers-color-scheme", "value": scheme}])
            self.assertEqual(browser.see(CONTRAST), [], scheme)
        unnamed = browser.see("[...document.querySelectorAll('input, select')].filter((it) => !it.labels.length).length")
        tabs = browser.see("[...document.querySelectorAll('input, select, button, summary, a')].filter((it) => it.tabIndex < 0)"
                           ".length")
        self.assertEqual((unnamed, tabs), (0, 0))
        browser.size(375, 700, True)
        self.assertLessEqual(browser.see("document.documentElement.scrollWidth"), 375)
        browser.see("window.fetch = window.asked; 0")
        self.fill(browser, "walk-form", **{"from": "boss", "to": "offshore"})
        self.seen(browser, "walk-part")
        self.assertLessEqual(browser.see("document.documentElement.scrollWidth"), 375)
        self.fill(browser, "look", vertex="funnel", hops="1")
        self.page(browser, "funnel")
        browser.wait_for("document.getElementById('view').style.height !== ''")

    def press(self, browser, *keys):
        """Presses keys, as Tab, or types a sign each."""
        for it in keys:
            named = {"Tab": (9, ""), "Enter": (13, "\r"), " ": (32, " "), "ArrowDown": (40, "")}.get(it, (0, it))
            what = {"key": it, "windowsVirtualKeyCode": named[0], **({"text": named[1]} if named[1] else {})}
            browser._call("Input.dispatchKeyEvent", type="keyDown", **what)
            browser._call("Input.dispatchKeyEvent", type="keyUp", key=it, windowsVirtualKeyCode=named[0])

    def to(self, browser, name):
        """Presses Tab until the element has the focus."""
        for _ in range(40):
            if browser.see("document.activeElement.id || document.activeElement.textContent") == name:
                return
            self.press(browser, "Tab")
        self.fail(f"Tab doesn't lead to {name}")

    def test_by_keys_alone(self):
        """A version is held and let go, a neighborhood opened and made live, a path and a table found, without a mouse."""
        self.fed()
        browser = self.open()
        self.to(browser, "hold")
        self.press(browser, "Enter")
        browser.wait_for("document.getElementById('held').textContent.includes('this page')")
        self.to(browser, "Let go")
        self.press(browser, "Enter")
        browser.wait_for("!document.getElementById('held').textContent.includes('this page')")
        self.to(browser, "vertex")
        self.press(browser, *"funnel", "Enter")
        self.assertIn("Around funnel", self.page(browser, "funnel"))
        self.to(browser, "live")
        self.press(browser, " ")
        browser.wait_for("location.hash === '#vertex=funnel&hops=2&live=1'")
        self.to(browser, "from")
        self.press(browser, *"boss", "Tab", *"offshore", "Enter")
        self.assertIn("3 steps", self.seen(browser, "walk-part"))
        self.to(browser, "ana")
        self.press(browser, "Enter")
        self.assertIn("Around ana", self.page(browser, "ana"))

    def test_a_picture_by_keys(self):
        """Of a neighborhood each vertex is reached, and kept by Enter, which the page around it is told."""
        self.fed()
        path = self.file("view.html", self.ask("/v1/view?around=funnel&hops=1").body.decode())
        browser = Browser()
        self.addCleanup(browser.close)
        browser.go(f"file://{path}")
        vertices = browser.see("document.querySelectorAll('.picture .vertex').length")
        seen = set()
        for _ in range(40):
            self.press(browser, "Tab")
            at = browser.see("document.activeElement.closest('.vertex')?.dataset.vertex ?? null")
            if at is not None and at not in seen:
                seen.add(at)
                self.press(browser, "Enter")
                self.assertEqual(browser.see("document.querySelector('#vertices tr.core')?.dataset.vertex"), at)
                self.press(browser, "Enter")
        self.assertEqual((len(seen), vertices), (4, 4))

    def test_a_token_and_an_address(self):
        """What the address says is shown when the token was entered."""
        self.serve(token="open-sesame")
        self.post("/v1/rows", {"rows": FEED}, Authorization="Bearer open-sesame")
        browser = Browser()
        self.addCleanup(browser.close)
        browser.go(f"{self.server.url}/#from=ana&to=offshore")
        browser.wait_for("!document.getElementById('entry').hidden")
        browser.see("document.getElementById('token').value = 'open-sesame'; document.getElementById('entry').requestSubmit()")
        self.assertIn("2 steps", self.seen(browser, "walk-part"))
        as_soon_as(lambda: browser.see("document.getElementById('fault').hidden"))


if __name__ == "__main__":
    unittest.main()
