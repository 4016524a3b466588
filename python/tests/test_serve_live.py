"""The server's page as it lives, in Chromium: a neighborhood that follows the newest version, and rows a second over an hour."""
import json
import math
import re
import time
import unittest

from browsing import Browser
from pages import CHROMIUM, NO_CHROMIUM
from serving import FEED, ServeCase
from support import as_soon_as

PAGE = "document.getElementById('view').srcdoc"
# What shows that a page is seen: its frame has told how high it is, and no other one is on its way.
SEEN = "document.getElementById('view').style.height !== '' && !document.getElementById('next')"
# What follows is of a frame that says something, in its own words.
SAY = "dispatchEvent(new MessageEvent('message', {{source: document.getElementById('view').contentWindow, data: {}}}))"


class LiveCase(ServeCase):
    def open(self, hash_of="", **how):
        browser = Browser(**how)
        self.addCleanup(browser.close)
        browser.go(f"{self.server.url}/{hash_of}")
        browser.wait_for("document.getElementById('edges').textContent !== '–'")
        return browser

    def add(self, *ends):
        self.assertEqual(self.post("/v1/rows", {"rows": [["add", "transfer", *it, 7, 5] for it in ends]}).status, 200)

    def text(self, browser, name):
        return browser.see(f"document.getElementById('{name}').textContent")

    def until(self, browser, text, page=PAGE):
        """Waits until the page that is seen has a text."""
        browser.wait_for(f"{SEEN} && {page}.includes({json.dumps(text)})")


@unittest.skipUnless(CHROMIUM, NO_CHROMIUM)
class Live(LiveCase):
    def test_it_follows_the_newest(self):
        """What comes in is seen, in the frame's place, without a look again; the address says so, also to a colleague."""
        self.fed()
        browser, other = self.open("#vertex=funnel&hops=1&live=1"), self.open("#vertex=funnel&hops=1")
        self.assertEqual([it.wait_for(f"{SEEN} && 1") for it in (browser, other)], [1, 1])
        self.assertEqual([it.see("document.getElementById('live').checked") for it in (browser, other)], [True, False])
        for version, name in enumerate(("zed", "yan", "xia"), 2):
            self.add((name, "funnel"))
            self.until(browser, f'data-name="{name}"')
            self.assertIn(f"Version {version}", browser.see(PAGE))
            self.assertEqual(browser.see("[document.querySelectorAll('iframe').length, location.hash, document.title]"),
                             [1, "#vertex=funnel&hops=1&live=1", "funnel · Misteluk"])
        other.wait_for("document.getElementById('version').textContent === '4'")
        self.assertIn("Version 1", other.see(PAGE))
        other.see("document.getElementById('live').click()")
        self.until(other, 'data-name="xia"')
        self.assertEqual(other.see("location.hash"), "#vertex=funnel&hops=1&live=1")
        self.assertEqual(browser.logged + other.logged, [])

    def test_beside_a_version(self):
        """The newest is seen beside one that is held; where that is let go the page says so, and what was seen stays."""
        self.fed()
        session = self.post("/v1/sessions").json["session"]
        self.add(("zed", "funnel"))
        browser = self.open("#vertex=funnel&hops=1&beside=1&live=1")
        self.until(browser, "Version 1 beside version 2")
        self.add(("yan", "funnel"))
        self.until(browser, "Version 1 beside version 3")
        self.ask(f"/v1/sessions/{session}", "DELETE")
        self.add(("xia", "funnel"))
        browser.wait_for("document.getElementById('fault').textContent.includes(\"version 1 isn't held\")")
        self.assertIn("Version 1 beside version 3", browser.see(PAGE))
        browser.see("location.hash = '#vertex=ana&hops=1&live=1'")
        self.until(browser, "Around ana")
        browser.wait_for("document.getElementById('fault').hidden")

    def test_what_was_chosen_stays(self):
        """In the new frame too, which says so itself."""
        self.fed()
        browser = self.open("#vertex=funnel&hops=1&live=1")
        browser.wait_for(f"{SEEN} && 1")
        browser.see(SAY.format("{ chosen: 'ana' }"))
        browser.see("window.told = []; addEventListener('message', (event) => told.push(event.data.chosen)); 0")
        self.add(("zed", "funnel"))
        self.until(browser, 'data-name="zed"')
        browser.wait_for("told.includes('ana')")
        self.assertEqual((self.text(browser, "expand"), browser.see("document.getElementById('expand').hidden")),
                         ("Expand ana", False))

    def test_one_after_another(self):
        """No second page is asked for while one is awaited, and none for a version that is seen; a late one of what was looked at
        before takes no place."""
        self.fed()
        browser = self.open("#vertex=funnel&hops=1&live=1")
        browser.wait_for(f"{SEEN} && 1")
        browser.see("window.asked = fetch; window.views = []; window.fetch = (path, ...given) => path.startsWith('v1/view') ? "
                    "new Promise((done) => views.push(done)).then(() => asked(path, ...given)) : asked(path, ...given); 0")
        self.add(("zed", "funnel"))
        browser.wait_for("views.length === 1")
        self.add(("yan", "funnel"))
        browser.wait_for("document.getElementById('version').textContent === '3'")
        browser.see("new Promise((done) => setTimeout(done, 1500))")
        self.assertEqual(browser.see("views.length"), 1)
        browser.see("location.hash = '#vertex=ana&hops=1&live=1'; 0")
        browser.wait_for("views.length === 2")
        browser.see("views[1](0); 0")
        self.until(browser, "Around ana")
        browser.see("views[0](0); new Promise((done) => setTimeout(done, 1500))")
        self.assertIn("Around ana", browser.see(PAGE))
        self.assertEqual(browser.see("[views.length, document.getElementById('next')]"), [2, None])

    def test_one_that_is_hidden(self):
        """A page that nobody sees asks for no pictures, and goes on once it is seen."""
        self.fed()
        browser = self.open("#vertex=funnel&hops=1&live=1")
        browser.wait_for(f"{SEEN} && 1")
        browser.see("Object.defineProperty(document, 'hidden', { value: true, configurable: true })")
        self.add(("zed", "funnel"))
        browser.wait_for("document.getElementById('version').textContent === '2'")
        browser.see("new Promise((done) => setTimeout(done, 1500))")
        self.assertIn("Version 1", browser.see(PAGE))
        browser.see("delete document.hidden")
        self.until(browser, 'data-name="zed"')


@unittest.skipUnless(CHROMIUM, NO_CHROMIUM)
class Rates(LiveCase):
    def hour(self, steps):
        """Has the server know rows of so many steps before the one that goes on."""
        rate = self.server.feeding.rate
        rate._begun = rate._clock() - 10 * len(steps) - 2
        rate._steps.clear()
        rate._steps.extend(enumerate(steps))

    def test_the_picture(self):
        """Each step stands as high as its rows; what it tells are the greatest and the mean, and at a point that step's."""
        self.fed()
        self.hour([100, 0, 500, 200])
        browser = self.open()
        told = browser.wait_for("document.getElementById('rates-told').textContent")
        self.assertEqual(told, "at most 50, 20 in the mean")
        self.assertEqual(browser.see("document.getElementById('rates-picture').getAttribute('aria-label')"),
                         "Rows a second over the last 40 s: at most 50, 20 in the mean")
        self.assertEqual(self.text(browser, "rates-begin"), "40 s ago")
        points = browser.see("document.querySelector('#rates-picture .line').getAttribute('d')")[1:].split()
        wanted = [(at * 250 + 250 * end, 100 - height * 96 / 50) for at, height in enumerate((10, 0, 50, 20)) for end in (0, 1)]
        self.assertEqual(len(points), 8)
        for point, (x, y) in zip(points, wanted):
            found = [float(it) for it in point.split(",")]
            self.assertTrue(math.isclose(found[0], x) and math.isclose(found[1], y, abs_tol=0.06), (point, x, y))
        move = ("(() => { const it = document.getElementById('rates-picture'), box = it.getBoundingClientRect(); "
                "it.dispatchEvent(new PointerEvent('pointermove', { clientX: box.x + box.width * %f })); })()")
        browser.see(move % 0.6)
        self.assertRegex(self.text(browser, "rates-told"), r"^\d\d:\d\d:\d\d to \d\d:\d\d:\d\d: 50$")
        browser.see("document.getElementById('rates-picture').dispatchEvent(new PointerEvent('pointerleave'))")
        self.assertEqual(self.text(browser, "rates-told"), told)

    def test_few_rows(self):
        """Below ten a second they have decimals, so that few aren't none, and the greatest fills the picture."""
        self.fed()
        self.hour([3, 0, 0, 0, 0])
        browser = self.open()
        self.assertEqual(browser.wait_for("document.getElementById('rates-told').textContent"), "at most 0.3, 0.06 in the mean")
        self.assertIn("M0.0,4.0 200.0,4.0 200.0,100.0", browser.see("document.querySelector('#rates-picture .line').outerHTML"))

    def test_a_server_that_just_began(self):
        """There is no whole step yet, which is said; and nothing of it where the server doesn't answer."""
        self.fed()
        browser = self.open()
        browser.wait_for("document.getElementById('rates-picture').getAttribute('aria-label') === 'No whole ten seconds yet'")
        self.assertEqual(self.text(browser, "rates-told"), "")
        self.assertEqual(browser.logged, [])

    def test_it_goes_on(self):
        """It is asked for again and again: what came in meanwhile is seen, and when it ends where nobody answers."""
        self.fed()
        self.hour([100] * 360)
        browser = Browser()
        self.addCleanup(browser.close)
        browser._call("Page.enable")
        browser._call("Page.addScriptToEvaluateOnNewDocument", source="{ const real = setInterval; window.setInterval = "
                      "(call, pause) => real(call, pause > 5000 ? 200 : pause); }")
        browser.go(self.server.url)
        browser.wait_for("document.getElementById('rates-told').textContent === 'at most 10, 10 in the mean'")
        self.hour([300] * 360)
        as_soon_as(lambda: self.text(browser, "rates-told") == "at most 30, 30 in the mean")
        self.assertEqual([self.text(browser, f"rates-{it}") for it in ("begin", "end")], ["60 minutes ago", "now"])
        browser.see("window.asked = fetch; window.fetch = () => Promise.reject(new TypeError('gone')); 0")
        as_soon_as(lambda: re.fullmatch(r"\d\d:\d\d:\d\d", self.text(browser, "rates-end")))
        browser.see("window.fetch = window.asked; 0")
        as_soon_as(lambda: self.text(browser, "rates-end") == "now")

    def test_a_token(self):
        """Nothing is asked before it is entered."""
        self.serve(token="open-sesame")
        self.post("/v1/rows", {"rows": FEED}, Authorization="Bearer open-sesame")
        self.hour([100])
        browser = Browser()
        self.addCleanup(browser.close)
        browser._call("Page.enable")
        browser._call("Page.addScriptToEvaluateOnNewDocument", source="{ const real = fetch; window.asked = []; window.fetch = "
                      "(path, ...given) => { asked.push(path); return real(path, ...given); }; }")
        browser.go(self.server.url)
        browser.wait_for("!document.getElementById('entry').hidden")
        time.sleep(0.3)
        asked = browser.see("asked")
        self.assertEqual((self.text(browser, "rates-told"), set(asked)), ("", {"v1/stat"}))
        browser.see("document.getElementById('token').value = 'open-sesame'; document.getElementById('entry').requestSubmit()")
        browser.wait_for("document.getElementById('rates-told').textContent === 'at most 10, 10 in the mean'")


if __name__ == "__main__":
    unittest.main()
