"""The server's page in Chromium: what it tells, search, two versions beside each other, hostile names, a token, a phone."""
import json
import os
import unittest
from unittest import mock

from browsing import Browser
from pages import CHROMIUM, NO_CHROMIUM
from serving import ServeCase

from misteluk import Columns
from misteluk.serve.limits import ServerLimits

ODD = ("<script>alert(1)</script>", "</script><img src=x onerror=document.title='hit'>", "O\"Brien & 'Sons'", "Иванов Пётр",
       "a b")


@unittest.skipUnless(CHROMIUM, NO_CHROMIUM)
class Page(ServeCase):
    def open(self):
        browser = Browser()
        self.addCleanup(browser.close)
        browser.go(self.server.url)
        return browser

    def text(self, browser, name):
        return browser.see(f"document.getElementById({json.dumps(name)}).textContent")

    def look(self, browser, vertex):
        browser.see(f"document.getElementById('vertex').value = {json.dumps(vertex)}; "
                    "document.getElementById('look').requestSubmit()")
        return browser.wait_for("!document.getElementById('view').hidden && document.getElementById('view').srcdoc")

    def test_what_it_tells(self):
        """And it goes on telling: what comes in is seen, without the page being loaded again."""
        self.fed()
        browser = self.open()
        browser.wait_for("document.getElementById('edges').textContent === '4'")
        self.assertEqual((self.text(browser, "vertices"), self.text(browser, "version")), ("5", "1"))
        self.post("/v1/rows", {"rows": [["add", "transfer", "zed", "funnel", 7, 5]]})
        browser.wait_for("document.getElementById('edges').textContent === '5'")
        self.assertIn("5 rows came in", self.text(browser, "feed"))
        self.assertEqual(browser.logged, [])

    def test_search_and_two_versions(self):
        self.fed()
        browser = self.open()
        browser.wait_for("document.getElementById('edges').textContent === '4'")
        browser.see("document.getElementById('hold').click()")
        browser.wait_for("document.getElementById('held').textContent.includes('this page')")
        self.assertEqual([it["clients"] for it in self.ask("/v1/stat").json["held"]], [1])
        self.post("/v1/rows", {"rows": [["remove", "transfer", "ben", "funnel"], ["add", "transfer", "zed", "funnel", 7, 5],
                                        ["add", "transfer", "funnel", "offshore", -940, 6]]})
        browser.see("const it = document.getElementById('vertex'); it.value = 'FUN'; it.dispatchEvent(new Event('input'))")
        browser.wait_for("document.querySelector('#names button')?.textContent === 'funnel'")
        browser.wait_for("document.getElementById('version').textContent === '2'")
        browser.wait_for("document.getElementById('beside').value === '1'")
        browser.see("document.querySelector('#names button').click()")
        page = browser.wait_for("!document.getElementById('view').hidden && document.getElementById('view').srcdoc")
        for mark in ('id="gone"', 'id="new"', 'id="changed"', "version 1", "version 2"):
            self.assertIn(mark, page)
        browser.wait_for("document.getElementById('view').style.height !== ''")  # (its script ran, under the page's policy)
        browser.see("[...document.querySelectorAll('#held button')].find((it) => it.textContent === 'Let go').click()")
        browser.wait_for("!document.getElementById('held').textContent.includes('this page')")
        self.assertEqual([it["version"] for it in self.ask("/v1/stat").json["held"]], [2])
        self.assertEqual(browser.logged, [])

    def test_one_look_after_another(self):
        """Each of them is seen: its page tells how high it stands, which is 0 where nothing is drawn."""
        self.fed()
        browser = self.open()
        browser.see("window.told = []; addEventListener('message', (event) => told.push(event.data.height)); 0")
        for vertex in ("funnel", "ana", "boss"):
            browser.see("told.length = 0; document.getElementById('view').style.height = ''")
            self.assertIn(f"Around {vertex}", self.look(browser, vertex))
            self.assertGreater(min(browser.wait_for("told.length > 0 && told")), 300, vertex)
            browser.wait_for("document.getElementById('view').style.height === `${Math.ceil(told.at(-1)) + 4}px`")
        self.assertEqual((browser.see("document.querySelectorAll('iframe').length"), browser.logged), (1, []))

    def hold(self, browser):
        browser.wait_for("document.getElementById('version').textContent === '1'")
        browser.see("document.getElementById('hold').click()")
        browser.wait_for("document.getElementById('held').textContent.includes('this page')")

    def test_what_it_holds_it_keeps(self):
        """Also where the server lets a version go soon that nobody asks for."""
        self.fed(limits=ServerLimits(idle=3))
        browser = self.open()
        self.hold(browser)
        self.refresh(browser, 5)
        browser.see("new Promise((done) => setTimeout(done, 7000))")
        self.assertEqual([(it["version"], it["clients"]) for it in self.ask("/v1/stat").json["held"]], [(1, 1), (2, 0)])
        self.assertIn("this page", self.text(browser, "held"))
        self.assertTrue(browser.see("document.getElementById('fault').hidden"))

    def test_what_it_held_is_lost(self):
        """It says so, until another version is held; and a server that doesn't answer for a while hasn't lost it."""
        self.fed(limits=ServerLimits(idle=6))
        browser = self.open()
        self.hold(browser)
        browser.see("window.asked = fetch; window.fetch = () => Promise.reject(new TypeError('gone')); 0")
        browser.wait_for("document.getElementById('fault').textContent === \"The server doesn't answer.\"")
        browser.see("new Promise((done) => setTimeout(done, 1200))")
        browser.see("window.fetch = window.asked; 0")
        browser.wait_for("document.getElementById('fault').hidden")
        self.assertIn("this page", self.text(browser, "held"))
        self.server.board.let_all_go()
        told = browser.wait_for("!document.getElementById('fault').hidden && document.getElementById('fault').textContent")
        self.assertEqual(told, "Version 1, which this page held, is lost: the server began anew, or heard nothing from this page "
                               "for 6 s.")
        self.look(browser, "funnel")
        self.assertEqual(self.text(browser, "fault"), told)
        browser.wait_for("!document.getElementById('held').textContent.includes('this page')")
        self.hold(browser)
        browser.wait_for("document.getElementById('fault').hidden")

    def test_a_feed_that_failed(self):
        """Why it did is read there, with the line."""
        path = self.file("feed.csv", "ana,bob,5,1\n")
        self.serve()
        columns = Columns(1, 2, weight=3, time=4, default_kind="k")
        with mock.patch("sys.stderr"):
            self.server.feeding.follow(self.server.store.follow(path, by="add", every=0.01, columns=columns))
            browser = self.open()
            browser.wait_for("document.getElementById('edges').textContent === '1'")
            os.rename(path, f"{path}.1")
            browser.wait_for("document.getElementById('feed').textContent.includes('another one in its place')")
            with open(f"{path}.1", "a") as file:
                file.write("ana,cat,much,1\n")
            told = browser.wait_for("document.getElementById('feed').textContent.includes('fault') && "
                                    "document.getElementById('feed').textContent")
        self.assertIn("Its feed was ended by a fault, BadRows: the feed: 1 of 2 rows can't be taken", told)
        self.assertIn("line 2: BadWeight: amount 'much'", told)
        self.assertEqual(browser.logged, [])

    def test_it_says_that_it_works(self):
        """As long as a neighborhood is awaited; one that comes late doesn't take the place of one that was asked for later."""
        self.fed()
        browser = self.open()
        browser.wait_for("document.getElementById('edges').textContent === '4'")
        self.assertTrue(browser.see("document.getElementById('working').hidden"))
        browser.see("window.asked = fetch; window.begin = {}; window.fetch = (path, ...given) => path.startsWith('v1/view') ? "
                    "new Promise((done) => { begin[path.match(/around=(\\w+)/)[1]] = done }).then(() => asked(path, ...given)) : "
                    "asked(path, ...given); 0")
        for vertex in ("funnel", "ana"):
            browser.see(f"document.getElementById('vertex').value = '{vertex}'; document.getElementById('look').requestSubmit()")
            browser.wait_for(f"begin.{vertex} && !document.getElementById('working').hidden")
        browser.see("begin.funnel(0); new Promise((done) => setTimeout(done, 700))")
        self.assertEqual((browser.see("document.getElementById('view').hidden"),
                          browser.see("document.getElementById('working').hidden")), (True, False))
        browser.see("begin.ana(0)")
        page = browser.wait_for("!document.getElementById('view').hidden && document.getElementById('view').srcdoc")
        self.assertIn("Around ana", page)
        self.assertTrue(browser.see("document.getElementById('working').hidden"))
        browser.see("document.getElementById('vertex').value = 'nobody'; document.getElementById('look').requestSubmit()")
        browser.see("begin.nobody(0)")
        browser.wait_for("!document.getElementById('fault').hidden && document.getElementById('working').hidden")

    def test_hostile_names(self):
        """They are text wherever they stand."""
        self.fed(*(["add", "k", name, "hub", 1, 1] for name in ODD))
        browser = self.open()
        browser.wait_for("document.getElementById('edges').textContent === '5'")
        browser.see("const it = document.getElementById('vertex'); it.value = '<'; it.dispatchEvent(new Event('input'))")
        browser.wait_for("document.querySelectorAll('#names button').length === 2")
        found = browser.see("[...document.querySelectorAll('#names button')].map((it) => it.textContent)")
        self.assertEqual(set(found), set(ODD[:2]))
        for name in ODD:
            browser.see("document.getElementById('view').hidden = true")
            self.look(browser, name)
            browser.wait_for("document.getElementById('view').style.height !== ''")
        self.assertEqual(browser.see("document.querySelectorAll('img').length"), 0)
        self.assertEqual(browser.see("document.title"), f"{ODD[-1]} · Misteluk")
        self.assertEqual(browser.logged, [])

    def test_another_server(self):
        """A page that knew the server before says that this one began anew; and where none answers, it says that."""
        self.fed()
        browser = self.open()
        browser.wait_for("document.getElementById('edges').textContent === '4'")
        self.server._api._run = self.server._api._run._replace(name="another", began="without an edge")
        browser.wait_for("document.getElementById('feed').textContent.includes('The server began anew, without an edge.')")
        self.server.stop()
        browser.wait_for("document.getElementById('fault').textContent === \"The server doesn't answer.\"")

    def fault_is_watched(self, browser):
        """Counts from here on how often the fault's text is taken away."""
        browser.see("window.gone = 0; new MutationObserver((all) => { gone += all.filter((it) => it.target.hidden).length })"
                    ".observe(document.getElementById('fault'), { attributeFilter: ['hidden'] })")

    def refresh(self, browser, edges):
        """Has a row come in, and waits until the page has been refreshed with it."""
        self.post("/v1/rows", {"rows": [["add", "transfer", f"more{edges}", "funnel", 7, 5]]})
        browser.wait_for(f"document.getElementById('edges').textContent === '{edges}'")

    def test_a_name_that_isn_t_there(self):
        """The fault stays while the page is refreshed, and goes when what the user tries next succeeds."""
        self.fed()
        browser = self.open()
        browser.wait_for("document.getElementById('edges').textContent === '4'")
        browser.see("document.getElementById('vertex').value = 'nobody'; document.getElementById('look').requestSubmit()")
        told = browser.wait_for("!document.getElementById('fault').hidden && document.getElementById('fault').textContent")
        self.assertIn("no vertex of this name", told)
        self.fault_is_watched(browser)
        for edges in (5, 6):
            self.refresh(browser, edges)
        self.assertEqual((self.text(browser, "fault"), browser.see("window.gone")), (told, 0))
        self.look(browser, "funnel")
        self.assertEqual((self.text(browser, "fault"), browser.see("document.getElementById('fault').hidden")), ("", True))

    def test_a_name_that_is_typed_and_looked_at_at_once(self):
        """No search for the typed letters comes after, and takes the fault away."""
        self.fed()
        browser = self.open()
        browser.wait_for("document.getElementById('edges').textContent === '4'")
        browser.see("window.asked = []; window.plain = fetch; "
                    "window.fetch = (...given) => { window.asked.push(given[0]); return plain(...given) }; 0")
        browser.see("const it = document.getElementById('vertex'); it.value = 'nobody'; it.dispatchEvent(new Event('input')); "
                    "document.getElementById('look').requestSubmit()")
        told = browser.wait_for("!document.getElementById('fault').hidden && document.getElementById('fault').textContent")
        self.fault_is_watched(browser)
        browser.see("new Promise((done) => setTimeout(done, 600))")  # (a search begins 150 ms after a letter)
        self.assertEqual((self.text(browser, "fault"), browser.see("window.gone")), (told, 0))
        asked = browser.see("window.asked")
        self.assertEqual([[it for it in asked if part in it] for part in ("v1/view", "v1/names")],
                         [["v1/view?around=nobody&hops=2"], []])

    def test_a_fault_of_the_user_and_one_of_the_server(self):
        """Both are read, and the server's goes by itself when it answers again."""
        self.fed()
        browser = self.open()
        browser.wait_for("document.getElementById('edges').textContent === '4'")
        browser.see("document.getElementById('vertex').value = 'nobody'; document.getElementById('look').requestSubmit()")
        told = browser.wait_for("!document.getElementById('fault').hidden && document.getElementById('fault').textContent")
        browser.see("window.asked = fetch; window.fetch = () => Promise.reject(new TypeError('gone')); 0")
        both = "The server doesn't answer.\n" + told
        browser.wait_for(f"document.getElementById('fault').textContent === {json.dumps(both)}")
        browser.see("window.fetch = window.asked; 0")
        browser.wait_for(f"document.getElementById('fault').textContent === {json.dumps(told)}")

    def test_a_token(self):
        self.serve(token="open-sesame")
        browser = self.open()
        browser.wait_for("!document.getElementById('entry').hidden")
        self.assertEqual(self.text(browser, "edges"), "–")
        enter = "document.getElementById('token').value = '{}'; document.getElementById('entry').requestSubmit()"
        told = browser.wait_for("!document.getElementById('fault').hidden && document.getElementById('fault').textContent")
        self.assertEqual(told, "Enter the token of this server.")
        browser.see(enter.format("wrong-one"))
        wrong = "The token is wrong: enter this server's token."
        browser.wait_for(f"document.getElementById('fault').textContent === {json.dumps(wrong)}")
        self.fault_is_watched(browser)
        browser.see("new Promise((done) => setTimeout(done, 1500))")  # (a refresh comes each second)
        self.assertEqual((self.text(browser, "fault"), browser.see("window.gone")), (wrong, 0))
        browser.see(enter.format("open-sesame"))
        browser.wait_for("document.getElementById('edges').textContent === '0'")
        browser.wait_for("document.getElementById('entry').hidden && document.getElementById('fault').hidden")

    def test_a_phone(self):
        """Nothing is wider than the screen."""
        self.fed(*(["add", "k", "hub", f"{'a-long-name-' * 8}{it}", 1, 1] for it in range(6)))
        browser = self.open()
        browser.size(375, 700, True)
        browser.wait_for("document.getElementById('edges').textContent === '6'")
        browser.see("const it = document.getElementById('vertex'); it.value = 'long'; it.dispatchEvent(new Event('input'))")
        browser.wait_for("document.querySelectorAll('#names button').length === 6")
        self.assertLessEqual(browser.see("document.documentElement.scrollWidth"), 375)
        self.look(browser, "hub")
        self.assertLessEqual(browser.see("document.documentElement.scrollWidth"), 375)


if __name__ == "__main__":
    unittest.main()
