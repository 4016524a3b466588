"""What goes wrong within a server: its threads, each of whose faults is told, and requests that no client means."""
import io
import json
import threading
import unittest
from contextlib import redirect_stderr
from unittest import mock

from serving import FEED, HAS_PACKAGES, NO_PACKAGES, ServeCase
from support import as_soon_as

import misteluk
from misteluk.engine.protocol import Denied
from misteluk.feeds.apart import Apart
from misteluk.serve.board import Full
from misteluk.serve.keeping import Keeper
from misteluk.serve.limits import TooLarge

if HAS_PACKAGES:
    from misteluk.serve import faults
    from misteluk.serve.flow import WORD

FAULTS = (KeyError("rows"), MemoryError(), RecursionError("too deep"), AttributeError("no such thing"), SystemExit(3))


STAT = misteluk.Stat(3, 2, 1, 5, 6, 7)
# Faults, and the status and the word that a client is told.
TOLD = ((Denied("NoVertex"), 404, "NoVertex"), (Denied("NoKind"), 404, "NoKind"), (misteluk.NoVertex("ann"), 404, "NoVertex"),
        (misteluk.SessionClosed("it is closed"), 410, "SessionClosed"), (misteluk.errors.Busy("another one"), 409, "Busy"),
        (Denied("PoolEmpty", STAT), 409, "PoolEmpty"), (Denied("NamesFull"), 409, "NamesFull"),
        (Denied("KindsFull"), 409, "KindsFull"), (Denied("BatchLimit"), 409, "BatchLimit"),
        (misteluk.errors.PoolEmpty(needed=9, free=5), 409, "PoolEmpty"), (misteluk.errors.NoMemory("none"), 503, "NoMemory"),
        (misteluk.errors.NotAllowed("no token"), 403, "NotAllowed"), (TooLarge("a post is long"), 413, "TooLarge"),
        (Full("NoRoom", "64 versions are held", 7), 503, "NoRoom"), (misteluk.errors.BadWeight("w"), 400, "BadWeight"),
        (Denied("BadWindow"), 400, "BadWindow"), (misteluk.StoreError("a fault"), 400, "StoreError"),
        (ValueError("no such field"), 400, "BadRequest"), (KeyError("rows"), 400, "BadRequest"))


@unittest.skipUnless(HAS_PACKAGES, NO_PACKAGES)
class Told(unittest.TestCase):
    def test_each_fault(self):
        """A client knows by `denied` what its engine denied, and by `stat` how many blocks there were."""
        for fault, status, word in TOLD:
            with self.subTest(repr(fault)):
                scope: dict = {}
                answer = faults.told_fault(fault, scope)
                told = json.loads(answer.body)
                self.assertEqual((answer.status_code, told["error"], scope[WORD]), (status, word, word))
                self.assertEqual(told.get("denied", False), isinstance(fault, Denied))
                wanted = dict(zip(("version", "names", "edges", "free", "retired", "used"), vars(STAT).values()))
                self.assertEqual(told.get("stat"), wanted if word == "PoolEmpty" and "denied" in told else None)
                self.assertEqual((told.get("retry_after"), answer.headers.get("retry-after")),
                                 (7, "7") if word == "NoRoom" else (None, None))
                self.assertEqual(answer.headers.get("connection"), "close" if word == "TooLarge" else None)
                self.assertFalse(told["reason"].startswith((word + ":", " ")))


class Threads(ServeCase):
    def test_any_fault_of_the_feed_s_thread(self):
        """`stat` has it, the log has where it came from, and clients may feed the store from then on."""
        path = self.file("feed.csv", "ana,bob,5,1\n")
        for fault in FAULTS:
            self.serve()
            following = self.server.store.follow(path, by="add", every=0.01, columns=misteluk.Columns(1, 2, weight=3, time=4))
            with redirect_stderr(io.StringIO()) as said, mock.patch.object(Apart, "_received", side_effect=fault):
                self.server.feeding.follow(following)
                as_soon_as(lambda: self.ask("/v1/stat").json["feed"]["state"] == "failed")
                as_soon_as(lambda: not self.server.feeding.readers.are_alive)
            told = self.ask("/v1/stat").json["feed"]
            self.assertEqual((told["error"], told["reason"]), (type(fault).__name__, str(fault)))
            self.assertIn("Traceback", said.getvalue())
            self.assertIn("in __next__", said.getvalue())
            self.assertEqual(self.post("/v1/rows", {"rows": FEED}).status, 200)

    def test_any_fault_of_the_keeper_s_thread(self):
        """It is told, and the next time is tried again."""
        server, keeper = self.fed(), Keeper(str(self.room / "graph"), 0.01)
        self.addCleanup(keeper.close)
        server._api._keeper = keeper
        for fault in FAULTS[:4]:
            with redirect_stderr(io.StringIO()) as said, mock.patch.object(misteluk.Session, "save", side_effect=fault):
                keeper._saved = None
                thread = self.keeping(keeper)
                as_soon_as(lambda: self.ask("/v1/stat").json["saved"].get("state") == "failed")
                told = self.ask("/v1/stat").json["saved"]
                self.assertEqual((told["error"], told["reason"]), (type(fault).__name__, str(fault)))
                self.assertTrue(thread.is_alive())
            self.assertIn("Traceback", said.getvalue())
            as_soon_as(lambda: "error" not in self.ask("/v1/stat").json["saved"])
            self.assertEqual(self.ask("/v1/stat").json["saved"]["version"], 1)
            keeper.stop()
            thread.join()

    def keeping(self, keeper):
        keeper._over.clear()
        thread = threading.Thread(target=keeper.run, args=(self.server.board,))
        thread.start()
        self.addCleanup(thread.join)
        self.addCleanup(keeper.stop)
        return thread

    def test_a_reason_names_no_place(self):
        server, keeper = self.fed(), Keeper(str(self.room / "graph"))
        self.addCleanup(keeper.close)
        with redirect_stderr(io.StringIO()), mock.patch("os.fsync", side_effect=OSError(28, "No space", str(self.room / "x"))):
            keeper.save(server.board)
        self.assertEqual((keeper.told()["state"], keeper.told()["reason"]), ("failed", "[Errno 28] No space: '..'"))
        self.assertFalse(self.rooms_of(keeper.told()["reason"]))


class Requests(ServeCase):
    def test_none_is_a_fault_of_the_server_s(self):
        """Each is refused by a word and a reason, as JSON."""
        self.fed()
        seat = self.post("/v1/feeder").json["feeder"]
        batch = b'{"operations": "a,k,x,y,5,1\\n"}'
        for number in ("1" * 5_000, "9" * 20, "-1", "0", "x", "1.5", "%31%C2%B2"):
            for method, body in (("POST", batch), ("DELETE", None)):
                found = self.ask(f"/v1/feeder/{seat}/batches/{number}", method, body)
                self.assertEqual((found.status, found.json["error"]), (400, "BadRequest"), number)
        for origin in ("http://[::1", "http://[", "//[x]", "http://evil", "null", "http://[::1]:99999", "]"):
            found = self.ask("/v1/stat", Origin=origin)
            self.assertEqual((found.status, found.json["error"]), (403, "NotAllowed"), origin)
        self.assertEqual(self.ask("/v1/stat", Origin=f"http://127.0.0.1:{self.server.address.port}").status, 200)
        self.assertEqual(self.ask(f"/v1/feeder/{seat}", "DELETE").status, 204)
        long_text = b'add,k,"' + b"x" * 140_000 + b'",b,1,1\nadd,k,\xff,b,1,1\n'
        self.assertEqual(self.ask("/v1/rows", "POST", long_text, Content_Type="text/csv").json["error"], "BadRequest")

    def test_words_of_stat(self):
        self.fed()
        reason = "stat is asked with nothing, or with after"
        for path in ("/v1/stat?before=5", "/v1/stat?zed=1", "/v1/stat?after=1&after=1"):
            self.assertEqual(self.ask(path).json, {"error": "BadRequest", "reason": reason}, path)

    def test_media(self):
        """In capitals too, and each answer's is said once."""
        self.serve()
        for kind in ("TEXT/CSV", "Text/csv; charset=utf-8", "text/csv; charset=utf-8; charset=utf-8"):
            self.assertEqual(self.ask("/v1/rows", "POST", b"add,k,ana,ben,1,1\n", Content_Type=kind).status, 200, kind)
        for path in ("/", "/live.css", "/v1/view?around=ana"):
            self.assertLessEqual(self.ask(path).headers["content-type"].count("charset"), 1, path)
        self.assertEqual(self.ask("/v1/view?around=ana").headers["content-type"], "text/html; charset=utf-8")

    def test_a_view_by_its_address(self):
        """A browser that is led there runs its one script alone, and lets it ask nobody."""
        self.fed()
        told = dict(it.strip().partition(" ")[::2] for it in
                    self.ask("/v1/view?around=ana").headers["content-security-policy"].split(";"))
        self.assertEqual((told["default-src"], told["frame-ancestors"], "connect-src" in told), ("'none'", "'none'", False))
        self.assertRegex(told["script-src"], r"\A'sha256-[A-Za-z0-9+/=]{44}'\Z")


if __name__ == "__main__":
    unittest.main()
