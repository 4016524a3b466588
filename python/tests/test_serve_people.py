"""Who may ask a server for what: people by their tokens, each with a role; whose a session is; and what is logged of it all."""
import json
import logging
import os
import re
import signal
import threading
import unittest
from contextlib import contextmanager
from unittest import mock

from serving import FEED, HAS_PACKAGES, NO_PACKAGES, ServeCase
from support import Case, as_soon_as

from misteluk import StoreError, connect
from misteluk.errors import NotAllowed
from misteluk.serve import log
from misteluk.serve.limits import ServerLimits
from misteluk.serve.people import EVERYONE, ROLES, People, Person
from misteluk.session import Session

TOKENS = {"read": "token-of-rita", "feed": "token-of-fred", "admin": "token-of-alma", None: "token-of-nobody"}
LINES = "# the team\nrita read token-of-rita\n\nfred  feed\ttoken-of-fred\nalma admin token-of-alma\nriva read token-of-riva\n"
# Each call, and the least role that it is for: written here by hand, beside what the server says of itself.
CALLS = {
    "none": ["GET /", "GET /live.js", "GET /looking.js", "GET /asking.js", "GET /rates.js", "GET /live.css", "GET /openapi.json",
             "GET /healthz", "GET /readyz"],
    "read": ["GET /v1/edge", "GET /v1/out_edges", "GET /v1/in_edges", "GET /v1/edges", "GET /v1/levels", "GET /v1/neighborhood",
             "GET /v1/path", "GET /v1/degrees", "GET /v1/weights_in", "GET /v1/components", "GET /v1/cores", "GET /v1/names",
             "GET /v1/view", "GET /v1/stat", "GET /metrics", "GET /v1/events", "GET /v1/rate", "GET /v1/diff",
             "POST /v1/ask", "POST /v1/sessions", "GET /v1/sessions",
             "PUT /v1/sessions/{session}",
             "DELETE /v1/sessions/{session}", "POST /v1/sessions/{session}/ask"],
    "feed": ["POST /v1/rows", "POST /v1/feeder", "DELETE /v1/feeder/{feeder}", "POST /v1/feeder/{feeder}/batches/{number}",
             "DELETE /v1/feeder/{feeder}/batches/{number}"],
    "admin": ["GET /v1/log"],
}


class Files(Case):
    def people(self, text, mode=0o600):
        path = self.file("people", text)
        os.chmod(path, mode)
        return People(path)

    def test_lines(self):
        found = self.people(LINES)
        self.assertEqual([found.known(it) for it in TOKENS.values()],
                         [("rita", "read"), ("fred", "feed"), ("alma", "admin"), None])
        self.assertEqual([found.known(it) for it in ("", "rita", "token-of-rit", "token-of-rita ")], [None] * 4)
        self.assertEqual(self.people("rita read token-of-old\nrita read token-of-new\n").known("token-of-old"), ("rita", "read"))

    def test_one_for_everyone(self):
        for text in ("one-token", "one-token\n", "# all\n\n one-token \n"):
            self.assertEqual(self.people(text).known("one-token"), EVERYONE)
        self.assertTrue(EVERYONE.may("admin"))

    def test_files_that_are_none(self):
        """A fault names the line, and never the token."""
        first = "people:1: a line is NAME ROLE TOKEN, with a role of read, feed, admin"
        for text, told in (("rita read\n", first), ("a read 12345678\nb", "people:2: a line is"),
                           ("\n#\nrita write token-of-rita\n", "people:3: a line is"), ("rita none token-of-rita\n", first),
                           ("r|ta read token-of-rita\n", first), ("rita read token of rita\n", first),
                           ("rita read short\n", "people:1: a token has at least 8"), ("short", "a token has"), ("", "no token"),
                           ("rita read t\u00f6ken-of-rita\n", "people:1: a token has"),
                           ("a read same-token\nb feed same-token\n", "people:2: this token is another line's too"),
                           (LINES[:-5], "people:6: the last line has no end")):
            with self.assertRaises(ValueError) as caught:
                self.people(text)
            self.assertIn(told, str(caught.exception))
            self.assertFalse(re.search("token-of|same-token", str(caught.exception)), text)
        for mode in (0o640, 0o604, 0o620, 0o601):
            self.assertRaisesRegex(ValueError, "can be read by others: chmod 600", self.people, LINES, mode)
            os.unlink(self.room / "people")
        self.assertRaises(OSError, People, str(self.room / "nowhere"))

    def test_roles(self):
        table = [[Person("x", role).may(it) for it in ROLES] for role in ROLES]
        self.assertEqual(table, [[at <= of for at in range(4)] for of in range(4)])

    def test_read_again(self):
        """A file with a fault changes nothing; one that is cut within its first line is no token for everyone."""
        found = self.people(LINES)
        self.file("people", "rita feed token-of-new\n")
        self.assertEqual((found.read_again(), found.changes), (1, 1))
        self.assertEqual([found.known(it) for it in ("token-of-rita", "token-of-new")], [None, ("rita", "feed")])
        for cut in ("rita", "rita-the-second", "rita read token-of-n", ""):
            self.file("people", cut)
            self.assertRaises(ValueError, found.read_again)
        self.assertEqual((found.known("token-of-new"), found.changes), (("rita", "feed"), 1))


@contextmanager
def heard():
    """The lines that are logged meanwhile, as JSON."""
    lines = []

    class Kept(logging.Handler):
        def emit(self, record):
            lines.append(json.loads(self.format(record)))
    handler, level = Kept(), log.PACKAGE.level
    handler.setFormatter(log.AsJson())
    log.PACKAGE.addHandler(handler)
    log.PACKAGE.setLevel(logging.INFO)
    try:
        yield lines
    finally:
        log.PACKAGE.removeHandler(handler)
        log.PACKAGE.setLevel(level)


class Roles(ServeCase):
    def begin(self):
        self.path = self.file("people", LINES)
        os.chmod(self.path, 0o600)
        self.serve(people=People(self.path))

    def as_one(self, role):
        return {"Authorization": f"Bearer {TOKENS.get(role, role)}"} if role != "none" else {}

    def hold(self, role):
        return self.post("/v1/sessions", **self.as_one(role)).json["session"]

    def test_each_call_by_each_role(self):
        """Who hasn't the role is told so, before anything else of the call; who has isn't."""
        self.begin()
        for least, calls in CALLS.items():
            for call, role in ((call, role) for call in calls for role in (None, *ROLES)):
                method, path = re.sub(r"\{\w+\}", "1", call).split()
                if path == "/v1/events" and role in ROLES[1:]:  # (which has no end)
                    continue
                found = self.ask(path, method, b"{}", Content_Type="application/json", **self.as_one(role))
                is_known = role in ROLES[1:]
                too_little = 403 if is_known and ROLES.index(role) < ROLES.index(least) else None
                wanted = None if least == "none" else too_little if is_known else 401
                refused = found.status if found.status in (401, 403) else None
                self.assertEqual(refused, wanted, (call, role, found.body))
                if wanted == 403:
                    reason = f"this call is for those with the role {least}"
                    self.assertEqual(found.json, {"error": "NotAllowed", "reason": reason})

    def test_the_table_is_of_all_calls(self):
        self.begin()
        told = {f"{method.upper()} {path}": call["x-role"] for path, methods in self.ask("/openapi.json").json["paths"].items()
                for method, call in methods.items()}
        mine = {call: role for role, calls in CALLS.items() for call in calls}
        self.assertEqual(told, {call: role for call, role in mine.items() if call in told})
        routes = {f"{method} {route.path}" for route in self.server._api.app().routes for method in route.methods - {"HEAD"}}
        self.assertEqual(routes, set(mine))

    def test_a_session_is_its_owner_s(self):
        """Another can neither ask nor keep nor end it; an admin can, and sees all of them."""
        self.begin()
        session = self.hold("read")
        ask = {"call": "names"}
        for who, status in (("token-of-riva", 403), ("feed", 403), ("read", 200), ("admin", 200)):
            way = self.as_one(who)
            for found in (self.ask(f"/v1/sessions/{session}", "PUT", **way), self.ask(f"/v1/edges?session={session}", **way),
                          self.post(f"/v1/sessions/{session}/ask", ask, **way),
                          self.post(f"/v1/sessions/{session}/ask", {"call": "found", "ends": []}, **way)):
                self.assertEqual(found.status, status, (who, found.body))
            if status == 403:
                self.assertEqual(self.ask(f"/v1/sessions/{session}", "DELETE", **way).status, 403)
        self.hold("feed")
        told = {who: self.ask("/v1/sessions", **self.as_one(who)).json for who in ("read", "feed", "token-of-riva", "admin")}
        seen = {who: [(it["owner"], it["version"]) for it in them["sessions"]] for who, them in told.items()}
        self.assertEqual(seen, {"read": [("rita", 0)], "feed": [("fred", 0)], "token-of-riva": [],
                                "admin": [("rita", 0), ("fred", 0)]})
        with heard() as lines:
            self.assertEqual(self.ask(f"/v1/sessions/{session}", "DELETE", **self.as_one("admin")).status, 204)
        self.assertEqual([(it["event"], it["who"], it["owner"]) for it in lines], [("ended", "alma", "rita")])
        self.assertEqual(self.ask(f"/v1/edges?session={session}", **self.as_one("read")).status, 410)

    def test_a_seat_is_its_owner_s(self):
        self.begin()
        seat = self.post("/v1/feeder", **self.as_one("feed")).json["feeder"]
        with open(self.path, "a") as file:
            file.write("fay feed token-of-fay\n")
        self.server.read_people()
        batch, other = {"operations": "a,k,x,y,1,1\n"}, self.as_one("token-of-fay")
        for found in (self.post(f"/v1/feeder/{seat}/batches/1", batch, **other),
                      self.ask(f"/v1/feeder/{seat}", "DELETE", **other),
                      self.ask(f"/v1/feeder/{seat}/batches/1", "DELETE", **other),
                      self.post(f"/v1/rows?feeder={seat}", {"rows": FEED}, **other)):
            self.assertEqual((found.status, found.json["error"]), (403, "NotAllowed"))
        self.assertEqual(self.post("/v1/rows", {"rows": FEED}, **other).status, 409)
        with heard() as lines:
            self.assertEqual(self.post(f"/v1/feeder/{seat}/batches/1", batch, **self.as_one("feed")).status, 200)
        # (a refusal is logged behind its answer)
        self.assertEqual([(it["who"], it["version"]) for it in lines if it["event"] == "posted"], [("fred", 1)])
        self.assertEqual(self.ask("/v1/stat", **self.as_one("read")).json["feed"]["by"], "fred")
        self.assertEqual(self.ask(f"/v1/feeder/{seat}", "DELETE", **self.as_one("admin")).status, 204)

    def test_a_limit_for_each(self):
        """One person's questions under way have no other's places; what was answered counts no more."""
        path = self.file("people", LINES)
        os.chmod(path, 0o600)
        self.serve(people=People(path), limits=ServerLimits(each=2, questions=1))
        begun, going = threading.Semaphore(0), threading.Event()
        self.addCleanup(going.set)

        def slow(session, source, target, **given):
            begun.release()
            going.wait(60)
            return []
        found = []
        with mock.patch.object(Session, "path", slow):
            threads = [threading.Thread(target=lambda who=who: found.append(self.ask("/v1/path?source=a&target=b",
                                                                                     **self.as_one(who)).status))
                       for who in ("read", "read", "token-of-riva")]
            for it in threads:
                it.start()
            self.addCleanup(lambda: [it.join() for it in threads])
            begun.acquire()
            shares = self.server._api.shares._under_way
            as_soon_as(lambda: dict(shares) == {"rita": 2, "riva": 1})
            told = self.ask("/v1/levels?source=a", **self.as_one("read"))
            self.assertEqual((told.status, told.json["error"], told.json["retry_after"]), (503, "TooMany", 1))
            going.set()
            for it in threads:
                it.join()
        self.assertEqual((sorted(found), dict(shares)), ([200] * 3, {}))

    def test_clients_in_python(self):
        self.begin()
        with connect(self.server.url, token=TOKENS["read"]) as store:
            store.add("k", "a", "b", 5, 1)
            self.assertRaisesRegex(NotAllowed, "for those with the role feed", store.commit)
            store.discard()
        with connect(self.server.url, token=TOKENS["feed"]) as store:
            store.add("k", "a", "b", 5, 1)
            self.assertEqual(store.commit().version, 1)

    def test_tokens_read_again(self):
        """An open connection's token is looked up anew, on the short way too; and who is gone can't keep a session."""
        self.begin()
        self.post("/v1/rows", {"rows": FEED}, **self.as_one("feed"))
        with connect(self.server.url, token=TOKENS["read"]) as of_session, of_session.open() as session:
            for _ in range(3):
                self.assertEqual(session.edge("transfer", "ana", "funnel").weight, 980)
            self.file("people", LINES.replace("rita read", "rika read"))
            self.server.read_people()
            self.assertRaisesRegex(NotAllowed, "is another's", session.edge, "transfer", "ana", "funnel")
            self.file("people", LINES)
            self.server.read_people()
            self.assertEqual(session.edge("transfer", "ana", "funnel").weight, 980)
            self.file("people", LINES.replace(TOKENS["read"], "another-token"))
            self.server.read_people()
            self.assertRaises(NotAllowed, session.edge, "transfer", "ana", "funnel")
            with heard() as lines:
                self.file("people", "broken")
                self.server.read_people()
            self.assertEqual([it["reason"] for it in lines if it["event"] == "fault"],
                             ["the tokens stay as they were: a token has at least 8 printable ASCII signs, and no space"])
            self.assertNotIn(str(self.room), json.dumps(lines))
            self.assertEqual(self.ask("/v1/stat", Authorization="Bearer another-token").status, 200)

    def test_what_is_logged(self):
        """A line for each refusal, post and hold, with neither a token, nor a session's name, nor what was asked."""
        self.begin()
        with heard() as lines:
            self.ask("/v1/out_edges?source=secret-name")
            self.post("/v1/rows", {"rows": FEED}, **self.as_one("read"))
            self.post("/v1/rows", {"rows": FEED}, **self.as_one("feed"))
            session = self.hold("read")
            self.ask(f"/v1/sessions/{session}", "PUT", **self.as_one("token-of-riva"))
            self.ask("/v1/edges", **self.as_one("read"))
            self.ask("/v1/levels?source=secret-name", **self.as_one("read"))
            as_soon_as(lambda: len(lines) > 4)  # (one of a refusal comes behind its answer)
        told = [(it["event"], it["who"], it.get("call"), it.get("status"), it.get("error")) for it in lines]
        self.assertEqual(told, [("refused", "nobody", "none", 401, "NotAllowed"), ("refused", "rita", "rows", 403, "NotAllowed"),
                                ("posted", "fred", None, None, None), ("held", "rita", None, None, None),
                                ("refused", "riva", "keep", 403, "NotAllowed")])
        self.assertFalse(re.search(f"token-of|secret-name|{session}|/", json.dumps(lines)), lines)


@unittest.skipUnless(HAS_PACKAGES, NO_PACKAGES)
class Commands(ServeCase):
    def test_a_log_of_json_and_a_signal(self):
        """Each line of the standard error is JSON, from the first to the last; SIGHUP has the tokens read anew."""
        path, place = self.file("people", LINES), str(self.room / "socket")
        os.chmod(path, 0o600)
        done = self.command("--listen", f"unix:{place}", "--token-file", path, "--log", "json")
        self.assertIn("for those that have a token", done.stdout.readline())
        with connect(f"unix:{place}", token=TOKENS["read"]) as store:
            store.open().close()
        self.file("people", LINES.replace(TOKENS["read"], "another-token"))
        done.send_signal(signal.SIGHUP)

        def is_read():
            try:
                connect(f"unix:{place}", token="another-token").close()
            except StoreError:
                return False
            return True
        as_soon_as(is_read)
        self.assertRaises(NotAllowed, connect, f"unix:{place}", token=TOKENS["read"])
        done.send_signal(signal.SIGTERM)
        lines = [json.loads(it) for it in done.communicate(timeout=60)[1].splitlines()]
        events = [it["event"] for it in lines]
        self.assertEqual((done.returncode, events[0], events[-1]), (0, "held", "ended"))
        self.assertIn("read", events)
        self.assertEqual({"time", "level", "event"} - set.intersection(*map(set, lines)), set())
        self.assertFalse(self.rooms_of(json.dumps(lines)), lines)


if __name__ == "__main__":
    unittest.main()
