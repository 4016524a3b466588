"""What answers look like: CSV, several at once, events, a version that is awaited; and that each is as it is described."""
import csv
import http.client
import io
import json
import os
import random
import threading
import time
import unittest
from contextlib import ExitStack

from described import faults, wrong
from serving import FEED, HAS_PACKAGES, NO_PACKAGES, ServeCase

import misteluk
from misteluk import Units
from misteluk.serve import schemas
from misteluk.serve.limits import BYTES_AT_ONCE, ServerLimits
from misteluk.serve.openapi import described
from misteluk.serve.people import EVERYONE, People, Person
from misteluk.serve.questions import QUESTIONS, Parameter
from misteluk.serve.tables import wants_csv

if HAS_PACKAGES:
    from misteluk.serve import news
    from misteluk.serve.board import Full
    from misteluk.serve.flow import Flow, Shares

ODD = ('a "quoted" name', "a,b", "line\nbreak", "Иванов Пётр")
ASKED = {"diff": "from=1", "out_edges": "source=ana", "in_edges": "target=funnel", "levels": "source=ana",
         "neighborhood": "vertex=ana&hops=2"}


class Csv(ServeCase):
    def csv_of(self, path):
        found = self.ask(path, Accept="text/csv")
        self.assertEqual((found.status, found.headers["content-type"]), (200, "text/csv; charset=utf-8; header=present"), path)
        return found, list(csv.reader(io.StringIO(found.body.decode("utf-8"), newline="")))

    def test_each_table(self):
        """The same rows as JSON has them, with the names of its columns above them."""
        self.fed(*FEED, *(["add", "k", it, "hub", 1.5, 1] for it in ODD), units=Units(weight_scale=100))
        tables = [it.name for it in QUESTIONS if it.columns]
        self.assertEqual(len(tables), 11)
        for name in tables:
            for more in ("", "top=2", "top=0"):
                more = "" if name in ("components", "diff") else more
                path = f"/v1/{name}?{'&'.join(filter(None, (ASKED.get(name), more)))}"
                found, (head, *rows) = self.csv_of(path)
                columns = self.ask(path).json["columns"]
                self.assertEqual(head, list(columns), path)
                self.assertEqual(rows, [list(map(str, it)) for it in zip(*columns.values())], path)
                self.assertEqual(found.headers["misteluk-version"], "1")
        self.assertIn(["k", ODD[0], "hub", "1.50", "1", "1"], self.csv_of("/v1/edges")[1])

    def test_dates_and_many_rows(self):
        rows = [["add", "k", f"a{it}", "b", 1, f"2024-03-{it % 28 + 1:02}"] for it in range(5_000)]
        self.fed(*rows, units=Units(times="iso"))
        _, (_, *found) = self.csv_of("/v1/edges")
        self.assertEqual((len(found), {it[4][:10] for it in found}), (5_000, {it[5] for it in rows}))

    def test_what_has_no_table(self):
        self.fed()
        for path in ("/v1/edge?kind=transfer&source=ana&target=funnel", "/v1/path?source=ana&target=funnel", "/v1/stat"):
            self.assertEqual(self.ask(path, Accept="text/csv").headers["content-type"], "application/json", path)
        self.assertEqual(self.ask("/v1/levels?source=zed", Accept="text/csv").json["error"], "NoVertex")

    def test_who_wants_it(self):
        for accept, is_wanted in (("text/csv", True), ("TEXT/CSV", True), ("text/csv;q=0", False), ("", False), ("*/*", False),
                                  ("text/csv, application/json", True), ("application/json, text/csv", False), ("text/*", False),
                                  ("application/json;q=0.5, text/csv;q=0.9", True), ("text/csv;q=0.4,application/json", False),
                                  ("text/html, text/csv;q=0.1", True), ("text/csv;q=x", True), ("text/csvx", False),
                                  (",;,", False),
                                  ("text/csv;header=present;q=0.2, application/json;q=0.1", True)):
            self.assertEqual(wants_csv(accept), is_wanted, accept)


class Two(ServeCase):
    """What became of edges from one held version to another."""

    def begin(self, **options):
        self.serve(units=Units(weight_scale=100, times="iso"), **options)
        rows = [["add", "k", "ana", "bob", "1.50", "2024-03-01"], ["add", "k", "bob", "cat", 2, "2024-03-02"],
                ["add", "l", ODD[1], ODD[2], 3, "2024-03-03"], ["add", "k", "ana", "cat", 7, "2024-03-01"]]
        self.post("/v1/rows", {"rows": rows})
        self.post("/v1/sessions")
        self.post("/v1/rows", {"rows": [["remove", "k", "bob", "cat"], ["add", "k", "ana", "bob", "0.25", "2024-03-04"],
                                        ["add", "m", "dan", "ana", 9, "2024-03-05"]]})
        self.post("/v1/sessions")
        self.post("/v1/rows", {"rows": [["insert", "k", "ana", "cat", 7, "2024-03-09"]]})

    DAY = "2024-03-{:02}T00:00:00+00:00"

    def test_each_state(self):
        self.begin()
        told = self.ask("/v1/diff?from=1&to=2").json
        self.assertEqual([told[it] for it in ("version", "from", "rows", "gone", "new", "changed")], [2, 1, 3, 1, 1, 1])
        day = self.DAY.format
        none = (None,) * 3
        self.assertEqual(self.rows_of("/v1/diff?from=1&to=2"),
                         [("gone", "k", "bob", "cat", "2.00", day(2), day(2), *none),
                          ("new", "m", "dan", "ana", *none, "9.00", day(5), day(5)),
                          ("changed", "k", "ana", "bob", "1.50", day(1), day(1), "1.75", day(1), day(4))])
        self.assertEqual([it[:4] for it in self.rows_of("/v1/diff?from=2&to=1")],
                         [("gone", "m", "dan", "ana"), ("new", "k", "bob", "cat"), ("changed", "k", "ana", "bob")])
        self.assertEqual(self.rows_of("/v1/diff?from=1&to=1"), [])
        found = self.ask("/v1/diff?from=2")  # (to the last one)
        self.assertEqual((found.headers["misteluk-version"], found.json["columns"]["recent_after"]), ("3", [day(9)]))
        for more, states in (("kind=k", ["gone", "changed"]), ("kind=m", ["new"]), ("kind=l", []),
                             ("until=2024-03-03", ["gone", "gone"]), ("since=2024-03-05", ["new"])):
            self.assertEqual(self.ask(f"/v1/diff?from=1&to=2&{more}").json["columns"]["state"], states, more)

    def test_as_csv(self):
        """What isn't there is an empty field."""
        self.begin()
        found = self.ask("/v1/diff?from=1&to=2", Accept="text/csv")
        rows = list(csv.reader(io.StringIO(found.body.decode("utf-8"), newline="")))
        self.assertEqual(rows, [list(self.ask("/v1/diff?from=1&to=2").json["columns"]),
                                *[["" if it is None else str(it) for it in row] for row in self.rows_of("/v1/diff?from=1&to=2")]])
        self.assertEqual(rows[2][4:7], ["", "", ""])

    def test_what_is_asked(self):
        """Two versions that are held; it is one of no batch of questions."""
        self.begin()
        for asked, status in (("", 400), ("to=1", 400), ("from=x", 400), ("from=1&version=2", 400), ("from=1&session=x", 400),
                              ("from=1&from=2", 400), ("from=1&top=3", 400), ("from=0", 410), ("from=1&to=9", 410),
                              ("from=3", 200), ("from=1&kind=nothing", 200)):
            self.assertEqual(self.ask(f"/v1/diff?{asked}").status, status, asked)
        answer, = self.post("/v1/ask", {"questions": [{"question": "diff", "from": 1}]}).json["answers"]
        self.assertEqual(answer["status"], 400)

    def test_a_model(self):
        """Random versions beside plain dicts; and what a client in Python finds by its own sessions."""
        chance, graph, versions = random.Random(6), {}, []
        self.serve()
        with misteluk.connect(self.server.url) as store:
            for version in range(1, 6):
                for _ in range(40):
                    ends = chance.choice("kl"), chance.choice("abcde"), chance.choice("abcde")
                    if chance.random() < 0.3:
                        store.remove(*ends)
                        graph.pop(ends, None)
                    else:
                        store.insert(*ends, chance.randrange(3), version)
                        graph[ends] = (store._ledger.pending[-1][4], graph.get(ends, (0, version))[1], version)
                self.assertEqual(store.commit().version, version)
                versions.append((store.open(), dict(graph)))
            for earlier, before in versions:
                for later, after in versions:
                    told = self.rows_of(f"/v1/diff?from={earlier.version}&to={later.version}")
                    gone = [("gone", *it, *mark, None, None, None) for it, mark in before.items() if it not in after]
                    new = [("new", *it, None, None, None, *mark) for it, mark in after.items() if it not in before]
                    changed = [("changed", *it, *mark, *after[it]) for it, mark in before.items() if after.get(it, mark) != mark]
                    self.assertEqual(sorted(map(str, told)), sorted(map(str, gone + new + changed)))
                    self.assertEqual(earlier.diff(later).counts(),
                                     {"gone": len(gone), "new": len(new), "changed": len(changed)})

    def test_many_rows(self):
        """In parts, of which one has rows of several states."""
        rows = [["add", "k", f"a{it}", "b", 1, 1] for it in range(5_000)]
        self.fed(*rows)
        self.post("/v1/sessions")
        more = [["add", "k", f"c{it}", "b", 1, 1] for it in range(3_000)]
        self.post("/v1/rows", {"rows": [*(["remove", *it[1:4]] for it in rows[:1_500]), *rows[1_500:3_500], *more]})
        found = self.rows_of("/v1/diff?from=2")
        wanted = [("gone", 1, None)] * 1_500 + [("new", None, 1)] * 3_000 + [("changed", 1, 2)] * 2_000
        self.assertEqual([(it[0], it[4], it[7]) for it in found], wanted)
        self.assertEqual({it[2] for it in found[:1_500]}, {f"a{it}" for it in range(1_500)})


class Many(ServeCase):
    def test_of_one_version(self):
        """Each answer is the one that its question has alone, of the version that all were asked of."""
        self.fed()
        session = self.post("/v1/sessions").json["session"]
        self.post("/v1/rows", {"rows": [["add", "transfer", "zed", "funnel", 7, 5]]})
        questions = [{"question": "levels", "source": "ana"}, {"question": "degrees", "top": 2, "by": "weight_out"},
                     {"question": "edge", "kind": "transfer", "source": "zed", "target": "funnel"},
                     {"question": "edges", "since": 2}, {"question": "path", "source": "zed", "target": "offshore"}]
        alone = ["levels?source=ana", "degrees?top=2&by=weight_out", "edge?kind=transfer&source=zed&target=funnel",
                 "edges?since=2", "path?source=zed&target=offshore"]
        for more, version in (({}, 2), ({"session": session}, 1), ({"version": 1}, 1)):
            told = self.post("/v1/ask", {"questions": questions, **more}).json
            self.assertEqual(told["version"], version)
            for path, answer in zip(alone, told["answers"]):
                found = self.ask(f"/v1/{path}{'&' if '?' in path else '?'}version={version}")
                answer.pop("status", None) if found.status != 200 else None
                self.assertEqual(answer, found.json, path)

    def test_faults(self):
        """One question's fault takes nothing from the others; a body that is none is refused as a whole."""
        self.fed()
        questions = [{"question": "levels", "source": "zed"}, {"question": "sql"}, {"question": "view"},
                     {"question": "cores", "version": 1}, {"question": "levels", "source": None}, {"question": "cores", "top": 1}]
        told = self.post("/v1/ask", {"questions": questions}).json["answers"]
        self.assertEqual([(it.get("error"), it.get("status")) for it in told],
                         [("NoVertex", 404), *[("BadRequest", 400)] * 4, (None, None)])
        self.assertEqual(told[-1], self.ask("/v1/cores?top=1").json)
        for body in ({}, {"questions": 5}, {"questions": [5]}, {"questions": [{"question": "cores"}] * 101},
                     {"questions": [], "x": 1}, {"questions": [], "version": -1}, {"questions": [], "version": [1]}):
            self.assertEqual(self.post("/v1/ask", body).status, 400, body)
        self.assertEqual(self.post("/v1/ask", {"questions": []}).json, {"version": 1, "answers": []})
        self.assertEqual(self.post("/v1/ask", {"questions": [], "version": 9}).status, 410)


class Awaited(ServeCase):
    def later(self, seconds=0.3):
        thread = threading.Timer(seconds, self.post, ["/v1/rows", {"rows": [["add", "transfer", "zed", "funnel", 7, 5]]}])
        thread.start()
        self.addCleanup(thread.join)

    def test_a_version(self):
        self.fed()
        begun = time.monotonic()
        self.assertEqual(self.ask("/v1/stat?after=0").json["version"], 1)
        self.assertLess(time.monotonic() - begun, 20)  # (else it would take 25 s)
        self.later()
        begun = time.monotonic()
        self.assertEqual(self.ask("/v1/stat?after=1").json["version"], 2)
        self.assertTrue(0.2 < time.monotonic() - begun < 20)
        for wrong_one in ("after=x", "after=-1", "after=", "after=1&after=2", "after=1&x=2", "since=1"):
            self.assertEqual(self.ask(f"/v1/stat?{wrong_one}").status, 400, wrong_one)

    def test_none_comes(self):
        self.fed(limits=ServerLimits(time=0.4))
        begun = time.monotonic()
        self.assertEqual(self.ask("/v1/stat?after=1").json["version"], 1)
        self.assertGreater(time.monotonic() - begun, 0.35)

    def events(self, **headers):
        link = http.client.HTTPConnection("127.0.0.1", self.server.address.port, timeout=60)
        self.addCleanup(link.close)
        link.request("GET", "/v1/events", headers={name.replace("_", "-"): it for name, it in headers.items()})
        found = link.getresponse()
        self.assertEqual((found.status, found.headers["content-type"]), (200, "text/event-stream"))
        return found

    def event(self, stream):
        """The next event's fields, past what says that the stream goes on."""
        fields = {}
        while not fields.get("data"):
            name, _, text = stream.readline().decode().rstrip("\n").partition(": ")
            fields[name] = text
        return fields

    def test_events(self):
        self.fed()
        stream = self.events()
        first = self.event(stream)
        run = self.ask("/v1/stat").json["server"]
        self.assertEqual((first["id"], first["event"]), (f"{run}:1", "version"))
        told = json.loads(first["data"])
        self.assertEqual([told[it] for it in ("version", "vertices", "edges", "rows")], [1, 5, 4, 4])
        self.later()
        second = self.event(stream)
        self.assertEqual((second["id"], json.loads(second["data"])["edges"]), (f"{run}:2", 5))

    def test_events_from_the_last_one_on(self):
        """Who knows the last version waits for the next; who knows another, or another server's, is told at once."""
        self.fed()
        run = self.ask("/v1/stat").json["server"]
        for known in (f"{run}:0", "other:1", run, f"{run}:x", ":", f"{run}:-1", f"{run}:{'1' * 99}"):
            self.assertEqual(self.event(self.events(Last_Event_ID=known))["id"], f"{run}:1", known)
        stream = self.events(Last_Event_ID=f"{run}:1")
        self.later(0.2)
        self.assertEqual(self.event(stream)["id"], f"{run}:2")

    def test_silence_and_the_end(self):
        """A comment says that a silent stream goes on; the server's end ends it, and nothing is left of readers that went."""
        self.fed()
        before = news.SILENCE
        news.SILENCE = 0.2
        self.addCleanup(setattr, news, "SILENCE", before)
        stream, gone = self.events(), self.events()
        self.event(stream)
        self.assertEqual([stream.readline() for _ in range(5)], [b"\n", *[b": \n", b"\n"] * 2])
        gone.close()
        begun = time.monotonic()
        self.server.stop()
        self.assertLess(time.monotonic() - begun, 4)
        stream.read()
        self.assertEqual(self.server._api.bell._waiting, set())

    def test_tokens_that_change(self):
        """Who isn't known any more hears nothing more."""
        path = self.file("people", "rita read token-of-rita\n")
        os.chmod(path, 0o600)
        self.serve(people=People(path))
        before = news.SILENCE
        news.SILENCE = 0.2
        self.addCleanup(setattr, news, "SILENCE", before)
        stream = self.events(Authorization="Bearer token-of-rita")
        self.event(stream)
        self.file("people", "riva read token-of-riva\n")
        self.server.read_people()
        stream.read()
        self.assertTrue(stream.isclosed())


class Described(unittest.TestCase):
    def test_the_check_can_fail(self):
        """Each answer of the server's tests is held beside its description by this."""
        for value, schema in (("x", schemas.WHOLE), (-1, schemas.WHOLE), (True, schemas.WHOLE), (1.5, schemas.WHOLE),
                              (None, schemas.TEXT), ({}, schemas.STATUS), ({"status": 1}, schemas.STATUS),
                              ({"status": "x", "y": 1}, schemas.STATUS),
                              ([1, "x"], schemas.rows_of(schemas.WHOLE)), ([], schemas.STATUS), (True, schemas.MARK),
                              ("z", {"type": "string", "enum": ["x", "y"]}),
                              (1, {"type": "integer", "unknown": 5})):
            self.assertTrue(list(faults(value, schema)), (value, schema))
        for value, schema in ((0, schemas.WHOLE), (None, schemas.or_null(schemas.TEXT)), (1.5, schemas.MARK),
                              ("1.50", schemas.MARK), ({"status": "x"}, schemas.STATUS),
                              ([1, 2], schemas.rows_of(schemas.WHOLE))):
            self.assertEqual(list(faults(value, schema)), [], (value, schema))
        stat = json.dumps({"version": 1}).encode()
        self.assertTrue(wrong("GET", "/v1/stat?after=1", 200, "application/json", stat))
        self.assertTrue(wrong("GET", "/v1/stat", 299, "application/json", stat))
        self.assertTrue(wrong("GET", "/v1/edges", 200, "text/html", b""))

    def test_what_calls_are_asked_with(self):
        paths, whole = described()["paths"], {"type": "integer", "minimum": 0}
        for path, method, name, place, is_needed, schema in (
                ("/v1/neighborhood", "get", "vertex", "query", True, {"type": "string"}),
                ("/v1/neighborhood", "get", "hops", "query", True, {**whole, "maximum": 1_000}),
                ("/v1/neighborhood", "get", "directed", "query", False, {"type": "string", "enum": ["true", "false"]}),
                ("/v1/stat", "get", "after", "query", False, whole), ("/v1/sessions", "post", "version", "query", False, whole),
                ("/v1/rows", "post", "Idempotency-Key", "header", False, {"type": "string"}),
                ("/v1/feeder/{feeder}/batches/{number}", "delete", "number", "path", True, {"type": "string"})):
            found, = (it for it in paths[path][method]["parameters"] if it["name"] == name)
            self.assertEqual((found["in"], found["required"], found["schema"]), (place, is_needed, schema), (path, name))
        calls = {f"{method} {path}": call for path, methods in paths.items() for method, call in methods.items()}
        self.assertEqual({it: call["requestBody"]["required"] for it, call in calls.items() if "requestBody" in call},
                         dict.fromkeys(("post /v1/sessions/{session}/ask", "post /v1/ask", "post /v1/rows",
                                        "post /v1/feeder/{feeder}/batches/{number}"), True))
        self.assertEqual([it for it, call in calls.items() if '"found"' in json.dumps(call)], ["get /v1/names"])


class Parameters(unittest.TestCase):
    NUMBER, PART = Parameter("version", "", least=0), Parameter("top", "", least=1, most=9)
    WAY, NAME = Parameter("way", "", choices=("out", "both")), Parameter("name", "")

    def test_what_is_read(self):
        most = 2**63 - 1
        for it, text, value in ((self.NUMBER, "0", 0), (self.NUMBER, str(most), most), (self.PART, "1", 1),
                                (self.PART, "9", 9), (self.WAY, "both", "both"), (self.NAME, "7", "7"), (self.NAME, "", "")):
            self.assertEqual(it.read(text), value)
        no_version = str(2**63), "1" + "0" * 19, "-1", "", "x", "\u0667"
        for it, texts, why in ((self.NUMBER, no_version, "version is a whole number from 0$"),
                               (self.PART, ("0", "10"), "top is a whole number from 1 to 9$"),
                               (self.WAY, ("in", ""), "way is one of out, both$")):
            for text in texts:
                self.assertRaisesRegex(ValueError, why, it.read, text)


@unittest.skipUnless(HAS_PACKAGES, NO_PACKAGES)
class Flows(unittest.TestCase):
    def test_how_much_is_told_at_once(self):
        """Parts together, of so many bytes at least, or all that are left."""
        most = BYTES_AT_ONCE
        for sizes, wanted in (((most - 1, 1, 5), [(most, True), (5, False)]), ((most - 1, 2), [(most + 1, True), (0, False)]),
                              ((7, 8), [(15, False)]), ((), [(0, False)])):
            flow, found = Flow(iter([bytes(it) for it in sizes])), []
            while not found or found[-1][1]:
                part, is_more = flow.more()
                found.append((len(part), is_more))
            self.assertEqual(found, wanted)

    def test_a_person_s_share(self):
        shares, ann = Shares(3), Person("ann", "read")
        with ExitStack() as stack:
            for _ in range(3):
                stack.enter_context(shares.one(ann))
                stack.enter_context(shares.one(EVERYONE))
            with self.assertRaisesRegex(Full, "ann has 3 questions under way") as caught:
                stack.enter_context(shares.one(ann))
            stack.enter_context(shares.one(Person("ben", "read")))
        self.assertEqual((caught.exception.after, dict(shares._under_way)), (1, {}))


if __name__ == "__main__":
    unittest.main()
