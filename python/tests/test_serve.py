"""A server: what it answers, beside a store in this process, and who may feed it."""
import asyncio
import errno
import json
import pathlib
import socket
import threading
import time
import unittest
from unittest import mock

from serving import FEED, ServeCase
from support import as_soon_as, row

import misteluk
from misteluk import AsyncSession, Edge, Units, connect
from misteluk.errors import Busy
from misteluk.page.page import style
from misteluk.serve.page import FILES
from misteluk.serve.checking import checked_operations
from misteluk.serve.server import Address


class Answers(ServeCase):
    def test_as_in_this_process(self):
        """Each question by its URL has what a session in this process has."""
        self.fed()
        session = self.server.store.open()
        self.assertEqual(self.ask("/v1/edge?kind=transfer&source=ana&target=funnel").json,
                         {"version": 1, "edge": {"weight": 980, "first": 1, "recent": 1}})
        self.assertIsNone(self.ask("/v1/edge?kind=owes&source=ana&target=funnel").json["edge"])
        self.assertEqual(dict(self.rows_of("/v1/levels?source=ana")), session.levels("ana"))
        self.assertEqual(dict(self.rows_of("/v1/cores")), session.cores())
        self.assertEqual(dict(self.rows_of("/v1/components?kind=owes")), session.components("owes"))
        self.assertEqual(dict(self.rows_of("/v1/weights_in?since=3")), session.weights_in(since=3))
        self.assertEqual({name: tuple(it) for name, *it in self.rows_of("/v1/degrees")},
                         {name: row(it) for name, it in session.degrees().items()})
        self.assertEqual(self.rows_of("/v1/degrees?top=1&by=weight_out"), [("funnel", 1, 2, 3850)])
        self.assertEqual(self.rows_of("/v1/edges"), [(*ends, *edge) for *ends, edge in session.edges()])
        self.assertEqual(self.rows_of("/v1/edges?top=1"), [("transfer", "funnel", "offshore", 3850, 3, 3)])
        self.assertEqual(self.rows_of("/v1/out_edges?source=funnel"), [("transfer", "funnel", "offshore", 3850, 3, 3)])
        self.assertEqual([row[1] for row in self.rows_of("/v1/in_edges?target=funnel")], ["ana", "ben"])
        self.assertEqual(self.ask("/v1/path?source=ana&target=offshore").json["path"], ["ana", "funnel", "offshore"])
        self.assertEqual(dict(self.rows_of("/v1/neighborhood?vertex=ben&hops=1&directed=false")), {"ben": 0, "funnel": 1})
        self.assertEqual(self.rows_of("/v1/names?like=N"), [("ana",), ("ben",), ("funnel",)])
        self.assertIn(b"Around funnel", self.ask("/v1/view?around=funnel").body)

    def test_the_page_s_files(self):
        """Each as it stands in the package; before the page's style stands that of a view."""
        self.serve()
        for path, (name, media) in FILES.items():
            found, before = self.ask(path), style().encode("utf-8") if name == "live.css" else b""
            text = pathlib.Path(misteluk.__file__).with_name("serve") / name
            self.assertEqual((found.headers["content-type"], found.body), (media, before + text.read_bytes()), path)

    def test_an_address_that_is_taken(self):
        """The fault says which."""
        for address in (Address("127.0.0.1"), Address(path=str(self.room / "socket"))):
            listener, taken = address.bound()
            self.addCleanup(listener.close)
            with self.assertRaises(OSError) as fault:
                taken.bound()
            self.assertEqual((fault.exception.errno, fault.exception.filename), (errno.EADDRINUSE, taken.path or taken.url))
        self.assertRaisesRegex(OSError, "path too long", Address(path=str(self.room / ("s" * 200))).bound)

    def test_units(self):
        """Weights that are decimals are texts, as dates are."""
        self.serve(units=Units(weight_scale=100, times="iso"))
        self.assertEqual(self.post("/v1/rows", {"rows": [["add", "k", "Иванов Пётр", "b", "0.10", "2024-03-04"]]}).status, 200)
        self.assertEqual(self.rows_of("/v1/edges"), [("k", "Иванов Пётр", "b", "0.10", *["2024-03-04T00:00:00+00:00"] * 2)])
        with connect(self.server.url) as of_session, of_session.open() as session:
            self.assertEqual(str(session.predecessors("b")["Иванов Пётр"].weight), "0.10")

    def test_what_can_t_be_answered(self):
        """Each with its status, a word and a reason; none names a place of this machine."""
        self.fed()
        for status, word, path in (
                (404, "NoVertex", "/v1/levels?source=zed"), (404, "NoKind", "/v1/degrees?kind=zed"), (400, "BadWindow",
                "/v1/edges?since=5&until=2"), (400, "BadTime", "/v1/edges?since=monday"), (400, "BadRequest", "/v1/levels"),
                (400, "BadRequest", "/v1/levels?sorce=ana"), (400, "BadRequest", "/v1/levels?source=ana&source=ben"),
                (400, "BadRequest", "/v1/neighborhood?vertex=ana&hops=-1"), (400, "BadRequest", "/v1/degrees?top=2&by=height"),
                (404, "NoCall", "/v1/sql?q=1"), (404, "NoCall", "/etc/passwd"), (410, "SessionClosed", "/v1/cores?session=zed"),
                (410, "SessionClosed", "/v1/cores?version=77"),
                (410, "SessionClosed", f"/v1/cores?version={(1 << 63) - 1}"), (400, "BadRequest", f"/v1/cores?version={10**19}"),
                (400, "BadName", "/v1/edge?kind=*&source=ana&target=ben")):
            found = self.ask(path)
            self.assertEqual((found.status, found.json["error"]), (status, word), path)
            self.assertFalse(self.rooms_of(found.json["reason"]), found.body)
        self.assertEqual(self.post("/v1/edges").status, 405)

    def test_the_description(self):
        """Each call that is described is there, and each that is there is described."""
        self.fed()
        told = self.ask("/openapi.json").json
        app = self.server._api.app()
        there = {(it.path.replace(":int", ""), method.lower()) for it in app.routes for method in it.methods
                 if method != "HEAD" and it.path not in FILES}
        self.assertEqual({(path, method) for path, it in told["paths"].items() for method in it}, there)
        for path, it in told["paths"].items():
            for parameter in it.get("get", {}).get("parameters", ()):
                if parameter["schema"].get("minimum") is not None:
                    self.assertEqual(self.ask(f"{path}?{parameter['name']}=x").json["error"], "BadRequest", path)

    def test_awaited(self):
        self.fed()

        async def both():
            async with await AsyncSession.connect(self.server.url) as session:
                levels, edge, walk = await asyncio.gather(session.levels("ana"), session.edge("transfer", "ben", "funnel"),
                                                          session.path("boss", "offshore"))
                graph, into = await session.ask(session.session.edges, kind="owes"), await session.in_edges("funnel")
                self.assertEqual((session.version, session.is_open, len(into), "neighbors" in dir(session)), (1, True, 2, True))
                self.assertEqual(await session.edge_count, len(await session.edges()))
                with self.assertRaises(misteluk.NoVertex):
                    await session.successors("zed")
                for name in ("nothing", "_terms"):  # (what is the session's own stays its own)
                    self.assertFalse(hasattr(session, name), name)
                self.assertEqual(repr(session), f"<Async {session.session!r}>")
                async with await AsyncSession.connect(self.server.url) as other:
                    return levels, edge, walk, len(graph), bool(await session.diff(other))
        self.assertFalse(hasattr(misteluk.AsyncSession.__new__(misteluk.AsyncSession), "session"))
        found = asyncio.run(both())
        walk = ["boss", "ana", "funnel", "offshore"]
        self.assertEqual(found, ({"ana": 0, "funnel": 1, "offshore": 2}, Edge(950, 1, 1), walk, 1, False))

    def test_a_slow_reader_delays_nobody(self):
        """It reads nothing of a long answer while others ask and the feed goes on; then it gets all of it, of its version."""
        self.serve()
        count = 200_000
        self.server.store.load([(f"s{it % 300}", f"target-{it // 300}", it, it) for it in range(count)], by="set", progress=False)
        self.server.board.advance()
        version = self.ask("/v1/stat").json["version"]
        reader = socket.create_connection(("127.0.0.1", self.server.address.port))
        self.addCleanup(reader.close)
        reader.setsockopt(socket.SOL_SOCKET, socket.SO_RCVBUF, 1 << 16)
        reader.sendall(b"GET /v1/edges HTTP/1.1\r\nHost: localhost\r\nConnection: close\r\n\r\n")
        as_soon_as(lambda: self.server.board._last.asked)
        for it in range(20):
            self.assertEqual(self.post("/v1/rows", {"rows": [["add", "k", "more", f"t{it}", 1, 1]]}).status, 200)
            self.assertEqual(self.ask("/v1/cores?top=1").status, 200)
        self.assertIn(version, [it["version"] for it in self.ask("/v1/stat").json["held"]])
        parts = []
        while not parts or parts[-1]:
            parts.append(reader.recv(1 << 16))
        head, _, body = b"".join(parts).partition(b"\r\n\r\n")
        self.assertEqual(head.split(b"\r\n")[0], b"HTTP/1.1 200 OK")
        told = json.loads(b"".join(body.split(b"\r\n")[1::2]))
        self.assertEqual((told["version"], told["rows"], sum(told["columns"]["weight"])),
                         (version, count, sum(range(count))))
        as_soon_as(lambda: [it["version"] for it in self.ask("/v1/stat").json["held"]] == [version + 20])


class Level(ServeCase):
    """A server whose store begins anew behind every few batches."""

    def test_replies_over_renewals(self):
        """Few operations are kept, versions are counted on, and what is told of a version that is held stays as it was."""
        self.fed(batches=3)
        name = self.post("/v1/sessions").json["session"]
        held = [f"/v1/{it}{mark}session={name}" for it, mark in (
            ("edge?kind=transfer&source=ana&target=funnel", "&"), ("degrees", "?"), ("levels?source=ana", "&"), ("edges", "?"),
            ("names?like=n", "&"), ("in_edges?target=funnel", "&"), ("view?around=funnel", "&"))]
        before, kept, versions = [self.ask(it).body for it in held], [], []
        with connect(self.server.url) as of_session, of_session.open(version=1) as session, connect(self.server.url) as feed:
            edges, cores = list(session.edges()), session.cores()
            for at in range(30):
                for _ in range(7):
                    feed.add("transfer", "ana", "funnel", 1, at)
                versions.append(feed.commit().version)
                kept.append(self.ask("/v1/stat").json["operations_kept"])
                self.assertEqual([self.ask(it).body for it in held], before)
            self.assertEqual((list(session.edges()), session.cores()), (edges, cores))
            with feed.open() as last:
                self.assertEqual(str(session.diff(last)), "<Diff: 0 gone, 0 new, 1 changed>")
        self.assertEqual((versions, kept), (list(range(2, 32)), [11, 18, *[7, 14, 21] * 9, 7]))
        self.assertEqual(self.ask("/v1/edge?kind=transfer&source=ana&target=funnel").json,
                         {"version": 31, "edge": {"weight": 980 + 30 * 7, "first": 1, "recent": 29}})

    def test_a_feed_that_is_followed(self):
        path = self.file("feed.csv", "".join(f"s{it % 3},t,1,{it}\n" for it in range(500)))
        self.serve(batches=4)
        self.server.feeding.follow(self.server.store.follow(path, by="add", every=0.0, batch=10, until_end=True,
                                                            columns=misteluk.Columns(1, 2, weight=3, time=4)))
        as_soon_as(lambda: self.ask("/v1/stat").json["feed"]["state"] == "ended")
        told = self.ask("/v1/stat").json
        self.assertEqual((told["version"], told["feed"]["rows"], told["operations_kept"]), (50, 500, 20))
        self.assertEqual([row[3] for row in self.rows_of("/v1/edges")], [167, 167, 166])


class Feeds(ServeCase):
    def test_rows_that_are_none(self):
        """What is told names the row, and the word of the fault once."""
        self.serve(units=Units(weight_scale=100))
        for body, word, reason in (
                (b"add,k,a,b,1,1\n\nadd,k,\xff,b,1,1\n", "BadRequest", "row 2: byte 0xff is no UTF-8"),
                (b'add,k,"a\nb",b,1,1\nadd,k,"c\n\xe4",b,1,1\n', "BadRequest", "row 2: byte 0xe4 is no UTF-8"),
                (b"add,k,a,b,970.501,1\n", "BadWeight",
                 "row 1: amount '970.501': a weight has at most 2 decimals here (weight_scale 100)"),
                (b"add,k,a,b,1,1\nadd,k,a,b,1,soon\n", "BadTime",
                 "row 2: time 'soon': a time is a whole number that isn't negative, of at most 19 digits"),
                (b"put,k,a,b,1,1\n", "BadCommand", "row 1: an operation is insert, add, remove, expire")):
            told = self.ask("/v1/rows", "POST", body, Content_Type="text/csv")
            self.assertEqual((told.status, told.json), (400, {"error": word, "reason": reason}))
        for body, reason in ((b'{"rows": [["\xff"]]}', "the body is no JSON in UTF-8: byte 0xff"),
                             (b"rows", "the body is no JSON: ")):
            told = self.ask("/v1/rows", "POST", body, Content_Type="application/json").json
            self.assertEqual((told["error"], told["reason"][:len(reason)]), ("BadRequest", reason))
        self.assertEqual(self.ask("/v1/stat").json["version"], 0)

    def test_one_feeds(self):
        """A second one is told so, until the first one gives its seat back."""
        self.serve()
        with connect(self.server.url) as first, connect(self.server.url) as second:
            first.add("k", "a", "b", 5, 1)
            first.commit()
            self.assertEqual(repr(second), f"<Store of the server {self.server.url}: 0 sessions open, 0 pending>")
            second.add("k", "a", "c", 5, 1)
            self.assertRaisesRegex(Busy, "another client feeds", second.commit)
            self.assertEqual((second.discard(), second.pending), (1, 0))
            second.add("k", "a", "b", 5, 1)
            self.assertRaisesRegex(Busy, "another client feeds", second.commit)
            self.assertEqual(self.post("/v1/rows", {"rows": FEED}).json["error"], "Busy")
            self.assertEqual(self.post("/v1/feeder").status, 409)
            first.close()
            self.assertEqual(second.commit().updated, 1)

    def test_a_client_hears_of_a_later_version(self):
        self.serve()
        with connect(self.server.url) as served, connect(self.server.url) as other:
            other.add("k", "a", "b", 5, 1)
            later = threading.Timer(0.3, other.commit)
            begun = time.monotonic()
            later.start()
            self.assertEqual((served.stat(after=0).version, time.monotonic() - begun >= 0.3), (1, True))
            later.join()
            self.assertEqual((served.stat(after=0).edges, served.stat().version), (1, 1))
            self.assertRaisesRegex(ValueError, "after is a whole number from 0", served.stat, after=-1)

    def test_a_server_collects_by_itself(self):
        self.fed()
        with connect(self.server.url) as served, served.open() as session:
            for weight in (1, 2):
                served.add("owes", "boss", "ana", weight, 5)
                served.commit()
            done = served.collect()
            self.assertEqual((done.floor, done.recycled, session.version), (1, 0, 1))
            session.close()
            self.assertEqual(served.collect().floor, 3)

    def test_a_server_has_the_file(self):
        self.serve()
        with connect(self.server.url) as served:
            served.add("k", "a", "b", 5, 1)
            with self.assertRaisesRegex(misteluk.StoreError, "a server's store has its file there: .* Idempotency-Key"):
                served.commit(producer="ann", sequence=1)
            self.assertEqual(served.discard(), 1)
            self.assertRaisesRegex(misteluk.StoreError, "a server's store keeps no components", misteluk.LiveComponents, served)

    def test_rows_are_checked_before_any_goes_in(self):
        self.serve()
        rows = [["add", "k", "a", f"t{it}", 1, 1] for it in range(5_000)]
        found = self.post("/v1/rows", {"rows": [*rows, ["add", "k", "", "b", 1, 1]]})
        self.assertEqual((found.status, found.json["error"]), (400, "BadName"))
        self.assertIn("row 5001", found.json["reason"])
        for wrong in (5, [5], [], {}, [["add", "k", 5, "b", 1, 1]], [["open", "0"]], [["add", "k", "a"]],
                      [["add", "k", "a", "b", 1.5, 1]], [["add", "k", "\ud800", "b", 1, 1]]):
            self.assertEqual(self.post("/v1/rows", {"rows": wrong}).status, 400, wrong)
        self.assertEqual(self.post("/v1/rows", {}).status, 400)
        self.assertEqual(self.ask("/v1/stat").json["edges"], 0)
        self.assertEqual(self.post("/v1/rows", {"rows": rows}).json["batches"], 2)
        self.assertEqual(self.ask("/v1/stat").json["edges"], 5_000)

    def test_rows_of_csv(self):
        self.serve()
        body = 'add,transfer,"O\'Brien, Sons",bob,5,1\nremove,transfer,ana,bob\nexpire,0\n'.encode()
        self.assertEqual(self.ask("/v1/rows", "POST", body, Content_Type="text/csv").json["absent"], 1)
        self.assertEqual(self.rows_of("/v1/levels?source=O%27Brien,%20Sons")[1], ("bob", 1))
        self.assertEqual(self.ask("/v1/rows", "POST", body, Content_Type="text/html").status, 400)
        self.assertEqual(self.ask("/v1/rows", "POST", b'add,"k', Content_Type="text/csv").status, 400)

    def test_a_batch_goes_in_once(self):
        """However often it is sent; and one that is given up can't come any more."""
        self.serve()
        seat = self.post("/v1/feeder").json["feeder"]
        for _ in range(3):
            told = self.post(f"/v1/feeder/{seat}/batches/1", {"operations": "a,k,x,y,5,1\n"})
            self.assertEqual((told.status, told.json["version"]), (200, 1))
        self.assertEqual(self.rows_of("/v1/edges")[0][3], 5)
        self.assertIsNone(self.ask(f"/v1/feeder/{seat}/batches/2", "DELETE").json["receipt"])
        self.assertEqual(self.post(f"/v1/feeder/{seat}/batches/2", {"operations": "a,k,x,y,5,1\n"}).status, 410)
        self.assertEqual(self.ask(f"/v1/feeder/{seat}/batches/2", "DELETE").json["receipt"], None)
        self.assertEqual(self.rows_of("/v1/edges")[0][3], 5)

    def test_a_batch_whose_answer_is_lost_is_in(self):
        """What goes wrong behind a batch doesn't make it go in twice."""
        self.serve()
        seat, real = self.post("/v1/feeder").json["feeder"], self.server.board.advance
        with mock.patch.object(self.server.board, "advance", side_effect=misteluk.errors.NoMemory("none")):
            self.assertEqual(self.post(f"/v1/feeder/{seat}/batches/1", {"operations": "a,k,x,y,5,1\n"}).status, 503)
        self.assertEqual(self.post(f"/v1/feeder/{seat}/batches/1", {"operations": "a,k,x,y,5,1\n"}).json["version"], 1)
        real()
        self.assertEqual(self.rows_of("/v1/edges")[0][3], 5)

    def test_no_room(self):
        """What is in of a long post is told, and the store goes on."""
        self.serve(blocks=64)
        rows = [["insert", "k", f"s{it}", "t", 1, 1] for it in range(60)]
        self.assertEqual(self.post("/v1/rows", {"rows": rows}).status, 200)
        found = self.post("/v1/rows", {"rows": [["insert", "k", f"new{it}", "t", 1, 1] for it in range(60)]})
        self.assertEqual((found.status, found.json["error"]), (409, "PoolEmpty"))
        with connect(self.server.url) as store:
            store.insert("k", "s1", "u", 1, 1)
            self.assertEqual(store.commit().version, 2)
            for it in range(60):
                store.insert("k", f"new{it}", "t", 1, 1)
            self.assertRaisesRegex(misteluk.errors.PoolEmpty, "the batch needs 60 free blocks", store.commit)
            self.assertEqual(store.discard(), 60)

    def test_no_client_changes_what_a_name_is(self):
        """A text for an id that isn't its own is refused, and so is a record that is no operation."""
        self.serve()
        seat = self.post("/v1/feeder").json["feeder"]
        forged = {"operations": "a,k,~~AAAAAAAAAAAAAAAAAAAA,y,5,1\n", "texts": {"~~AAAAAAAAAAAAAAAAAAAA": "Иванов Пётр"}}
        self.assertEqual(self.post(f"/v1/feeder/{seat}/batches/1", forged).json["error"], "BadName")
        for text in ("commit\n", "open,0\n", "a,k,x,y,5,1", "a,k,x y,z,5,1\n", "a,k,x,y,5\n", "a,k,x\x1cy,z,5,1\n",
                     'a,k,"x,y,5,1\n', "a,*,x,y,5,1\n", "i,k,x,y,5,1\na,*,x,y,5,1\n",
                     "\n", "i,k,x,y,9223372036854775807,1\n", "x,-1\n"):
            self.assertRaises(misteluk.Refused, checked_operations, text)
            self.assertEqual(self.post(f"/v1/feeder/{seat}/batches/1", {"operations": text}).status, 400, text)
        self.assertEqual(self.ask("/v1/stat").json["edges"], 0)

    def test_a_file_that_grows(self):
        path = self.file("feed.csv", "ana,bob,5,1\n")
        self.serve()
        following = self.server.store.follow(path, by="add", every=0.01, columns=misteluk.Columns(1, 2, weight=3, time=4))
        self.server.feeding.follow(following)
        as_soon_as(lambda: self.ask("/v1/stat").json["edges"] == 1)
        self.assertEqual(self.post("/v1/rows", {"rows": FEED}).json["error"], "Busy")
        with open(path, "a") as file:
            file.write("bob,cat,7,2\n")
        as_soon_as(lambda: self.ask("/v1/stat").json["feed"]["rows"] == 2)
        self.assertEqual(self.rows_of("/v1/out_edges?source=bob"), [("link", "bob", "cat", 7, 2, 2)])
        with open(path, "a") as file:
            file.write("bob,cat,many,2\n")
        as_soon_as(lambda: self.ask("/v1/stat").json["feed"]["state"] == "failed")
        self.assertEqual(self.ask("/v1/stat").json["feed"]["error"], "BadRows")
        self.assertEqual(self.post("/v1/rows", {"rows": FEED}).status, 200)

    def test_beside_a_feed_at_full_speed(self):
        """Clients that ask meanwhile: each answer is of one version, and versions don't go back, also where the store renews
        itself every few batches."""
        self.fed(["add", "turn", "s0", "t", 0, 1], batches=2)
        wrong, answers, is_over = [], [], threading.Event()

        def watch():
            before = 0
            while not is_over.is_set():
                with connect(self.server.url) as of_session, of_session.open() as session:
                    found = {source: edge.weight for _, source, _, edge in session.edges("turn")}
                    if session.version < before or len(set(found.values())) > 1:
                        wrong.append((before, session.version, found))
                    before = session.version
                    answers.append(before)
        threads = [threading.Thread(target=watch) for _ in range(3)]
        for it in threads:
            it.start()
        with connect(self.server.url) as feed:
            for _ in range(40):
                for it in range(20):
                    feed.add("turn", f"s{it}", "t", 1, 1)
                feed.commit()
        as_soon_as(lambda: 41 in answers)
        is_over.set()
        for it in threads:
            it.join()
        self.assertEqual((wrong, set(edge.weight for *_, edge in self.server.store.open().edges("turn"))), ([], {40}))


if __name__ == "__main__":
    unittest.main()
