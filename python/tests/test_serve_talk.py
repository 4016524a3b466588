"""What a client in Python and a server say to each other: responses of each form, and questions in parts and at once."""
import json
import socket
import time
import unittest
from array import array
from http.client import HTTPException, RemoteDisconnected
from unittest import mock

from serving import HAS_PACKAGES, NO_PACKAGES, ServeCase

from misteluk import Degree, Units, connect
from misteluk.engine.operations import row_of
from misteluk.engine.protocol import Scope
from misteluk.serve import answers, wire
from misteluk.serve.checking import seen_rows
from misteluk.serve.limits import ServerLimits
from misteluk.serve.people import EVERYONE
from misteluk.values.names import NameTable
from misteluk.values.parcels import unpacked

if HAS_PACKAGES:
    from misteluk.serve import asking
    from misteluk.serve.flow import PERSON

WHOLE = b"HTTP/1.1 200 OK\r\nContent-Length: 5\r\nMisteluk-Server: x\r\n\r\nhello"
CHUNKED = b"HTTP/1.1 200 OK\r\ntransfer-encoding: chunked\r\n\r\n5\r\nhello\r\n3\r\n!!!\r\n0\r\n\r\n"


class Link:
    """A connection by which bytes come, so many at once, and then its end."""

    def __init__(self, data, step):
        self.data, self.step = data, step

    def recv(self, size):
        part, self.data = self.data[:min(size, self.step)], self.data[min(size, self.step):]
        return part

    def recv_into(self, buffer):
        part = self.recv(len(buffer))
        buffer[:len(part)] = part
        return len(part)


class Reading(unittest.TestCase):
    def read(self, data, step=1 << 20):
        """The response that such bytes are."""
        return answers.read(Link(data, step), "GET")

    def test_forms(self):
        for data, told in (
                (WHOLE, (200, b"hello", False)), (CHUNKED, (200, b"hello!!!", False)),
                (b"HTTP/1.1 200 OK\r\n\r\nhello", (200, b"hello", True)),
                (b"HTTP/1.1 204 No Content\r\n\r\n", (204, b"", False)),
                (b"HTTP/1.1 304 Not Modified\r\nContent-Length: 5\r\n\r\n", (304, b"", False)),
                (b"HTTP/1.1 100 Continue\r\n\r\n" + WHOLE, (200, b"hello", False)),
                (WHOLE.replace(b"\r\n\r\n", b"\r\nConnection: close\r\n\r\n"), (200, b"hello", True)),
                (WHOLE.replace(b"1.1", b"1.0"), (200, b"hello", True)),
                (WHOLE.replace(b"200 OK", b"503"), (503, b"hello", False)),
                (WHOLE.replace(b"x\r\n", b"x\r\nLong: " + b"y" * 20_000 + b"\r\n"), (200, b"hello", False)),
                (b"HTTP/1.1 200 OK\r\nContent-Length: 1000000\r\n\r\n" + b"z" * 1_000_000, (200, b"z" * 1_000_000, False))):
            for step in (1, 7, 1 << 20) if len(data) < 1_000 else (4_096,):
                found = self.read(data, step)
                self.assertEqual((found.status, found.body, found.is_last), told, (data[:100], step))
        self.assertEqual(self.read(WHOLE).headers, {"content-length": "5", "misteluk-server": "x"})

    def test_what_is_none(self):
        self.assertRaises(RemoteDisconnected, self.read, b"")
        for data, end in ((WHOLE, len(WHOLE)), (CHUNKED, CHUNKED.index(b"0\r\n\r\n"))):
            for size in range(1, end):
                self.assertRaises((HTTPException, ConnectionError), self.read, data[:size])
        for data in (b"SSH-2.0-OpenSSH\r\n\r\n", b"\x00" * 200, b"HTTP/1.1 twenty\r\n\r\n", b"a" * 100_000):
            self.assertRaises(HTTPException, self.read, data)


class Rows(ServeCase):
    def test_rows_that_are_seen_at_once(self):
        """They are what they are row by row, and those that break a rule, or have names of another form, aren't."""
        for units in ({}, {"units": Units(weight_scale=100, times="iso")}):
            self.serve(**units)
            self.assertEqual(self.ask("/v1/stat").status, 200)
            feeding, terms = self.server.feeding, self.server.store._ledger.terms
            weights = ["5", "-7", "0", str(1 << 40)] if not units else ["5", "-7.25", "0", "10.5"]
            times = ["0", "3", "9" * 18] if not units else ["2024-05-01", "2024-05-01T12:00:00", "0"]
            rows = [[word, kind, "a", f"b{at}", weight, time] for word in ("add", "insert") for kind in ("k", "l")
                    for at, weight in enumerate(weights) for time in times]
            found = seen_rows(rows, terms)
            self.assertEqual(found, [row_of(terms.turned([{"add": "a", "insert": "i"}[it[0]], *it[1:]])[0]) for it in rows])
            records = [it for part in feeding._records(rows) for it in part]
            self.assertEqual((records, list(self.server.store.kinds())), (found, ["k", "l"]))
            for more in (["remove", "k", "a", "b"], ["expire", "5"], ["add", "k", "a", "b", "many", "1"], ["Add", *rows[0][1:]],
                         ["add", "k", "a", "Иванов", "5", times[0]], ["add", "*", "a", "b", "5", times[0]],
                         ["add", "k", "", "b", "5", times[0]], ["add", "k", "a b", "b", "5", times[0]],
                         ["add", "k", "~~AAAAAAAAAAAAAAAAAAAA", "b", "5", times[0]], ["add", "k", "a", "b", "5", "-1"],
                         ["add", "k", "a", "b", str((1 << 40) + 1), times[0]], ["add", "k", "a", "b", "5"], []):
                self.assertIsNone(seen_rows([*rows, more], terms), more)
            self.assertEqual(len(terms.names), 0)


class Names(unittest.TestCase):
    def test_names_that_follow_others(self):
        """They are told whole, whatever was told before: the same, some more or fewer, others, and ids with their texts."""
        table = NameTable()
        known, unknown = table.to_program("Иванов Пётр"), "~~" + "A" * 20
        self.assertTrue(known.startswith("~~"))
        plain = [f"v{it}" for it in range(100)]
        named = wire.Named(table)
        for names in ([], plain[:60], plain[:60], plain, plain[:1], plain[:55], ["w0", *plain[1:]], plain, [*plain, known],
                      [*plain, 'a"\\b'], [*plain, 'a"\\b', "c"], [*plain, unknown], plain[:70], [known], [*plain, "d"], []):
            texts = {known: "Иванов Пётр"} if known in names else {}
            self.assertEqual(json.loads(named.told(names)), {"names": names, "texts": texts})
            self.assertEqual(json.loads(wire.Named(table).told(names)), {"names": names, "texts": texts})
            self.assertEqual(wire.taken({"names": names, "texts": texts}, NameTable()), names)
        wrong = {"names": [], "texts": {"x": "Иванов Пётр"}}
        self.assertRaisesRegex(ValueError, "the server has x for 'Иванов Пётр'", wire.taken, wrong, NameTable())

    def test_names_are_written_once(self):
        """Of names that follow others the new ones alone."""
        named, plain = wire.Named(NameTable()), [f"v{it}" for it in range(100)]
        with mock.patch.object(wire, "_json", wraps=wire._json) as written:
            for count in (60, 60, 100):
                named.told(plain[:count])
        self.assertEqual([it.args[0] for it in written.call_args_list], [plain[:60], plain[60:]])


class Calls(unittest.TestCase):
    GIVEN = {"kind": "k", "since": 2, "until": 5, "name": "a", "target": "b", "steps": 3, "either": True}

    def test_what_a_version_is_asked(self):
        table, row = array("I", [1]), [array("I", [1])] * 2
        for call, more, told in (("degrees", (), row), ("labels", (), table), ("cores", (), table), ("edges", (), row),
                                 ("levels", ("a",), row), ("within", ("a", 3, True), row), ("path", ("a", "b"), table),
                                 ("out_of", ("a",), row), ("into", ("a",), row)):
            held = mock.Mock(**{f"{call}.return_value": told})
            found = unpacked(b"".join(wire.asked(held, call, self.GIVEN, None))).columns
            getattr(held, call).assert_called_once_with(Scope("k", 2, 5), *more)
            self.assertEqual(found, [told] if told is table else told)

    def test_what_it_is_not_asked(self):
        for call, more in (("close", {}), ("within", {"steps": -1}), ("within", {"steps": True}), ("within", {"steps": 1.0}),
                           ("path", {"target": 5}), ("path", {"target": ""}), ("into", {"name": None}), ("edges", {"kind": ""}),
                           ("edges", {"since": -1}), ("edges", {"until": 1 << 63}), ("edges", {"until": "5"})):
            held = mock.Mock()
            self.assertRaises(ValueError, wire.asked, held, call, {**self.GIVEN, **more}, None)
            self.assertEqual(held.mock_calls, [], (call, more))


@unittest.skipUnless(HAS_PACKAGES, NO_PACKAGES)
class Little(unittest.TestCase):
    def test_how_long_a_question_is(self):
        """One that is longer than the loop reads, or than a body may be, or that doesn't come whole, goes the long way."""
        answered = mock.Mock(**{"at_once.return_value": b"told"})
        for most, size, is_more, told in ((1 << 20, 1 << 16, False, b"told"), (1 << 20, (1 << 16) + 1, False, None),
                                          (1_024, 1_024, False, b"told"), (1_024, 1_025, False, None), (1_024, 9, True, None)):
            message = {"type": "http.request", "body": b"{}".ljust(size), "more_body": is_more}
            shortcut = asking.Shortcut(None, None, None, answered, ServerLimits(body=most))
            self.assertEqual(shortcut._told("x", message, {PERSON: EVERYONE}), told, (most, size, is_more))


class Asked(ServeCase):
    def raw(self, body, *parts):
        """The response to a question whose request comes in parts."""
        path = f"/v1/sessions/{self.name}/ask".encode()
        head = b"POST %s HTTP/1.1\r\nHost: localhost\r\nContent-Length: %d\r\n\r\n" % (path, len(body))
        data = head + body
        with socket.create_connection(("127.0.0.1", self.server.address.port)) as link:
            link.setsockopt(socket.IPPROTO_TCP, socket.TCP_NODELAY, 1)
            before = 0
            for end in (*(len(head) + it for it in parts), len(data)):
                link.sendall(data[before:end])
                before = end
                time.sleep(0.02 if parts else 0)
            found = answers.read(link, "POST")
        return found.status, found.body

    def test_at_once_and_in_parts(self):
        """An answer is the same, however its question comes, and whether it is the first of its kind or not."""
        self.fed()
        self.name = self.post("/v1/sessions").json["session"]
        whole = {"kind": None, "since": 0, "until": (1 << 63) - 1}
        for asked in ({"call": "found", "ends": [["transfer", "ana", "funnel"]]}, {"call": "out_of", "name": "ana", **whole},
                      {"call": "degrees", **whole}, {"call": "labels", **whole}, {"call": "cores", **whole}, {"call": "edges"},
                      {"call": "names"}, {"call": "out_of", "name": "zed"}, {"call": "found", "ends": [[1, 2, 3]]},
                      {"call": "degrees", "kind": "none"}, {"call": "none"}, {"call": "found", "ends": 5}):
            body = json.dumps(asked).encode()
            told = self.raw(body)
            self.assertEqual(self.raw(body), told, asked)
            self.assertEqual(self.raw(body, 0, 3, 10), told, asked)
        self.assertEqual(self.raw(b'{"call": "found", "ends": [["transfer", "ana", "funnel"]]}'), (200, b"[[980, 1, 1]]"))
        for body in (b"", b"[]", b"nothing", b"[" * 100_000, b'{"call": ["found"]}'):
            self.assertEqual(self.raw(body)[0], 400, body[:20])
        self.assertEqual(self.ask(f"/v1/sessions/{self.name}/ask").status, 405)

    def test_tables_are_those_of_their_version(self):
        """What is kept of a version is told of no other one, nor of some of its edges."""
        self.fed()
        with connect(self.server.url) as of_first, of_first.open() as first:
            for _ in range(2):
                self.assertEqual(first.degrees()["ana"], Degree(1, 1, 980))
                self.assertEqual(first.degrees("owes")["ana"], Degree(0, 1, 0))
                self.assertEqual(first.degrees(since=2)["ana"], Degree(0, 0, 0))
            self.post("/v1/rows", {"rows": [["add", "transfer", "ana", "ben", 20, 9]]})
            with connect(self.server.url) as of_second, of_second.open() as second:
                for _ in range(2):
                    self.assertEqual((first.degrees()["ana"], second.degrees()["ana"]), (Degree(1, 1, 980), Degree(2, 1, 1_000)))
                    self.assertEqual(second.components()["ben"], "ana")

    def test_a_question_that_is_too_long(self):
        self.fed(limits=ServerLimits(body=1_024, time=0.5))
        self.name = self.post("/v1/sessions").json["session"]
        status, body = self.raw(b'{"call": "found", "ends": [], "more": "%s"}' % (b"x" * 2_000))
        self.assertEqual((status, json.loads(body)["error"]), (413, "TooLarge"))
        with socket.create_connection(("127.0.0.1", self.server.address.port)) as link:  # (whose body never comes)
            link.sendall(b"POST /v1/sessions/x/ask HTTP/1.1\r\nHost: localhost\r\nContent-Length: 9\r\n\r\n")
            found = answers.read(link, "POST")
        self.assertEqual((found.status, json.loads(found.body)["error"]), (503, "TooLong"))

    def test_a_hub_is_counted_once(self):
        """Who has too many edges to be answered at once is answered by a thread from then on, as before."""
        self.fed(*(["add", "k", "hub", f"t{it}", it, it] for it in range(50)))
        with mock.patch.object(asking, "FEW_OUT", 40), connect(self.server.url) as of_session, of_session.open() as session:
            held = self.server.board._last.session._held
            with mock.patch.object(held, "few_out_of", wraps=held.few_out_of) as counted:
                for _ in range(3):
                    self.assertEqual([len(session.out_edges(it)) for it in ("hub", "t1")], [50, 0])
            # (a thread's answer has no bound)
            at_once = [name for _, name, most in (it.args for it in counted.call_args_list) if most is not None]
            self.assertEqual(at_once, ["hub", "t1", "t1", "t1"])

    def test_the_order_of_edges(self):
        """A client has them in order, whatever the server's order is."""
        self.fed(*(["add", kind, "hub", f"t{it * 7 % 50:02}", it, it] for it in range(50) for kind in ("b", "a")))
        with connect(self.server.url) as of_session, of_session.open() as session, self.server.store.open() as local:
            self.assertEqual(list(session.out_edges("hub")), list(local.out_edges("hub")))
            self.assertEqual(len(session.out_edges("hub")), 100)


if __name__ == "__main__":
    unittest.main()
