"""What a server and its clients do by small parts, in rows of each form: heads, hosts, columns, faults, lines of a log."""
import asyncio
import json
import logging
import socket
import unittest
from http.client import HTTPException
from unittest import mock

from serving import Clock, HAS_PACKAGES, NO_PACKAGES
from support import Case
from test_serve_talk import CHUNKED, WHOLE, Link

from misteluk import Stat, errors
from misteluk.engine.protocol import Denied
from misteluk.serve import answers, log, wire
from misteluk.serve.board import Board, Full
from misteluk.serve.limits import ServerLimits
from misteluk.serve.metrics import Counts, Spread, gauge, of_numbers
from misteluk.serve.people import EVERYONE, NOBODY, People, Person
from misteluk.serve.talk import Talk, Told, fault_of, part

if HAS_PACKAGES:
    from misteluk.serve.door import Door
    from misteluk.serve.gate import Gate, Run

TOKEN = "token-of-all"
# Who is let in: by the headers of a request for a path, to a server with a token (or without), by a socket (or not).
HOST, OTHER = {"host": "localhost:7700"}, {"host": "example.org:7700"}
BEARER = {"authorization": f"Bearer {TOKEN}"}
IN_WITHOUT = (HOST, {"host": "127.0.0.1"}, {"host": "[::1]:7"}, {**HOST, "origin": "http://localhost:7700"},
              {**HOST, "sec-fetch-site": "same-origin"}, {**HOST, "sec-fetch-site": "none"}, {**HOST, **BEARER})
OUT_WITHOUT = (OTHER, {}, {"host": ""}, {"host": "[::1"}, {"host": "localhost.example.org"},
               {**HOST, "origin": "http://localhost"}, {**HOST, "origin": "http://example.org:7700"}, {**HOST, "origin": "null"},
               {**HOST, "origin": "http://[::1"},
               {**HOST, "sec-fetch-site": "cross-site"}, {**HOST, "sec-fetch-site": "same-site"}, {**OTHER, **BEARER})
OPEN = ("/", "/live.js", "/looking.js", "/asking.js", "/rates.js", "/live.css", "/openapi.json", "/healthz", "/readyz")


@unittest.skipUnless(HAS_PACKAGES, NO_PACKAGES)
class Gates(unittest.TestCase):
    def asks(self, path, headers, token=None, is_local=False):
        """Who asks, or the status and word of what is told."""
        gate = Gate(None, People(token=token), is_local, Run("run-1", "with its feed"), Door(9), Counts())
        found = gate.asks(path, [(name.encode(), value.encode("latin-1")) for name, value in headers.items()])
        return found if isinstance(found, Person) else (found.status_code, json.loads(found.body)["error"])

    def test_without_a_token(self):
        for path in ("/v1/stat", "/"):
            for headers in IN_WITHOUT:
                self.assertEqual(self.asks(path, headers), EVERYONE, headers)
                self.assertEqual(self.asks(path, headers, is_local=True), EVERYONE, headers)
        for headers in OUT_WITHOUT:
            self.assertEqual(self.asks("/v1/stat", headers), (403, "NotAllowed"), headers)
        for headers in OUT_WITHOUT[:5]:
            self.assertEqual(self.asks("/v1/stat", headers, is_local=True), EVERYONE, headers)
        for headers in OUT_WITHOUT[5:11]:
            self.assertEqual(self.asks("/v1/stat", headers, is_local=True), (403, "NotAllowed"), headers)

    def test_by_a_token(self):
        for host in (HOST, OTHER, {}):
            self.assertEqual(self.asks("/v1/stat", {**host, **BEARER}, TOKEN), EVERYONE)
            for wrong in ({}, {"authorization": TOKEN}, {"authorization": f"Basic {TOKEN}"}, {"authorization": "Bearer"},
                          {"authorization": "Bearer other-token"}, {"authorization": f"Bearer {TOKEN[:-1]}"}):
                self.assertEqual(self.asks("/v1/stat", {**host, **wrong}, TOKEN), (401, "NotAllowed"), wrong)
            for path in OPEN:
                self.assertEqual((self.asks(path, host, TOKEN), self.asks(path, {**host, **BEARER}, TOKEN)), (NOBODY, NOBODY))
            self.assertEqual(self.asks("/metrics", host, TOKEN), (401, "NotAllowed"))
        for headers in ({**HOST, **BEARER, "origin": "http://example.org"}, {**HOST, **BEARER, "sec-fetch-site": "cross-site"}):
            self.assertEqual(self.asks("/v1/stat", headers, TOKEN), (403, "NotAllowed"))

    def test_pages_of_others_may_lead_to_the_page(self):
        for site in ("cross-site", "same-site"):
            for path in OPEN:
                self.assertEqual(self.asks(path, {**HOST, "sec-fetch-site": site}), EVERYONE)
            found = self.asks("/", {**HOST, "sec-fetch-site": site, "origin": "http://example.org"})
            self.assertEqual(found, (403, "NotAllowed"))

    def test_another_run(self):
        """Who knows a server before this one is told so, once it is let in."""
        self.assertEqual(self.asks("/v1/stat", {**HOST, "misteluk-server": "run-1"}), EVERYONE)
        self.assertEqual(self.asks("/v1/stat", {**HOST, "misteluk-server": "run-2"}), (410, "SessionClosed"))
        self.assertEqual(self.asks("/v1/stat", {**OTHER, "misteluk-server": "run-2"}), (403, "NotAllowed"))


    def outcome(self, fault, is_begun):
        """What becomes of a request whose answer has a fault: the statuses that are sent, how often its connection is cut and the
        fault logged, and what is raised."""
        async def app(scope, receive, send):
            if is_begun:
                await send({"type": "http.response.start", "status": 200})
            raise fault
        sent, link = [], mock.Mock()

        async def send(_, message):
            sent.append(message)
        gate = Gate(app, People(), False, Run("run-1"), Door(9), Counts())
        scope = {"type": "http", "path": "/v1/stat", "headers": [(b"host", b"localhost")]}
        with mock.patch.object(log, "fault") as logged:
            found = asyncio.run(gather(gate(scope, None, send.__get__(link))))
        statuses = [it["status"] for it in sent if it["type"].endswith("start")]
        return statuses, link.transport.abort.call_count, logged.call_count, found

    def test_faults_of_an_answer(self):
        """One that comes before it is told; amid it a reader that takes nothing is cut off, and any other fault is raised."""
        full, other = Full("TooLong", "why", 1), KeyError("x")
        self.assertEqual(self.outcome(full, True), ([200], 1, 0, None))
        self.assertEqual(self.outcome(other, True), ([200], 0, 1, other))
        self.assertEqual(self.outcome(other, False), ([500], 0, 1, None))
        self.assertEqual(self.outcome(full, False), ([500], 0, 1, None))


async def gather(call):
    """What a call raises, or nothing."""
    return (await asyncio.gather(call, return_exceptions=True))[0]


class Talks(unittest.TestCase):
    def test_hosts(self):
        for url, host in (("http://h", "h"), ("http://h:7", "h:7"), ("http://h:80/", "h:80"), ("http://[::1]", "[::1]"),
                          ("http://[::1]:7", "[::1]:7"), ("http://b\u00fccher.example:7", "xn--bcher-kva.example:7"),
                          ("unix:/tmp/x", "localhost")):
            head = Talk(url)._request("GET", "/v1/stat", None)
            self.assertEqual(head, f"GET /v1/stat HTTP/1.1\r\nHost: {host}\r\nAccept-Encoding: identity\r\n"
                             "Content-Length: 0\r\n\r\n".encode())

    def test_requests(self):
        with mock.patch.dict("os.environ", {"MISTELUK_TOKEN": "token-of-here"}):
            named, given = Talk("http://h"), Talk("http://h", "token-given")
        for talk, token in ((named, "token-of-here"), (given, "token-given")):
            talk.run = "run-1"
            wanted = ("POST /x HTTP/1.1\r\nHost: h\r\nAccept-Encoding: identity\r\n"
                      f"Authorization: Bearer {token}\r\nmisteluk-server: run-1\r\nContent-Type: application/json\r\n"
                      'Content-Length: 8\r\n\r\n{"a": 1}')
            self.assertEqual(talk._request("POST", "/x", {"a": 1}), wanted.encode())
        given.most_body = 8
        self.assertTrue(given._request("POST", "/x", {"a": 1}).endswith(b"Content-Length: 8\r\n\r\n{\"a\": 1}"))
        given.most_body = 7
        self.assertRaisesRegex(errors.TooLarge, "a request of 8 bytes, and the server takes 7", given._request, "POST", "/x",
                               {"a": 1})
        for wrong in ("with\nline", "\u00e9t\u00e9-token"):
            self.assertRaisesRegex(ValueError, "a token has printable ASCII signs alone", Talk, "http://h", wrong)
        self.assertEqual(part("a/b c%\u00e9"), "a%2Fb%20c%25%C3%A9")

    def test_a_connection_that_is_kept(self):
        """It is looked at without waiting, and taken where nothing is there to be read; else a new one is made."""
        for more in (False, True):
            talk, kept = Talk("http://h:7"), mock.Mock()
            talk._idle.append(kept)
            with mock.patch("misteluk.serve.talk.has_more", return_value=more) as look:
                found, is_old = talk._connection()
            self.assertEqual(look.call_args, mock.call(kept.sock.fileno(), 0))
            self.assertEqual((found is kept, is_old, kept.close.call_count), (not more, not more, int(more)))
        self.assertEqual((found.host, found.port, found.timeout, type(found).__name__), ("h", 7, 60.0, "HTTPConnection"))
        self.assertEqual(type(Talk("https://h")._connection()[0]).__name__, "HTTPSConnection")
        self.assertEqual(type(Talk("unix:/tmp/x")._connection()[0]).__name__, "OfUnix")

    def test_faults(self):
        for status, told, after, kind, text in (
                (400, {"error": "BadRequest", "reason": "why"}, "", ValueError, "why"),
                (404, {"error": "NoVertex", "reason": "why"}, "", errors.NoVertex, "NoVertex: why. The version that the session "
                 "holds has no such name; a later one may"),
                (409, {"error": "NamesFull", "reason": "why"}, "", errors.NamesFull, "NamesFull: why. The names of removed edges "
                 "count too"),
                (409, {"error": "Strange", "reason": "why"}, "", errors.Refused, "Strange: why"),
                (413, {"error": "TooLarge", "reason": "why"}, "", errors.TooLarge, "TooLarge: why. Send or ask less at once "
                 "(batch=), or have the server take longer requests (--body)"),
                (409, {"error": "Busy", "reason": "why"}, "", errors.Busy, "why"),
                (410, {"error": "SessionClosed", "reason": "why"}, "", errors.SessionClosed, "why"),
                (401, {"error": "NotAllowed", "reason": "why"}, "", errors.NotAllowed, "why"),
                (503, {"error": "NoSeat", "reason": "why"}, "7", errors.NoSeat, "why; ask again in 7 s"),
                (503, {"error": "NoMemory", "reason": "why"}, "", errors.NoMemory, "why"),
                (503, {"error": "TooLong", "reason": "why"}, "1", errors.NoAnswer, "why; ask again in 1 s"),
                (503, {"error": "TooMany", "reason": "why"}, "1", errors.StoreError, "TooMany: why; ask again in 1 s"),
                (500, {"error": "Fault", "reason": "why"}, "", errors.StoreError, "Fault: why"),
                (400, {"error": "NoKind", "denied": True, "reason": "why"}, "", Denied, "NoKind")):
            found = fault_of(Told(status, "application/json", json.dumps(told).encode(), after))
            self.assertEqual((type(found), str(found)), (kind, text))
        full = {"error": "PoolEmpty", "denied": True, "stat": {"version": 1, "names": 2, "edges": 3, "free": 4, "retired": 5,
                                                               "used": 6}}
        self.assertEqual(fault_of(Told(409, "application/json", json.dumps(full).encode())).stat, Stat(1, 2, 3, 4, 5, 6))
        for media, body in (("text/html", b"<p>"), ("", b"")):
            found = fault_of(Told(502, media, body))
            self.assertEqual((type(found), str(found)),
                             (errors.NoServer, "the server is busy, or there is another one: status 502"))
        for body in (b"x", b"[]", b"1"):
            self.assertRaisesRegex(errors.Misread, "no server of a store", fault_of, Told(400, "application/json", body))

    def test_what_is_a_fault(self):
        for status in (200, 204, 399, 400, 500):
            with mock.patch.object(Talk, "ask", return_value=Told(status, "", b"")):
                try:
                    found = Talk("http://h").call("GET", "/x").status
                except errors.NoServer:
                    found = "a fault"
            self.assertEqual(found, status if status < 400 else "a fault")

    def test_what_ends_a_connection(self):
        """Whatever goes wrong on it."""
        for fault, told in ((ConnectionError("why"), errors.NoServer), (HTTPException(), errors.NoServer),
                            (socket.timeout(), errors.NoAnswer), (OSError("why"), errors.NoServer),
                            (KeyboardInterrupt(), KeyboardInterrupt)):
            talk, connection = Talk("http://h:7"), mock.Mock()
            with mock.patch.object(talk, "_connection", return_value=(connection, False)), \
                    mock.patch.object(talk, "_on", side_effect=fault):
                self.assertRaises(told, talk.ask, "GET", "/x")
            connection.close.assert_called_once_with()

    def test_what_became_of_a_server(self):
        talk = Talk("http://h:7")
        for fault, told in ((ConnectionError("why"), "http://h:7 doesn't answer: why"),
                            (ConnectionError(), "http://h:7 doesn't answer: ConnectionError")):
            for was_sent in (True, False):
                found = talk._gone(fault, was_sent)
                self.assertEqual((str(found), found.is_sent), (told, was_sent))


class Responses(unittest.TestCase):
    def test_most_are_read_at_once(self):
        """Those that have a length, however their bytes come; others, and those amid which something is wrong, by http.client."""
        with mock.patch.object(answers, "_any", side_effect=AssertionError):
            for step in range(1, len(WHOLE) + 1):
                self.assertEqual(answers.read(Link(WHOLE, step), "GET").body, b"hello")
            none = WHOLE.replace(b"5", b"0")[:-5]
            self.assertEqual(answers.read(Link(none, 1 << 20), "GET").body, b"")
        with mock.patch.object(answers, "_any", return_value="other") as other:
            for data in (CHUNKED, WHOLE.replace(b"1.1", b"1.0"), WHOLE + b"more", WHOLE.replace(b"200", b"204"),
                         WHOLE.replace(b": 5", b": \xb2"), b"HTTP/1.1 200 OK\r\nContent-Length\r\n\r\n"):
                self.assertEqual(answers.read(Link(data, 1 << 20), "GET"), "other", data)
                self.assertEqual(other.call_args[0][1:], (data, "GET"))


class Faults(unittest.TestCase):
    def test_faults(self):
        self.assertEqual(wire.fault("A", "b"), {"error": "A", "reason": "b"})
        self.assertEqual(wire.fault("A", "b", 3, c=4), {"error": "A", "reason": "b", "retry_after": 3, "c": 4})
        self.assertRaisesRegex(errors.Misread, "no JSON", wire.loaded, b"x")
        self.assertEqual(wire.loaded(b'{"a": "\xc3\xa9"}'), {"a": "\u00e9"})


class Boards(Case):
    def test_what_is_let_go_is_closed(self):
        """Behind its last lease, and behind its last question; the last version with the board."""
        clock, store = Clock(), self.store(seats=16, endless=True)
        board = Board(store, ServerLimits(idle=60), clock)
        sessions = []
        for _ in range(2):
            lease = board.lease()
            sessions.append(lease.shared.session)
            self.feed(store, "add k a b 1 1")
            board.advance()
            board.let_go(lease.name)
            self.assertEqual([it.is_open for it in sessions], [False] * len(sessions))
        lease = board.lease()
        held = lease.shared.session
        for _ in range(2):
            with board.lent(version=2), board.lent(lease.name):
                pass
        loan = board.lend(lease.name)
        self.feed(store, "add k a b 1 1")
        board.advance()
        board.let_go(lease.name)
        self.assertTrue(held.is_open)
        board.take_back(*loan)
        board.sweep()
        self.assertFalse(held.is_open)
        last = board._last.session
        board.close()
        self.assertFalse(last.is_open)

    def test_a_silent_client_that_asks(self):
        """Whoever asks isn't silent, and is counted anew behind the answer."""
        clock, store = Clock(), self.store(seats=16, endless=True)
        board = Board(store, ServerLimits(idle=60), clock)
        lease = board.lease()
        loan = board.lend(lease.name)
        clock.now = 100
        self.assertEqual(board.sweep(), 0)
        board.take_back(*loan)
        clock.now = 159.5
        self.assertEqual(board.sweep(), 0)
        clock.now = 160
        self.assertEqual(board.sweep(), 1)
        board.close()


class Logs(unittest.TestCase):
    def record(self, level, text, fault=None, **more):
        caught = fault and (type(fault), fault, fault.__traceback__)
        found = logging.LogRecord("misteluk.serve", level, "/x/y.py", 1, text, (), caught)
        found.created = 86_400.25
        found.__dict__.update(more)
        return found

    def fault(self):
        try:
            raise KeyError("x")
        except KeyError as fault:
            return fault

    def test_lines(self):
        text, as_json, caught = log.AsText(), log.AsJson(), self.fault()
        head = {"time": "1970-01-02T00:00:00.250+00:00"}
        for record, line, told in (
                (self.record(logging.INFO, "held", fields={"who": "ann", "version": 3}), "misteluk: held who=ann version=3",
                 {"level": "info", "event": "held", "who": "ann", "version": 3}),
                (self.record(log.STATED, "ended", fields={"version": 3}, words="it ended"), "misteluk: it ended",
                 {"level": "info", "event": "ended", "version": 3}),
                (self.record(logging.WARNING, "at /tmp/x: why"), "misteluk: at /tmp/x: why",
                 {"level": "warning", "event": "fault", "reason": "at ..: why"}),
                (self.record(logging.ERROR, "at /tmp/x: why", reason="why"), "misteluk: at /tmp/x: why",
                 {"level": "error", "event": "fault", "reason": "why"})):
            self.assertEqual(text.format(record), line)
            self.assertEqual(json.loads(as_json.format(record)), {**head, **told})
        record = self.record(logging.ERROR, "why", caught, reason=None)
        self.assertRegex(text.format(record), r"^misteluk: why\nTraceback (.|\n)*KeyError: 'x'$")
        at = f"{__name__}:{caught.__traceback__.tb_lineno}"
        self.assertEqual(json.loads(as_json.format(record)),
                         {**head, "level": "error", "event": "fault", "reason": "why", "error": "KeyError", "at": [at]})

    def test_places_of_this_machine(self):
        for text, told in (("no /tmp/x y", "no .. y"), ("'~/x'", "'..'"), ("./x, ../y; /z", ".., ..; .."), ("1/2 a/b", "1/2 a/b"),
                           ("a.b/c", "a.b/c"), ("x" * 2_000, "x" * 2_000), ("x" * 2_001, "x" * 2_000 + " ..")):
            self.assertEqual(log.without_paths(text), told)
        self.assertEqual(log.without_paths("/t/f.csv:7: bad in /t/f.csv, /t/g", "/t/f.csv"), "line 7: bad in the feed, ..")
        self.assertEqual(log.without_paths("/t/f: why", "/t/f", "the file"), "the file: why")

    def test_levels(self):
        """Without a form faults and how the server is are told, with one what is noted too; and then all is as before."""
        before = log.PACKAGE.level, list(log.PACKAGE.handlers)
        for form, noted in ((None, 0), ("text", 1), ("json", 1)):
            with mock.patch("sys.stderr") as err, log.written(form):
                log.note("a", b=1)
                log.state("c", "words", d=2)
                log.fault("e")
            lines = "".join(it.args[0] for it in err.write.call_args_list).splitlines()
            self.assertEqual((len(lines), err.flush.call_count), (2 + noted, 2 + noted), form)
            self.assertEqual([it.startswith("{") for it in lines], [form == "json"] * len(lines))
            self.assertEqual((log.PACKAGE.level, list(log.PACKAGE.handlers)), before)
        with mock.patch("sys.stderr") as err, log.written("text"):
            err.write.side_effect = OSError
            log.fault("e")


class Numbers(unittest.TestCase):
    def test_lines(self):
        self.assertEqual("".join(of_numbers([gauge("a", "What.", 3), gauge("b", "Why.", None), gauge("c", "How.", 2.5, "counter"),
                                             ("d", "Who.", "gauge", [({"x": '"\\\n', "y": "z"}, 1.0)])])),
                         "# HELP misteluk_a What.\n# TYPE misteluk_a gauge\nmisteluk_a 3\n"
                         "# HELP misteluk_c How.\n# TYPE misteluk_c counter\nmisteluk_c 2.5\n"
                         '# HELP misteluk_d Who.\n# TYPE misteluk_d gauge\nmisteluk_d{x="\\"\\\\\\n",y="z"} 1\n')

    def test_counts(self):
        self.assertEqual((Spread().counts, Spread().seconds), ([0] * 9, 0.0))
        counts = Counts()
        for call, status, seconds in (("edge", 200, 0.5), ("edge", 200, 3.0), ("edge", 404, 0.0), ("stat_after", 200, 9.0)):
            counts.answered(call, status, seconds)
        for word in ("Busy", "Busy", "NoSeat"):
            counts.refuse(word)
        lines = "".join(counts.text()).splitlines()
        self.assertEqual([it for it in lines if it.startswith("misteluk_re")],
                         ['misteluk_requests_total{call="edge",status="200"} 2',
                          'misteluk_requests_total{call="edge",status="404"} 1',
                          'misteluk_requests_total{call="stat_after",status="200"} 1',
                          'misteluk_refused_total{error="Busy"} 2', 'misteluk_refused_total{error="NoSeat"} 1'])
        self.assertEqual([it.rpartition(" ")[2] for it in lines if it.startswith("misteluk_answer_seconds")],
                         ["1", "1", "1", "1", "2", "2", "3", "3", "3", "3.5", "3"])
        self.assertEqual(list(Counts().text()), [])


if __name__ == "__main__":
    unittest.main()
