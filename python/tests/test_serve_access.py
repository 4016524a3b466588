"""Who gets in by a token, how often a session is kept, and a server that a proxy has under a path."""
import http.client
import itertools
import queue
import threading
import unittest
from http.server import BaseHTTPRequestHandler, ThreadingHTTPServer
from unittest import mock

from serving import Clock, ServeCase

from misteluk import SessionClosed, StoreError, connect
from misteluk.errors import NoServer, NotAllowed
from misteluk.serve import alive
from misteluk.serve.rate import Rate
from misteluk.serve.talk import Talk

TOKEN = "Secret-token_42"


class Tokens(ServeCase):
    def test_the_token_and_no_other(self):
        """Neither a part of it nor more than it; the word before it in any case."""
        self.serve(token=TOKEN)
        wrong = [TOKEN[:end] for end in range(len(TOKEN))] + [TOKEN[begin:] for begin in range(1, len(TOKEN))]
        wrong += [TOKEN + "x", TOKEN + TOKEN, "x" + TOKEN, TOKEN + ",", TOKEN + " x", TOKEN.lower(), TOKEN.upper(),
                  TOKEN.swapcase(), f'"{TOKEN}"', f"{TOKEN[:-1]}\u00ff", TOKEN.replace("_", "-"), "*", "null"]
        for at in range(len(TOKEN)):
            wrong.append(TOKEN[:at] + "x" + TOKEN[at + 1:])
        for it in wrong:
            found = self.ask("/v1/stat", Authorization=f"Bearer {it}")
            self.assertEqual((found.status, found.json["error"]), (401, "NotAllowed"), it)
        for way in ("", "Basic ", "Bearer", "Bearer:", "Token ", "Bear ", "Bearer Bearer ", "Bearer\u00a0"):
            self.assertEqual(self.ask("/v1/stat", Authorization=f"{way}{TOKEN}").status, 401, way)
        self.assertEqual((self.ask("/v1/stat").status, self.ask("/v1/stat", token=TOKEN).status), (401, 401))
        self.assertEqual(self.ask(f"/v1/stat?token={TOKEN}").status, 401)
        for way in ("Bearer ", "bearer ", "BEARER ", "Bearer   "):
            self.assertEqual(self.ask("/v1/stat", Authorization=f"{way}{TOKEN}").status, 200, way)


class Kept(unittest.TestCase):
    def test_intervals(self):
        """A session is told of three times within the time that a silent one has, and at most every 20 s."""
        for idle, every in ((60.0, 20.0), (30.0, 10.0), (1.5, 0.5), (6_000.0, 20.0)):
            waits, talk = [], mock.Mock()

            class Bell:
                def get(self, timeout):
                    waits.append(timeout)
                    if len(waits) < 5:
                        raise queue.Empty
            with mock.patch("queue.SimpleQueue", Bell), mock.patch.object(threading, "Thread") as thread:
                talk.apart.return_value = talk
                hold = alive.Hold(self, talk, "/v1/sessions/x", idle, True)
                hold._forgotten.detach()
                given = thread.call_args.kwargs
            given["target"](*given["args"])
            self.assertEqual((waits, talk.call.call_args_list), ([every] * 5, [mock.call("PUT", "/v1/sessions/x")] * 4))

    def test_what_ends_it(self):
        """The server's word that it holds the session no more, and no fault of the way there."""
        for fault, calls in ((None, 4), (NoServer("x"), 4), (StoreError("x"), 4), (SessionClosed("x"), 1), (NotAllowed("x"), 1)):
            bell, talk = mock.Mock(), mock.Mock()
            bell.get.side_effect = [queue.Empty] * 4 + [None]
            talk.call.side_effect = fault
            alive._keep(bell, talk, "/v1/sessions/x", 1.0)
            self.assertEqual((talk.call.call_count, talk.close.call_count), (calls, 1), fault)

    def test_rates(self):
        """Rows of the last ten seconds, from the start on over those that there were."""
        clock = Clock()
        rate = Rate(clock)
        for now, rows, wanted in ((0.0, 0, 0.0), (0.5, 40, 40.0), (4.0, 40, 20.0), (8.0, 0, 10.0), (10.0, 20, 10.0),
                                  (10.75, 0, 6.0), (14.5, 0, 2.0), (20.5, 0, 0.0), (1_000.0, 70, 7.0), (1_009.0, 0, 7.0)):
            clock.now = now
            if rows:
                rate.add(rows)
            self.assertEqual(rate.a_second(), wanted, now)
        self.assertEqual(rate.total, 170)


class Proxy(BaseHTTPRequestHandler):
    """Has a server under a path: what comes without that it doesn't know."""

    protocol_version = "HTTP/1.1"
    port, prefix, seen = 0, "", None

    def pass_on(self):
        self.seen.append(self.path)
        if not self.path.startswith(f"{self.prefix}/v1/"):
            self.send_error(404)
            return
        link = http.client.HTTPConnection("127.0.0.1", self.port, timeout=60)
        body = self.rfile.read(int(self.headers.get("Content-Length", 0)))
        link.request(self.command, self.path[len(self.prefix):], body, {**self.headers, "Host": f"127.0.0.1:{self.port}"})
        told = link.getresponse()
        data = told.read()
        self.send_response(told.status)
        for name, value in told.headers.items():
            if name.lower() not in ("transfer-encoding", "content-length", "connection", "date"):
                self.send_header(name, value)
        self.send_header("Content-Length", str(len(data)))
        self.end_headers()
        self.wfile.write(data)
        link.close()
    do_GET = do_POST = do_PUT = do_DELETE = pass_on

    def log_message(self, *given):
        pass


class Prefixes(ServeCase):
    def test_a_path_before_each_call(self):
        self.fed()
        for prefix, at in itertools.product(("/graph", "/a/b%20c"), ("", "/")):
            handler = type("Handler", (Proxy,), {"port": self.server.address.port, "prefix": prefix, "seen": []})
            proxy = ThreadingHTTPServer(("127.0.0.1", 0), handler)
            thread = threading.Thread(target=proxy.serve_forever)
            thread.start()
            self.addCleanup(thread.join)
            self.addCleanup(proxy.server_close)
            self.addCleanup(proxy.shutdown)
            url = f"http://127.0.0.1:{proxy.server_address[1]}"
            with connect(f"{url}{prefix}{at}") as of_session, of_session.open() as session:
                self.assertEqual(session.levels("ana"), {"ana": 0, "funnel": 1, "offshore": 2})
            with connect(f"{url}{prefix}{at}") as store:
                store.add("k", "a", "b", 5, 1)
                self.assertEqual(store.commit().version, self.ask("/v1/stat").json["version"])
            self.assertEqual([it for it in handler.seen if not it.startswith(f"{prefix}/v1/")], [])
            self.assertGreater(len(handler.seen), 5)
            self.assertRaises(NoServer, connect, url)

    def test_addresses(self):
        for url in ("http://h/x?y=1", "https://h/x#y", "http:///x", "ftp://h/x", "unix:"):
            self.assertRaises(ValueError, Talk, url)
        for url, begin in (("https://h/a b", "/a%20b"), ("http://h", ""), ("http://h/", ""), ("http://h/x//", "/x"),
                           ("unix:/tmp/x", ""), ("http://h/\u0438", "/%D0%B8")):
            self.assertTrue(Talk(url)._request("GET", "/v1/stat", None).startswith(f"GET {begin}/v1/stat HTTP".encode()), url)


if __name__ == "__main__":
    unittest.main()
