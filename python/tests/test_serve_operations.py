"""What an operator sees of a server: whether it is ready, its numbers, its service manager, and a proxy before it."""
import json
import os
import pathlib
import re
import shutil
import signal
import socket
import subprocess
import sys
import time
import unittest
from unittest import mock

from browsing import Browser
from pages import CHROMIUM
from serving import FEED, Clock, ServeCase
from support import TOP, Case, as_soon_as, optional

from misteluk import Columns, connect
from misteluk.errors import NoServer, NotAllowed
from misteluk.serve import keeping
from misteluk.serve.keeping import Keeper
from misteluk.serve.metrics import BOUNDS, Counts
from misteluk.serve.notify import Manager

SHARE = TOP / "share/serve"
NGINX, CADDY = shutil.which("nginx") or shutil.which("nginx", path="/usr/sbin"), shutil.which("caddy")
OPENSSL = shutil.which("openssl")
PARSER = optional("prometheus_client")
COLUMNS = Columns(1, 2, weight=3, time=4, default_kind="k")


class Ready(ServeCase):
    def ready(self):
        found = self.ask("/readyz")
        return found.status, found.json.get("reason")

    def test_without_a_token(self):
        """Both say how the server is to whoever asks, and no more."""
        self.serve(token="open-sesame")
        self.assertEqual([self.ask(it).status for it in ("/healthz", "/readyz", "/metrics")], [200, 200, 401])
        self.assertEqual(self.ask("/metrics", Authorization="Bearer open-sesame").status, 200)

    def test_a_feed(self):
        """Not ready while a file is read for the first time, nor when its feed failed; later rows change nothing."""
        path, server = self.file("feed.csv", "ana,bob,5,1\n"), self.serve()
        self.assertEqual(self.ready(), (200, None))
        behind = mock.PropertyMock(side_effect=lambda: self.behind)
        self.behind = 12
        with mock.patch("misteluk.feeds.apart.Apart.behind", behind), mock.patch("sys.stderr"):
            server.feeding.follow(server.store.follow(path, by="add", every=0.01, columns=COLUMNS))
            self.assertEqual(self.ready(), (503, "the feed's file is still read for the first time"))
            self.behind = 0
            self.assertEqual(self.ready(), (200, None))
            self.behind = 500
            self.assertEqual(self.ready(), (200, None))
            with open(path, "a") as file:
                file.write("ana,cat,much,1\n")
            as_soon_as(lambda: self.ready() == (503, "the feed failed"))
        self.assertEqual(self.ask("/healthz").status, 200)

    def test_a_save(self):
        clock = Clock()
        with mock.patch.object(keeping.time, "monotonic", clock):
            keeper = Keeper(str(self.room / "graph.gz"), 60)
            self.addCleanup(keeper.close)
            for now, is_late in ((0, False), (150, False), (151, True)):
                clock.now = now
                self.assertEqual(keeper.is_late, is_late, now)
            server = self.fed()
            keeper.save(server.board)
            self.assertEqual((keeper.is_late, keeper.took), (False, 0.0))
            with mock.patch.object(keeping, "log"), mock.patch.object(server.board, "lent", side_effect=OSError(28, "full")):
                keeper.save(server.board)
            self.assertTrue(keeper.is_late)
            server._api.health._keeper = keeper
            self.assertEqual(self.ready(), (503, "a save is late, or failed"))
            clock.now = 200
            keeper.save(server.board)
            self.assertEqual(self.ready(), (200, None))


class Left(Case):
    def test_what_killed_saves_left(self):
        """Parts of this file that aren't whole go; what has another name stays."""
        mine = [self.file(f"graph.gz.{it}.part", "x") for it in ("0123abcd", "ffffffff")]
        others = [self.file(it, "x") for it in ("graph.gz.part", "graph.gz.0123ABCD.part", "graphxgz.0123abcd.part",
                                                "graph.gz.0123abcd.parts", "other.0123abcd.part", "graph.gz.0123abcd")]
        Keeper(str(self.room / "graph.gz"), 60).close()
        self.assertEqual([os.path.exists(it) for it in mine + others], [False] * 2 + [True] * 6)


def samples(text):
    """The samples of a text by names and labels, as Prometheus's own client reads them."""
    from prometheus_client.parser import text_string_to_metric_families
    families = list(text_string_to_metric_families(text))
    return families, {(it.name, *sorted(it.labels.items())): it.value for family in families for it in family.samples}


@unittest.skipUnless(PARSER, "prometheus_client is not there")
class Numbers(ServeCase):
    def numbers(self):
        found = self.ask("/metrics")
        self.assertEqual((found.status, found.headers["content-type"]), (200, "text/plain; version=0.0.4; charset=utf-8"))
        self.assertTrue(found.body.endswith(b"\n"))
        return samples(found.body.decode())

    def test_what_they_say(self):
        self.fed()
        self.post("/v1/sessions")
        for _ in range(3):
            self.ask("/v1/edge?kind=transfer&source=ana&target=funnel")
        self.ask("/v1/levels?source=nobody")
        self.post("/v1/rows?feeder=zed", {"rows": FEED})
        self.post("/v1/feeder")
        self.post("/v1/rows", {"rows": FEED})
        families, found = self.numbers()
        stat, blocks = self.ask("/v1/stat").json, self.server.board.stat
        for name, value in (("version", 1), ("vertices", 5), ("edges", 4), ("rows_total", 4), ("bad_rows_total", 0),
                            ("versions_held", 1), ("sessions", 1), ("feed_failed", 0), ("expired_edges_total", 0)):
            self.assertEqual(found[f"misteluk_{name}",], value, name)
        self.assertEqual(found["misteluk_blocks", ("state", "used")], blocks.used)
        self.assertEqual(stat["blocks"]["used"], blocks.used)
        self.assertGreater(found["misteluk_memory_bytes",], 1 << 20)
        requests = {key[1:]: value for key, value in found.items() if key[0] == "misteluk_requests_total"}
        self.assertEqual(requests, {(("call", "edge"), ("status", "200")): 3, (("call", "levels"), ("status", "404")): 1,
                                    (("call", "rows"), ("status", "200")): 1, (("call", "rows"), ("status", "409")): 1,
                                    (("call", "rows"), ("status", "410")): 1, (("call", "hold"), ("status", "201")): 1,
                                    (("call", "claim"), ("status", "201")): 1})
        self.assertEqual(found["misteluk_refused_total", ("error", "Busy")], 1)
        self.assertEqual(found["misteluk_answer_seconds_count", ("call", "edge")], 3)
        self.assertEqual(found["misteluk_answer_seconds_bucket", ("call", "edge"), ("le", "+Inf")], 3)
        kinds = {family.name: family.type for family in families}
        self.assertEqual({kinds[it] for it in ("misteluk_rows", "misteluk_requests", "misteluk_refused")}, {"counter"})
        self.assertEqual((kinds["misteluk_answer_seconds"], kinds["misteluk_edges"]), ("histogram", "gauge"))
        self.assertEqual([it.name for it in families if not it.documentation], [])

    def test_the_short_way_counts(self):
        self.fed()
        with connect(self.server.url) as of_session, of_session.open() as session:
            for _ in range(5):
                session.edge("transfer", "ana", "funnel")
        self.assertEqual(self.numbers()[1]["misteluk_answer_seconds_count", ("call", "ask")], 5)

    def test_spreads(self):
        """An answer counts in each class that it isn't above."""
        counts = Counts()
        for seconds in (0.0005, 0.001, 0.0011, 0.3, 61.0):
            counts.answered("x", 200, seconds)
        counts.answered("events", 200, 5.0)
        counts.refuse('a "word"\\\n')
        found = samples("".join(counts.text()))[1]
        of_x = [found["misteluk_answer_seconds_bucket", ("call", "x"), ("le", str(it))] for it in (*BOUNDS, "+Inf")]
        self.assertEqual(of_x, [2, 3, 3, 3, 4, 4, 4, 4, 5])
        self.assertAlmostEqual(found["misteluk_answer_seconds_sum", ("call", "x")], 61.3026)
        self.assertNotIn(("misteluk_answer_seconds_count", ("call", "events")), found)
        self.assertEqual(found["misteluk_refused_total", ("error", 'a "word"\\\n')], 1)

    def test_a_save_and_a_feed(self):
        keeper = Keeper(str(self.room / "graph.gz"), 60)
        self.addCleanup(keeper.close)
        path, server = self.file("feed.csv", "ana,bob,5,1\nana,cat,much,1\n"), self.serve()
        server._api.health._keeper = keeper
        server.feeding.follow(server.store.follow(path, by="add", every=0.01, columns=COLUMNS, skip_bad=True))
        as_soon_as(lambda: self.ask("/v1/stat").json["feed"]["rows"] == 1)
        keeper.save(server.board)
        found = self.numbers()[1]
        self.assertEqual([found[f"misteluk_{it}",] for it in ("saved_version", "save_failed", "bad_rows_total", "behind_bytes")],
                         [1, 0, 1, 0])
        self.assertEqual(found["misteluk_save_seconds",], keeper.took)


class Managers(ServeCase):
    """systemd's protocol, by a socket as it has one."""

    def socket(self):
        found = socket.socket(socket.AF_UNIX, socket.SOCK_DGRAM)
        self.addCleanup(found.close)
        found.bind(str(self.room / "notify"))
        found.settimeout(60)
        return found

    def test_a_server_says_how_it_is(self):
        manager, place = self.socket(), str(self.room / "socket")
        env = {"NOTIFY_SOCKET": str(self.room / "notify"), "WATCHDOG_USEC": "600000"}
        with mock.patch.dict(os.environ, env):
            done = self.command("--listen", f"unix:{place}")
        self.assertEqual(manager.recv(1_000).decode().split("\n"), ["READY=1", f"STATUS=serves unix:{place}"])
        begun = time.monotonic()
        connect(f"unix:{place}").close()  # (it answers since it said so)
        self.assertEqual([manager.recv(1_000) for _ in range(6)], [b"WATCHDOG=1"] * 6)
        self.assertGreater(time.monotonic() - begun, 0.8)  # (the first comes at once, and the others each 0.2 s)
        done.send_signal(signal.SIGSTOP)
        time.sleep(0.3)
        manager.setblocking(False)
        with self.assertRaises(BlockingIOError):  # (one that hangs says nothing)
            while manager.recv(1_000):
                pass
        manager.settimeout(60)
        done.send_signal(signal.SIGCONT)
        done.send_signal(signal.SIGTERM)
        self.assertIn(b"STOPPING=1", iter(lambda: manager.recv(1_000), b""))
        done.communicate(timeout=60)
        self.assertEqual(done.returncode, 0)

    def test_environments(self):
        mine, manager = str(os.getpid()), self.socket()
        for more, every in (({}, None), ({"WATCHDOG_USEC": "3000000"}, 1.0), ({"WATCHDOG_USEC": "x"}, None),
                            ({"WATCHDOG_USEC": "3000000", "WATCHDOG_PID": mine}, 1.0), ({"WATCHDOG_USEC": "0"}, None),
                            ({"WATCHDOG_USEC": "3000000", "WATCHDOG_PID": "1"}, None)):
            env = {"NOTIFY_SOCKET": str(self.room / "notify"), **more, "OTHER": "x"}
            found = Manager(env)
            self.assertEqual((found.every, env), (every, {"OTHER": "x"}), more)
            found.tell("READY=1", "STATUS=x")
            self.assertEqual(manager.recv(100), b"READY=1\nSTATUS=x")
        for place in ("", "vsock:2:1234", str(self.room / "nowhere")):
            Manager({"NOTIFY_SOCKET": place}).tell("READY=1")
        with socket.socket(socket.AF_UNIX, socket.SOCK_DGRAM) as hidden:
            hidden.bind(f"\0misteluk-{mine}")
            Manager({"NOTIFY_SOCKET": f"@misteluk-{mine}"}).tell("READY=1")
            self.assertEqual(hidden.recv(100), b"READY=1")


@unittest.skipUnless(SHARE.is_dir(), "share/ is not there")
class Shared(ServeCase):
    def words_of(self, name):
        """Those of its command, with places of this test's own."""
        found = re.search(r"(?m)^ExecStart=.* serve (.*)$|^ *command: (\[.*\])$", (SHARE / name).read_text())
        text = " ".join(json.loads(found[2]) if found[2] else [found[1]])
        for place, here in (("/var/lib/misteluk/graph", f"{self.room}/{name}"), ("/etc/misteluk/tokens", self.tokens),
                            ("/run/secrets/tokens", self.tokens), ("0.0.0.0:7700", "127.0.0.1:0")):
            text = text.replace(place, here)
        return [*text.split(), "--listen", "127.0.0.1:0"]

    def test_they_run(self):
        """What a server answers that was begun so is there after a kill."""
        self.tokens = self.file("tokens", "fred feed token-of-fred\n")
        os.chmod(self.tokens, 0o600)
        for name in ("misteluk.service", "compose.yaml"):
            for edges in (0, 1):
                server = self.command(*self.words_of(name))
                with connect(server.stdout.readline().split()[1], token="token-of-fred") as store:
                    self.assertEqual(store.stat().edges, edges, name)
                    store.add("k", "ana", "bob", 5, 1)
                    store.commit()
                    server.kill()
                    server.wait()

    @unittest.skipUnless(shutil.which("systemd-analyze"), "systemd-analyze is not there")
    def test_a_unit(self):
        """As systemd reads it, where its command is there."""
        text = (SHARE / "misteluk.service").read_text()
        here = text.replace("/usr/local/bin/misteluk", sys.executable).replace("User=misteluk\n", "")
        unit = self.file("misteluk.service", here)
        done = subprocess.run(["systemd-analyze", "verify", "--man=no", unit], stdout=subprocess.PIPE, stderr=subprocess.STDOUT,
                              text=True, timeout=60)
        self.assertNotIn(unit, done.stdout)
        self.assertEqual(done.returncode, 0, done.stdout)

    def test_six_lines(self):
        for name in ("nginx.conf", "Caddyfile"):
            lines = [it.strip() for it in (SHARE / name).read_text().splitlines()]
            self.assertLessEqual(sum(it not in ("}", "") and not it.startswith("#") for it in lines), 7, name)

    @unittest.skipUnless(optional("yaml"), "yaml is not there")
    def test_compose(self):
        import yaml
        found = yaml.safe_load((SHARE / "compose.yaml").read_text())
        self.assertEqual((list(found["services"]), sorted(found)), (["graph"], ["secrets", "services", "volumes"]))


class Proxied(ServeCase):
    """A server with tokens behind a proxy that has the lines of share/serve, under a path."""

    def setUp(self):
        super().setUp()
        self.serve(token="open-sesame")
        with socket.socket() as free:
            free.bind(("127.0.0.1", 0))
            self.port = free.getsockname()[1]
        proxy = subprocess.Popen(self.words(), stdout=subprocess.DEVNULL, stderr=subprocess.DEVNULL,
                                 env={**os.environ, "XDG_CONFIG_HOME": str(self.room), "XDG_DATA_HOME": str(self.room)})
        self.addCleanup(proxy.wait)
        self.addCleanup(proxy.terminate)
        self.url = f"http://127.0.0.1:{self.port}/graph"
        as_soon_as(self.is_there)

    def lines(self, name):
        """Those of a file, which leads to this test's server."""
        return (SHARE / name).read_text().replace("127.0.0.1:7700", f"127.0.0.1:{self.server.address.port}")

    def is_there(self):
        with socket.socket() as there:
            return there.connect_ex(("127.0.0.1", self.port)) == 0

    def clients_in_python(self, url):
        self.assertRaises(NotAllowed, connect, url, token="another-one")
        with connect(url, token="open-sesame") as store:
            store.load([(f"s{it % 30}", f"t{it // 30}", it, it) for it in range(60_000)], by="set", progress=False)
            with connect(url, token="open-sesame") as of_session, of_session.open() as session:
                self.assertEqual(session.edge_count, 60_000)
                store.add("k", "a", "b", 5, 1)
                store.commit()
                self.assertEqual(session.edge_count, 60_000)

    def a_browser_holds(self):
        """The page is under the path too, asks and holds through it, and draws."""
        with connect(self.url, token="open-sesame") as store:
            store.add("k", "ana", "bob", 5, 1)
            store.commit()
        browser = Browser()
        self.addCleanup(browser.close)
        browser.go(f"{self.url}/")
        browser.wait_for("!document.getElementById('entry').hidden")
        browser.see("document.getElementById('token').value = 'open-sesame'; document.getElementById('entry').requestSubmit()")
        browser.wait_for("document.getElementById('edges').textContent === '1'")
        browser.see("document.getElementById('hold').click()")
        browser.wait_for("document.getElementById('held').textContent.includes('this page')")
        self.assertEqual([it.clients for it in self.server.board.held()], [1])
        browser.see("document.getElementById('vertex').value = 'ana'; document.getElementById('look').requestSubmit()")
        browser.wait_for("!document.getElementById('view').hidden && document.getElementById('view').style.height !== ''")


@unittest.skipUnless(NGINX, "nginx is not there")
@unittest.skipUnless(SHARE.is_dir(), "share/ is not there")
class Nginx(Proxied):
    def words(self):
        room, lines = pathlib.Path(self.room), self.lines("nginx.conf")
        paths = "".join(f"{name}_temp_path {room}/{name};\n" for name in ("client_body", "proxy", "fastcgi", "uwsgi", "scgi"))
        listen = f"listen 127.0.0.1:{self.port};\n{self.tls() if OPENSSL else ''}"
        conf = self.file("nginx.conf", f"pid {room}/pid;\nerror_log stderr;\ndaemon off;\nmaster_process off;\nevents {{}}\n"
                         f"http {{\naccess_log off;\n{paths}server {{\n{listen}{lines}\n}}\n}}\n")
        return [NGINX, "-p", str(room), "-c", conf]

    def tls(self):
        """Lines by which it listens with TLS too, and has a certificate of its own."""
        words = "req -x509 -newkey ec -pkeyopt ec_paramgen_curve:P-256 -nodes -days 1 -subj /CN=localhost -keyout key -out cert"
        subprocess.run([OPENSSL, *words.split(), "-addext", "subjectAltName=DNS:localhost"], cwd=self.room, check=True,
                       stderr=subprocess.DEVNULL, timeout=60)
        with socket.socket() as free:
            free.bind(("127.0.0.1", 0))
            self.safe_port = free.getsockname()[1]
        return (f"listen 127.0.0.1:{self.safe_port} ssl;\nssl_certificate {self.room}/cert;\n"
                f"ssl_certificate_key {self.room}/key;\n")

    @unittest.skipUnless(OPENSSL, "openssl is not there")
    def test_clients_in_python(self):
        """By TLS, and only to a server whose certificate is known."""
        url = f"https://localhost:{self.safe_port}/graph"
        self.assertRaisesRegex(NoServer, "CERTIFICATE_VERIFY_FAILED", connect, url, token="open-sesame")
        with mock.patch.dict(os.environ, {"SSL_CERT_FILE": str(self.room / "cert")}):
            self.clients_in_python(url)

    @unittest.skipUnless(CHROMIUM, "Chromium is not there")
    def test_a_browser(self):
        self.a_browser_holds()


@unittest.skipUnless(CADDY, "Caddy is not there")
@unittest.skipUnless(SHARE.is_dir(), "share/ is not there")
class Caddy(Proxied):
    def words(self):
        lines = self.lines("Caddyfile").replace("graph.example.com", f"http://127.0.0.1:{self.port}")
        conf = self.file("Caddyfile", f"{{\n\tadmin off\n}}\n{lines}")
        return [CADDY, "run", "--config", conf, "--adapter", "caddyfile"]

    def test_clients_in_python(self):
        self.clients_in_python(self.url)

    @unittest.skipUnless(CHROMIUM, "Chromium is not there")
    def test_a_browser(self):
        self.a_browser_holds()


if __name__ == "__main__":
    unittest.main()
