"""What the tests of the server share: one that runs in this process, and requests as a client without Python makes them."""
from __future__ import annotations

import http.client
import json
import os
import pathlib
import subprocess
import unittest
from typing import Any, Dict, NamedTuple, Optional

from described import wrong
from forking import Python
from support import HERE, IN_PROCESS, IS_SERVED, Case, optional

import misteluk
from misteluk.serve.limits import ServerLimits
from misteluk.serve.people import People
from misteluk.serve.server import Server

HAS_PACKAGES = all(map(optional, ("starlette", "uvicorn")))
NO_PACKAGES = "starlette or uvicorn is not there"
FEED = (("add", "transfer", "ana", "funnel", 980, 1), ("add", "transfer", "ben", "funnel", 950, 1),
        ("add", "transfer", "funnel", "offshore", 3850, 3), ("add", "owes", "boss", "ana", 2100, 1))
# The columns of the rows that a server follows.
ROWS = misteluk.Columns(1, 2, weight=3, time=4)


class Told(NamedTuple):
    """A response: its status, its headers by small names, and its body."""

    status: int
    headers: Dict[str, str]
    body: bytes

    @property
    def json(self) -> Any:
        return json.loads(self.body)


class Clock:
    """A clock that stands still until it is told to go on."""

    def __init__(self) -> None:
        self.now = 0.0

    def __call__(self) -> float:
        return self.now


@unittest.skipUnless(HAS_PACKAGES, NO_PACKAGES)
class ServeCase(Case):
    """A case with a server."""

    def setUp(self) -> None:
        super().setUp()
        if IS_SERVED:
            self.skipTest(IN_PROCESS)

    def serve(self, listen: str = "127.0.0.1:0", token: Optional[str] = None, limits: ServerLimits = ServerLimits(),
              batches: Optional[int] = None, people: Optional[People] = None, **options: Any) -> Server:
        store = misteluk.Store(seats=16, endless=True, limits=misteluk.Limits(batches=batches), **options)
        self.addCleanup(self.let_go, store)
        server = Server(store, listen, people=people or People(token=token), limits=limits).start()
        self.addCleanup(server.stop)
        self.server = server
        return server

    def command(self, *words: str, **how: Any) -> "subprocess.Popen[str]":
        """`misteluk serve` as a process, which is killed at the end."""
        env = {**os.environ, "PYTHONPATH": str(HERE.parent)}
        done = Python(["-m", "misteluk", "serve", *words], stdout=subprocess.PIPE, stderr=subprocess.PIPE, text=True, env=env,
                      **how)
        self.addCleanup(done.communicate)
        self.addCleanup(done.kill)
        return done

    def fed(self, *rows: Any, **options: Any) -> Server:
        """A server whose store has these rows, or those of the example."""
        server = self.serve(**options)
        self.assertEqual(self.post("/v1/rows", {"rows": rows or FEED}).status, 200)
        return server

    def ask(self, path: str, method: str = "GET", body: Optional[bytes] = None, **headers: str) -> Told:
        connection = http.client.HTTPConnection("127.0.0.1", self.server.address.port, timeout=60)
        try:
            connection.request(method, path, body, {name.replace("_", "-"): value for name, value in headers.items()})
            found = connection.getresponse()
            told = Told(found.status, {name.lower(): value for name, value in found.headers.items()}, found.read())
            if found.status != 500 and method != "HEAD":  # (each answer is as the server describes it)
                self.assertEqual(wrong(method, path, told.status, told.headers.get("content-type", ""), told.body), [])
            return told
        finally:
            connection.close()

    def post(self, path: str, told: Any = None, **headers: str) -> Told:
        if told is None:
            return self.ask(path, "POST", **headers)
        return self.ask(path, "POST", json.dumps(told).encode(), Content_Type="application/json", **headers)

    def rows_of(self, path: str) -> Any:
        """The rows of an answer, as texts and numbers."""
        found = self.ask(path)
        self.assertEqual(found.status, 200, found.body)
        columns = found.json["columns"]
        rows = list(zip(*columns.values()))
        self.assertEqual(found.json["rows"], len(rows))
        return rows

    def rooms_of(self, text: str) -> bool:
        """Whether a text names a place of this machine."""
        return any(it in text for it in (str(self.room), str(pathlib.Path(misteluk.__file__).parent), "/home", "Traceback"))


class ProcessCase(ServeCase):
    """A case with `misteluk serve` as a process, at a socket."""

    def setUp(self) -> None:
        super().setUp()
        self.path, self.saved = str(self.room / "socket"), str(self.room / "graph.gz")

    def client(self) -> "misteluk.ServedStore[Any, Any]":
        store = misteluk.connect(f"unix:{self.path}")
        self.addCleanup(store.close)
        return store

    def stat(self, store: Any) -> Any:
        """What the server tells, to a client."""
        return store._engine.talk.call("GET", "/v1/stat").json()

    def end(self, process: "subprocess.Popen[str]") -> None:
        """Kills a process."""
        process.kill()
        self.assertEqual(process.wait(), -9)


class FollowCase(ServeCase):
    """A case with a server that follows a file."""

    def of_feed(self) -> Any:
        """What the server tells of its feed."""
        return self.ask("/v1/stat").json["feed"]

    def follow(self, path: str, **options: Any) -> Any:
        how: Dict[str, Any] = {"by": "add", "every": 0.01, "columns": ROWS, **options}
        self.server.feeding.follow(self.server.store.follow(path, **how))
        return self.server.feeding.readers.last

    def append(self, path: str, text: str) -> None:
        with open(path, "a") as file:
            file.write(text)
