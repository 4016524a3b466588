"""How long others wait while a server reads a long body. test_serve_posts.py asks of some; by hand, of all:

    python3 waiting.py [TRIES [PART OF A NAME]]

A thread of the server wakes each millisecond, and looks how much time of a processor every other thread had meanwhile. None of
them let it run in that time: so this is the longest step, also where the machine is busy. The least of some tries is told, beside
what another connection waited, with the body and without.
"""
from __future__ import annotations

import http.client
import itertools
import json
import os
import pathlib
import subprocess
import sys
import threading
import time
from typing import Any, Callable, Dict, List, NamedTuple, Tuple

SIZE = 8 << 20
CSV, JSON = "text/csv", "application/json"
ROWS, BATCH, ASK = "/v1/rows", "/v1/feeder/{seat}/batches/{number}", "/v1/sessions/{session}/ask"
MOST = 0.050
# What others ask.
QUESTIONS = "/v1/stat", "/v1/edge?kind=k&source=a&target=b"


def filled(begin: str, part: str, end: str, size: int = SIZE) -> bytes:
    """A text of about this size, of the same parts."""
    return (begin + part * ((size - len(begin) - len(end)) // len(part)) + end).encode("utf-8")


def numbered(part: str) -> bytes:
    """The same of parts with a number each."""
    size = len(part % 0) + 5
    return "".join(part % it for it in range(SIZE // size)).encode()


def bodies() -> "Dict[str, Tuple[str, str, bytes]]":
    """By what each is: where it is sent, as what, and its bytes."""
    rows = {
        "rows": filled('{"rows": [', '["add","k","ana","funnel",980,1],', '["expire","0"]]}'),
        "empty rows": filled('{"rows": [', "[],", "[]]}"),
        "one text": filled('{"rows": [["add", "k", "', "x", '", "b", 1, 1]]}'),
        "rows with brackets": filled('{"rows": [', f'["add","k","a],","{"x" * 80}",1,1],', '["expire","0"]]}'),
        "objects with brackets": filled('{"x": [', '{"a":"],xxxxxx"},', '5], "rows": []}'),
        "short texts with commas": filled('{"x": [', '"],,",', '5], "rows": []}'),
        "a long text of signs": filled('{"x": "', "\\n", '", "rows": []}'),
        "a long text of pairs": filled('{"x": "', "\\ud83d\\ude00", '", "rows": []}'),
        "many names": filled('{', '"x":5,', '"rows": []}'),
        "long rows": filled('{"rows": [', f'[{"[]," * 80_000}5],', "[]]}"),
        "long names": filled('{"rows": [', f'["add","k","{"x" * 250_000}","b",1,1],', '["expire","0"]]}'),
        "brackets": b"[" * SIZE,
    }
    lines = {
        "CSV": filled("", "add,k,ana,funnel,980,1\n", ""),
        "CSV of many names": numbered("add,k,ana%d,funnel,980,1\n"),
        "CSV of other letters": numbered("add,k,Имя %d,funnel,980,1\n")[:SIZE],
        "CSV of commas": filled("", "," * 250_000 + "\n", ""),
        "CSV of quotes": filled("", '"' + '""' * 120_000 + '"\n', ""),
        "CSV of empty lines": filled("", "\n", "expire,0\n"),
        "CSV that is no UTF-8": filled("", "add,k,ana,funnel,980,1\n", "") + b"\xff",
    }
    batches = {
        "a batch of commas": filled('{"operations": "', ",", '"}'),
        "a batch of long lines": filled('{"operations": "', "a,k," + "x" * 2_000 + ",y,1,1\\n", '"}'),
        "a batch of quotes": filled('{"operations": "', '\\"', '"}'),
        "a batch of lines": filled('{"operations": "', "\\n", '"}'),
        "a batch with a long text": filled('{"operations": "a,k,x,y,1,1\\n", "texts": {"~x": "', "И", '"}}')[:SIZE - 4] + b'"}}',
        "a batch of lists": filled('{"operations": [', "[],", "[]]}"),
    }
    asked = {
        "a question of ends": filled('{"call": "found", "ends": [', '["k","ana","funnel"],', '["k","a","b"]]}'),
        "a question of a long name": filled('{"call": "out_of", "name": "', "x", '"}'),
    }
    return {**{name: (ROWS, JSON, it) for name, it in rows.items()}, **{name: (ROWS, CSV, it) for name, it in lines.items()},
            **{name: (BATCH, JSON, it) for name, it in batches.items()}, **{name: (ASK, JSON, it) for name, it in asked.items()}}


# The server.

class Watch:
    """The longest step of the other threads, in seconds of a processor."""

    def __init__(self) -> None:
        self.longest = 0.0
        self._before: Dict[int, float] = {}
        threading.Thread(target=self._run, name="watch", daemon=True).start()

    def _run(self) -> None:
        own = threading.get_ident()
        while True:
            time.sleep(0.001)
            now = {it.ident: _spent(it.ident) for it in threading.enumerate() if it.ident not in (None, own)}
            steps = [spent - self._before.get(name or 0, spent) for name, spent in now.items()]
            self.longest = max([self.longest, *steps])
            self._before = {name or 0: spent for name, spent in now.items()}


def _spent(name: Any) -> float:
    """How much time of a processor a thread had; none where it is gone."""
    try:
        return time.clock_gettime(time.pthread_getcpuclockid(name))
    except OSError:
        return 0.0


def serve() -> None:
    import gc
    import misteluk
    from misteluk.command.serve import TURN
    from misteluk.serve.server import Server
    sys.setswitchinterval(TURN)
    with misteluk.Store(seats=16, endless=True) as store, Server(store, "127.0.0.1:0") as server:
        gc.collect()
        gc.freeze()
        watch = Watch()
        print(server.address.port, flush=True)
        for _ in sys.stdin:
            print(watch.longest, flush=True)
            watch.longest = 0.0


# Who asks.

class Wait(NamedTuple):
    """The longest wait of another connection and the longest step of the server, in seconds; the status, and how long it took."""

    wait: float
    step: float
    status: int
    spent: float


class Asker:
    def __init__(self) -> None:
        env = {**os.environ, "PYTHONPATH": str(pathlib.Path(__file__).resolve().parent.parent)}
        self.server = subprocess.Popen([sys.executable, __file__, "serve"], stdin=subprocess.PIPE, stdout=subprocess.PIPE,
                                       text=True, env=env)
        self.port = int(self._line())
        self.send(ROWS, b"add,k,a,b,1,1\n", CSV)
        self.number = 0

    def end(self) -> None:
        self.server.kill()
        self.server.communicate()

    def _line(self) -> str:
        assert self.server.stdout is not None
        return self.server.stdout.readline()

    def step(self) -> float:
        """The server's longest step since it was asked this."""
        assert self.server.stdin is not None
        print(file=self.server.stdin, flush=True)
        return float(self._line())

    def send(self, path: str, body: bytes, kind: str) -> Tuple[int, Any]:
        link = http.client.HTTPConnection("127.0.0.1", self.port, timeout=600)
        link.request("POST", path, body, {"Content-Type": kind})
        told = link.getresponse()
        found = told.status, json.loads(told.read() or b"null")
        link.close()
        return found

    def beside(self, call: Callable[[], int]) -> Wait:
        """What others wait for while something is done."""
        found: List[int] = []
        self.step()
        thread = threading.Thread(target=lambda: found.append(call()))
        begun = time.monotonic()
        thread.start()
        link, waits = http.client.HTTPConnection("127.0.0.1", self.port, timeout=600), []
        for question in itertools.cycle(QUESTIONS):
            asked = time.monotonic()
            link.request("GET", question)
            assert link.getresponse().read()
            waits.append(time.monotonic() - asked)
            if not thread.is_alive():
                break
            time.sleep(0.005)
        link.close()
        return Wait(max(waits), self.step(), found[0], time.monotonic() - begun)

    def sent(self, where: str, kind: str, body: bytes) -> int:
        self.number += 1
        named = {"number": self.number, "session": "", "seat": ""}
        if where == BATCH:
            named["seat"] = self.send("/v1/feeder", b"", JSON)[1]["feeder"]
        if where == ASK:
            named["session"] = self.send("/v1/sessions", b"", JSON)[1]["session"]
        try:
            return self.send(where.format(**named), body, kind)[0]
        finally:
            if where == BATCH:
                link = http.client.HTTPConnection("127.0.0.1", self.port, timeout=600)
                link.request("DELETE", f"/v1/feeder/{named['seat']}")
                link.getresponse().read()
                link.close()


def nothing() -> int:
    time.sleep(1.0)
    return 0


def main(tries: int = 3, wanted: str = "") -> int:
    asker, late = Asker(), 0
    print(f"{'a body of 8 MB':28} {'others wait':>12} {'alone':>9} {'step':>9}  status and seconds")
    for name, (where, kind, body) in bodies().items():
        if wanted not in name:
            continue
        alone = asker.beside(nothing)
        found = [asker.beside(lambda: asker.sent(where, kind, body)) for _ in range(tries)]
        step, wait = min(it.step for it in found), min(it.wait for it in found)
        late += step > MOST
        print(f"{name:28} {1e3 * wait:9.1f} ms {1e3 * alone.wait:6.1f} ms {1e3 * step:6.1f} ms  {found[0].status}"
              f" {min(it.spent for it in found):6.1f} s{'  <- longer than 50 ms' if step > MOST else ''}", flush=True)
    asker.end()
    print(f"{late} of them have a step that is longer than 50 ms")
    return int(late > 0)


if __name__ == "__main__":
    if sys.argv[1:] == ["serve"]:
        serve()
    else:
        sys.exit(main(int((sys.argv[1:2] or ["3"])[0]), "".join(sys.argv[2:3])))
