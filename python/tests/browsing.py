"""Headless Chromium as a person uses it: pages of a server, clicks, and what is seen, by its own protocol over two pipes."""
from __future__ import annotations

import atexit
import base64
import json
import os
import pathlib
import shutil
import subprocess
import tempfile
from typing import Any, Dict, List, Mapping, Optional, Sequence, Tuple

from pages import CHROMIUM
from support import as_soon_as


# What stays in a window, which is then nobody else's.
LEFT_BEHIND = {"Emulation.setEmulatedMedia", "Page.addScriptToEvaluateOnNewDocument"}
# How long a look at a page is put off, in seconds, that is waited for longer.
SELDOM = 0.05
# Counts a picture's pixels.
PIXELS = """(async () => {
    const image = new Image();
    image.src = %s;
    await image.decode();
    const place = new OffscreenCanvas(image.width, image.height).getContext("2d"), half = image.width / 2;
    place.drawImage(image, 0, 0);
    const count = (color, left) => { const data = place.getImageData(left, 0, half, image.height).data; let found = 0;
        for (let at = 0; at < data.length; at += 4) found += color.every((it, part) => Math.abs(data[at + part] - it) < 24);
        return found; };
    return [image.width, image.height, %s.map((it) => [count(it, 0), count(it, half)])];
})()"""


class Chromium:
    """A process of the browser, with the pages of one test after another."""

    # Those that run, by their words: they end with this process.
    running: "Dict[Tuple[str, ...], Chromium]" = {}

    def __init__(self, words: Sequence[str]) -> None:
        self._room = tempfile.mkdtemp()
        asked, told = os.pipe(), os.pipe()
        command = [CHROMIUM or "", "--headless", "--no-sandbox", "--disable-gpu", "--hide-scrollbars", "--disable-extensions",
                   "--no-first-run", "--remote-debugging-pipe", f"--user-data-dir={self._room}", *words, "about:blank"]

        def ends() -> None:  # (Chromium reads descriptor 3 and writes 4)
            mine = os.dup(asked[0]), os.dup(told[1])
            os.dup2(mine[0], 3)
            os.dup2(mine[1], 4)
        self._process = subprocess.Popen(command, stdout=subprocess.DEVNULL, stderr=subprocess.DEVNULL, preexec_fn=ends,
                                         pass_fds=(3, 4, asked[0], told[1]))
        os.close(asked[0])
        os.close(told[1])
        self._out, self._in = os.fdopen(asked[1], "wb", buffering=0), os.fdopen(told[0], "rb", buffering=0)
        self._number, self._left = 0, b""
        self.free: List[Tuple[str, str]] = []  # (windows that nobody has, each a context and its page)
        atexit.register(self.close)

    @classmethod
    def of(cls, *words: str) -> Chromium:
        if words not in cls.running:
            cls.running[words] = cls(words)
        return cls.running[words]

    def call(self, method: str, given: Mapping[str, Any], page: Optional[str], logged: List[str]) -> Dict[str, Any]:
        """What a call gives, of a page where one is said, whose log is kept meanwhile."""
        self._number += 1
        told = {"id": self._number, "method": method, "params": given, **({"sessionId": page} if page else {})}
        self._out.write(json.dumps(told).encode() + b"\0")
        while True:
            found = self._next()
            if found.get("id") == self._number:
                if "error" in found:
                    raise AssertionError(f"{method}: {found['error']}")
                return dict(found["result"])
            if found.get("method") == "Log.entryAdded" and found.get("sessionId") == page:
                logged.append(found["params"]["entry"]["text"])

    def _next(self) -> Dict[str, Any]:
        while b"\0" not in self._left:
            more = self._in.read(65_536)
            if not more:
                raise AssertionError("the browser ended")
            self._left += more
        line, _, self._left = self._left.partition(b"\0")
        return dict(json.loads(line))

    def close(self) -> None:
        try:
            self.call("Browser.close", {}, None, [])
            self._process.wait(30)
        except (AssertionError, OSError, subprocess.TimeoutExpired):
            self._process.kill()
            self._process.wait()
        self._out.close()
        self._in.close()
        shutil.rmtree(self._room, ignore_errors=True)


class Browser:
    """A person's browser with one page, which knows nothing of others. `see` evaluates an expression there. `options` are more of
    Chromium's own; without them it is as people have it, who see a sandboxed frame by a process of its own."""

    _page: Optional[str] = None

    def __init__(self, options: Sequence[str] = ()) -> None:
        self._chromium = Chromium.of("--window-size=1280,900", *options)
        self.logged: List[str] = []
        self._is_plain = True
        if self._chromium.free:
            self._context, self._page = self._chromium.free.pop()
        else:
            self._open()

    def _open(self) -> None:
        self._context = self._call("Target.createBrowserContext")["browserContextId"]
        # (one that comes to the front takes twice as long, and what is seen is the same; its focus it must be told)
        target = self._call("Target.createTarget", url="about:blank", browserContextId=self._context, background=True)["targetId"]
        self._page = self._call("Target.attachToTarget", targetId=target, flatten=True)["sessionId"]
        self._call("Runtime.enable")
        self._call("Log.enable")
        self._call("Emulation.setFocusEmulationEnabled", enabled=True)

    def _call(self, method: str, **given: Any) -> Dict[str, Any]:
        self._is_plain = self._is_plain and method not in LEFT_BEHIND
        return self._chromium.call(method, given, self._page, self.logged)

    def go(self, url: str) -> None:
        self._call("Page.navigate", url=url)
        as_soon_as(lambda: self.see("document.readyState") == "complete", seldom=SELDOM)

    def see(self, expression: str) -> Any:
        """What an expression of JavaScript gives."""
        found = self._call("Runtime.evaluate", expression=expression, awaitPromise=True, returnByValue=True)
        if "exceptionDetails" in found:
            raise AssertionError(found["exceptionDetails"])
        return found["result"].get("value")

    def wait_for(self, expression: str) -> Any:
        """The first value of an expression that is true."""
        found: List[Any] = []

        def is_so() -> bool:
            found[:] = [self.see(expression)]
            return bool(found[0])
        as_soon_as(is_so, seldom=SELDOM)
        return found[0]

    def size(self, width: int, height: int, is_phone: bool = False) -> None:
        self._call("Emulation.setDeviceMetricsOverride", width=width, height=height, deviceScaleFactor=1, mobile=is_phone)

    def pixels(self, colors: Sequence[str]) -> Any:
        """How many pixels are nearly of each color, as #d55e00, in the left and in the right half of what is seen."""
        wanted = [[*bytes.fromhex(it[1:])] for it in colors]
        shot = self._call("Page.captureScreenshot", format="png")["data"]
        self.go("about:blank")  # (what is seen may forbid itself pictures)
        return self.see(PIXELS % (json.dumps(f"data:image/png;base64,{shot}"), wanted))

    def picture(self, path: "str | os.PathLike[str]", whole: bool = False) -> None:
        """Writes what is seen, or the whole page, as PNG."""
        found = self._call("Page.captureScreenshot", format="png", captureBeyondViewport=whole)
        pathlib.Path(path).write_bytes(base64.b64decode(found["data"]))

    def close(self) -> None:
        """Ends it. Its window is kept for another one, with nothing left in it: a new one takes a second of a processor."""
        if self._is_plain and self._page:
            self.see("try { sessionStorage.clear(); localStorage.clear() } catch { 0 }")
            self.go("about:blank")
            self._call("Page.resetNavigationHistory")
            self._call("Emulation.clearDeviceMetricsOverride")
            self._call("Network.clearBrowserCookies")
            self._call("Log.clear")
            self._chromium.free.append((self._context, self._page))
            return
        self._page = None
        self._call("Target.disposeBrowserContext", browserContextId=self._context)
