"""A browser without a screen, told what to do by its DevTools protocol over a WebSocket."""

import base64
import contextlib
import json
import os
import pathlib
import select
import shutil
import signal
import socket
import struct
import subprocess
import tempfile
import time
import urllib.parse
import urllib.request
from typing import Any, Dict, List, Optional, Sequence

import outside
from played.recorder import processes

PATIENCE = 300  # seconds, on a machine that has too much to do, or was stopped for a while
ENDS = 20  # seconds in which a browser ends by itself
Json = Dict[str, Any]  # what the browser tells: each method and each event has fields of its own
KEYS = {"ArrowLeft": 37, "ArrowUp": 38, "ArrowRight": 39, "ArrowDown": 40, "Home": 36, "End": 35, "Escape": 27, "Enter": 13, "Tab": 9}
LEFT = "Inspected target navigated or closed"  # what it says of an expression on a page that is being left


class Browser:
    """A browser with a profile of its own, from `with` on, or with that of a browser that was killed. `start` are words that start
    it, and `seen` is where this process sees its profile, if that isn't where the browser sees it."""

    screen: Sequence[str] = ("--headless=new",)  # where it is shown

    def __init__(self, folder: str = "", start: Sequence[str] = (), seen: str = "") -> None:
        self.folder, self.start, self.seen = folder, tuple(start), seen

    def __enter__(self) -> "Browser":
        self.folder = self.folder or tempfile.mkdtemp(prefix="page-")
        self.seen = self.seen or self.folder
        words = [*self.screen, "--remote-debugging-port=0", f"--user-data-dir={self.folder}", "--no-first-run", "--disable-gpu",
                 "--disable-background-networking", "--disable-component-update", "--disable-sync", "--disable-dev-shm-usage",
                 "--hide-scrollbars", "--mute-audio"]  # fmt: skip
        if os.geteuid() == 0:
            words.append("--no-sandbox")
        browser = outside.path_of("chromium")
        if browser is None:
            raise OSError(outside.lacks("chromium"))
        self.process = subprocess.Popen([*self.start, browser, *words, "about:blank"], stdout=subprocess.DEVNULL, stderr=subprocess.DEVNULL,
                                        stdin=subprocess.DEVNULL, start_new_session=True)  # fmt: skip
        told = pathlib.Path(self.seen) / "DevToolsActivePort"
        ends = time.monotonic() + PATIENCE
        while not (told.exists() and told.read_text().count("\n")):
            if time.monotonic() > ends or self.process.poll() is not None:
                self.__exit__()
                raise OSError("the browser doesn't start")
            time.sleep(0.02)
        self.port = int(told.read_text().split("\n")[0])
        return self

    def __exit__(self, *_: object) -> None:
        self.process.terminate()
        with contextlib.suppress(subprocess.TimeoutExpired):
            self.process.wait(ENDS)
        self._kill_all()
        shutil.rmtree(self.seen, ignore_errors=True)

    def _kill_all(self) -> None:
        """All its processes at once, and until they have ended: one of them may still have its profile open."""
        with contextlib.suppress(ProcessLookupError):
            os.killpg(self.process.pid, signal.SIGKILL)
        self.process.wait()
        ends = time.monotonic() + PATIENCE
        while processes(self.process.pid) and time.monotonic() < ends:
            time.sleep(0.01)

    def send(self, number: int) -> None:
        """A signal to all its processes."""
        os.killpg(self.process.pid, number)

    @property
    def has_ended(self) -> bool:
        return self.process.poll() is not None

    def kill(self) -> None:
        """All its processes at once, as when the power fails. Its profile stays."""
        self._kill_all()
        for name in ("DevToolsActivePort", "SingletonLock", "SingletonSocket", "SingletonCookie"):
            with contextlib.suppress(FileNotFoundError):
                os.unlink(os.path.join(self.seen, name))

    def tab(self) -> "Tab":
        """A new tab, which shows nothing yet."""
        request = urllib.request.Request(f"http://127.0.0.1:{self.port}/json/new?about:blank", method="PUT")
        with urllib.request.build_opener(urllib.request.ProxyHandler({})).open(request, timeout=PATIENCE) as answer:
            return Tab(json.load(answer)["webSocketDebuggerUrl"])


class Shared:
    """One browser for all cases: it is there from the first tab on, until `end`."""

    browser: Optional[Browser] = None

    @classmethod
    def tab(cls) -> "Tab":
        if cls.browser is None:
            cls.browser = Browser().__enter__()
        return cls.browser.tab()

    @classmethod
    def end(cls) -> None:
        if cls.browser is not None:
            cls.browser.__exit__()
            cls.browser = None


class Tab:
    """A tab of the browser. `events` are those that it has told of, in their order."""

    def __init__(self, url: str) -> None:
        parts = urllib.parse.urlsplit(url)
        self.line = socket.create_connection((str(parts.hostname), int(parts.port or 0)), PATIENCE)
        self.line.settimeout(PATIENCE)
        self.text = b""
        self.number = 0
        self.events: List[Json] = []
        key = base64.b64encode(os.urandom(16)).decode()
        self.line.sendall(
            f"GET {parts.path} HTTP/1.1\r\nHost: {parts.netloc}\r\nUpgrade: websocket\r\nConnection: Upgrade\r\n"
            f"Sec-WebSocket-Key: {key}\r\nSec-WebSocket-Version: 13\r\n\r\n".encode()
        )
        while b"\r\n\r\n" not in self.text:
            self.text += self.line.recv(4096)
        self.text = self.text.partition(b"\r\n\r\n")[2]
        for domain in ("Page", "Runtime", "Network", "Log"):
            self.call(f"{domain}.enable")

    def call(self, method: str, **given: object) -> Json:
        """What the browser answers."""
        told = self._asked(method, **given)
        assert "error" not in told, told
        result: Json = told["result"]
        return result

    def _asked(self, method: str, **given: object) -> Json:
        """The whole answer."""
        self.send(method, **given)
        while True:
            told: Json = json.loads(self._message())
            if told.get("id") == self.number:
                return told
            self.events.append(told)

    def send(self, method: str, **given: object) -> None:
        """For what isn't answered."""
        self.number += 1
        self._send(json.dumps({"id": self.number, "method": method, "params": given}).encode())

    def until_event(self, method: str) -> None:
        """Until the browser has told of it."""
        while not any(told.get("method") == method for told in self.events):
            self.events.append(json.loads(self._message()))

    def _send(self, content: bytes) -> None:
        """A text frame, masked as a client's must be."""
        size = bytes((0x80 | len(content),)) if len(content) < 126 else b"\xfe" + struct.pack(">H", len(content))
        if len(content) > 0xFFFF:
            size = b"\xff" + struct.pack(">Q", len(content))
        self.line.sendall(b"\x81" + size + bytes(4) + content)

    def listen(self) -> None:
        """Takes what the browser has told of by now."""
        while self.text or select.select([self.line], [], [], 0)[0]:
            self.events.append(json.loads(self._message()))

    def _message(self) -> bytes:
        content = b""
        while True:
            first, size = self._bytes(2)
            if size > 125:
                size = int.from_bytes(self._bytes(2 if size == 126 else 8), "big")
            content += self._bytes(size)
            if first & 0x80 and first & 0x0F < 8:
                return content

    def _bytes(self, count: int) -> bytes:
        while len(self.text) < count:
            part = self.line.recv(1 << 16)
            assert part, "the browser has gone"
            self.text += part
        part, self.text = self.text[:count], self.text[count:]
        return part

    def close(self) -> None:
        self.call("Page.close")
        self.line.close()

    # What a reader does.

    def open(self, url: str) -> None:
        self.call("Page.navigate", url=url)

    def value(self, expression: str) -> object:
        """What the expression is on the page; None where it has none, or where the page is just being left."""
        told = self._asked("Runtime.evaluate", expression=expression, returnByValue=True, awaitPromise=True)
        if told.get("error", {}).get("message") == LEFT:
            return None
        assert "error" not in told, told
        result: Json = told["result"]
        seen: object = None if "exceptionDetails" in result else result["result"].get("value")
        return seen

    def until(self, expression: str, expected: object = True, seconds: float = PATIENCE) -> object:
        """The last value of the expression, which is the expected one as soon as it is."""
        ends = time.monotonic() + seconds
        while True:
            seen = self.value(expression)
            if seen == expected or time.monotonic() > ends:
                return seen
            time.sleep(0.01)

    def press(self, *keys: str) -> None:
        for key in keys:
            code = KEYS.get(key, ord(key.upper()[0]))
            text = {"Enter": "\r"}.get(key, key if len(key) == 1 else "")
            given = {"key": key, "code": key, "windowsVirtualKeyCode": code}
            self.call("Input.dispatchKeyEvent", type="keyDown" if text else "rawKeyDown", text=text, **given)
            self.call("Input.dispatchKeyEvent", type="keyUp", **given)

    def look(self, width: int, height: int, dark: bool = False, scale: int = 1) -> None:
        """As on a screen of this size."""
        self.call("Emulation.setDeviceMetricsOverride", width=width, height=height, deviceScaleFactor=scale, mobile=width < 600)
        scheme = {"name": "prefers-color-scheme", "value": "dark" if dark else "light"}
        self.call("Emulation.setEmulatedMedia", features=[scheme])

    def picture(self, path: pathlib.Path) -> None:
        """Puts what is seen into a PNG file."""
        pathlib.Path(path).write_bytes(base64.b64decode(self.call("Page.captureScreenshot", format="png")["data"]))

    def requests(self) -> List[str]:
        """The URLs that the page has asked for. A picture that it has itself is asked of nobody."""
        urls = [told["params"]["request"]["url"] for told in self.events if told["method"] == "Network.requestWillBeSent"]
        return [url for url in urls if not url.startswith("data:")]

    def printed(self) -> List[Json]:
        """What stands on the console."""
        kinds = ("Runtime.consoleAPICalled", "Runtime.exceptionThrown", "Log.entryAdded")
        return [told["params"] for told in self.events if told["method"] in kinds]
