"""The program as a WebAssembly module in a browser: a page of this process runs the calls."""

from __future__ import annotations

import base64
import http.server
import json
import pathlib
import threading
from typing import Any, Dict, List, Sequence, Tuple

from compared.calls import TOP, Answer, Call
from paged.devtools import Shared

AT_ONCE = 300  # calls, which take a few seconds
KINDS = {".mjs": "text/javascript", ".js": "text/javascript", ".json": "application/json", ".wasm": "application/wasm"}


def told(call: Call) -> Dict[str, Any]:
    """A call as run.mjs reads it."""
    more = {"length": call.length, "most": call.most}
    given: Dict[str, Any] = {"words": call.words, "input": base64.b64encode(call.input).decode()}
    return {**given, **{name: value for name, value in more.items() if value is not None}}


def serving(files: Dict[str, bytes]) -> http.server.ThreadingHTTPServer:
    """A server of this machine alone, for these files."""

    class Handler(http.server.BaseHTTPRequestHandler):
        def do_GET(self) -> None:
            content = files.get(self.path)
            self.send_response(404 if content is None else 200)
            self.send_header("Content-Type", KINDS.get(pathlib.Path(self.path).suffix, "text/html"))
            self.send_header("Cache-Control", "no-store")
            self.end_headers()
            self.wfile.write(content or b"")

        def log_message(self, format: str, *args: object) -> None:
            """Nothing is printed of a request."""

    return http.server.ThreadingHTTPServer(("127.0.0.1", 0), Handler)


class Page:
    """A page that runs a module, from `with` on."""

    def __init__(self, module: pathlib.Path) -> None:
        self.files = {
            "/": b"<!doctype html><title>dgt_replay</title>",
            "/dgt_replay.wasm": module.read_bytes(),
            "/hosts/wasm.mjs": (TOP / "hosts" / "wasm.mjs").read_bytes(),
            "/hosts/process.mjs": (TOP / "hosts" / "process.mjs").read_bytes(),
            "/run.mjs": pathlib.Path(__file__).with_name("run.mjs").read_bytes(),
        }
        self.server = serving(self.files)

    def __enter__(self) -> Page:
        # A thread, since the browser asks it while this process waits for the browser.
        threading.Thread(target=self.server.serve_forever, daemon=True).start()
        self.tab = Shared.tab()
        self.tab.open(f"http://127.0.0.1:{self.server.server_address[1]}/")
        self.tab.until("document.title", "dgt_replay")
        return self

    def __exit__(self, *_: object) -> None:
        self.tab.close()
        Shared.end()
        self.server.shutdown()
        self.server.server_close()

    def answers(self, calls: Sequence[Call]) -> List[Tuple[Answer, float]]:
        """What each call gives, and the seconds that it took."""
        given: List[Tuple[Answer, float]] = []
        for start in range(0, len(calls), AT_ONCE):
            self.files["/calls"] = json.dumps([told(call) for call in calls[start : start + AT_ONCE]]).encode()
            answers = self.tab.value("import('/run.mjs').then((page) => page.answers()).catch(String)")
            if not isinstance(answers, list):
                raise OSError(f"the module doesn't run: {answers}")
            for it in answers:
                answer = Answer(it["status"], base64.b64decode(it["output"]), base64.b64decode(it["errors"]))
                given.append((answer, it["seconds"]))
        return given

    def goes_on(self, words: Sequence[str], parts: Sequence[bytes]) -> Answer:
        """What a process gives that is given parts of its input one after the other."""
        self.files["/parts"] = json.dumps({"words": words, "parts": [base64.b64encode(part).decode() for part in parts]}).encode()
        it = self.tab.value("import('/run.mjs').then((page) => page.goes_on())")
        assert isinstance(it, dict), it
        return Answer(it["status"], base64.b64decode(it["output"]), it["errors"].encode())

    def many(self) -> Dict[str, Any]:
        """How many processes there may be, and what is then."""
        it = self.tab.value("import('/run.mjs').then((page) => page.many())")
        assert isinstance(it, dict), it
        return it
