"""The spectators' page in a frame of another site, `--embed`."""

import contextlib
import functools
import http.server
import pathlib
import threading
import urllib.request
from typing import Dict, Iterator, List, Optional, Tuple

import outside
from paged.devtools import Shared, Tab
from played.ports import free_port
from played.stage import Skipped, same, stop, until, until_line
from rounds.browser import until_value
from rounds.hall import Hall

AS_BEFORE = "it is shown as before; --page no ends that"
READS = "fetch('http://127.0.0.1:{}/state.json').then((answer) => answer.json()).then((round) => round.boards.length, () => 'refused')"
HEADING = "document.querySelector('h1').offsetHeight > 0"
COMPACT = "document.body.classList.contains('compact')"
BOARDS = "document.querySelectorAll('.tile').length"


def fields(port: int, path: str) -> Tuple[List[str], Optional[str], Optional[str]]:
    """Who may show this path in a frame, which site may read it, and which site may have it as a part."""
    with urllib.request.urlopen(f"http://127.0.0.1:{port}{path}", timeout=60) as answer:
        policy = str(answer.headers["Content-Security-Policy"]).split("; ")
        ancestors = [part for part in policy if part.startswith("frame-ancestors ")]
        return ancestors, answer.headers["Access-Control-Allow-Origin"], answer.headers["Cross-Origin-Resource-Policy"]


def who_may_frame(folder: pathlib.Path) -> None:
    """With --embed one site may show the spectators' page and read it, and nobody the arbiter's. So it stays when the same round is begun
    without options. With --page and without --embed nobody may any more, also the next time."""
    hall, port, arbiter, site = Hall(folder, 1), free_port(), free_port(), "https://federation.example"
    place = ("--page", str(port), "--arbiter-page", str(arbiter))
    may, nobody = ([f"frame-ancestors {site}"], site, "cross-origin"), (["frame-ancestors 'none'"], None, "same-origin")
    for options, expected in (((*place, "--embed", site), may), ((), may), (place, nobody), ((), nobody)):
        live = hall.record(*options)
        until_line(live, f"is shown at http://127.0.0.1:{port}/" if options else AS_BEFORE)
        same([fields(port, path) for path in ("/", "/state.json", "/round.pgn", "/spectators.js")], [expected] * 4)
        same([fields(arbiter, path) for path in ("/", "/state.json")], [nobody] * 2)
        same(stop(live), 0)


class Federation(http.server.BaseHTTPRequestHandler):
    """A site whose only page has another one in a frame."""

    def __init__(self, framed: str, *given: object) -> None:
        self._framed = framed
        super().__init__(*given)  # type: ignore[arg-type]  # what the server gives

    def do_GET(self) -> None:
        content = f"<!DOCTYPE html><title>Federation</title><iframe src='{self._framed}' width='900' height='700'></iframe>".encode()
        self.send_response(200)
        self.send_header("Content-Type", "text/html")
        self.end_headers()
        self.wfile.write(content)

    def log_message(self, *_: object) -> None:
        """Says nothing."""


@contextlib.contextmanager
def a_site(framed: str) -> Iterator[str]:
    """The address of a site that has this page in a frame."""
    server = http.server.ThreadingHTTPServer(("127.0.0.1", 0), functools.partial(Federation, framed))
    threading.Thread(target=server.serve_forever, daemon=True).start()
    try:
        yield f"http://localhost:{server.server_address[1]}"
    finally:
        server.shutdown()
        server.server_close()


def frame_of(tab: Tab) -> Tab:
    """The frame of a page, which is of another site."""
    found: List[Dict[str, str]] = []

    def has_one() -> bool:
        found[:] = [one for one in tab.call("Target.getTargets")["targetInfos"] if one["type"] == "iframe" and one["url"]]
        return len(found) == 1

    until(has_one, "one frame", 0.05)
    assert Shared.browser
    return Tab(f"ws://127.0.0.1:{Shared.browser.port}/devtools/page/{found[0]['targetId']}")


def in_a_frame(folder: pathlib.Path) -> None:
    """In a browser the site that --embed names has the boards in its frame, without a heading, and reads them. Another site has neither,
    and after a start with --page alone that site hasn't either. Outside of a frame the page has its heading."""
    if lacking := outside.lacks("chromium"):
        raise Skipped(lacking)
    hall, port = Hall(folder, 2), free_port()
    page = f"http://127.0.0.1:{port}/"
    with a_site(page) as named, a_site(page) as other:

        def seen_by(site: str, may: bool) -> None:
            tab = Shared.tab()
            tab.open(f"{site}/")
            frame = frame_of(tab)
            if may:
                until_value(frame, BOARDS, 2)
                same([frame.value(one) for one in (COMPACT, HEADING, "location.href")], [True, False, page])
            else:
                until_value(frame, "location.href", "chrome-error://chromewebdata/")
            same(tab.value(READS.format(port)), 2 if may else "refused")
            tab.close()

        try:
            for options, may in ((("--page", str(port), "--embed", named), True), (("--page", str(port)), False)):
                live = hall.record(*options)
                until_line(live, f"is shown at {page}")
                hall.begun(live)
                seen_by(named, may)
                seen_by(other, False)
                tab = Shared.tab()
                tab.open(page)
                until_value(tab, BOARDS, 2)
                same([tab.value(one) for one in (COMPACT, HEADING)], [False, True])
                tab.close()
                same(stop(live), 0)
        finally:
            Shared.end()


CASES = [who_may_frame, in_a_frame]
