"""The page in a browser without a screen: it follows the games, is read by keys alone, and asks nobody else for anything."""

import contextlib
import json
import signal
import time
from typing import Callable, Dict, List, Mapping, Optional, Tuple

import outside
from decided.table import same, skip

from paged.devtools import Shared, Tab
from paged.web import MOVES, PATIENCE, Events, Site, a_board

NAME = "</title><img src=x onerror=alert(1)><b>Jörg & \"Ann\" 'O</b>"


class Page:
    """A page in a tab, read as its readers read it. `times` are the seconds that some changes took."""

    def __init__(self, tab: Tab) -> None:
        self.tab = tab
        self.times: List[float] = []

    def text(self, where: str) -> str:
        return f"(document.querySelector({where!r}) || {{textContent: 'nothing'}}).textContent"

    def reads(self, name: str, where: str, expected: str, seconds: float = PATIENCE) -> None:
        same(name, self.tab.until(self.text(where), expected, seconds), expected)

    def follows(self, name: str, where: str, expected: str) -> None:
        """A change that was just shown."""
        begun = time.monotonic()
        self.reads(name, where, expected)
        self.times.append(time.monotonic() - begun)

    def says(self, name: str, expression: str, expected: object, seconds: float = PATIENCE) -> None:
        same(name, self.tab.until(expression, expected, seconds), expected)

    def square(self, number: int, kind: str, tile: Optional[int] = None) -> str:
        """Whether a square of a diagram has this class. a8 is 0."""
        where = f".tile[href='#{tile}'] i" if tile else "#diagram .square"
        return f"document.querySelectorAll({where!r})[{number}].classList.contains({kind!r})"


Case = Callable[[Site, Page], None]
Table = Callable[[], None]


def skipped(name: str) -> bool:
    """Whether there is no browser; it is counted and said."""
    lacking = outside.lacks("chromium")
    if lacking:
        skip(name, lacking)
    return bool(lacking)


def with_page(*boards: Mapping[str, object], event: Optional[str] = None) -> Callable[[Case], Table]:
    """Calls it with a site that shows these boards, in a browser."""

    def takes(case: Case) -> Table:
        def table() -> None:
            if skipped(case.__name__):
                return
            with Site() as site:
                site.show(*boards, event=event)
                page = Page(Shared.tab())
                page.tab.look(1280, 720)
                page.tab.open(site.url)
                page.reads("the page is there", "#line", "Live")
                case(site, page)
                same("nothing on the console", page.tab.printed(), [])
                asked = page.tab.requests()
                same("asked of this machine alone", [url for url in asked if not url.startswith(site.url)], [])
                same("and all that it needs", {site.url, f"{site.url}page.js", f"{site.url}events"} <= set(asked), True)
                page.tab.close()

        table.__name__, table.__module__ = case.__name__, case.__module__
        return table

    return takes


@with_page(a_board(1, 2), a_board(2, 0), event=NAME)
def followed(site: Site, page: Page) -> None:
    tile = ".tile[href='#1'] "
    page.reads("event", "h1", NAME)
    page.says("title", "document.title", NAME)
    page.reads("last move", tile + ".last", "1... e5")
    page.reads("a board without a move", ".tile[href='#2'] .last", "")
    asked = len(page.tab.requests())
    site.show(a_board(1, 3, alarm=True, state="WRONG: e2 a7", differing=["e2", "a7"]))
    page.follows("a move", tile + ".last", "2. Nf3")
    page.says("its piece", page.square(45, "wN", 1), True)
    page.reads("its clock", tile + ".seat .w ~ .clock", "1:29:41")
    page.says("where it came from", page.square(62, "from", 1), True)
    page.says("where it went", page.square(45, "to", 1), True)
    page.says("a square that differs", [page.square(number, "off", 1) for number in (8,)][0], True)
    page.says("an alarm", "document.querySelector('.alarm .tile').getAttribute('href')", "#1")
    page.says("in words", "document.querySelector('.alarm .state').textContent.startsWith('WRONG: e2 a7')", True)
    page.says("that is read out", "document.getElementById('said').textContent", "Board 1: WRONG: e2 a7")
    page.reads("and linked", "#alarms", "Look at board 1")
    page.says("and in the title", "document.title", f"(!) {NAME}")
    page.tab.look(390, 844)
    site.show(a_board(1, 3, alarm=True, state="LOOK after 138... Qxg4+ and 1 more; in hand g4 h5 g6, WRONG"))
    page.says("a state that is longer than its card", "document.querySelector('.alarm .state').textContent.startsWith('LOOK after 138')", True)
    page.says("the whole diagram is on its card", "(([card, diagram]) => diagram.right <= card.right && diagram.width > 150)"
              "(['', '.diagram'].map((part) => document.querySelector(`.tile[href='#1'] ${part}`.trim()).getBoundingClientRect()))", True)  # fmt: skip
    page.tab.look(1280, 720)
    site.show(a_board(1, 2))
    page.follows("taken back", tile + ".last", "1... e5")
    page.says("no alarm", "document.querySelectorAll('.alarm .tile').length", 0)
    site.show(a_board(1, 7, result="1/2-1/2", state="result 1/2-1/2"))
    page.says("castling: from", page.square(60, "from", 1), True)
    page.says("castling: to", page.square(62, "to", 1), True)
    page.reads("a result", tile + ".result", "½–½")
    page.says("is read out", "document.getElementById('said').textContent", "Board 1: result ½–½")
    site.show({**a_board(1, 7), "teams": ["SK Rochade Nord", ""], "federations": ["GER", "Bosnia and Herzegovina"]})
    page.follows("a team", tile + ".w ~ .team", "SK Rochade Nord")
    page.reads("a federation", tile + ".b ~ .about", "Bosnia and Herzegovina")
    page.tab.value("location.hash = '#1'")
    page.reads("both, beside the large board", "#lower .about", "GER, SK Rochade Nord")
    page.tab.value("location.hash = ''")
    site.show(a_board(3, 1), numbers=[3, 1])
    order = "[...document.querySelectorAll('.tile')].map((tile) => tile.getAttribute('href')).join()"
    page.says("other boards, in their order", order, "#3,#1")
    site.show(a_board(1, 1, white=NAME, black=NAME))
    page.reads("a name with markup", tile + ".player.w", NAME)
    page.says("is no markup", "document.querySelectorAll('img, b, script:not([src], #words)').length", 0)
    for plies in (2, 3, 4, 5, 6):
        site.show(a_board(1, plies))
        page.follows(f"{plies} plies", tile + ".last", ["1... e5", "2. Nf3", "2... Nc6", "3. Bc4", "3... Bc5"][plies - 2])
    same("for a change the page asks for nothing", page.tab.requests()[asked:], [])
    half = sorted(page.times)[len(page.times) // 2]
    print(f"  on the page after {1000 * half:.0f} ms, and at most {1000 * max(page.times):.0f}")


@with_page(*[a_board(number, 4) for number in range(1, 10)])
def by_keys(site: Site, page: Page) -> None:
    at = "document.activeElement.getAttribute('href')"
    page.says("nine boards", "document.querySelectorAll('.tile').length", 9)
    page.tab.press("ArrowRight")
    page.says("an arrow goes to the first board", at, "#1")
    page.tab.press("ArrowRight", "ArrowRight", "ArrowLeft")
    page.says("along the row", at, "#2")
    columns = page.tab.value("getComputedStyle(document.getElementById('boards')).gridTemplateColumns.split(' ').length")
    assert isinstance(columns, int), columns
    page.tab.press("ArrowDown")
    page.says("a row down", at, f"#{2 + columns}")
    page.tab.press("ArrowUp", "Home", "End", "Home", "Tab")
    page.says("Tab too", at, "#2")
    page.tab.press("Enter")
    page.reads("Enter opens it", "#title", "Board 2")
    page.says("it has the focus", "document.activeElement.id", "large")
    page.says("the others are away", "document.getElementById('boards').hidden", True)
    page.reads("its last move", "#at", "2... Nc6")
    pressed = "document.getElementById('live').getAttribute('aria-pressed')"
    page.says("it is followed", pressed, "true")
    page.tab.press("ArrowLeft")
    page.reads("one back", "#at", "2. Nf3 (1 move back)")
    page.says("its position", page.square(1, "bN"), True)
    page.says("the move in the list", "document.querySelector('#moves [aria-current]').textContent", "Nf31:29:41")
    page.reads("White's clock then", "#lower .clock", "1:29:41")
    page.reads("Black's clock then", "#upper .clock", "1:29:48")
    site.show(a_board(2, 6))
    page.reads("it stays there while the game goes on", "#at", "2. Nf3 (3 moves back)")
    page.tab.press("ArrowLeft", "ArrowLeft", "ArrowRight")
    page.reads("back and forward", "#at", "1... e5 (4 moves back)")
    page.tab.press("Home")
    page.reads("Home", "#at", "the start (6 moves back)")
    page.says("the start", "document.querySelectorAll('#diagram .from, #diagram .to').length", 0)
    page.tab.press("ArrowLeft", "ArrowRight")
    page.reads("not before the start", "#at", "1. e4 (5 moves back)")
    page.tab.press("End")
    page.reads("End", "#at", "3... Bc5")
    page.says("is followed", pressed, "true")
    site.show(a_board(2, 7))
    page.reads("the next move", "#at", "4. O-O")
    page.says("is read out", "document.getElementById('said').textContent",
              "Board 2: 4, White: castles on the king's side, clock 1:29:02")  # fmt: skip
    page.tab.press("Home", "l")
    page.reads("L", "#at", "4. O-O")
    label = "document.querySelector('#diagram').getAttribute('aria-label')"
    page.says("the board has a name", label, "Board 2, now: 4. O-O")
    cells = "[...document.querySelectorAll('#diagram .row:nth-child(8) .square')].map((cell) => cell.textContent).join('; ')"
    row = "a1, white rook; b1, white knight; c1, white bishop; d1, white queen; e1, empty, last move; f1, white rook; "
    page.says("its squares are read", cells, row + "g1, white king, last move; h1, empty")
    page.tab.press("t")
    page.says("T turns it", "document.querySelector('#diagram .square').textContent", "h1, empty")
    page.reads("White is above then", "#upper .player", "White: White 2")
    page.tab.press("Escape")
    page.says("Escape", "document.getElementById('large').hidden", True)
    page.says("back to where it was", at, "#2")
    page.says("the address too", "location.hash", "")
    page.says("moves are a list", "document.querySelectorAll('ol#moves li button').length", len(MOVES))


@with_page(a_board(1, 3, black=""))
def one_board(site: Site, page: Page) -> None:
    page.reads("it is large at once", "#title", "Board 1")
    page.says("there are no others", "document.getElementById('back').hidden", True)
    page.tab.press("Escape", "ArrowLeft")
    page.reads("keys", "#at", "1... e5 (1 move back)")
    page.tab.value("document.querySelector('#moves button').click()")
    page.reads("a click on a move", "#at", "1. e4 (2 moves back)")
    page.tab.value("document.getElementById('live').click()")
    page.reads("a click on Live", "#at", "2. Nf3")
    page.reads("without a name", "#upper .player", "Black: Black")
    page.says("nothing is wrong", "document.getElementById('mend').hidden", True)
    site.show(a_board(1, 3, alarm=True, state="WRONG: e2", mend="back takes the last ply off"))
    page.reads("what an arbiter may type", "#mend", "back takes the last ply off")
    corrected = [*MOVES[:2], ["Nc3", "1:29:41", "correction"]]
    site.show(a_board(1, 3, moves=corrected))
    page.says("a correction", "document.querySelector('#moves .corrected').getAttribute('aria-label')",
              "2, White: knight c3, 1:29:41, corrected")  # fmt: skip
    black = "rnbqkbnr/pppppppp/8/8/8/8/PPPPPPPP/RNBQKBNR b KQkq - 0 12"
    after = "rnbqkbnr/pppp1ppp/8/4p3/8/8/PPPPPPPP/RNBQKBNR w KQkq - 0 13"
    site.show(a_board(1, 0, moves=[["e5", ""], ["d4", ""]], positions=[black, after]))
    page.reads("Black begins, and the last position isn't known yet", "#at", "13. d4")
    page.says("the one before is shown", page.square(28, "bP"), True)
    page.says("the list begins with Black", "document.querySelector('#moves li').textContent", "12...e5")
    for width, height in ((400, 860), (860, 400), (1920, 1080), (320, 600)):
        page.tab.look(width, height)
        page.says(f"{width} px: nothing to the side", "document.documentElement.scrollWidth <= innerWidth", True)
    site.show(a_board(1, 7))
    page.reads("the last move", "#at", "4. O-O")
    page.tab.look(860, 200)
    list_end = "moves.scrollTop + moves.clientHeight >= moves.scrollHeight - 8 && moves.scrollHeight > moves.clientHeight"
    page.says("the last move is in sight", f"(() => {{ const moves = document.getElementById('moves'); return {list_end}; }})()", True)
    light = page.tab.value("getComputedStyle(document.documentElement).backgroundColor")
    page.tab.look(400, 860, dark=True)
    page.says("dark", f"getComputedStyle(document.documentElement).backgroundColor !== '{light}'", True)


def connected_again() -> None:
    """The recorder ends, and another one begins at the same address."""
    if skipped("connected_again"):
        return
    page = Page(Shared.tab())
    with Site() as site:
        site.show(a_board(1, 2), a_board(2, 2))
        page.tab.open(site.url)
        page.reads("at first", ".tile[href='#1'] .last", "1... e5")
    page.reads("it has ended", "#line", "No connection to the recorder: trying again")
    with Site(f"127.0.0.1:{site.address[1]}") as other:
        other.show(a_board(1, 5), a_board(3, 1), numbers=[1, 3])
        page.reads("another one", ".tile[href='#1'] .last", "3. Bc4")
        page.reads("is live", "#line", "Live")
        page.says("its boards", "document.querySelectorAll('.tile').length", 2)
        same("no error of the page", [told for told in page.tab.printed() if "exceptionDetails" in told], [])
    page.tab.close()


def comes_in() -> None:
    """All places are taken. Whoever comes reads so, and has the page by itself when there is a place."""
    if skipped("comes_in"):
        return
    with Site(spectators=1, MOST_READERS=20) as site:
        site.show(a_board(1, 2))
        taken = [Events(site) for _ in range(20)]
        for reader in taken:
            with contextlib.suppress(OSError):  # the last ones find no place
                reader.until(lambda: 1 in reader.boards)
        page = Page(Shared.tab())
        page.tab.open(site.url)
        page.says("full", "document.body.innerText.includes('As many readers as there is room for')", True)
        for reader in taken:
            reader.line.close()
        page.reads("with a place", ".tile[href='#1'] .last", "1... e5")
        page.tab.close()


def standing_still() -> None:
    """The recorder stands still, and its connections are there: the page says that nothing comes. A tab in the background never
    says that it is live."""
    if skipped("standing_still"):
        return
    with Site() as site:
        site.show(a_board(1, 2), a_board(2, 2))
        page = Page(Shared.tab())
        page.tab.open(site.url)
        page.reads("at first", "#line", "Live")
        site.process.send_signal(signal.SIGSTOP)
        try:
            page.reads("it stands still", "#line", "Nothing comes from the recorder")
            page.says("that is seen", "document.body.className", "stale")
        finally:
            site.process.send_signal(signal.SIGCONT)
        page.reads("it goes on", "#line", "Live")
        other = Page(Shared.tab())
        other.tab.open(site.url)
        other.reads("another tab", "#line", "Live")
        page.reads("the first one, which is hidden now", "#line", "In the background")
        page.says("is neither live nor stale", "document.body.className", "")
        page.tab.call("Page.bringToFront")
        page.reads("it is seen again", "#line", "Live")
        same("no error of the page", [told for told in page.tab.printed() if "exceptionDetails" in told], [])
        page.tab.close()
        other.tab.close()


# The picture of the pieces, as a square has it, drawn: how many of its points aren't clear.
DRAWN = """
(async () => {
  const style = getComputedStyle(document.querySelector('.piece.wK')).backgroundImage;
  const picture = new Image();
  picture.src = style.slice(5, -2);
  await picture.decode();
  const canvas = new OffscreenCanvas(600, 200);
  canvas.getContext('2d').drawImage(picture, 0, 0, 600, 200);
  const points = canvas.getContext('2d').getImageData(0, 0, 600, 200).data;
  return points.filter((value, index) => index % 4 === 3 && value > 0).length > 20000;
})()
"""


def pieces() -> None:
    """The pieces come with the page: no other answer is needed for them."""
    if skipped("pieces"):
        return
    with Site() as site:
        site.show(a_board(1, 2), a_board(2, 2))
        page = Page(Shared.tab())
        page.tab.call("Network.setBlockedURLs", urls=["*.svg"])
        page.tab.open(site.url)
        page.reads("the page is there", "#line", "Live")
        page.says("each piece has its picture", "document.querySelectorAll('.tile .piece').length", 64)
        page.says("the picture is drawn", DRAWN, True)
        page.tab.close()


TABS = 8  # a browser has six connections to a server


def readers(site: Site, expected: int, seconds: float = PATIENCE) -> int:
    """How many connections there are, once there are as many as expected."""
    ends = time.monotonic() + seconds
    site.show()
    while site.readers != expected and time.monotonic() < ends:
        time.sleep(0.05)
        site.show()
    return site.readers


def many_tabs() -> None:
    """All tabs of a browser have one stream. Where the leading one is closed, another leads."""
    if skipped("many_tabs"):
        return
    with Site(IDLE=0.2) as site:
        site.show(a_board(1, 2), a_board(2, 2))
        pages = []
        for number in range(TABS):
            page = Page(Shared.tab())
            page.tab.open(f"{site.url}?{number}")
            page.reads(f"tab {number + 1}", "#line", "Live")
            page.reads(f"tab {number + 1} has the boards", ".tile[href='#2'] .last", "1... e5")
            pages.append(page)
        same(f"{TABS} tabs have one stream", readers(site, 1), 1)
        site.show(a_board(1, 3))
        for number, page in enumerate(pages):
            page.reads(f"a move, in tab {number + 1}", ".tile[href='#1'] .last", "2. Nf3")
        pages[0].tab.call("Page.setWebLifecycleState", state="frozen")
        late = Page(Shared.tab())
        late.tab.open(f"{site.url}?late")
        late.reads("the leading one is stopped: another leads", ".tile[href='#2'] .last", "1... e5")
        late.reads("it is live", "#line", "Live")
        late.tab.close()
        pages[0].tab.call("Page.setWebLifecycleState", state="active")
        pages.pop(0).tab.close()
        pages[-1].tab.call("Page.bringToFront")
        site.show(a_board(1, 4))
        pages[-1].reads("the leading one is closed: the next move", ".tile[href='#1'] .last", "2... Nc6")
        pages[-1].reads("is live", "#line", "Live")
        same("one stream again", readers(site, 1), 1)
        told = [event for page in pages for event in page.tab.printed() if "exceptionDetails" in event]
        same("no error of the page", told, [])
        for page in pages:
            page.tab.close()


def without_locks() -> None:
    """A browser without locks, as it is for a page from another computer without HTTPS: the tab that is seen has a stream."""
    if skipped("without_locks"):
        return
    with Site(IDLE=0.2) as site:
        site.show(a_board(1, 2), a_board(2, 2))
        pages = []
        for number in range(TABS):
            page = Page(Shared.tab())
            page.tab.call("Page.addScriptToEvaluateOnNewDocument",
                          source="Object.defineProperty(Navigator.prototype, 'locks', { value: undefined })")  # fmt: skip
            page.tab.open(f"{site.url}?{number}")
            page.reads(f"tab {number + 1}", "#line", "Live")
            pages.append(page)
        same("one stream", readers(site, 1), 1)
        site.show(a_board(1, 3))
        pages[0].tab.call("Page.bringToFront")
        pages[0].reads("the first one is seen", "#line", "Live")
        pages[0].reads("the move", ".tile[href='#1'] .last", "2. Nf3")
        same("one stream still", readers(site, 1), 1)
        for page in pages:
            page.tab.close()


def left_and_back() -> None:
    """A page that is left lets its connection go, and has one again where its reader comes back."""
    if skipped("left_and_back"):
        return
    with Site(IDLE=0.2) as site:
        site.show(a_board(1, 2), a_board(2, 2))
        page = Page(Shared.tab())
        for number in range(TABS):
            page.tab.open(f"{site.url}?{number}")
            page.says(f"visit {number + 1}", "location.search", f"?{number}")
            page.reads(f"visit {number + 1} is live", "#line", "Live")
        site.show(a_board(1, 3))
        for number in range(TABS - 2, -1, -1):
            page.tab.value("history.back()")
            page.says(f"back to visit {number + 1}", "location.search", f"?{number}")
            page.reads("it is live", "#line", "Live")
            page.reads("and has the move", ".tile[href='#1'] .last", "2. Nf3")
        same("one stream", readers(site, 1), 1)
        page.tab.open("about:blank")
        same("and none where it is left", readers(site, 0), 0)
        page.tab.close()


PRINTED = """(() => {
  const shown = (where) => {
    const found = document.querySelector(where);
    return found !== null && found.getClientRects().length > 0;
  };
  const top = (where) => document.querySelector(where).getBoundingClientRect().top;
  return {
    gone: ['#line', '#pgn', '#back', '#diagram', '#at', '#steps', '#files', '#keys'].filter(shown),
    there: ['#event', '#title', '#sheet', '#upper', '#lower', '#moves'].filter(shown),
    sheet: document.querySelector('#sheet').innerText,
    columns: getComputedStyle(document.querySelector('#moves')).columnCount,
    whole: document.querySelector('#moves').scrollHeight <= document.querySelector('#moves').clientHeight + 2,
    white_first: top('#play .player.w') < top('#play .player.b'),
    names: [...document.querySelectorAll('#play .player')].map((seat) => seat.innerText.trim()).sort(),
    result: getComputedStyle(document.querySelector('#large'), '::after').content,
  };
})()"""


def tags(**values: str) -> str:
    """A PGN text with these tags."""
    return "".join(f'[{name} "{value}"]\n' for name, value in values.items()) + "\n*\n"


OF_SHEETS: List[Tuple[Dict[str, str], str]] = [  # the tags of a game, and the line of its score sheet
    ({"Date": "2024.05.31", "Site": "Basel", "TimeControl": "5400+30"}, "31 May 2024 \u00b7 Basel \u00b7 90 min + 30 s a move"),
    ({"Date": "2024.12.01", "Site": "?", "TimeControl": "40/5400+30:1800+30"}, "1 December 2024 \u00b7 40 moves in 90 min + 30 s a move, then 30 min + 30 s a move"),
    ({"Date": "2024.05.??", "Site": "<b>Bern</b>", "TimeControl": "90+0"}, "May 2024 \u00b7 <b>Bern</b> \u00b7 90 s"),
    ({"Date": "????.??.??", "Site": "?", "TimeControl": "*180"}, "*180"),
    ({}, ""),
]  # fmt: skip


@with_page(a_board(1, 8, result="1-0", pgn=tags(**OF_SHEETS[0][0])), event="Club cup")
def score_sheet(site: Site, page: Page) -> None:
    """The page of one game, printed: event, board, day, place, time control, both names, White's first, all moves in two columns, and
    the result; nothing to press, and no board. A game without a result has no such line. On the screen the day and the place aren't
    shown."""
    page.tab.open(f"{site.url}#1")
    page.reads("the game", "#title", "Board 1")
    page.tab.call("Emulation.setEmulatedMedia", media="print")
    wanted = {
        "gone": [], "there": ["#event", "#title", "#sheet", "#upper", "#lower", "#moves"], "sheet": OF_SHEETS[0][1], "columns": "2", "whole": True,
        "white_first": True, "names": ["Black: Black 1", "White: White 1"], "result": '"Result: 1–0"',
    }  # fmt: skip
    page.says("printed", f"JSON.stringify({PRINTED})", json.dumps(wanted, separators=(",", ":"), ensure_ascii=False))
    page.tab.call("Emulation.setEmulatedMedia", media="")
    page.tab.value("document.getElementById('turn').click()")
    page.tab.call("Emulation.setEmulatedMedia", media="print")
    page.says("White first, also where the board is turned", f"{PRINTED}.white_first", True)
    for number, (of_game, line) in enumerate(OF_SHEETS):
        site.show(a_board(1, 8 - number, pgn=tags(**of_game)))
        page.says(f"the sheet's line for {of_game}", f"{PRINTED}.sheet", line)
    page.says("no result", f"{PRINTED}.result", "none")
    page.tab.call("Emulation.setEmulatedMedia", media="")
    page.says("nothing of it on the screen", "document.querySelector('#sheet').getClientRects().length", 0)


TABLES = [score_sheet, followed, by_keys, one_board, connected_again, comes_in, standing_still, pieces, many_tabs, without_locks, left_and_back]
