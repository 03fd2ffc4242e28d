"""The spectators' page: what it is served, and the page itself in a browser."""

import json
import re
import time
from typing import List

from decided.table import same

from paged.browsers import NAME, Page, skipped
from paged.devtools import Shared
from paged.legible import faults
from paged.web import Events, Site, a_board

from live.show.page import FOLDER, SPECTATORS

TABS = 12
TIMES = 20  # that a reader goes back and forward
BOARDS = 24
READERS = 200
WORDS = (b"alarm", b"WRONG", b"UNPLUGGED", b"NOT RECORDED", b"NOT PUBLISHED", b"/dev", b"the recorder's", b"Look at board")
ROWS = "[...document.querySelectorAll('#result-rows tr')].map((row) => [...row.cells].map((cell) => cell.textContent.trim()).join('|')).join('; ')"
FONT = "parseFloat(getComputedStyle(document.querySelector({!r})).fontSize)"


def a_spectators_board(number: int, plies: int, **more: object) -> "dict[str, object]":
    """That game, with titles, ratings and a clock that runs where they are given."""
    own = {name: more.pop(name) for name in ("titles", "ratings", "teams", "federations", "runs", "ago") if name in more}
    return {**a_board(number, plies, **more), **own}  # type: ignore[arg-type]  # what a_board takes by name


def opened(site: Site, width: int = 1366, height: int = 768) -> Page:
    page = Page(Shared.tab())
    page.tab.look(width, height)
    page.tab.open(site.url)
    page.reads("the page is there", "#line", "Live")
    return page


def closed(site: Site, *pages: Page) -> None:
    """Nothing went wrong on them, and they asked nobody else for anything."""
    for page in pages:
        same("no error of the page", [told for told in page.tab.printed() if "exceptionDetails" in told], [])
        same("asked of this machine alone", [url for url in page.tab.requests() if not url.startswith(site.url)], [])
        page.tab.close()


def nothing_of_the_recorder() -> None:
    """No file that spectators are served has a word of alarms, and none of the arbiter's page is served."""
    for name in (SPECTATORS.index, *SPECTATORS.files):
        content = (FOLDER / name).read_bytes()
        same(f"{name} has no such word", [word for word in WORDS if word in content], [])
    with Site(spectators=1) as site:
        site.said = {"round": "3", "late": "15 minutes"}
        site.show(a_spectators_board(1, 2, titles=["GM", ""], ratings=["2701", "1804"]))
        text = site.until("/state.json", lambda content: b"GM" in content)
        same("what is said of the round", {name: value for name, value in json.loads(text).items() if name != "boards"},
             {"event": "Round 1", "round": "3", "late": "15 minutes"})  # fmt: skip
        same("what is told of a board", [word for word in (*WORDS, b"state", b"since", b"differing", b"kind") if word in text], [])
        for path in ("/tile.js", "/large.js", "/page.js", "/arbiter.css", "/index.html", "/spectators.html"):
            same(f"no {path}", site.get(path)[0], 404)
        for path in ("/", "/spectators.js", "/game.js", "/card.js", "/round.pgn", "/01.pgn"):
            same(path, site.get(path)[0], 200)


def watched() -> None:
    """Players, clocks that run, moves, what is late, results; by keys and by name."""
    if skipped("watched"):
        return
    with Site(spectators=1) as site:
        site.said = {"round": "3"}
        first = a_spectators_board(1, 3, white=NAME, titles=["WGM", ""], ratings=["2441", ""], runs="b", ago=20,
                                   federations=["GER", ""], teams=["SC Turm", ""], clocks=["1:29:41", "1:29:48"])  # fmt: skip
        site.show(first, a_spectators_board(2, 2), a_spectators_board(4, 7, result="1/2-1/2", runs="w", ago=50), event="Äpfel")
        page = opened(site)
        tile = ".tile[href='#1'] "
        page.reads("event and round", "h1", "Äpfel, round 3")
        page.says("in the title too", "document.title", "Äpfel, round 3")
        page.reads("a name on a line of its own", tile + ".player.w", NAME)
        page.reads("title, rating, federation below it", tile + ".w ~ .about", "WGM 2441 GER")
        page.reads("and the team", tile + ".w ~ .team", "SC Turm")
        page.says("a name with markup is no markup", "document.querySelectorAll('img, b, script:not([src], #words)').length", 0)
        page.reads("without them", ".tile[href='#2'] .player.w", "White 2")
        page.reads("White's clock stands", tile + ".seat .w ~ .clock", "1:29:41")
        runs = f"{page.text(tile + '.seat .b ~ .clock')} <= '1:29:26' && {page.text(tile + '.seat .b ~ .clock')} > '1:27:00'"
        page.says("Black's runs, for twenty seconds already", runs, True)
        page.tab.press("ArrowRight", "Enter")
        page.reads("it is large", "#title", "Board 1")
        page.says("its address", "location.hash", "#1")
        page.says("its clock runs", f"{page.text('#upper .clock')} < '1:29:27'", True)
        page.says("its name for a reader of the screen", "document.getElementById('large').getAttribute('aria-labelledby')", "title")
        page.reads("the player", "#lower .player", f"White: WGM {NAME} 2441")
        page.says("each button has a name", "[...document.querySelectorAll('#large button:not([data-ply])')]"
                  ".every((one) => (one.getAttribute('aria-label') || one.textContent).trim())", True)  # fmt: skip
        page.tab.press("ArrowLeft")
        page.reads("one back", "#at", "1... e5 (1 move back)")
        page.reads("that isn't live", "#line", "Looking back")
        page.says("nor marked so", "document.body.classList.contains('live')", False)
        page.reads("the clock of then", "#upper .clock", "1:29:48")
        page.tab.press("End")
        page.reads("it follows the game again", "#line", "Live")
        page.says("the board before", "document.getElementById('board-before').hidden", True)
        page.reads("the next board", "#board-after", "Board 2 →")
        page.tab.press("n")
        page.reads("a board on", "#title", "Board 2")
        page.tab.press("n")
        page.reads("two boards on", "#title", "Board 4")
        page.reads("its result", "#at", "4. O-O   ½–½")
        page.reads("its clock stands", "#lower .clock", "1:29:02")
        page.says("there is none behind it", "document.getElementById('board-after').hidden", True)
        page.says("its game", "document.getElementById('own').getAttribute('href')", "/04.pgn")
        page.tab.press("p")
        page.reads("one board back", "#title", "Board 2")
        page.tab.press("Escape")
        page.says("all boards", "location.hash", "")
        page.tab.value("document.getElementById('to-results').click()")
        page.says("the results", ROWS,
                  f"1|WGM {NAME} 2441 GER, SC Turm|playing|Black 1; 2|White 2|playing|Black 2; 4|White 4|½–½|Black 4")  # fmt: skip
        page.says("they have the focus", "document.activeElement.id", "results")
        site.show(a_spectators_board(2, 2, result="0-1"))
        page.reads("a new one", "#result-rows tr:nth-child(2) .result", "0–1")
        page.says("is read out", "document.getElementById('said').textContent", "Board 2: result 0–1")
        page.tab.press("Escape")
        page.says("all boards again", "document.getElementById('boards').hidden", False)
        site.said = {"round": "3", "late": "15 minutes"}
        site.show()
        page.reads("how late it is", "#line", "15 minutes late")
        closed(site, page)


HALLS = [(8, 390), (8, 1024), (8, 1440), (40, 390), (40, 632), (40, 1024), (40, 1440)]
WIDTHS = "[...document.querySelectorAll('.tile')].map((tile) => tile.getBoundingClientRect().width)"
CUT = """[...document.querySelectorAll('.tile :is(.player, .about, .team, .clock)')].filter((one) => {
  const [place, card] = [one, one.closest('.tile')].map((where) => where.getBoundingClientRect());
  return one.scrollWidth > one.clientWidth + 1 || one.scrollHeight > one.clientHeight + 1 || place.right > card.right || place.bottom > card.bottom;
}).map((one) => one.textContent).join('; ')"""
RATING_BEHIND = """(() => {{
  const place = document.querySelector('{}');
  const rating = place.querySelector('.rating');
  const range = document.createRange();
  range.setStart(place.querySelector('.rating').parentNode, 0);
  range.setEndBefore(rating);
  return rating.getBoundingClientRect().left >= range.getBoundingClientRect().right - 1;
}})()"""
LINES = """[...document.querySelectorAll('.tile .seat')].every((seat) => {
  const lines = ['.player', '.clock', '.team:not(:empty)'].map((where) => seat.querySelector(where)).filter((one) => one);
  return lines.every((line, at) => at === 0 || line.getBoundingClientRect().top >= lines[at - 1].getBoundingClientRect().bottom - 1);
})"""
DIAGRAMS = """(() => {
  const top = (where) => Math.round(where.getBoundingClientRect().top);
  const cards = [...document.querySelectorAll('.tile')];
  return new Set(cards.filter((card) => top(card) === top(cards[0])).map((card) => top(card.querySelector('.diagram')))).size;
})()"""
TEAMS = ["SK Rochade Nord Emden 1923 e.V.", "Sportvereinigung Schachfreunde Frankfurt am Main 1882", "SC Turm Basel", ""]


def halls() -> None:
    """Cards are never below 200 px, and names, federations and teams are not cut: on a phone, a tablet and a laptop, with 8 boards and
    with 40. Where a team takes more lines the diagrams beside it stay in a row."""
    if skipped("halls"):
        return
    for count, width in HALLS:
        with Site(spectators=1) as site:
            site.show(*[
                a_spectators_board(number, 4, white="Keymer, Vincent", black="Nepomniachtchi, Ian", titles=["GM", "WGM"], ratings=["2701", "2785"],
                                   teams=[TEAMS[number % 4], TEAMS[(number + 1) % 4]], federations=["GER", "Bosnia and Herzegovina"])
                for number in range(1, count + 1)
            ])  # fmt: skip
            page = opened(site, width, 900)
            page.says(f"{count} boards at {width}", "document.querySelectorAll('.tile').length", count)
            page.says("each has 200 px", f"Math.min(...{WIDTHS}) >= 200", True)
            page.says("nothing is cut", CUT, "")
            page.says("a name has a line of its own, and a team", LINES, True)
            page.says("the diagrams are in a row", DIAGRAMS, 1)
            columns = int(str(page.tab.value("getComputedStyle(document.getElementById('boards')).gridTemplateColumns.split(' ').length")))
            same(f"{columns} columns are the least for as many rows", columns, -(-count // -(-count // columns)))
            page.says("nothing to the side", "document.documentElement.scrollWidth <= innerWidth", True)
            page.tab.value("location.hash = '#1'")
            page.reads("one board", "#title", "Board 1")
            site.show(a_spectators_board(1, 4, white="Sankaranarayanan, Lakshmi Priyadarshini", black="محمد بن عبد الله", titles=["WIM", ""],
                                         ratings=["2345", "2512"]))  # fmt: skip
            for media in ("screen", "print"):
                page.tab.call("Emulation.setEmulatedMedia", media=media)
                page.reads(f"title, name and rating, {media}", "#lower .player", "White: WIM Sankaranarayanan, Lakshmi Priyadarshini 2345")
                page.says(f"nothing is cut there, {media}", CUT.replace(".tile :is", "#play :is").replace("closest('.tile')", "closest('#play')"), "")
                page.says(f"an Arabic name has its rating behind it, {media}", RATING_BEHIND.format("#upper"), True)
            page.tab.call("Emulation.setEmulatedMedia", media="")
            page.tab.look(1440, 900)  # so that they are in one line
            page.tab.value("location.hash = '#results'")
            page.says("in the results too", RATING_BEHIND.format("#result-rows td:last-child"), True)
            closed(site, page)


TAKEN = ("r4rk1/1pp2ppp/p1n5/3Qp3/8/5N2/PPP2PPP/R4RK1 b - - 0 15", "[...document.querySelectorAll('#{} .taken i')].map((one) => one.classList[1]).join()")


def chosen() -> None:
    """A board is put in front, finished games are left out, and both are there when the page comes again. Taken pieces, and by how much
    a side is ahead. In another site's frame the page has no heading."""
    if skipped("chosen"):
        return
    start = "rnbqkbnr/pppppppp/8/8/8/8/PPPPPPPP/RNBQKBNR w KQkq - 0 1"
    with Site(spectators=1) as site:
        site.show(*[a_spectators_board(number, 2, result="1-0" if number == 2 else "*") for number in range(1, 5)], event="Open")
        site.show(a_spectators_board(4, 1, positions=[start, TAKEN[0]]))
        page = opened(site)
        order = "[...document.querySelectorAll('#boards .number')].map((one) => one.textContent).join()"
        page.says("in order", order, "1,2,3,4")
        page.tab.value("document.querySelectorAll('.pin')[2].click()")
        page.says("board 3 is in front", order, "3,1,2,4")
        page.tab.value("document.getElementById('hide').click()")
        page.says("board 2 is over", order, "3,1,4")
        page.tab.open(site.url)
        page.says("when it comes again", order, "3,1,4")
        page.says("which is said", "document.getElementById('hide').getAttribute('aria-pressed')", "true")
        page.says("and seen", "getComputedStyle(document.getElementById('hide')).backgroundColor === "
                  "getComputedStyle(document.getElementById('to-results')).color", True)  # fmt: skip
        page.tab.value("document.querySelectorAll('.pin')[0].click(); document.getElementById('hide').click()")
        page.says("as it was", order, "1,2,3,4")
        page.reads("by how much", ".tile[href='#4'] .ahead", "White +8")
        page.tab.value("location.hash = '#4'")
        page.says("White has taken", TAKEN[1].format("lower"), "bQ,bB,bB,bN,bP")
        page.says("Black has taken", TAKEN[1].format("upper"), "wB,wB,wN,wP,wP")
        page.reads("and is behind", "#lower .points", "+8")
        page.tab.open(f"{site.url}?compact")
        page.says("without a heading", "getComputedStyle(document.querySelector('h1')).display", "none")
        page.says("it leads to the whole page", "document.getElementById('whole').offsetHeight >= 24 && document.getElementById('whole').href", site.url)
        closed(site, page)


ORDER = "[...document.querySelectorAll('#boards .number')].map((one) => one.textContent).join()"


STAR = """(() => {
  const star = document.querySelectorAll('.pin')[1];
  const { left, right, top, bottom, width, height, x, y } = star.getBoundingClientRect();
  const edges = [[left + 1, y + 22], [right - 1, y + 22], [x + 22, top + 1], [x + 22, bottom - 1]];
  return width >= 44 && height >= 44 && edges.every((edge) => document.elementFromPoint(...edge) === star);
})()"""  # it has 44 px, and each of them is its own


def in_front() -> None:
    """The star of a card is 44 px large, on a phone too, and a tap on it is no tap on the card. The key F does the same for the card that
    has the focus, which stays there, and for the large board; what the page says of its keys names it."""
    if skipped("in_front"):
        return
    with Site(spectators=1) as site:
        site.show(*[a_spectators_board(number, 2) for number in range(1, 41)])
        page = opened(site)
        for width in (390, 632, 1024, 1440):
            page.tab.look(width, 900)
            page.says(f"a star at {width}", STAR, True)
            page.says("nothing to the side", "document.documentElement.scrollWidth <= innerWidth", True)
        first = f"{ORDER}.split(',').slice(0, 4).join()"
        page.says("the keys of all boards", "(({ offsetHeight, innerText }) => offsetHeight > 0 && innerText.includes('F puts it in front'))"
                  "(document.getElementById('grid-keys'))", True)  # fmt: skip
        page.tab.press("ArrowRight", "ArrowRight", "ArrowRight", "f")
        page.says("board 3 is in front", first, "3,1,2,4")
        page.says("has the focus still", "document.activeElement.getAttribute('href')", "#3")
        page.says("is read out", "document.getElementById('said').textContent", "Board 3 is in front")
        page.says("its star", "document.querySelector('.pin').getAttribute('aria-pressed')", "true")
        page.tab.press("f")
        page.says("no longer", first, "1,2,3,4")
        page.says("which has the focus", "document.activeElement.getAttribute('href')", "#3")
        page.says("is read out too", "document.getElementById('said').textContent", "Board 3 is no longer in front")
        page.tab.press("Enter")
        page.reads("large", "#title", "Board 3")
        page.says("its keys", "document.getElementById('keys').innerText.includes('F puts it in front')", True)
        page.tab.press("f")
        page.says("in front", "document.getElementById('front').getAttribute('aria-pressed')", "true")
        page.tab.press("n")
        page.reads("the next one", "#title", "Board 4")
        page.says("isn't", "document.getElementById('front').getAttribute('aria-pressed')", "false")
        page.tab.value("document.getElementById('front').click()")
        page.tab.press("Escape")
        page.says("both in front", first, "3,4,1,2")
        closed(site, page)


def all_over() -> None:
    """All games are over and finished ones are hidden: a sentence says so, and its button shows them."""
    if skipped("all_over"):
        return
    note = "(({ offsetHeight, innerText }) => offsetHeight && innerText.replace(/\\s+/g, ' ').trim())(document.getElementById('all-over'))"
    with Site(spectators=1) as site:
        site.show(a_spectators_board(1, 2, result="1-0"), a_spectators_board(2, 2))
        page = opened(site)
        page.tab.value("document.getElementById('hide').click()")
        page.says("one goes on", ORDER, "2")
        page.says("nothing is said", note, 0)
        site.show(a_spectators_board(2, 2, result="1/2-1/2"))
        page.says("all are over", note, "All games are over, and finished games are hidden. Show them")
        page.says("no boards", ORDER, "")
        page.tab.value("location.hash = '#2'")
        page.reads("one of them", "#title", "Board 2")
        page.says("without that", note, 0)
        page.tab.value("location.hash = ''")
        page.says("all of them", note, "All games are over, and finished games are hidden. Show them")
        page.tab.value("document.getElementById('show-all').click()")
        page.says("shown", ORDER, "1,2")
        page.says("the first has the focus", "document.activeElement.getAttribute('href')", "#1")
        page.says("nothing is said any more", note, 0)
        page.says("none is hidden", "document.getElementById('hide').getAttribute('aria-pressed')", "false")
        closed(site, page)


def legible() -> None:
    """Each text has a contrast of 4.5 to 1 and letters of 12 pixels, and what is pressed has 24 pixels, on three screens, light and dark;
    on the arbiter's page too."""
    if skipped("legible"):
        return
    with Site(spectators=1) as site:
        site.said = {"round": "3", "matches": [{"teams": [TEAMS[0], TEAMS[1]], "points": [1, 0], "boards": [1, 2]}]}
        site.show(*[a_spectators_board(number, 2, result="1-0" if number == 1 else "*", titles=["GM", ""], ratings=["2701", "1804"],
                                       teams=[TEAMS[0], TEAMS[1]], federations=["GER", "SUI"]) for number in (1, 2)])  # fmt: skip
        page = opened(site)
        same("the boards", faults(page.tab), {})
        page.tab.value("document.querySelectorAll('.pin')[1].click()")
        page.says("board 2 is in front", ORDER, "2,1")
        same("one in front", faults(page.tab), {})
        for hash_of, where in (("#2", "#large"), ("#results", "#results")):
            page.tab.value(f"location.hash = '{hash_of}'")
            page.says(hash_of, f"document.querySelector('{where}').offsetHeight > 0", True)
            same(f"at {hash_of}", faults(page.tab), {})
        page.tab.value("location.hash = ''; document.querySelector('.pin').click(); document.getElementById('hide').click()")
        site.show(a_spectators_board(2, 2, result="1-0"))
        page.says("all are over", "document.getElementById('all-over').offsetHeight > 0", True)
        same("no board", faults(page.tab), {})
        closed(site, page)
    with Site() as site:
        site.show({**a_board(1, 2, alarm=True, state="WRONG: e2", mend="type 1 ok", differing=["e2"]), "teams": TEAMS[:2], "federations": ["GER", "SUI"]},
                  a_board(2, 2, result="1-0"))  # fmt: skip
        page = opened(site)
        same("the arbiter's boards", faults(page.tab), {})
        page.tab.value("location.hash = '#1'")
        page.reads("one with an alarm", "#title", "Board 1")
        same("the arbiter's board", faults(page.tab), {})
        closed(site, page)


def sizes() -> None:
    """No text is too small; nowhere does anything stand to the side."""
    if skipped("sizes"):
        return
    with Site(spectators=1) as site:
        site.show(*[a_spectators_board(number, 4, titles=["GM", "IM"], ratings=["2700", "2500"]) for number in range(1, BOARDS + 1)])
        page = opened(site)
        page.says("all boards", "document.querySelectorAll('.tile').length", BOARDS)
        small = [where for where in (".tile .player", ".tile .clock", ".tile .last", "#line", "#pgn", "#to-results")
                 if float(str(page.tab.value(FONT.format(where)))) < 13]  # fmt: skip
        same("no small text at 1366 x 768", small, [])
        for hash_of, where in (("#3", ["#upper", "#at", "#moves .san", "#moves .time", "#keys", "#back"]), ("#results", ["#results td"])):
            page.tab.value(f"location.hash = '{hash_of}'")
            page.says(f"{hash_of} is there", f"document.querySelector({where[0]!r}).offsetHeight > 0", True)
            small = [one for one in where if float(str(page.tab.value(FONT.format(one)))) < 12.5]
            same(f"no small text at {hash_of}", small, [])
            for width, height in ((1366, 768), (400, 860), (860, 400), (1920, 1080), (320, 600)):
                page.tab.look(width, height)
                page.says(f"{hash_of}, {width} px: nothing to the side", "document.documentElement.scrollWidth <= innerWidth", True)
            page.tab.look(1366, 768)
        closed(site, page)


def back_and_forward() -> None:
    """Board after board, and back and forward twenty times: the page follows, with one stream and nothing lost."""
    if skipped("back_and_forward"):
        return
    with Site(spectators=1) as site:
        site.show(*[a_spectators_board(number, 2) for number in range(1, 5)])
        page = opened(site)
        for number in range(1, 5):
            page.tab.value(f"location.hash = '#{number}'")
            page.reads(f"board {number}", "#title", f"Board {number}")
        for time_round in range(TIMES):
            page.tab.value("history.back()")
            page.reads(f"back, time {time_round + 1}", "#title", "Board 3")
            page.tab.value("history.forward()")
            page.reads(f"forward, time {time_round + 1}", "#title", "Board 4")
        site.show(a_spectators_board(4, 3))
        page.reads("the next move", "#at", "2. Nf3")
        closed(site, page)


def twelve_tabs() -> None:
    """Twelve tabs of a browser have the boards, and all have the next move."""
    if skipped("twelve_tabs"):
        return
    with Site(spectators=1, IDLE=0.2) as site:
        site.show(a_spectators_board(1, 2), a_spectators_board(2, 2))
        pages: List[Page] = []
        for number in range(TABS):
            page = Page(Shared.tab())
            page.tab.open(f"{site.url}?{number}#{number % 2 + 1}")
            page.reads(f"tab {number + 1}", "#title", f"Board {number % 2 + 1}")
            pages.append(page)
        site.show(a_spectators_board(1, 3), a_spectators_board(2, 4))
        for number, page in enumerate(pages):
            page.reads(f"a move, in tab {number + 1}", "#at", "2. Nf3" if number % 2 == 0 else "2... Nc6")
        closed(site, *pages)


def crowd() -> None:
    """200 spectators have each change, whole."""
    with Site(spectators=1) as site:
        site.show(*[a_spectators_board(number, 2) for number in range(1, 9)])
        site.until("/state.json", lambda content: content.count(b'"e4"') == 8)
        readers = [Events(site) for _ in range(READERS)]
        for reader in readers:
            reader.until(lambda: len(reader.boards) == 8)
        for plies in range(3, 8):
            site.show(a_spectators_board(plies, plies, runs="w"))
            time.sleep(0.12)
        for reader in readers:
            reader.until(lambda: len(reader.boards[7]["moves"]) == 7)
        same("all have all", {len(reader.boards[number]["moves"]) for reader in readers for number in range(3, 8)}, {3, 4, 5, 6, 7})
        raw = re.findall(rb'"runs":"w","at":[0-9.]+', site.get("/state.json")[2])
        same("and whose clock runs", len(raw), 5)
        for reader in readers:
            reader.close()


TABLES = [nothing_of_the_recorder, watched, halls, chosen, in_front, all_over, legible, sizes, back_and_forward, twelve_tabs, crowd]
