"""The spectators' page of a round of matches, in a browser: their scores, and their boards together."""

from paged.browsers import skipped
from paged.spectators import ROWS, a_spectators_board, closed, opened
from paged.web import Site

SHOWN = "[...document.querySelectorAll('#matches li')].filter((one) => one.offsetHeight > 0).map((one) => one.textContent).join('; ')"


def matches() -> None:
    """A round of matches: each has its score above the boards, and in the results above its own boards, with the teams; not beside one
    board. The score follows."""
    if skipped("matches"):
        return

    def said(*points: float) -> "dict[str, object]":
        return {"matches": [{"teams": ["Nord", "Süd"], "points": points, "boards": [1, 3]}, {"teams": ["Ost", "West"], "points": [0, 0], "boards": [2]}]}

    with Site(spectators=1) as site:
        site.said = said(1, 0)
        site.show(a_spectators_board(1, 2, result="1-0", white="Nepomniachtchi, Ian", titles=["GM", ""], ratings=["2785", ""],
                                     teams=["Nord", "Süd"], federations=["GER", "SUI"]),
                  a_spectators_board(2, 2, teams=["Ost", "West"]), a_spectators_board(3, 2, teams=["Süd", "Nord"]))  # fmt: skip
        page = opened(site)
        page.says("above the boards", SHOWN, "Nord 1–0 Süd; Ost 0–0 West")
        page.says("the boards are below them", "document.querySelector('.tile').getBoundingClientRect().top >= "
                  "document.querySelector('#matches').getBoundingClientRect().bottom", True)  # fmt: skip
        page.tab.value("document.querySelectorAll('#matches button')[1].click()")
        page.says("it leads to its first board", "document.activeElement.getAttribute('href')", "#2")
        page.tab.press("Enter")
        page.reads("one board", "#title", "Board 2")
        page.says("without them", SHOWN, "")
        page.reads("but its own", "#of-match", "Ost 0–0 West")
        page.tab.value("location.hash = '#3'")
        page.reads("another board's", "#of-match", "Nord 1–0 Süd")
        page.tab.value("location.hash = '#results'")
        page.says("in the results", ROWS, "Nord 1–0 Süd; 1|GM Nepomniachtchi, Ian 2785 GER, Nord|1–0|Black 1 SUI, Süd; 3|White 3 Süd|playing|Black 3 Nord; "
                  "Ost 0–0 West; 2|White 2 Ost|playing|Black 2 West")  # fmt: skip
        site.said = said(1.5, 0.5)
        site.show(a_spectators_board(3, 2, result="1/2-1/2", teams=["Süd", "Nord"]))
        page.says("another result", ROWS, "Nord 1½–½ Süd; 1|GM Nepomniachtchi, Ian 2785 GER, Nord|1–0|Black 1 SUI, Süd; 3|White 3 Süd|½–½|Black 3 Nord; "
                  "Ost 0–0 West; 2|White 2 Ost|playing|Black 2 West")  # fmt: skip
        page.says("is read out, with the match's score", "document.getElementById('said').textContent", "Board 3: result ½–½. Nord 1½–½ Süd")
        page.tab.look(320, 600)
        page.says("nothing to the side", "document.documentElement.scrollWidth <= innerWidth", True)
        page.tab.look(1366, 768)
        page.tab.value("location.hash = ''")
        page.says("above the boards too", SHOWN, "Nord 1½–½ Süd; Ost 0–0 West")
        why = "the result of board 5 isn't known"
        site.said = {"matches": [{"teams": ["Nord", "Süd"], "points": None, "boards": [1, 3], "why": why}, said(0, 0)["matches"][1]]}  # type: ignore[index]
        site.show()
        page.says("no score, and why", SHOWN, f"Nord – Süd No score: {why}; Ost 0–0 West")
        page.tab.value("location.hash = '#3'")
        page.reads("beside one of its boards too", "#of-match", f"Nord – Süd No score: {why}")
        page.tab.value("location.hash = ''")
        site.said = {}
        site.show()
        page.says("no matches any more", SHOWN, "")
        page.tab.value("location.hash = '#3'")
        page.says("nor its own", "document.getElementById('large').offsetHeight > 0 && document.getElementById('of-match').hidden", True)
        closed(site, page)


# What is in the grid from top to bottom: the text above some boards, and the number of each board.
GRID = """[...document.querySelectorAll('#boards > li')].map((one) => one.querySelector('.number') ? one.querySelector('.number').textContent
  : one.textContent).join('; ')"""
# Whether each text above boards is above its first one, in a row of its own, and as wide as the boards' columns.
STANDS = """[...document.querySelectorAll('#boards > .above')].every((one) => {
  const [own, first] = [one.getBoundingClientRect(), one.nextElementSibling.getBoundingClientRect()];
  return own.bottom <= first.top && first.left === Math.min(...[...document.querySelectorAll('.tile')].map((tile) => tile.getBoundingClientRect().left));
})"""


def together() -> None:
    """The boards of each match stand together below its teams and its score, and begin a row; boards in front come before them. A match
    whose boards are all hidden has no score there. Arrows go from row to row, over the scores."""
    if skipped("together"):
        return

    def said(*points: float) -> "dict[str, object]":
        return {"matches": [{"teams": ["Nord", "Süd"], "points": points, "boards": [1, 3, 5]},
                            {"teams": ["<b>Ost</b>", "West"], "points": [0, 0], "boards": [2, 4]}]}  # fmt: skip

    def of(number: int, result: str = "*") -> "dict[str, object]":
        teams = ["Nord", "Süd"] if number % 2 else ["<b>Ost</b>", "West"]
        return a_spectators_board(number, 2, result=result, teams=teams)

    with Site(spectators=1) as site:
        site.said = said(0, 0)
        site.show(*map(of, range(1, 6)))
        page = opened(site)
        page.says("in their matches", GRID, "Nord 0–0 Süd; 1; 3; 5; <b>Ost</b> 0–0 West; 2; 4")
        for wide, high, columns in ((390, 844, 1), (1024, 768, 3), (1440, 900, 3)):
            page.tab.look(wide, high)
            count = "getComputedStyle(document.getElementById('boards')).gridTemplateColumns.split(' ').length"
            page.says(f"the columns at {wide}", count, columns)
            page.says(f"each begins a row, at {wide}", STANDS, True)
            page.says(f"nothing to the side, at {wide}", "document.documentElement.scrollWidth <= innerWidth", True)
        page.tab.value("document.querySelector(\".tile[href='#5']\").focus()")
        for key, board in (("ArrowDown", 4), ("ArrowUp", 3), ("ArrowRight", 5), ("ArrowRight", 2), ("ArrowDown", 2), ("End", 4), ("Home", 1)):
            page.tab.press(key)
            page.says(f"{key} leads to {board}", "document.activeElement.getAttribute('href')", f"#{board}")
        site.said = said(1, 0)
        site.show(of(1, "1-0"))
        page.says("the score follows", GRID, "Nord 1–0 Süd; 1; 3; 5; <b>Ost</b> 0–0 West; 2; 4")
        page.tab.value("document.querySelector(\".tile[href='#4'] ~ .pin\").click()")
        page.says("one in front", GRID, "4; Nord 1–0 Süd; 1; 3; 5; <b>Ost</b> 0–0 West; 2")
        page.tab.value("document.getElementById('hide').click()")
        site.said = said(1, 0)
        site.show(of(2, "1/2-1/2"))
        page.says("finished games are hidden", GRID, "4; Nord 1–0 Süd; 3; 5")
        page.tab.value("document.getElementById('hide').click()")
        page.tab.value("document.querySelector(\".tile[href='#4'] ~ .pin\").click()")
        site.said = {"matches": [{"teams": ["Nord", "Süd"], "points": [1, 0], "boards": [1, 2, 3, 4, 5]}]}
        site.show()
        page.says("one match", GRID, "Nord 1–0 Süd; 1; 2; 3; 4; 5")
        page.says("has its score once", SHOWN, "")
        page.tab.value("document.getElementById('hide').click()")
        site.show(*[of(number, "1-0") for number in range(1, 6)])
        page.says("all its boards are hidden", GRID, "")
        page.says("its score is there", SHOWN, "Nord 1–0 Süd")
        page.tab.value("document.getElementById('hide').click()")
        page.says("they are shown", GRID, "Nord 1–0 Süd; 1; 2; 3; 4; 5")
        page.says("with the score once", SHOWN, "")
        site.said = {}
        site.show()
        page.says("no match", GRID, "1; 2; 3; 4; 5")
        closed(site, page)


TABLES = [matches, together]
