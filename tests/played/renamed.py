"""Names and other tags of a game that are put right: by the same options, and typed while it records. The text follows."""

import pathlib

from played import words
from played.recorder import Live
from played.stage import RUY, RUY_TEXT, a_board, begin_game, begun, bytes_of, ended, go_on, refuses, same, stop, until
from played.stage import until_game, until_line

SETTINGS = ("--white", "Anna", "--black", "Ben", "--event", "Club cup", "--date", "31.05.2024", "--tag", "WhiteElo=2050")


def has(path: str, *tags: str) -> bool:
    """A text has these tags, or will have them."""
    text = bytes_of(path).decode()
    return all(f"[{tag}]\n" in text for tag in tags)


def until_tags(name: str, *tags: str) -> None:
    until(lambda: has(f"{name}.pgn", *tags), f"{tags} in {name}.pgn")


def added_to_what_was_given(folder: pathlib.Path) -> None:
    """The board is turned: started again with --rotated alone, the game keeps its names and its date. With --rotated=no it is
    turned back."""
    board = a_board(folder, rotated=True)
    wrong = Live(board.device, folder / "game", *SETTINGS)
    until_line(wrong, "Ctrl-C, start again with --rotated")
    same(stop(wrong), 0)
    right = Live(board.device, wrong.name, "--rotated")
    begun(right)
    for move in RUY:
        board.play(move)
    until_game(right.name, RUY_TEXT)
    same(stop(right), 0)
    kept = ('Event "Club cup"', 'Date "2024.05.31"', 'White "Anna"', 'Black "Ben"')
    assert has(f"{right.name}.pgn", *kept), bytes_of(f"{right.name}.pgn").decode()
    assert has(f"{right.name}.broadcast.pgn", *kept, 'WhiteElo "2050"')
    refuses(Live(board.device, right.name, "--rotated=no"), 1, words.OTHER_OPTIONS)
    place = folder / "back"
    place.mkdir()
    board = a_board(place)
    wrong = Live(board.device, place / "game", "--rotated", "--white", "Anna")
    until_line(wrong, "Ctrl-C, start again with --rotated=no")
    same(stop(wrong), 0)
    right = Live(board.device, wrong.name, "--rotated=no")
    begun(right)
    same((stop(right), has(f"{right.name}.pgn", 'White "Anna"')), (0, True))


def put_right_by_options(folder: pathlib.Path) -> None:
    """A misspelt name is put right by the same option: at a start after the first moves, and when the game is over. Two other
    players are another game."""
    board, live = begin_game(folder, "--white", "Anne", "--black", "Ben", "--tag", "WhiteElo=2050")
    same(stop(live), 0)
    refuses(Live(board.device, live.name, "--white", "Cara", "--black", "Dan"), 1, "has moves of Anne - Ben: choose another name")
    again = go_on(board, live, "--white", "Anna", "--round", "3", "--date", "31.05.2024")
    until_line(again, "White is now Anna, and was Anne; its date is now 2024.05.31")
    until_tags(live.name, 'White "Anna"', 'Black "Ben"', 'Round "3"', 'Date "2024.05.31"')
    until(lambda: has(f"{live.name}.broadcast.pgn", 'White "Anna"', 'WhiteElo "2050"'), "the name in what is published")
    board.play("g1f3")
    until_game(live.name, "1. e4 e5 2. Nf3 *")
    again.process.kill()
    ended_by_kill = again
    ended_by_kill.was_killed = True
    ended(ended_by_kill)
    again = go_on(board, live)
    until_tags(live.name, 'White "Anna"', 'Black "Ben"')
    same(stop(again), 0)
    tagged = Live("", live.name, "--black", "Åse Lund", "--white", "Cara")
    same(ended(tagged), 0)
    assert "White is now Cara, and was Anna; Black is now Åse Lund, and was Ben" in tagged.lines(), tagged.lines()
    assert has(f"{live.name}.pgn", 'White "Cara"', 'Black "Aase Lund"')
    assert has(f"{live.name}.broadcast.pgn", 'White "Cara"', 'Black "Åse Lund"', 'WhiteElo "2050"')


def put_right_while_it_records(folder: pathlib.Path) -> None:
    """`name White=Anna` while it records: the text follows, the board is asked once more, no byte of it is missed, and it is never said to
    be waited for. It stays so after a kill. So do the same options of another call, and the same line when the game is over."""
    board, live = begin_game(folder, "--white", "Anne", "--black", "Ben", "--tag", "WhiteElo=2050", typed=True)
    asked, waited, sent = board.asked.count(b"K"), live.lines().count("waits for"), bytes_of(live.name + ".dgt")
    live.type("name White=Anna Event=Club cup")
    until_line(live, "White is now Anna, and was Anne; its event is now Club cup")
    until_tags(live.name, 'White "Anna"', 'Event "Club cup"')
    until(lambda: has(f"{live.name}.broadcast.pgn", 'White "Anna"', 'WhiteElo "2050"'), "the name in what is published")
    until(lambda: board.asked.count(b"K") == asked + 1, "a request")
    board.play("g1f3")
    until_game(live.name, "1. e4 e5 2. Nf3 *")
    assert has(f"{live.name}.pgn", 'White "Anna"', 'Black "Ben"', 'Event "Club cup"')
    same((board.asked.count(b"K"), live.lines().count("waits for")), (asked + 1, waited))
    same(bytes_of(live.name + ".dgt")[: len(sent)], sent)
    for line, told in {
        "name Anna": "refused: name Anna: 'Anna' has no =",
        "name Date=last Sunday": "'last Sunday' can't be read",
        "name Result=1-0": "Result is what the game says",
        "name White=王": words.WHITE_NAME,
    }.items():
        live.type(line)
        until_line(live, told)
    other = Live("", live.name, "--round", "3")
    same((ended(other), other.lines()), (0, f"dgt_live: {live.name}: its round is now 3\n"))
    until_tags(live.name, 'White "Anna"', 'Round "3"')
    live.was_killed = True
    live.process.kill()
    ended(live)
    again = go_on(board, live)
    until_tags(live.name, 'White "Anna"', 'Black "Ben"', 'Event "Club cup"', 'Round "3"')
    board.play("b8c6")
    until_game(live.name, "1. e4 e5 2. Nf3 Nc6 *")
    same(stop(again), 0)
    named = Live("", "", "--add", "name White=Anya", "--add", "1-0", live.name)
    same(ended(named), 0)
    assert has(f"{live.name}.pgn", 'White "Anya"', 'Result "1-0"') and has(f"{live.name}.broadcast.pgn", 'White "Anya"')


def first_tag_typed(folder: pathlib.Path) -> None:
    """A name with other letters than ASCII is typed where nothing was published before: there is such a text at the end."""
    board, live = begin_game(folder, typed=True)
    live.type("name White=Jörg")
    until_line(live, "White is now Jörg")
    until_tags(live.name, 'White "Joerg"')
    live.type("q")
    same((ended(live), has(f"{live.name}.broadcast.pgn", 'White "Jörg"')), (0, True))
