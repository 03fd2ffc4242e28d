"""The file of a round is changed: names, devices, whose time comes first; and the file of another round is given."""

import pathlib
import signal
from typing import List

from played import words
from played.recovered import PAIR, hurried
from played.stage import bytes_of, movetext, refuses, run, same, stop, until, until_line
from rounds.alarms import says
from rounds.delayed import stuck_program, words_of
from rounds.hall import Hall, agrees, games_of, quits, text


def another_round(folder: pathlib.Path) -> None:
    """The next round's file, and the old folder: all is refused before anything is changed, also what is kept of options. One
    player's name may be put right, and so may one that wasn't known, and those of a game without a move; r changes both names,
    and that is told."""
    hall = Hall(folder, 4)
    header = "board,device,white,black"
    devices = [f"{number},{folder}/board{number}" for number in range(1, 5)]

    def write(*players: str) -> None:
        hall.file.write_text("\n".join([header, *map(",".join, zip(devices, players)), ""]))

    def tags(number: int) -> str:
        game = bytes_of(hall.name(number) + ".pgn").decode()
        return " - ".join(game.partition(f'[{tag} "')[2].partition('"')[0] for tag in ("White", "Black"))

    write("Anne,Ben", "M\u00fcller,Kern", ",", "Eva,Finn")
    live = hall.record("--delay", "60")
    hall.begun(live)
    hall.play(0, 2, [0, 1, 2])
    same(stop(live), 0)
    files = {path: bytes_of(path) for path in sorted(hall.games.iterdir())}
    assert hall.games / "01.delay" in files, files.keys()
    write("Anna,Ben", "Gus,Hal", "Ida,Jan", "Kim,Lea")
    place = hall.games.parent / "games-2"
    for options in ((), ("--round", "4"), ("--delay", "0"), ("--page", "8000")):
        live = hall.record(*options)
        refuses(live, 1, f"dgt_round: {hall.games}/02 has moves of Müller - Kern: for another round take another folder, as")
        assert live.complaint().splitlines()[0].endswith(f" dgt_round {hall.file} {place}"), live.complaint()
        assert "\n  To put names right all the same, start with the old table, change it, and type r\n" in live.complaint()
        same({path: bytes_of(path) for path in sorted(hall.games.iterdir())}, files)
    place.mkdir()
    refuses(hall.record(), 1, f"dgt_round {hall.file} {hall.games}-3")

    write("Anna,Ben", "M\u00fcller,Hal", "Ida,Jan", "Kim,Lea")
    live = hall.record(typed=True)
    hall.begun(live)
    until_line(live, "  1  White is now Anna, and was Anne\n")
    until_line(live, "  2  Black is now Hal, and was Kern\n")
    until_line(live, "  3  White is now Ida; Black is now Jan\n")
    assert "Kim" not in live.lines(), live.lines()
    write("Anna,Ben", "Gus,Nora", "Ida,Jan", "Kim,Lea")
    live.type("r")
    until_line(live, "  2  White is now Gus, and was Müller; Black is now Nora, and was Hal\n")
    until(lambda: tags(2) == "Gus - Nora", "both names of board 2")
    until(lambda: [tags(number) for number in (1, 3, 4)] == ["Anna - Ben", "Ida - Jan", "Kim - Lea"], "the names of the others")
    same(stop(live), 0)
    live = hall.record("--round", "4")
    until_line(live, "  2  its round is now 4\n")
    same(stop(live), 0)


def round_that_is_over(folder: pathlib.Path) -> None:
    """The next round's table and the old folder, where one player of each pair stays at the board: games that are over keep their
    players, and all is refused. In a game that isn't over, one name may still be put right; by r also in one that is over."""
    hall = Hall(folder, 2)

    def write(*players: str) -> None:
        lines = [f"{number},{folder}/board{number},{pair}" for number, pair in enumerate(players, 1)]
        hall.file.write_text("\n".join(["board,device,white,black", *lines, ""]))

    write("Anna,Ben", "Cara,Dan")
    live = hall.record(typed=True)
    hall.begun(live)
    hall.play(0, 2)
    live.type("1 1-0")
    hall.until_over(live, 1, "1-0")
    same(stop(live), 0)
    files = {path: bytes_of(path) for path in sorted(hall.games.iterdir())}
    write("Anna,Dan", "Cara,Ben")
    live = hall.record()
    refuses(live, 1, f"dgt_round: {hall.games}/01 is over, and was played by Anna - Ben: for another round take another folder")
    same({path: bytes_of(path) for path in sorted(hall.games.iterdir())}, files)
    write("Anna,Ben", "Cara,Dean")
    live = hall.record(typed=True)
    until_line(live, "  2  Black is now Dean, and was Dan\n")
    write("Anne,Ben", "Cara,Dean")
    live.type("r")
    until(lambda: b'[White "Anne"]' in bytes_of(hall.name(1) + ".pgn"), "the name that was put right")
    same(stop(live), 0)


def device_of_another_board(folder: pathlib.Path) -> None:
    """A line gets the device of another board by mistake, above and below that board's line: it is wrong, and both boards are recorded
    as before. When it is put right, nothing has been lost."""
    hall = Hall(folder, 2)
    table = hall.file.read_text()
    live = hall.record(typed=True)
    hall.begun(live)
    hall.play(0, 1)
    for ply, (number, other) in enumerate(((1, 2), (2, 1)), 1):
        device = f"{folder}/board{other}"
        hall.file.write_text(table.replace(f"{folder}/board{number},", f"{device},"))
        live.type("r")
        until_line(live, f"line {number + 1} of round.csv is wrong: {device} is the device of board {other}, line {other + 1}: each has its own")
        hall.play(ply, ply + 1)
    hall.file.write_text(table)
    live.type("r")
    until_line(live, "is read again: 2 boards\n", 1)
    hall.play(3, 4)
    same(stop(live), 0)


def players_exchanged(folder: pathlib.Path) -> None:
    """Boards without serial numbers, whose cables were swapped before the first start: each game has the players of another
    board. They are exchanged in the table while the games are played, and one is over: all are whole with their own players, in
    their files and in round.pgn, also after a new start."""
    hall = Hall(folder, 4, clocks=(0, 1))

    def write(*players: int) -> None:
        lines = [f"{board},{folder}/board{board},White {one},Black {one},{2000 + one}" for board, one in enumerate(players, 1)]
        hall.file.write_text("\n".join(["board,device,white,black,WhiteElo", *lines, ""]))

    def players(game: bytes) -> List[str]:
        return [line.split('"')[1] for line in game.decode().splitlines() if line.startswith(("[White ", "[Black "))]

    def until_players(*wanted: int) -> None:
        games = [[f"White {one}", f"Black {one}"] for one in wanted]
        until(lambda: [players(bytes_of(hall.name(number) + ".pgn")) for number in (1, 2, 3, 4)] == games, f"{games}")
        until(lambda: list(map(players, games_of(bytes_of(hall.games / "round.pgn")))) == games, f"{games} in round.pgn")

    write(1, 2, 3, 4)
    live = hall.record(typed=True)
    hall.begun(live)
    hall.play(0, 3)
    live.type("4 1-0")
    hall.until_over(live, 4, "1-0")
    until_players(1, 2, 3, 4)
    before = [hall.text(number) for number in (1, 2, 3, 4)]
    for board in hall.boards:
        board.asked_for_updates = False
    write(2, 1, 4, 3)
    live.type("r")
    until_line(live, "  1  White is now White 2, and was White 1; Black is now Black 2, and was Black 1\n")
    until_line(live, "  4  White is now White 3, and was White 4; Black is now Black 3, and was Black 4\n")
    until_players(2, 1, 4, 3)
    same([hall.text(number) for number in (1, 2, 3, 4)], before)
    until(lambda: all(board.asked_for_updates for board in hall.boards[:3]), "a request on each board")
    hall.play(3, 6, [0, 1, 2])
    same(stop(live), 0)
    live = hall.record(typed=True)
    for number in (1, 2, 3):
        until_line(live, f"{number:>3}  {words.AGREES}")
    hall.play(6, 10, [0, 2])
    live.type("2 0-1")
    hall.until_text(2, text(1).replace("*", "0-1"))
    same([hall.text(number) for number in (1, 3, 4)], [text(0), text(2), before[3]])
    until_players(2, 1, 4, 3)
    same(stop(live), 0)
    write(1, 2, 3, 4)
    refuses(hall.record(), 1, f"dgt_round: {hall.games}/01 has moves of White 2 - Black 2")


def edited_in_a_round(folder: pathlib.Path) -> None:
    """A name is put right by hand in the text of one game: that text is kept, a line of its board says so, and round.pgn and the
    other game go on."""
    hall = Hall(folder, 2)
    live = hall.record()
    hall.begun(live)
    hall.play(0, 2)
    pgn = pathlib.Path(hall.name(1) + ".pgn")
    edited = pgn.read_bytes().replace(b"White 1", b"Anna Kern")
    pgn.write_bytes(edited)
    hall.play(2, 4)
    until_line(live, f"  1  {pgn} was edited by hand: that text is kept in {hall.name(1)}.edited.pgn, and a new one takes its place")
    same(bytes_of(hall.name(1) + ".edited.pgn"), edited)
    hall.until_round()
    same(stop(live), 0)
    same([path.name for path in hall.games.glob("*.edited*")], ["01.edited.pgn"])


def options_kept(folder: pathlib.Path) -> None:
    """A round that is started again without its options goes on with them, and says so; one that is given counts, and `?` takes
    one out. A new board has them too. What can't be read is left alone."""
    hall = Hall(folder, 2)
    kept = hall.games / "round.options"

    def tags() -> List[str]:
        game = bytes_of(hall.games / "round.pgn").decode()
        return [line for line in game.splitlines() if line.startswith(("[Event ", "[Date ", "[Round "))]

    def until_tags(event: str, number: str, games: int = 2) -> None:
        wanted = [f'[Event "{event}"]', '[Date "2024.05.31"]', f'[Round "{number}"]'] * games
        until(lambda: tags() == wanted, f"the tags {wanted} in round.pgn")

    live = hall.record("--event", "Club cup", "--date", "31.05.2024", "--round", "3")
    hall.begun(live)
    hall.play(0, 2)
    assert "goes on with" not in live.lines(), live.lines()
    same(stop(live), 0)
    until_tags("Club cup", "3")
    hall.file.write_text(f"{hall.file.read_text()}3,{folder}/nowhere,A,B\n")
    live = hall.record()
    until_line(live, "the round goes on with --event 'Club cup' --date 2024.05.31 --round 3; give others to change that\n")
    hall.begun(live)
    until_tags("Club cup", "3", 3)
    hall.play(2, 4)
    same(stop(live), 0)
    until_tags("Club cup", "3", 3)
    live = hall.record("--round", "4")
    until_line(live, "the round goes on with --event 'Club cup' --date 2024.05.31; give others to change that\n")
    hall.begun(live)
    until_tags("Club cup", "4", 3)
    same(stop(live), 0)
    live = hall.record("--event", "?")
    hall.begun(live)
    until_tags("?", "4", 3)
    same(stop(live), 0)
    kept.write_text("--colour\nred\n")
    refuses(hall.record(), 1, f"{kept} can't be read (there is no option --colour")
    same(kept.read_text(), "--colour\nred\n")


def read_again(folder: pathlib.Path) -> None:
    """HUP reads the file again: a name and whose time comes first are put right, another device, a new line, a line that is
    gone, a result, an empty file."""
    hall = Hall(folder, 3)
    live = hall.record(typed=True)
    hall.begun(live)
    hall.boards[0].clock(600, 500)
    hall.boards[0].play("e2e4")
    hall.until_text(1, "1. e4 *")
    lines = hall.file.read_text().splitlines()
    hall.file.write_text("")
    live.send(signal.SIGHUP)
    until_line(live, "nothing is changed")
    hall.boards[1].pull()
    hall.boards[1].device = str(folder / "elsewhere")
    hall.boards[1].plug()
    anna = f"{lines[1].replace('White 1', 'Anna')},black,yes"
    changed = [f"{lines[0]},first,rotated,result", anna, f"2,{folder}/elsewhere,Ben,Black 2"]
    hall.file.write_text("\n".join([*changed, f"4,{folder}/nowhere,A,B", ""]))
    live.send(signal.SIGHUP)
    until_line(live, "is read again: 3 boards")
    until_line(live, "  1  the game has moves, and keeps what it was begun with")
    until_line(live, "  1  White is now Anna, and was White 1\n")
    until_line(live, "  1  Black's time comes first\n")
    until_line(live, "3: no line names it any more")
    until_line(live, "  4  UNPLUGGED")
    until(lambda: b'[White "Ben"]' in bytes_of(hall.name(2) + ".pgn"), "the name of board 2")
    until(lambda: hall.boards[1].asked_for_updates, "a request on the other device")
    hall.boards[1].play("d2d4")
    hall.until_text(2, "1. d4 *")
    until(lambda: b'[White "Anna"]' in bytes_of(hall.name(1) + ".pgn"), "the name of board 1, whose game has a move")
    until(lambda: b"1. e4 {[%clk 0:08:20]}" in bytes_of(hall.name(1) + ".pgn"), "the time of Black, who comes first")
    until(lambda: hall.boards[0].asked_for_updates, "a request on board 1")
    hall.boards[0].play("e7e5")
    hall.until_text(1, "1. e4 e5 *")
    changed[1] += ",1-0"
    hall.file.write_text("\n".join([*changed, f"4,{folder}/nowhere,A,B", ""]))
    live.send(signal.SIGHUP)
    hall.until_text(1, "1. e4 e5 1-0")
    same(len(games_of(bytes_of(hall.games / "03.pgn"))), 1)
    # Both are put right where the game is over.
    hall.until_over(live, 1, "1-0")
    changed[1] = changed[1].replace("Anna", "Anne").replace(",black,", ",,")
    hall.file.write_text("\n".join([*changed, f"4,{folder}/nowhere,A,B", ""]))
    live.send(signal.SIGHUP)
    until(lambda: b'[White "Anne"]' in bytes_of(hall.games / "round.pgn"), "the name of board 1, whose game is over")
    until(lambda: movetext(hall.name(1)).startswith("1. e4 {[%clk 0:10:00]}"), "the time of White, who comes first")
    same(hall.text(1), "1. e4 e5 1-0")
    until_line(live, "  1  White is now Anne, and was Anna\n")
    until_line(live, "  1  White's time comes first\n")
    same(stop(live), 0)
    log = bytes_of(hall.name(1) + ".log").decode()
    for told in ("Black's time comes first", "White's time comes first", "White is now Anne, and was Anna"):
        same(log.count(f"  {told}"), 1)
    # Board 2 had no move yet, and no time of another side.
    for never in ("  2  its game", "  2  White's", "  2  Black's"):
        assert never not in live.lines(), live.lines()


def recovered(folder: pathlib.Path) -> None:
    """A column says on which boards pairs are recovered, and the file read again says otherwise: both games are made anew, and
    so is one that is over. What was recovered is told with the board's number, and when its number is typed."""
    hall = Hall(folder, 3)
    header = "board,device,white,black,recover"
    hall.extra = {1: ",yes", 2: ",no"}
    hall.write(header=header)
    live = hall.record("--recover", typed=True)
    hall.begun(live)
    for board in hall.boards:
        for move in ("e2e4", "e7e5"):
            board.play(move)
    for number in (1, 2, 3):
        hall.until_text(number, "1. e4 e5 *")
    for board in hall.boards:
        hurried(board)
        board.play("f1b5")
    strict, whole = "1. e4 e5 *", "1. e4 e5 2. Nf3 Nc6 3. Bb5 *"
    for number in (1, 3):
        hall.until_text(number, whole)
        until_line(live, f"{number:>3}  {PAIR}")
    until_line(live, f"  2  {words.IN_HAND}")
    same(hall.text(2), strict)
    says(live, 3, f"agrees; {PAIR}; ")
    live.type("3 1-0")
    hall.until_over(live, 3, "1-0")
    hall.extra = {1: ",no", 2: ",yes", 3: ",no"}
    hall.write(header=header)
    live.type("r")
    hall.until_text(1, strict)
    hall.until_text(2, whole)
    # The kings were put in over the whole game's position, where the strict one has no result.
    hall.until_text(3, strict)
    gone = f"nothing recovered; {words.RESULT_GONE.format('1-0')}\n"
    for told in ("  1  nothing recovered\n", f"  2  {PAIR}\n", f"  3  {gone}"):
        until_line(live, told)
    assert gone in bytes_of(hall.name(3) + ".log").decode()
    hall.until_round()
    same(stop(live), 0)
    again = hall.record("--recover")
    until_line(again, "  2  agrees")
    same(again.lines().count(PAIR), 0)  # it was told
    same(stop(again), 0)
    for number in (1, 2, 3):
        capture = bytes_of(hall.name(number) + ".dgt")
        same(" ".join(run("record", given=capture).stdout.decode().split("\n\n")[1].split()), strict)


def renamed(folder: pathlib.Path) -> None:
    """A board comes back under another name, and then its player's name is put right: it is found by its cable."""
    hall = Hall(folder, 1, cabled=(0,))
    file = f"board,device,white,black\n1,{hall.boards[0].device},Ana,Ben\n"
    hall.file.write_text(file)
    live = hall.record()
    hall.begun(live)
    hall.boards[0].play("e2e4")
    hall.until_text(1, "1. e4 *")
    hall.boards[0].pull()
    until_line(live, "  1  UNPLUGGED")
    hall.cables.plug(hall.boards[0], 7)
    until(lambda: hall.boards[0].asked_for_updates, "a request as ttyUSB7")
    hall.boards[0].play("e7e5")
    hall.until_text(1, "1. e4 e5 *")
    hall.file.write_text(file.replace("Ana", "Anna"))
    live.send(signal.SIGHUP)
    until(lambda: b'[White "Anna"]' in bytes_of(hall.name(1) + ".pgn"), "the name that was put right")
    hall.boards[0].play("g1f3")
    hall.until_text(1, "1. e4 e5 2. Nf3 *")
    same(live.lines().count("  1  UNPLUGGED"), 1)
    same(stop(live), 0)


def read_while_opened(folder: pathlib.Path) -> None:
    """A line that is typed while a game is being opened is refused, and says so. The table is read again meanwhile: the board gets
    the game of its new line."""
    hall = Hall(folder, 1)
    stuck = folder / "stuck"
    stuck.write_text("live")
    live = hall.record(program=stuck_program(folder, stuck), typed=True)
    until(lambda: "live" in words_of(live), "a call of live that is stuck")
    live.type("1 1-0")
    until_line(live, "1 refused: 1-0: the game is just being opened: type it again in a moment")
    hall.extra = {1: ",other"}
    hall.write(header="board,device,white,black,name")
    live.type("r")
    until_line(live, "is read again")
    stuck.unlink()
    until_line(live, "  1  agrees")
    hall.boards[0].play("e2e4")
    until(lambda: movetext(hall.games / "other") == "1. e4 *", "the move in the game of the new line")
    same(stop(live), 0)


def result_and_device(folder: pathlib.Path) -> None:
    """A line gets a result and another device at once: the result is given once that board is recorded. Another result later changes
    nothing, and a line says what to type."""
    hall = Hall(folder, 2)

    def line(board: str, result: str) -> None:
        hall.file.write_text(f"board,device,white,black,result\n1,{folder}/{board},White 1,Black 1,{result}\n")

    line("board1", "")
    live = hall.record(typed=True)
    until(lambda: agrees(live, 1), "that board 1 agrees")
    hall.play(0, 2, [0])
    hall.boards[1].play("e2e4", "e7e5")
    line("board2", "1-0")
    live.type("r")
    hall.until_text(1, "1. e4 e5 1-0")
    until_line(live, "1: added to ")
    same((live.says("Type it again"), live.says("typed by mistake")), (False, False))
    until(lambda: b'[Result "1-0"]' in bytes_of(hall.games / "round.pgn"), "that the round has the result")
    line("board2", "0-1")
    live.type("r")
    until_line(live, "1: its line has 0-1, and the game ended 1-0: it stays so. To change it, type 1 0-1")
    live.type("1 0-1")
    hall.until_text(1, "1. e4 e5 0-1")
    quits(live)
