"""A round is started: what is wrong with one board is said in its row, and the others are recorded."""

import pathlib

from played import words
from played.failing import counted
from played.stage import bytes_of, same, stop, until, until_line
from played.starts import OPENED
from played.words import untimed
from rounds.hall import Hall


def name_put_right_while_off(folder: pathlib.Path) -> None:
    """While the recorder is off, a name of a game that is over is put right, and another line gets two other players: both rows say what
    to type, the other boards are recorded, and both games keep their players, also in what is published. At r the first has its
    name, and the second is left alone; with a name of files of its own it is another game."""
    hall = Hall(folder, 5)

    def write(*players: str, name: str = "") -> None:
        lines = [f"{number},{folder}/board{number},{pair},{name if number == 3 else ''}" for number, pair in enumerate(players, 1)]
        hall.file.write_text("\n".join(["board,device,white,black,name", *lines, ""]))

    def players(name: str, file: str = ".pgn") -> str:
        game = bytes_of(f"{hall.games}/{name}{file}").decode()
        return " - ".join(game.partition(f'[{tag} "')[2].partition('"')[0] for tag in ("White", "Black"))

    others = ("Cara,Dan", "Eva,Finn", "Gus,Hal", "Ida,Jan")
    write("Anne,Ben", *others)
    live = hall.record(typed=True)
    hall.begun(live)
    hall.play(0, 2)
    live.type("1 1-0")
    hall.until_over(live, 1, "1-0")
    same(stop(live), 0)
    before = bytes_of(hall.name(1) + ".pgn")
    changed = ("Anna,Ben", "Cara,Dan", "Kim,Lea", "Gus,Hal", "Ida,Jan")
    write(*changed)
    live = hall.record(typed=True)
    other = "if another pair plays here, write another name of its files into the column name, then type r"
    both = f"{other}; to put both names right, change one in the table, type r, then the other"
    until_line(live, f"  1  isn't recorded: its game is over, and was played by Anne - Ben: to put a name right, type r; {other}\n")
    until_line(live, f"  3  isn't recorded: its game has moves of Eva - Finn: {both}\n")
    for number in (2, 4, 5):
        until_line(live, f"{number:>3}  agrees")
    hall.play(2, 4, (1, 3, 4))
    same(bytes_of(hall.name(1) + ".pgn"), before)
    until(lambda: b'"Anne"' in bytes_of(hall.games / "broadcast.pgn"), "the name under which it was played")
    assert b'"Anna"' not in bytes_of(hall.games / "broadcast.pgn")
    live.type("r")
    until_line(live, "  1  White is now Anna, and was Anne\n")
    until(lambda: players("01") == "Anna - Ben", "the name that was put right")
    write(*changed, name="again")
    live.type("r")
    until_line(live, f"  3  records {folder}/board3 in {hall.games}/again.dgt")
    same((players("03"), players("again")), ("Eva - Finn", "Kim - Lea"))
    same(stop(live), 0)


def result_before_a_move(folder: pathlib.Path) -> None:
    """A result is typed for a board without a move: it is asked about, with what to type if a player hasn't come, and counts when it
    is typed again. One in the table isn't asked about."""
    hall = Hall(folder, 2)
    hall.extra = {2: ",0-1"}
    hall.write(header="board,device,white,black,result")
    live = hall.record(typed=True)
    until_line(live, "  1  agrees")
    until_line(live, "2: added to")
    live.type("1 1-0")
    until_line(live, "1: no move was made yet. If Black has not come, type 1 +-. For 1-0 all the same, type it again within a minute\n")
    live.type("1 1-0")
    until_line(live, "1: added to")
    same(stop(live), 0)


def names_on_open_lines(folder: pathlib.Path) -> None:
    """Names are put right in the table of a round that goes on from before: of a game that is played, of one that is over and watched, and
    in a column that is published alone. Both lines stay open, the program is started for the first alone and the text of the second, and
    nothing is said but which names are new. A game that is over goes on: its board isn't waited for."""
    hall = Hall(folder, 2)
    door, started = counted(folder, "dgt_round")
    header = "board,device,white,black,WhiteElo"

    def write(*lines: str) -> None:
        hall.extra = {number: f",{elo}" for number, elo in enumerate(lines, 1)}
        hall.write(header=header)

    write("2050", "2000")
    live = hall.record(typed=True, program=door)
    hall.begun(live)
    hall.play(0, 3)
    same((stop(live), started().count("live")), (0, 2))
    live = hall.record(typed=True, program=door)
    hall.begun(live)
    same(started(), [*OPENED, "live"])
    live.type("2 1-0")
    hall.until_over(live, 2, "1-0")
    started()
    for board in hall.boards:  # from now on a line that the recorder closes can't be read
        board.let_slave_go()
    before = live.lines()
    for number, name in ((1, "Anna"), (2, "Cara")):
        hall.file.write_text(hall.file.read_text().replace(f"White {number}", name))
        live.type("r")
        until_line(live, f"  {number}  White is now {name}, and was White {number}\n")
        until(lambda: f'[White "{name}"]'.encode() in bytes_of(hall.name(number) + ".pgn"), f"{name} in the text")
    same(started(), ["live", "record"])
    hall.file.write_text(hall.file.read_text().replace("2050", "2051").replace("2000", "2001"))
    live.type("r")
    until(lambda: live.lines().count("is read again: 2 boards") == 3, "that it is read again")
    until(lambda: b'"2051"' in bytes_of(hall.games / "broadcast.pgn") and b'"2001"' in bytes_of(hall.games / "broadcast.pgn"), "what is published")
    same(started(), [])
    said = [untimed(line) for line in live.lines()[len(before) :].splitlines()]
    again = f"{hall.file} is read again: 2 boards"
    same(said, [again, "  1  White is now Anna, and was White 1", again, "  2  White is now Cara, and was White 2", again])
    hall.play(3, 4, [0])
    for board in hall.boards:
        board.take_slave()
    live.type("2 *")
    hall.play(3, 4, [1])
    same((stop(live), live.lines().count(words.WAITS)), (0, before.count(words.WAITS)))


def names_not_kept(folder: pathlib.Path) -> None:
    """Names that are put right can't be written: a line says so, both boards go on, and the next `r` puts them right."""
    hall = Hall(folder, 2)
    live = hall.record(typed=True)
    hall.begun(live)
    hall.play(0, 2)
    block = pathlib.Path(hall.name(1) + ".options.new")
    block.mkdir()
    hall.file.write_text(hall.file.read_text().replace("White 1", "Anna"))
    live.type("r")
    until_line(live, f"1 refused: {hall.name(1)}.options can't be written")
    hall.play(2, 3)
    assert b"White 1" in bytes_of(hall.name(1) + ".pgn")
    block.rmdir()
    live.type("r")
    until_line(live, "  1  White is now Anna, and was White 1\n")
    until(lambda: b'[White "Anna"]' in bytes_of(hall.name(1) + ".pgn"), "the name that was put right")
    hall.play(3, 4)
    same((stop(live), live.lines().count("isn't recorded")), (0, 0))


CASES = [result_before_a_move, name_put_right_while_off, names_on_open_lines, names_not_kept]
