"""The pure tables of a round: reading the file of pairings, and the rows on the screen. Expected values are worked by hand."""

import pathlib
from typing import List

from live.game.options import Options
from live.run.refused import Refused
from live.run.system import Room, room
from live.show.table import Columns, RowView, head, row, screen
from live.table.pairings import Pairing, read_pairings
from played.stage import same

LINE = "1,/dev/ttyUSB0,Jörg,Ben"


def separators(_: pathlib.Path) -> None:
    """Each separator and encoding that spreadsheets save, quotes, empty lines, and columns in another order."""
    wanted = (Pairing(2, 1, "/dev/ttyUSB0", "Jörg", "Ben"),)
    header = "board,device,white,black"
    for separator in ",;\t":
        for ends in ("\n", "\r\n", "\r"):
            text = ends.join([header, LINE, ""]).replace(",", separator)
            for encoding in ("utf-8", "utf-8-sig", "latin-1", "utf-16"):
                same(read_pairings(text.encode(encoding)).boards, wanted)
    same(read_pairings("Device;Black;WHITE;board\n\n;;;\na;Ben;\"Bloggs; Jo\";7\n".encode()).boards,
         (Pairing(4, 7, "a", "Bloggs; Jo", "Ben"),))  # fmt: skip
    full = "board,device,white,black,rotated,first,fen,name,result\n2,d,A,B,yes,black,8/8 w,my game,1/2\n"
    same(read_pairings(full.encode()).boards,
         (Pairing(2, 2, "d", "A", "B", True, "black", "8/8 w", "my game", "1/2-1/2"),))  # fmt: skip
    read = read_pairings(b"board,device,recover\n1,a,yes\n2,b,no\n3,c,\n").boards
    same([pairing.words(("--event", "E", "--recover")) for pairing in read],
         [("--event", "E", "--recover", *words) for words in (("--recover",), ("--strict",), ())])  # fmt: skip
    same([Options.of_words(pairing.words(("--recover",))).recover for pairing in read], [True, False, True])
    numbers = read_pairings(b"board,device,serial\n1,a,01234\n2,b,17\n3,c,AB-12\n4,d,\n").boards
    same([pairing.serial for pairing in numbers], ["01234", "00017", "AB-12", ""])
    same(read_pairings(b"sep=;\nboard;device\n1;d\n").boards, (Pairing(3, 1, "d"),))
    same(read_pairings(b"board,device,elo\n1,d,2000\n").remarks, ("the column 'elo' isn't known, and isn't used",))
    one = read_pairings(b"board,device,white,black\n1,a,Anna,\n2,b,,Ben\n3,c,,\n4,d,A,B\n")
    same((len(one.boards), one.wrong), (4, ()))
    same(one.remarks, tuple(f"line {line}: board {board} has no {side}: type the name, save the table, and type r"
                            for line, board, side in ((2, 1, "black"), (3, 2, "white"))))  # fmt: skip
    same([pairing.board for pairing in read_pairings(b"board,device\n9,a\n10,b\n2,c\n").boards], [2, 9, 10])


def wrong_lines(_: pathlib.Path) -> None:
    """A line that is wrong says why, and stops no other."""
    for number, why in (
        ("123456", "serial is '123456': type its 5 characters, as dgt_live --devices lists them"),
        ("AB12", "serial is 'AB12': type its 5 characters, as dgt_live --devices lists them"),
        ("17", "00017 is the serial number of board 1: type another"),
    ):
        read = read_pairings(f"board,device,serial\n1,a,00017\n2,b,{number}\n".encode())
        same(([pairing.board for pairing in read.boards], [line.why for line in read.wrong]), ([1], [why]))
    header = "board,device,white,black,rotated,first,name,result,recover"
    for line, board, part in (
        ("x,d", None, "no number of a board"),
        ("0,d", None, "no number of a board"),
        ("1000,d", None, "no number of a board"),
        (",d", None, "no number of a board"),
        ("3", 3, "names no device"),
        ("3,d,A,B,maybe", 3, "rotated is 'maybe'"),
        ("3,d,A,B,,,,,maybe", 3, "recover is 'maybe'"),
        ("3,d,A,B,,red", 3, "first is 'red'"),
        ("3,d,A,B,,,../x", 3, "name is '../x'"),
        ("3,d,A,B,,,round", 3, "name is 'round': the files of the round itself are called so"),
        ("3,d,A,B,,,,,,more", 3, "it has 10 fields, and the first line has 9"),
        ('3,d,"A', 3, "a quotation mark isn't closed"),
        ("3,d,A\x00,B", 3, "can't be seen"),
        ("1,d", 1, "board 1 is in line 2 already: type another"),
        ("3,/dev/a", 3, "/dev/a is the device of board 1, line 2: each has its own"),
        ("3,192.168.1.20:2001,A,B", 3, "device is '192.168.1.20:2001': type tcp://HOST:PORT, as tcp://192.168.1.20:2001"),
        ("3,tcp:/192.168.1.20:2001,A,B", 3, "device is 'tcp:/192.168.1.20:2001': type tcp://HOST:PORT, as tcp://192.168.1.20:2001"),
        ("3,tcp://pi,A,B", 3, "device is 'tcp://pi': type tcp://HOST:PORT, as tcp://192.168.1.20:2001"),
        ("3,d,A,B,,,01", 3, "01 is the name of the game of board 1: type another"),
    ):
        read = read_pairings(f"{header}\n1,/dev/a,A,B\n{line}\n4,/dev/b,C,D\n".encode())
        same([pairing.board for pairing in read.boards], [1, 4])
        same([(wrong.line, wrong.board) for wrong in read.wrong], [(3, board)])
        assert part in read.wrong[0].why, (line, read.wrong)
    for written, result in ("2-0", ""), ("0-0", ""), ("+/-", "+-"), ("-/+", "-+"), ("--", "--"), ("-/-", "--"):
        read = read_pairings(f"{header}\n3,d,A,B,,,,{written}\n".encode())
        same(([(pairing.board, pairing.result) for pairing in read.boards], read.wrong), ([(3, result)], ()))
        same([remark.partition(": type")[0] for remark in read.remarks], [] if result else [f"line 2, column result: result is '{written}'"])


def divided_otherwise(_: pathlib.Path) -> None:
    """The headings are divided by semicolons and the lines by commas, or the other way: that is said, for the whole table or for a
    line. A line of one field, and a comma in a field, are nothing else."""
    header = "board{0}device{0}white{0}black\n"
    for of_headings, named, of_lines, otherwise in (
        (";", "semicolons", ",", "commas"), (",", "commas", ";", "semicolons"), ("\t", "tabs", ";", "semicolons"),
    ):  # fmt: skip
        lines = header.format(of_headings) + "".join(f"{number}{of_lines}d{number}{of_lines}A{of_lines}B\n" for number in (1, 2))
        why = f"its headings are divided by {named}, and line 2 by {otherwise}: divide all lines by the same sign"
        same(refusal(lines.encode()), why)
        one_right = (lines + of_headings.join(("3", "d3", "C", "D")) + "\n").encode()
        read = read_pairings(one_right)
        same([pairing.board for pairing in read.boards], [3])
        why = f"it is divided by {otherwise}, and the headings by {named}: divide it as they are"
        same([(wrong.line, wrong.board, wrong.why) for wrong in read.wrong], [(2, 1, why), (3, 2, why)])
    for pairs in (b"Bo.;White;Black\n1,Kern Anna,Lund Ben\n", b"Bo.;White;Black\n1,Kern Anna,Lund Ben;;\n"):  # as spreadsheets save it too
        same(refusal(pairs), "its headings are divided by semicolons, and line 2 by commas: divide all lines by the same sign")
    read = read_pairings(b"Bo.;White;Black\n1;Kern, Anna;Lund, Ben\n2. January, at ten\n")
    same(([(one.white, one.black) for one in read.boards], read.wrong), ([("Kern, Anna", "Lund, Ben")], ()))
    same(read_pairings(b"board;device;white\n3\n").wrong[0].why, "it names no device: type /dev/ttyUSB0, or what dgt_live --devices lists")


def tags(_: pathlib.Path) -> None:
    """Columns with the names of tags, in any order and case. A value that is malformed is named with its line and column, and the
    board is recorded without it."""
    read = read_pairings(
        "blackelo,WhiteTitle,BOARD,device,White,WhiteElo,WhiteFideId,whiteteam,black,TimeControl\n"
        "1987,gm,3,d,Ünal,2O50,1503014,\"SC \"\"Turm\"\" \\ 2\",王浩,90+30\n"
        "-,,4,e,A,0,15x,,B,\n".encode()
    )
    same((read.wrong, [pairing.board for pairing in read.boards]), ((), [3, 4]))
    same(read.boards[0].tags, (
        ("BlackElo", "1987"), ("TimeControl", "5400+30"), ("WhiteFideId", "1503014"), ("WhiteTeam", 'SC "Turm" \\ 2'), ("WhiteTitle", "GM"),
    ))  # fmt: skip
    same((read.boards[0].white, read.boards[0].black, read.boards[1].tags), ("Ünal", "王浩", ()))
    same(read.remarks, (
        "line 2, column WhiteElo: '2O50' is no rating: type up to four digits, as 2050, or nothing; the board is recorded without it",
        "line 3, column WhiteFideId: '15x' is no FIDE id: type its digits alone, as 1503014, or nothing; the board is recorded without it",
    ))  # fmt: skip
    same(refusal(b"board,device,WhiteElo,whiteelo\n"), "its first line has the column whiteelo twice: take one out")


def too_much(_: pathlib.Path) -> None:
    """A table has 1,000 lines at most, and 256 kB; what is wrong with a long value is told in a short line."""
    boards = [f"{number},d{number}" for number in range(1, 1000)]
    full = "\n".join(["board,device", *boards])
    same(len(read_pairings(full.encode()).boards), 999)
    same(len(read_pairings((full + "\n,,\n\n").encode()).boards), 999)
    same(refusal(full.encode() + b"\nx,y\n"), "it has 1001 lines, and may have 1000: take out those that are no board's")
    same(refusal(b"board,device\n" + b"x,y\n" * 50_000), "it has 50001 lines, and may have 1000: take out those that are no board's")
    begins = b"board,device\n1,a\n"
    one = read_pairings(begins + b"\n" * (262_144 - len(begins)))
    same((len(one.boards), one.wrong), (1, ()))
    large = refusal(begins + b"\n" * (262_145 - len(begins)))
    same(large, "it has more than 256 kB, and a table has a line for each board: save it as CSV")
    long = "x" * 60_000
    wrong = read_pairings(f"board,device,first,white\n{long},d\n2,d,{long}\n3,d,,{long}\n4,d,,{long[:1000]}\n".encode())
    same([line.why for line in wrong.wrong], [
        f"'{long[:40]}..' is no number of a board: type 1 to 999",
        "first has more than 1000 characters: type it anew",
        "white has more than 1000 characters: type it anew",
    ])  # fmt: skip
    columns = "".join(f",c{number}" for number in range(20_000))
    remarks = read_pairings(f"board,device{columns}\n".encode()).remarks
    same((len(remarks), remarks[-1]), (6, "19995 more columns aren't known, and aren't used"))


def refusal(content: bytes) -> str:
    """With what a table is refused."""
    try:
        read_pairings(content)
    except Refused as refused:
        return refused.lines[0]
    raise AssertionError(f"not refused: {content[:20]!r}")


def no_table(_: pathlib.Path) -> None:
    """What is no table at all is refused with a word; the files that a spreadsheet keeps for itself, with what to do."""
    saved = (b"PK\x03\x04\x14\x00", b"\xd0\xcf\x11\xe0\xa1\xb1")
    others = (b"", b"\n\n", b"1,/dev/a,A,B\n", b"board,white\n", b"board,device,board\n", b"\xff" * 100, b"x" * 2000000)
    for content in saved + others:
        try:
            read_pairings(content)
        except Refused as refused:
            assert refused.lines[0], content[:20]
            same(content not in saved or refused.lines[0].endswith("save the table as CSV"), True)
        else:
            raise AssertionError(f"not refused: {content[:20]!r}")
    try:
        read_pairings(b"board,device,board\n")
    except Refused as refused:
        same(refused.lines, ("its first line has the column board twice: take one out",))


def alone(view: RowView, now: float, width: int = 80) -> List[str]:
    """Its lines if no other board is there."""
    return row(view, now, Columns.of([view], now, width))


def rows(_: pathlib.Path) -> None:
    """Rows of 80 columns, alarms first where not all fit."""
    calm = RowView(1, "Anna", "Benjamin Miller", "12... Nxe5+", ("1:12:07", "0:58:11"), "agrees", "", 100.0)
    same(alone(calm, 140), ["   1 Anna  Benjamin Miller 12... Nxe5+ 1:12:07 0:58:11  agrees 40s"])
    alarm = RowView(12, "Anna", "Ben", "3. Bb5", ("", ""), "WRONG", ": e2 d5", 100.0, True)
    same(alone(alarm, 280), ["! 12 Anna  Ben   3. Bb5     WRONG 3m: e2 d5"])
    waits = RowView(2, "Anna", "Ben", state="waits for the board")
    same(alone(waits, 280), ["   2 Anna  Ben              waits for the board"])
    over = RowView(2, "Anna", "Ben", state="over, no result", alarm=True)
    same(alone(over, 280), ["!  2 Anna  Ben              over, no result"])
    look = RowView(2, "Anna", "Ben", state="LOOK after the start", rest="; over 0-1", alarm=True)
    same(alone(look, 280), ["!  2 Anna  Ben              LOOK after the start; over 0-1"])
    failed = RowView(2, "Anna", "Ben", state="NOT RECORDED", rest=": there is no /dev/ttyUSB0", alarm=True)
    same(alone(failed, 280), ["!  2 NOT RECORDED: there is no /dev/ttyUSB0"])
    wrong = RowView(None, state="line 9 is wrong: a quotation mark isn't closed", alarm=True, is_board=False)
    same(alone(wrong, 0), ["!  ? line 9 is wrong: a quotation mark isn't closed"])
    shown = screen("10:00:00  Club", [calm] * 30 + [alarm], ["a message"], 280, 24)
    same(len(shown) < 24, True)
    assert all(len(line) < 80 for line in shown), shown
    assert shown[0].endswith("31 boards, 1 alarm") and shown[2].startswith("! 12"), shown
    same(shown[-5:], ["     16 more: make the window higher", "", "a message", "", ""])


def rows_of_any_width(_: pathlib.Path) -> None:
    """The state is told whole where it has room, with its time behind its name; names have more room in a wide terminal."""
    turned = RowView(3, "Anna", "Ben", state="setting up", rest="; turned?", since=0.0, alarm=True)
    same(alone(turned, 4), ["!  3 Anna  Ben              setting up 4s; turned?"])
    long_name = RowView(4, "Bartholomew Zimmermann", "Benjamin Alexander", "1. e4", ("1:30:00", ""), "agrees", "", 0.0)
    same(alone(long_name, 9, 110), ["   4 Bartholomew Zimmermann Benjamin Alexander 1. e4     1:30:00          agrees 9s"])
    # 79 columns without 5, 9, 16 of clocks, 4 between and 16 for the state are 29: 14 for each name.
    same(alone(long_name, 9), ["   4 Bartholomew .. Benjamin Ale.. 1. e4     1:30:00          agrees 9s"])
    for width in range(40, 200):
        for view in (turned, long_name, LOOK):
            columns = Columns.of([turned, long_name, LOOK], 4, width)
            assert all(len(line) < width for line in [head(columns), *row(view, 4, columns)]), (width, row(view, 4, columns))


LOOK = RowView(5, "Carl Pohl", "Dora Weiss", "38... Qxa1+", ("0:29:49", "0:09:44"), "LOOK at the cable", "; WRONG 12s: a1 b2 c3", alarm=True)


def alarms_have_room(_: pathlib.Path) -> None:
    """Short names leave their room to alarms, in 80 columns and in 110. Beside long names an alarm goes on in the next lines: each of
    its words is there, and a name keeps ten letters. What is no alarm is cut."""
    short = RowView(1, "Anna", "Ben", "1. e4", ("1:30:00", "1:30:00"), "agrees", "", 0.0)
    for width in (80, 110):
        columns = Columns.of([short, LOOK], 4, width)
        front = "!  5 Carl Pohl Dora Weiss 38... Qxa1+ 0:29:49 0:09:44  "
        whole = [f"{front}LOOK at the cable; WRONG", f"{' ' * len(front)}12s: a1 b2 c3"]
        same(row(LOOK, 4, columns), whole if width == 80 else [f"{front}LOOK at the cable; WRONG 12s: a1 b2 c3"])
    long_names = RowView(2, "Bartholomew Zimmermann", "Benjamin Alexander", state="in hand g1 f3 and others", since=0.0)
    columns = Columns.of([long_names, LOOK], 4)
    lines = row(LOOK, 4, columns)
    same((lines[0][:27], " ".join(line.strip() for line in [lines[0][columns.front :], *lines[1:]])),
         ("!  5 Carl Pohl  Dora Weiss ", "LOOK at the cable; WRONG 12s: a1 b2 c3"))  # fmt: skip
    same(row(long_names, 4, columns)[0][:27], "   2 Bartholo.. Benjamin.. ")
    same(len(row(long_names, 4, columns)), 1)


def messages(_: pathlib.Path) -> None:
    """A message takes as many lines as it needs, and the newest are there as wholes; the screen has as many lines as before."""
    cable = "/dev/serial/by-id/usb-Digital_Game_Technology_DGT_Board_3.1-if00-port0"
    gone = f"14:02:59  4: {cable} isn't there: plug it in again; the recording then goes on"
    board = RowView(1, "Anna", "Ben", state="agrees", since=0.0)
    shown = screen("t", [board] * 8, [gone], 9, 24)
    same(" ".join(line.strip() for line in shown[11:]).rstrip(), gone)
    assert cable in shown[12] and all(len(line) < 80 for line in shown), shown
    same(screen("t", [board] * 8, [gone], 9, 24, 150)[11:13], [gone, ""])
    few = screen("t", [board] * 30, ["10:00:00  one", gone, "10:00:01  two"], 9, 24)
    same(few[-3:], ["10:00:01  two", "", ""])
    same(screen("t", [board] * 30, [gone, "10:00:01  two"], 9, 24, 150)[-3:], [gone, "10:00:01  two", ""])
    endless = screen("t", [board] * 30, ["10:00:00  " + "more " * 90], 9, 24)
    assert endless[-1].endswith(".."), endless
    for number, height in ((1, 24), (8, 24), (30, 24), (30, 60), (3, 8)):
        for times in (0, 1, 20):
            said = [gone] * times
            same(len(screen("t", [board] * number, said, 9, height)), len(screen("t", [board] * number, [], 9, height)))
            same(len(screen("t", [board] * number, said, 9, height)) <= height - 1, True)


def what_is_counted(_: pathlib.Path) -> None:
    """Boards are counted, and lines of the table that are wrong beside them; a long one is told over more than a line."""
    board = RowView(1, "Anna", "Ben", state="agrees", since=0.0)
    off = RowView(2, "Anna", "Ben", state="SILENT", since=0.0, alarm=True)
    why = "/dev/serial/by-id/usb-Digital_Game_Technology_DGT_Board_3.1-if00-port0 is the device of board 2, line 3"
    wrong = RowView(9, state=f"line 10 is wrong: {why}", alarm=True, is_board=False)
    for rows_shown, tail in (
        ([board], "1 board, no alarm"),
        ([board, off], "2 boards, 1 alarm"),
        ([board, off, off, wrong], "3 boards, 2 alarms, 1 line is wrong"),
        ([wrong, wrong], "no board, no alarm, 2 lines are wrong"),
    ):
        assert screen("t", rows_shown, [], 9, 24)[0].endswith("t" + " " * (77 - len(tail)) + " " + tail), screen("t", rows_shown, [], 9, 24)
    same(" ".join(line.strip() for line in alone(wrong, 9)).replace("!  9 ", ""), wrong.state)


def room_for_readers(_: pathlib.Path) -> None:
    """Of the descriptors that there may be, others have some and keep as many free, and 64 more; an eighth tells readers
    that there are too many."""
    for most, others, readers, turned_away in (
        (1024, 100, 696, 64),
        (1024, 448, 0, 64),
        (1024, 447, 2, 64),
        (1024, 1000, 0, 3),
        (1024, 1024, 0, 0),
        (1024, 1100, 0, 0),
        (256, 56, 55, 25),
        (1048576, 600, 1047248, 64),
    ):
        same((most, others, room(most, others)), (most, others, Room(readers, turned_away)))
