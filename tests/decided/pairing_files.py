"""Tables of pairings as programs write them, in five languages, and the pairs that are read of them; reports of tournaments; the
hall's boards that go with them. The files are written after the programs' pages, by hand."""

import pathlib
import tempfile
from typing import Dict, List, Tuple

from live.child.program import Program
from live.doors.dgt_round import VALUED, parse
from live.round.tournament import TEMPLATE, encoding_set, words_of
from live.run.refused import Refused
from live.table.encoding import ENCODING, encoding_in, known_encoding, text_of, told_of_reading
from live.table.hall import Source, joined, placed, with_some
from live.table.pairings import Pairing, Pairings, Wrong, read_pairings
from live.table.trf import Head, head_of, is_report, read_matches, read_report

from decided.table import refused, same

Seen = Tuple[int, str, str, str, Dict[str, str]]

# What stands above, headings, two pairs, a bye and a last line that is no board's.
ENGLISH = """\
From the Tournament-Database of Chess-Results http://chess-results.com;;;;;;;;;;;
Basel Open 2024;;;;;;;;;;;

Round 3 on 2024/06/01 at 10:00;;;;;;;;;;;
Bo.;No.;;White;Rtg;Pts.;Result;Pts.;;Black;Rtg;No.
1;1;GM;Kern, Anna;2512;2;½ - ½;2;IM;Ünal, Ben;2431;4
2;7;;Roth, Carl;1987;1½;;1½;WFM;Lund, Åse;2102;3
3;9;;Ott, Dora;0;1;1;;;bye;;
Program Swiss-Manager;;;;;;;;;;;
"""
GERMAN = """\
Tisch\tTNr\tTitel\tWeiß\tElo\tVerein\tPkt.\tErgebnis\tPkt.\tTitel\tSchwarz\tElo\tVerein\tTNr
1\t1\tGM\tKern,Anna\t2512\tSC Turm\t2\t1:0\t2\tIM\tÜnal,Ben\t2431\tSK Läufer\t4
2\t7\t\tRoth,Carl\t1987\t\t1½\t- : -\t1½\tWFM\tLund,Åse\t2102\t\t3
3\t9\t\tOtt,Dora\t\t\t1\t+ : -\t\t\tspielfrei\t\t\t
"""
FRENCH = """\
"Échiquier","Blancs","Elo","Résultat","Noirs","Elo","Féd. Blancs"
"1","KERN Anna","2512","","ÜNAL Ben","2431","SUI"
"2","ROTH Carl","1987","0-1","LUND Åse","2102","SUI"
"3","OTT Dora","1500","","Exempt","",""
"""
SPANISH = """\
Tablero;Blancas;Elo Blancas;FIDE ID Blancas;Negras;Elo Negras;Res.;Mesa de honor
1;Kern, Anna;2512;1503014;Ünal, Ben;2431;0,5 - 0,5;
2;Roth, Carl;19x7;;Lund, Åse;2102;+ - -;
3;Ott, Dora;1500;;Descansa;;;
"""
ITALIAN = """\
Tav.,Tit,Bianco,Elo,Tit,Nero,Elo,Ris.
1,GM,"Kern, Anna",2512,IM,"Ünal, Ben",2431,*
2,,"Roth, Carl",1987,WFM,"Lund, Åse",2102,1-0
3,,"Ott, Dora",1500,,riposa,,
"""
NAMES = """\
Bo.;No.;Name;Rtg;Pts.;Result;Pts.;Name;Rtg;No.
1;1;Kern, Anna;2512;2;;2;Ünal, Ben;2431;4
"""
FIRST = (1, "Kern, Anna", "Ünal, Ben")
SECOND = (2, "Roth, Carl", "Lund, Åse")
RATED = {"WhiteElo": "2512", "BlackElo": "2431"}
LOWER = {"WhiteElo": "1987", "BlackElo": "2102"}
TITLED = {**RATED, "WhiteTitle": "GM", "BlackTitle": "IM"}
BLACK_TITLED = {**LOWER, "BlackTitle": "WFM"}
TABLES_READ = [
    ("English", ENGLISH, ("utf-8", "utf-8-sig", "cp1252", "utf-16"), [(*FIRST, "1/2-1/2", TITLED), (*SECOND, "", BLACK_TITLED)], [
        "lines 1 to 4 are above the headings, and aren't used",
        "line 8: board 3: Ott, Dora has no opponent (bye), and no game is recorded",
        "line 9 has no board's number, and isn't used: 'Program Swiss-Manager'",
    ]),
    ("German", GERMAN, ("utf-8", "cp1252", "utf-16", "utf-16-le", "utf-16-be"), [
        (1, "Kern,Anna", "Ünal,Ben", "1-0", {**TITLED, "WhiteTeam": "SC Turm", "BlackTeam": "SK Läufer"}),
        (2, "Roth,Carl", "Lund,Åse", "", BLACK_TITLED),
    ], ["line 4: board 3: Ott,Dora has no opponent (spielfrei), and no game is recorded"]),
    ("French", FRENCH, ("utf-8-sig", "latin-1", "utf-16"), [
        (1, "KERN Anna", "ÜNAL Ben", "", {**RATED, "WhiteFed": "SUI"}), (2, "ROTH Carl", "LUND Åse", "0-1", {**LOWER, "WhiteFed": "SUI"}),
    ], ["line 4: board 3: OTT Dora has no opponent (Exempt), and no game is recorded"]),
    ("Spanish", SPANISH, ("utf-8", "cp1252"), [(*FIRST, "1/2-1/2", {**RATED, "WhiteFideId": "1503014"}), (*SECOND, "+-", {"BlackElo": "2102"})], [
        "the column 'mesa de honor' isn't known, and isn't used",
        "line 3, column WhiteElo: '19x7' is no rating: type up to four digits, as 2050, or nothing; the board is recorded without it",
        "line 4: board 3: Ott, Dora has no opponent (Descansa), and no game is recorded",
    ]),
    ("Italian", ITALIAN, ("utf-8", "utf-16"), [(*FIRST, "", TITLED), (*SECOND, "1-0", BLACK_TITLED)], [
        "line 4: board 3: Ott, Dora has no opponent (riposa), and no game is recorded",
    ]),
    ("two names", NAMES, ("utf-8",), [(*FIRST, "", RATED)], []),
]  # fmt: skip


def of(pairing: Pairing) -> Seen:
    return pairing.board, pairing.white, pairing.black, pairing.result, dict(pairing.tags)


def tables_of_programs() -> None:
    """Headings in five languages, separators, quotes, encodings, lines above and below, results, byes and players who don't come."""
    for name, text, encodings, pairs, remarks in TABLES_READ:
        for encoding in encodings:
            for ends in ("\n", "\r\n"):
                content = text.replace("\n", ends)
                content = content.replace("½ - ½", "1/2-1/2") if encoding == "latin-1" else content
                read = read_pairings(content.encode(encoding))
                same(f"{name}, {encoding}", ([of(pairing) for pairing in read.boards], list(read.remarks)), (pairs, remarks))
                same(f"{name}, {encoding}, lines that are wrong", (read.wrong, read.has_devices), ((), False))


WRONG_PAIRS = """\
Board;White;Black;White Elo;Result
x;Anna;Ben;;
1;Anna;"Ben;;
2;Anna;Ben;2O50;2-0
2;Carl;Dora;;
3;;;;
4;Emil;;;
"""


def what_is_not_understood() -> None:
    """Each value and line that isn't understood is named, with its line and column; a pair that has a board is recorded all the same."""
    read = read_pairings(WRONG_PAIRS.encode())
    same("pairs", [of(pairing) for pairing in read.boards], [(2, "Anna", "Ben", "", {})])
    same("wrong", read.wrong, (
        Wrong(2, None, "'x' is no number of a board: type 1 to 999"),
        Wrong(3, 1, "a quotation mark isn't closed, or is inside a field"),
        Wrong(5, 2, "board 2 is in line 4 already: type another"),
    ))  # fmt: skip
    same("said", read.remarks, (
        "line 4, column WhiteElo: '2O50' is no rating: type up to four digits, as 2050, or nothing; the board is recorded without it",
        "line 4, column result: result is '2-0': type 1-0, 0-1, 1/2-1/2, +-, -+ or --; it isn't used",
        "line 6: board 3: nobody has no opponent (nobody), and no game is recorded",
        "line 7: board 4: Emil has no opponent (nobody), and no game is recorded",
    ))  # fmt: skip


HALL = b"board;device;serial;rotated;recover\n1;/dev/a;;yes;\n2;;00007;;yes\n3;/dev/c;;;\n5;;;;\n"


def boards_of_the_hall() -> None:
    """The pairs of a round get the devices of their boards. A board without a device or without a game is named, and nothing fails."""
    hall = read_pairings(HALL)
    pairs = Pairings(tuple(Pairing(number + 1, number, "", f"W{number}", f"B{number}") for number in (1, 2, 4, 5, 6, 7, 8)), (), ("said",), False)
    read = joined(hall, "boards.csv", pairs, "round3.csv")
    same("boards", read.boards, (
        Pairing(2, 1, "/dev/a", "W1", "B1", rotated=True), Pairing(3, 2, "", "W2", "B2", recover=True, serial="00007"),
    ))  # fmt: skip
    same("wrong", read.wrong, (Wrong(5, 5, "it names no device: type /dev/ttyUSB0, or what dgt_live --devices lists", "boards.csv"),))
    same("said", read.remarks, (
        "round3.csv: said",
        "boards 4 and 6 to 8 have no device in boards.csv, and aren't recorded",
        "board 3 has no game in round3.csv",
    ))  # fmt: skip
    why = "the board with the number 00007 isn't plugged in, or is switched off: put that right, and type r"
    absent = placed(read, {})
    same("a board that isn't plugged in", ([pairing.board for pairing in absent.boards], absent.wrong[1:]), ([1], (Wrong(3, 2, why),)))
    same("pairs whose boards aren't found", [pairing.board for pairing in absent.absent], [4, 5, 6, 7, 8, 2])
    found = with_some(absent, absent.absent[-1:])
    same("one of them after all", ([pairing.board for pairing in found.boards], found.wrong), ([1, 2], read.wrong))
    lost = Pairings(tuple(Pairing(number + 1, number, "", result="+-") for number in (2, 4, 5)), (), (), False)
    read = placed(joined(hall, "boards.csv", lost, "round3.csv"), {})
    same("forfeited pairs", [(pairing.board, pairing.device, pairing.serial) for pairing in read.boards], [(2, "", "00007"), (4, "", ""), (5, "", "")])
    same("they aren't absent", (read.absent, [wrong.file for wrong in read.wrong]), ((), ["boards.csv"]))
    read = joined(hall, "boards.csv", pairs, "round3.csv")
    same("one that is", [pairing.device for pairing in placed(read, {"00007": "/dev/b"}).boards], ["/dev/a", "/dev/b"])


def player(number: int, title: str, name: str, rating: str, fed: str, fide_id: str, points: str, *games: str) -> str:
    """A line of TRF16, by the columns in which each value stands."""
    line = f"001 {number:>4} m{title:>3} {name:<33} {rating:>4} {fed:>3} {fide_id:>11} 1990/01/01 {points:>4} {number:>4}"
    return line + "".join(f"  {game}" for game in games)


# Round 3. Before it Anna has 2 points, Ben 1.5, Carl 1.5, Dora 1, Emil 1, Finn 0.5, Gerd 0.5, Hans 0 (he hasn't come).
# Its pairs: Ben - Anna (2 and 1.5), Carl - Dora (1.5 and 1), Finn - Emil (1 and 0.5). Gerd has the bye.
REPORT = "\n".join([
    "012 Basel Open", "022 Basel", "032 SUI", "122 90+30", "999 of later", "XXR 5", "what is this",
    "132" + " " * 88 + "24/05/30  24/05/31  24/06/01",
    player(1, "GM", "Kern, Anna", "2512", "SUI", "1503014", "2.0", "   8 w 1", "   4 w 1", "   2 b  "),
    player(2, "IM", "Ünal, Ben", "2431", "TUR", "6300000", "1.5", "   7 w =", "   6 b 1", "   1 w  "),
    player(3, "", "Roth, Carl", "2300", "SUI", "", "1.5", "   6 w =", "   7 b 1", "   4 w 1"),
    player(4, "", "Ott, Dora", "2250", "GER", "0", "1.0", "   5 w 1", "   1 b 0", "   3 b 0"),
    player(5, "", "Roth, Emil", "2200", "SUI", "", "1.0", "   4 b 0", "   8 w 1", "   6 b  "),
    player(6, "X", "Sand, Finn", "2100", "SUI", "", "0.5", "   3 b =", "   2 w 0", "   5 w  "),
    player(7, "", "Tau, Gerd", "2000", "SUI", "", "0.5", "   2 b =", "   3 w 0", "0000 - U"),
    player(8, "", "Uhl, Hans", "1900", "SUI", "", "0.0", "   1 b 0", "   5 b 0"),
    "013 SC Turm                             1    3",
])  # fmt: skip
SWISS, GERMANS = {"WhiteFed": "SUI"}, {"BlackFed": "GER"}


def reports() -> None:
    """A round of a tournament's report: the boards in the order of FIDE's rules, byes, byes of half a point, who isn't there, tags."""
    content = REPORT.encode()
    same("a report", (is_report(content), is_report(ENGLISH.encode()), is_report(b"\xef\xbb\xbf" + content)), (True, False, True))
    read = read_report(content, 3, no_matches=True)
    boards: List[Seen] = [of(pairing) for pairing in read.boards]
    same("boards", boards, [
        (1, "Ünal, Ben", "Kern, Anna", "", {
            "WhiteElo": "2431", "WhiteTitle": "IM", "WhiteFed": "TUR", "WhiteFideId": "6300000",
            "BlackElo": "2512", "BlackTitle": "GM", "BlackFed": "SUI", "BlackFideId": "1503014", "BlackTeam": "SC Turm",
        }),
        (2, "Roth, Carl", "Ott, Dora", "1-0", {"WhiteElo": "2300", **SWISS, "WhiteTeam": "SC Turm", "BlackElo": "2250", **GERMANS}),
        (3, "Sand, Finn", "Roth, Emil", "", {"WhiteElo": "2100", **SWISS, "BlackElo": "2200", "BlackFed": "SUI"}),
    ])  # fmt: skip
    same("said", read.remarks, (
        "line 7 isn't known, and isn't used: 'what is this'",
        "line 14, WhiteTitle: 'X' is no title: type one of GM, IM, FM, CM, WGM, WIM, WFM, WCM, or nothing; the board is recorded without it",
        "no opponent in round 3: Tau, Gerd (the bye), Uhl, Hans (absent)",
    ))  # fmt: skip
    same("wrong", read.wrong, ())
    same("round 1", [pairing.white for pairing in read_report(content, 1, no_matches=True).boards], ["Kern, Anna", "Ünal, Ben", "Roth, Carl", "Ott, Dora"])
    same("round 4", refused("4", Refused, read_report, content, 4, "", True), "it has no pairs of round 4: it has rounds 1 to 3")
    unpaired = "\n".join([player(1, "", "Kern, Anna", "", "", "", "1.0", "   2 w 1", "0000 - H"), player(2, "", "Ott, Dora", "", "", "", "0.0", "   1 b 0")])
    told = refused("no pair", Refused, read_report, unpaired.encode(), 2)
    same("no pair", told, "it has no pair of round 2: save it again when the round is paired")
    no_number = "it is the report of a tournament: say which round is played, as --round 3"
    same("no round", refused("none", Refused, read_report, content, None), no_number)
    same("head", head_of(content, 3), Head("Basel Open", "Basel", "2024.06.01", "90+30"))
    odd = REPORT.replace("122 90+30", "122 90")
    same("an odd time control", (head_of(odd.encode(), 3).time_control, read_report(odd.encode(), 3, no_matches=True).remarks[0]), (
        "", "line 4, time control: '90' can be in minutes or seconds: type 90min or 90s; it isn't used",
    ))  # fmt: skip
    same("cp1252", [of(pairing) for pairing in read_report(REPORT.encode("cp1252"), 3, no_matches=True).boards], boards)
    # A program that counts the bytes of a name, and not its letters: Ü has two.
    by_bytes = REPORT.replace("Ünal, Ben" + " " * 24, "Ünal, Ben" + " " * 23)
    same("by bytes", [of(pairing) for pairing in read_report(by_bytes.encode(), 3, no_matches=True).boards], boards)


def pairs_that_differ() -> None:
    """Two lines that don't have each other, a player twice, a line without a number: each is named, and the other pairs are read."""
    content = "\n".join([
        player(1, "", "A", "", "", "", "0.0", "   2 w  "), player(2, "", "B", "", "", "", "0.0", "   1 b  "),
        player(3, "", "C", "", "", "", "0.0", "   4 w  "), player(4, "", "D", "", "", "", "0.0", "   9 b  "),
        player(2, "", "B", "", "", "", "0.0", "   1 b  "), "001    x m    E",
        player(5, "", "F", "", "", "", "0.0", "   6 w +"), player(6, "", "G", "", "", "", "0.0", "   5 b -"),
    ]).encode()  # fmt: skip
    read = read_report(content, 1)
    same("pairs", [(pairing.board, pairing.white, pairing.result) for pairing in read.boards], [(1, "A", ""), (2, "F", "+-")])
    same("wrong", [(line.line, line.why.partition(":")[0]) for line in read.wrong], [
        (5, "it has the number 2 of line 2"),
        (6, "it is no player's"),
        (3, "C has 4 in round 1, and that one has another opponent or colour"),
        (4, "D has 9 in round 1, and that one has another opponent or colour"),
    ])  # fmt: skip
    same("said", read.remarks, ())


# Teams of two. In round 1 each team's players meet one other team; in round 2 they are paired as players alone.
PAIRED = [
    player(number, "", name, "", "", "", "0.0", *games) for number, name, *games in [
        (1, "A1", "   3 w  ", "   4 w  "), (2, "A2", "   4 b  ", "   5 b  "), (3, "B1", "   1 b  ", "   6 b  "),
        (4, "B2", "   2 w  ", "   1 b  "), (5, "C1", "0000 - U", "   2 w  "), (6, "C2", "0000 - U", "   3 w  "),
    ]
]  # fmt: skip


def team(name: str, *numbers: int) -> str:
    """A team's line."""
    return f"013 {name:<32}" + "".join(f" {number:>4}" for number in numbers)


A, B, C = team("Team A", 1, 2), team("Team B", 3, 4), team("Team C", 5, 6)
LINES_OF_TEAMS: Dict[str, Tuple[str, ...]] = {
    "complete": (A, B, C),
    "one team is missing": (A, C),
    "one player is in no team": (A, team("Team B", 3), C),
    "players that don't exist": (A, team("Team B", 3, 9), C),
    "a player in two teams": (A, team("Team B", 3, 4, 1), C),
    "a team without players": (team("Team A"),),
    "a team without a name": ("013",),
}


def reports_of_teams() -> None:
    """A report gives no order of the boards of a match. One with a team is asked about, whether or not its lines of teams are complete;
    one with a team's line of the later edition is refused."""
    for name, lines in LINES_OF_TEAMS.items():
        for line, all_lines in ((7, [*PAIRED, *lines]), (1, [*lines, *PAIRED])):
            content = "\n".join(all_lines).encode()
            for of in (1, 2):
                told = refused(name, Refused, read_report, content, of)
                same(name, told, f"line {line} has a team, and a report doesn't say at which board of a match a pair plays:")
            read = read_report(content, 2, no_matches=True)
            same(f"{name}, no matches", [pairing.white for pairing in read.boards], ["C1", "C2", "A1"])  # who had a bye leads
    try:
        read_report("\n".join([*PAIRED, A]).encode(), 1)
    except Refused as asked:
        same("the question", asked.lines, (
            "line 7 has a team, and a report doesn't say at which board of a match a pair plays:",
            "if teams play matches, save the pairs of the round as a table, with the columns board, white and black;",
            "if players are paired one by one, type --matches no (in tournament.txt: matches = no)",
        ))  # fmt: skip
    same("tags", dict(read_report("\n".join([*PAIRED, A]).encode(), 2, no_matches=True).boards[2].tags), {"WhiteTeam": "Team A"})
    for text, is_none in (("no", True), (" No", True), ("nein", True), ("yes", False), ("", False)):
        same(f"matches {text}", read_matches(text), is_none)
    told = refused("matches", Refused, parse, ["cup.trf", "--matches", "2"])
    same("matches 2", told, "--matches '2': type no if players are paired one by one, or yes if teams play matches")
    for words, is_none in (["t"], False), (["t", "--matches", "no"], True), (["t", "--matches=yes"], False):
        same(f"typed {words}", parse(words).no_matches, is_none)
    same("set", words_of(b"matches = no", 1, VALUED), ["--matches=no"])
    for site, typed in ("https://bücher.example", "https://xn--bcher-kva.example"), ("https://Bücher.example:8443/", "https://xn--bcher-kva.example:8443"):
        told = refused(site, Refused, parse, ["cup.csv", "--page", "8000", f"--embed={site}"])
        same(site, told, f"--embed {site!r}: type it as browsers send it, as {typed}")
    for no_matches in (False, True):
        later = "\n".join([*PAIRED, "310   1 Team A"]).encode()
        told = refused("the later edition", Refused, read_report, later, 2, "", no_matches)
        same("the later edition", told.partition(",")[0], "it is the report of a team tournament (line 7 has a team)")


# Names as they are written, by the encoding in which a spreadsheet saved them.
WESTERN_NAMES = (
    *("Müller", "Åse Lund", "Muñoz", "Conceição", "João", "Magalhães", "Jørgensen", "Øystein", "Næss", "Hélène", "Lecœur"),
    *("Lefèvre", "Loïc", "Forlì", "Niccolò", "Väänänen", "Großöhme", "Noël", "Mª Carmen", "D’Angelo", "½ - ½"),
    *("O’Neill", "O´Neill", "Sa‘id", "Müller–Lüdenscheidt", "Müller—Voss", "Gal·la", "Anna\xa0Ley", "Jörg “Max” Müller", "„Max“ Müller"),
    *("Jörg ‚Max‘ Müller", "Jörg «Max» Müller", "(“Max”) Müller", "“Max”, Jörg", "Müller…", "…Müller", "Müller †", "Müller†", "• Jörg"),
    *("Brett N° 5", "Chess® Cup", "Chess™", "50 € Müller", "25 ‰", "Bär & Söhne – Köln"),
    *("Jäger", "Bäcker", "Schäfer", "Mäki", "Mäenpää", "Niemelä", "Åström", "Bråten", "Håkan", "Ståhl", "Månsson", "Ørjan", "Ødegaard"),
    *("François", "Françoise", "Gonçalves", "Lourenço", "Besançon", "Çelik", "Vicenç", "Genç", "Benoît", "Maître", "Élise", "José"),
    *("Suárez", "Juárez", "Julián", "Adrián", "Beáta", "Viliám", "Kovács", "García", "Núñez", "Íñigo", "Ángel", "Óscar", "Úrsula"),
    *("Ünal", "Özdemir", "Ñíguez", "Kærgaard", "Ægir", "Æbelø", "Dalì", "Perù", "Nicolò", "Mónica", "Anaïs", "Saïd", "Évora", "école"),
    *("Miloš", "Šimon", "Žižek", "Žarko", "Tomaž", "Dražen", "Kašpar", "Anna\xa0Ley;Jan\xa0de\xa0Boer", "ANNA\xa0LEY", "Andrea\xa0pia"),
    *("MUÑOZ", "PEÑA", "LEÓN", "GÓMEZ", "ASUNCIÓN", "KÖNIG", "SJÖSTRÖM", "MÖLLER", "BJØRN", "SØREN", "NÆSS", "FRANÇOIS", "LOURENÇO"),
    *("GONÇALVES", "ÇELIK", "NICCOLÒ", "SIMÕES", "ŽIŽEK", "DRAŽEN", "GAL·LA", "’t Hooft", "N‘Diaye", "Meyer–Schmidt", "½ – ½;Ben"),
    *("Guðmundur", "Þórhallsson", "Sigurður", "Þorsteinn", "Þráinn", "Davíð", "Ærø", "Raïssa", "Zoë", "Héloïse", "Tolstoï", "Àlex", "Joàn"),
    *("«Jörg Müller»", "Jörg «Max Power» Müller", "»Max« Müller", "© Müller", "Müller ®", "Ünal;Maïa;Loïc", "Sànchez;Niccolò", "´t Hooft"),
    *("Geneviève", "Rivière", "Lévêque", "Inês", "Héðinn", "Štefan", "Škoda", "Švec", "Šmid", "É. Voss", "Ö", "«Ö» Müller"),
    *("“Max” Meyer", "‚Tom’ Kern", "„Max“ Meyer", "Jäger;Koç", "Schäfer;Weiß;Bartoç", "Müller;Gaál", "Club d'échecs;Anna"),
)
# Not Western, and not asked about: nothing shows it.
SILENT_NAMES = (("Dobrý", "cp852", "Dobrì"), ("Saša", "cp852", "Saça"), ("MARTÍN", "cp850", "MARTÖN"))
# Western, and asked about where they are alone: they could as well be Tomaš and Preßl in DOS.
UNCERTAIN_NAMES = ("Tomaç", "Preál")
# Western, and told of where they are alone: what they would be in DOS is rarer by far.
TOLD_NAMES = (("Koç", "cp852", "Koš"), ("Saraç", "cp852", "Saraš"), ("Gaál", "cp437", "Gaßl"))
CENTRAL_NAMES = (
    *("Świercz", "Dvořák", "Kučera", "Čech", "Němec", "Růžička", "Kamiński", "Wałęsa", "Łukasz", "Jiří", "Ćirić", "Petrović"),
    *("Ćmiel", "Ćmikiewicz", "Đorđević", "Szőke", "Erdős", "Brăila", "Mureş", "Węgrzyn", "Žák, Jiří", "Vaněk", "Hodaň"),
    *("Maďar", "Naďa", "Laďka", "Raďo", "Vŕba", "Ćwik", "Maćkowiak", "Anđela", "Ţurcanu"),
    "Maďar;Tomáš\n2;Müller;Smith\n3;Szabó;Novák\n4;Žák;Šimek",
)
LATIN_2_NAMES = ("Ćmiel", "Šimek", "Žák", "Ťok", "Śliwa", "Źrebiec", "Żak", "Ľuboš", "Łoś", "Bartoś", "Chuť", "KOVÁŠ", "MATJAŽ", "Ťok;Ťapák", "Šťastný")
DOS_NAMES = {
    "cp437": ("Jörg Müller", "Müller", "Jörg", "Größ", "René", "Zoë", "Özil", "É. Voss", "Åse", "García", "López", "Muñoz", "Benoît", "Bräuer", "Ünal",
              "MÜLLER", "MÄRZ", "BÄUMER", "Ärmel", "Übel", "Lefèvre", "Sánchez", "Hernández", "Adrián", "Weiß", "Heß", "Großmann", "Preuße",
              "Meißner", "Keßler", "Nußbaum", "Nießl", "GROßMANN", "Næss", "Jæger", "Août", "Çelik"),
    "cp850": ("Jörg Müller", "Müller", "Jörg", "José", "Øystein", "Jørgensen", "Françoise", "Ágnes", "Bråten", "Hélène", "Ünal",
              "MÜLLER", "Benoît", "Sánchez", "Weiß", "Næss", "Simões", "João", "LEITÃO", "JOÃO", "LÓPEZ", "GARCÍA", "LEFÈVRE", "NOËL", "LOÏC", "Ève",
              "Ângela", "Óscar", "Úrsula", "Niccolò", "Cantù", "Malmö", "MARTÍN;LÓPEZ", "Weiß;Müller", "Bø", "Àlex"),
    "cp852": ("Jörg Müller", "Wałęsa", "Łukasz", "Božena", "Kaźmierczak", "Růžička", "Jiří", "Szőke", "Dvořák", "Novák",
              "Svobodová", "Novotný", "Kamiński", "Szymański", "Kráľ", "Vašek", "Beneš", "Bartoš", "Vaňek", "Hodaň", "Škoda", "Řehoř", "Ondřej",
              "Baťa", "Kovač", "Kovář", "Đuro", "SRĐAN", "SZŐKE", "VAŇEK", "Brăila", "Ionuţ", "Němec", "Tomáš", "Saša;Dvořák", "Dobrý;Novák", "Čech",
              "Žák", "Śliwa", "Őri", "Őze"),
}
SHORT_NAMES = ("Юн", "Ро", "Ха", "Цо", "Эм", "Эн", "Сю", "Ша", "Чо", "Ду", "Че", "Ву", "До", "Ло", "Ча", "Ян", "Ан", "Им", "Ма", "Си", "Як")
CYRILLIC_NAMES = ("Петров", "Ли", "Каспаров", "Юдасин", "Ян", "Ёж", *SHORT_NAMES)
ISO_CYRILLIC_NAMES = ("Петров", "Ли", "Ан", "Ян", "Ёж", *SHORT_NAMES)


def encodings() -> None:
    """A text that isn't Unicode is read as Western where its names look so, and not all like names of DOS; else it is asked about. An
    encoding that is given is used."""
    for name in WESTERN_NAMES:
        same(name, text_of(name.encode("cp1252")), name)
    for codec, names in (
        ("cp1250", CENTRAL_NAMES), ("iso-8859-2", LATIN_2_NAMES), ("cp1251", CYRILLIC_NAMES), ("iso-8859-5", ISO_CYRILLIC_NAMES),
        ("koi8-r", SHORT_NAMES), ("cp866", ("Ли", "Юн", "Ан", "Ким", "Си", "Шо")), *DOS_NAMES.items(),
    ):  # fmt: skip
        for name in names:
            content = f"board;white;black\n1;{name};Müller\n".encode(codec, "replace")
            asked = refused(name, Refused, text_of, content)
            same(f"{name} is asked about", asked, "it isn't Unicode, and its names can be read in more than one way:")
            same(f"{name}, as it is said to be", name in text_of(content, codec), True)
            if codec in DOS_NAMES:
                refused(f"{name} alone", Refused, text_of, name.encode(codec))
    for name, codec, read in SILENT_NAMES:
        same(f"{name}, not asked about", text_of(name.encode(codec)), read)
    for name, codec, of_dos in TOLD_NAMES:
        content = f"board;white;black\n1;{name};Smith\n".encode("cp1252")
        same(f"{name}, alone", name in text_of(content), True)
        same(f"{name} is told of", told_of_reading(content, ""), f"it isn't Unicode, and {name} is read as windows-1252 has it. "
             f"If it is {of_dos}, say so: --encoding {codec} (in tournament.txt: encoding = {codec})")  # fmt: skip
        same(f"{of_dos}, as it is said to be", (of_dos in text_of(content, codec), told_of_reading(content, codec)), (True, ""))
        for more in ("Müller", "Dvoøák"):  # nothing to tell; asked about
            same(f"{name} and {more}", told_of_reading(f"{name};{more}".encode("cp1252"), ""), "")
    with tempfile.TemporaryDirectory() as folder:
        table = pathlib.Path(folder) / "round1.csv"
        table.write_bytes("board;device;white;black\n1;/dev/a;Koç;Smith\n".encode("cp1252"))
        for encoding, white, remarks in (("", "Koç", 1), ("cp852", "Koš", 0)):
            of_table = Source(Program(""), table, encoding=encoding).read()
            same(f"a table in {encoding or 'no encoding'}", (of_table.boards[0].white, len(of_table.remarks)), (white, remarks))
    for name in ("Ben", *WESTERN_NAMES):
        same(f"nothing is told of {name}", told_of_reading(name.encode("cp1252"), ""), "")
    for name in UNCERTAIN_NAMES:
        refused(f"{name}, alone", Refused, text_of, name.encode("cp1252"))
        same(f"{name}, not alone", text_of(f"{name};Müller".encode("cp1252")), f"{name};Müller")
    try:
        text_of("Br.;White;Black\n1;Anna;MÜLLER, Ben\n2;Ünal;Carl".encode("cp850"))
    except Refused as asked:
        same("the question about DOS", asked.lines[1:5], (
            "windows-1252 (Western Europe): MšLLER, šnal", "windows-1250 (Central Europe): MšLLER, šnal",
            "windows-1251 (Cyrillic): MљLLER, љnal", "cp437 (DOS): MÜLLER, Ünal",
        ))  # fmt: skip
    try:
        text_of("1;Świercz, Jan;Dvořák".encode("cp1250"))
    except Refused as asked:
        same("the question", asked.lines, (
            "it isn't Unicode, and its names can be read in more than one way:",
            "windows-1252 (Western Europe): Œwiercz, Dvoøák",
            "windows-1250 (Central Europe): Świercz, Dvořák",
            "windows-1251 (Cyrillic): Њwiercz, Dvoшбk",
            "cp437 (DOS): îwiercz, Dvo°ßk",
            "cp850 (DOS, Western Europe): îwiercz, Dvo°ßk",
            "cp852 (DOS, Central Europe): îwiercz, Dvo°ßk",
            "say which is right, as --encoding windows-1250 (in tournament.txt: encoding = windows-1250),",
            "or save it as UTF-8",
        ))  # fmt: skip
    same("Unicode stays", text_of("Świercz".encode(), "cp1251"), "Świercz")
    same("settings", words_of("encoding = Windows-1250\nevent = Wałęsa".encode("cp1250"), 1, ("--event", ENCODING)), [
        "--encoding=Windows-1250", "--event=Wałęsa",
    ])  # fmt: skip
    both = "encoding = cp852\nencoding 2 = cp1250\nplace = Łódź".encode("cp1250")
    same("settings of one round", [encoding_set(both, number) for number in (1, 2, 12)], ["cp852", "cp1250", "cp852"])
    same("typed", encoding_in(["--page", "1", ENCODING, "latin2", "--encoding=cp1250"]), "cp1250")
    same("of DOS", [known_encoding(name) for name in DOS_NAMES], list(DOS_NAMES))
    same("settings of DOS", words_of("encoding = cp850\nplace = Köln".encode("cp850"), 1, ("--site", ENCODING)), [
        "--encoding=cp850", "--site=Köln",
    ])  # fmt: skip
    told = refused("no encoding", Refused, known_encoding, "windows-9")
    same("no encoding", told, "there is no encoding 'windows-9': type one as windows-1250, iso-8859-2 or utf-8")
    same("no text", refused("no text", Refused, known_encoding, "hex").partition(":")[0], "there is no encoding 'hex'")
    told = refused("not in it", Refused, text_of, b"a\nb\n\xc0", "ascii")
    same("not in it", told, "line 3 isn't in the encoding ascii: give another one, or save it as UTF-8")


OPTIONS = ("--event", "--site", "--date", "--round", "--tag", "--page", "--delay", "--publish")
SETTINGS = """\
# a tournament
Event = Basel Open: "A"
place = Basel
date = 2024.05.30
date 3 = 2024.06.01
Date 4 = 2024.06.02

time control = 90+30
page = 0.0.0.0:8000
delay = 15
publish =
recover = yes
BlackTeam = =B=
"""
NO_SETTINGS = {
    "dealy = 15": "line 1: there is no setting 'dealy': there are date, delay, event, page, place, publish, recover, and tags as time control",
    "\ndelay 15": "line 2 is 'delay 15': type NAME = VALUE, as event = Club cup",
    "round = 3": "line 1: there is no setting 'round': there are date, delay, event, page, place, publish, recover, and tags as time control",
    "recover = perhaps": "line 1, recover: 'perhaps': type yes or no",
    **{
        f"site = {folder}": f"line 1, site: '{folder}' is a folder, not a place: for a site of files type web = FOLDER"
        for folder in ("/srv/www/cup", "./cup", "../cup", "~/cup", "~anna")
    },
}


def settings() -> None:
    """What a tournament's settings say for a round, as words of a command line; a line that isn't understood is refused."""
    same("round 3", words_of(SETTINGS.encode(), 3, OPTIONS), [
        '--event=Basel Open: "A"', "--site=Basel", "--date=2024.06.01", "--tag=TimeControl=90+30", "--page=0.0.0.0:8000", "--delay=15",
        "--recover", "--tag=BlackTeam==B=",
    ])  # fmt: skip
    same("round 1", words_of(SETTINGS.encode("utf-16"), 1, OPTIONS)[2], "--date=2024.05.30")
    same("as --new writes them", words_of(TEMPLATE.encode(), 1, VALUED), [])
    filled = TEMPLATE.replace("event =", "event = Coupe de Noël").replace("page =", "page = 8000")
    same("filled in", words_of(filled.encode(), 1, VALUED), ["--event=Coupe de Noël", "--page=8000"])
    encoded = filled.replace("encoding =", "encoding = iso-8859-2").replace("Noël", "Łódź").encode("iso-8859-2")
    same("in another encoding", words_of(encoded, 1, VALUED), ["--event=Coupe de Łódź", "--encoding=iso-8859-2", "--page=8000"])
    for text, why in NO_SETTINGS.items():
        same(text, refused(text, Refused, words_of, text.encode(), 1, OPTIONS), why)


TABLES = [tables_of_programs, what_is_not_understood, boards_of_the_hall, reports, pairs_that_differ, reports_of_teams, encodings, settings]
