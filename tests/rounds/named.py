"""Names that are typed for a board of a round: they hold for their pair until the table changes there."""

import json
import pathlib
from typing import Dict, List

from played.ports import free_port
from played.recorder import Live
from played.stage import bytes_of, ended, same, stop, until, until_line
from rounds.hall import Hall, agrees, games_of
from rounds.tournament import Cup
from rounds.witness import served

from live.game.tags import pairs_of

HOLDS = "It stays so for this pair until you change it in the table"
OWN = "That is what the table has, so nothing typed is kept"


class Named:
    """A hall whose table has these pairs, and who is White and Black in what is recorded, published and shown."""

    def __init__(self, folder: pathlib.Path, *pairs: str) -> None:
        self.hall, self.ports = Hall(folder, len(pairs)), (free_port(), free_port())
        self.kept = self.hall.games / "round.names"
        self.write(*pairs)

    def write(self, *pairs: str) -> None:
        """The table with these pairs."""
        lines = [f"{number},{self.hall.folder}/board{number},{pair}" for number, pair in enumerate(pairs, 1)]
        self.hall.file.write_text("\n".join(["board,device,white,black,WhiteElo", *lines, ""]), encoding="utf-8")

    def record(self, *options: str) -> Live:
        """The round, as soon as its boards agree."""
        live = self.hall.record("--page", str(self.ports[0]), "--arbiter-page", str(self.ports[1]), *options, typed=True)
        self.hall.begun(live)
        return live

    def seen(self, number: int) -> List[str]:
        """The pair of a board in its game, in round.pgn, in broadcast.pgn and on both pages."""
        texts = [self.tags(number, name) for name in (f"{number:02}.pgn", "round.pgn", "broadcast.pgn")]
        pairs = [f"{tags.get('White')} - {tags.get('Black')}" for tags in texts]
        for port in self.ports:
            boards = json.loads(served(port, "/state.json"))["boards"]
            pairs += [f"{board['white']} - {board['black']}" for board in boards if board["number"] == number]
        return pairs

    def until_seen(self, number: int, pair: str) -> None:
        """Everybody sees this pair at a board."""
        until(lambda: self.seen(number) == [pair] * 5, f"{pair} everywhere on board {number}", 0.05)

    def tags(self, number: int, name: str = "broadcast.pgn") -> Dict[str, str]:
        """The tags of a game in a text of its own, or of the round; none if it isn't there yet."""
        games = games_of(bytes_of(self.hall.games / name))
        text = b"".join(games if len(games) == 1 else games[number - 1 : number])
        return pairs_of(text.decode())

    def until_tag(self, number: int, tag: str, value: str) -> None:
        """What is published of a game has this tag."""
        until(lambda: self.tags(number).get(tag) == value, f"{tag} {value} in what is published of board {number}", 0.05)


def names_typed(folder: pathlib.Path) -> None:
    """Typed names hold over `r` and restarts, while the table has the same there. A changed cell takes its own away, and another pair
    all of them, and lines say so. Moves and clocks go on meanwhile. A value as in the table takes the typed one away."""
    named = Named(folder, "Carlson,Ben,2850", "Eva,Finn,", "Gerd,Hans,")
    hall = named.hall
    live = named.record("--event", "Cup")
    hall.play(0, 2)
    live.type("1 name White=Carlsen WhiteElo=2839")
    until_line(live, f"  1: White is now Carlsen, and was Carlson; its WhiteElo is now 2839. {HOLDS}")
    named.until_seen(1, "Carlsen - Ben")
    named.until_tag(1, "WhiteElo", "2839")
    live.type("2 name Event=Final")
    until_line(live, "  2: its event is now Final, and was Cup. This holds for this pair until the round gets another value")
    live.type("3 name Black=王浩")
    until_line(live, f"  3: Black is now 王浩, and was Hans. {HOLDS}")
    named.until_tag(3, "Black", "王浩")
    assert b'[Black "Black 3"]' in bytes_of(hall.name(3) + ".pgn")
    live.type("r")
    until_line(live, "is read again: 3 boards")
    hall.play(2, 4)
    named.until_seen(1, "Carlsen - Ben")
    named.until_tag(2, "Event", "Final")
    same(named.tags(1)["Event"], "Cup")

    named.write("Carlson,Ben,2840", "Eva,Finn,", "Gerd,Hans,")
    live.type("r")
    until_line(live, "1: the table has another WhiteElo there now, so the typed one, 2839, is gone")
    named.until_tag(1, "WhiteElo", "2840")
    named.until_seen(1, "Carlsen - Ben")
    same(stop(live), 0)
    live = named.record()
    named.until_seen(1, "Carlsen - Ben")
    same((named.tags(1)["WhiteElo"], named.tags(2)["Event"], named.tags(3)["Black"]), ("2840", "Final", "王浩"))
    named.write("Karlsson,Ben,2840", "Eva,Finn,", "Gerd,Hans,")
    live.type("r")
    until_line(live, "1: the table has another pair there now, so what was typed is gone: White=Carlsen")
    named.until_seen(1, "Karlsson - Ben")
    named.write("Carlson,Ben,2840", "Eva,Finn,", "Gerd,Hans,")  # as it was when the name was typed: that doesn't come back
    live.type("r")
    named.until_seen(1, "Carlson - Ben")
    live.type("3 name Black=Hans")
    until_line(live, f"  3: Black is now Hans, and was 王浩. {OWN}")
    named.until_seen(3, "Gerd - Hans")
    same(named.kept.read_text(encoding="utf-8"), '[2, "Eva", "Finn", "Event", "Cup", "Final"]\n')
    same(stop(live), 0)
    live = named.record("--event", "Open")
    until_line(live, "2: the round has another Event now, so the typed one, Final, is gone")
    named.until_tag(2, "Event", "Open")
    same(stop(live), 0)


def other_pairs(folder: pathlib.Path) -> None:
    """Another pair at a board doesn't get what was typed for the one before, with moves or without. A name that is typed for a game that is
    over is kept too. What can't be given is refused, and nothing changes. A game that its line would give to others gets no name."""
    named = Named(folder, "Anna,Ben,", "Eva,Finn,", "Ida,Jan,")
    hall = named.hall
    live = named.record()
    live.type("1 name White=Anne Black=Bert")
    until_line(live, f"  1: White is now Anne, and was Anna; Black is now Bert, and was Ben. {HOLDS}")
    named.write("Olaf,Pia,", "Eva,Finn,", "Ida,Jan,")
    live.type("r")
    until_line(live, "1: the table has another pair there now, so what was typed is gone: White=Anne, Black=Bert")
    named.until_seen(1, "Olaf - Pia")
    hall.play(0, 2)
    live.type("2 1-0")
    hall.until_over(live, 2, "1-0")
    live.type("2 name White=Ewa")
    until_line(live, f"  2: White is now Ewa, and was Eva. {HOLDS}")
    named.until_seen(2, "Ewa - Finn")
    kept = bytes_of(named.kept)
    for text, told in {
        "3 name": "3 refused: type 3 name White=Anna, 3 name Black=Ben, and so on: Event, Place, Date and Round can be put right too",
        "3 name Colour=red": "3 refused: name Colour=red: there is no tag 'Colour'",
        "3 name White=I\u0007da": "3 refused: name White=I?da: White: has a character that can't be seen: type it anew. Type 3 name White=Anna, ",
        "3 name White=I\u202eda\u2028": "",  # marks that can't be seen are left out: it is the table's own
        "3 name White=" + "x" * 256: "White: has 256 characters: type at most 255. Type 3 name White=Anna, ",
        "3 name Date=31.02.2024": "isn't in the calendar: write it as 2024.05.31, year, month and day",
        "3 name Result=1-0": "Result is what the game says, and can't be given",
        "3 name WhiteElo=x1": "WhiteElo: 'x1' is no rating",
        "4 name White=Ida": "refused: there is no board 4: the boards are 1 to 3",
        "name White=Ida": "refused: name White=Ida: of which board? Type its number first, as 3 name White=Ida",
    }.items():
        live.type(text)
        until_line(live, told or OWN)
    same(bytes_of(named.kept), kept)
    live.type("3 name White=" + "y" * 255 + " Event=\\\"[x]{")
    until_line(live, f'; its event is now \\"[x]{{. {HOLDS}')
    named.until_tag(3, "White", "y" * 255)
    same((named.tags(3)["Event"], named.tags(3, "03.pgn")["White"]), ('\\"[x]{', "White 3"))
    same(stop(live), 0)

    named.write("Olaf,Pia,", "Kim,Lea,", "Ida,Jan,")
    live = hall.record(typed=True)
    until_line(live, "2: the table has another pair there now, so what was typed is gone: White=Ewa")
    until_line(live, "and was played by Ewa - Finn: if another pair plays here")
    live.type("2 name White=Kira")
    until_line(live, "2 refused: name White=Kira: its game is over, and was played by Ewa - Finn: if another pair plays here, write another name of its files")
    same(named.tags(2, "02.pgn")["White"], "Ewa")
    same(stop(live), 3)


def names_kept(folder: pathlib.Path) -> None:
    """A recorder that is killed when a typed name was kept and its game hasn't got it: it gets it at the next start. What a killed call left
    unfinished counts for nothing. Kept names that can't be read are said, and cost nothing else."""
    named = Named(folder, "Anna,Ben,", "Eva,Finn,")
    hall = named.hall
    live = named.record()
    hall.play(0, 2)
    live.type("1 name White=Anne")
    until_line(live, f"  1: White is now Anne, and was Anna. {HOLDS}")
    typed = bytes_of(named.kept)
    named.until_seen(1, "Anne - Ben")
    live.was_killed = True
    live.process.kill()
    ended(live)
    named.kept.with_name("round.names.new").write_bytes(typed.replace(b"Anne", b"Anni"))
    live = named.record()
    named.until_seen(1, "Anne - Ben")
    live.was_killed = True
    live.process.kill()
    ended(live)
    named.kept.write_bytes(typed.replace(b"Anne", b"Anni"))  # as of a call that was killed before its game had the name
    live = named.record()
    until_line(live, "  1  White is now Anni, and was Anne")
    named.until_seen(1, "Anni - Ben")
    same(stop(live), 0)

    named.kept.write_bytes(typed + b'[2, "Eva", "Finn", "White", "Eva", "E\x00')
    live = named.record()
    until_line(live, f"{named.kept} has lines that are no typed names: they are left out. Type those names again")
    named.until_seen(1, "Anne - Ben")
    named.until_seen(2, "Eva - Finn")
    live.type("2 name White=Ewa")
    until_line(live, f"  2: White is now Ewa, and was Eva. {HOLDS}")
    same(len(bytes_of(named.kept).splitlines()), 2)
    named.kept.unlink()
    named.kept.mkdir()
    live.type("r")
    until_line(live, f"{named.kept} can't be read: ")
    until(lambda: agrees(live, 2), "that board 2 agrees")
    hall.play(2, 4)
    live.type("2 name White=Edda")
    until_line(live, "2 refused: name White=Edda: ")
    named.until_seen(2, "Eva - Finn")
    named.kept.rmdir()
    live.type("2 name White=Edda")
    until_line(live, f"  2: White is now Edda, and was Eva. {HOLDS}")
    same(stop(live), 0)


def next_round(folder: pathlib.Path) -> None:
    """The next round of a tournament has the same pair at the same board, and not the name that was typed in the one before."""
    cup = Cup(folder)
    pairs = "board;white;black\n1;Carlson;Ben\n"
    (cup.folder / "round1.csv").write_text(pairs)
    live = cup.round(1)
    until_line(live, "  1  agrees")
    live.type("1 name White=Carlsen")
    until_line(live, f"  1: White is now Carlsen, and was Carlson. {HOLDS}")
    live.type("1 1-0")
    until_line(live, "1: no move was made yet. If Black has not come, type 1 +-. For 1-0 all the same, type it again within a minute")
    live.type("1 1-0")
    until_line(live, "1: added to ")
    until(lambda: b'[White "Carlsen"]' in cup.published(1), "the typed name")
    same(stop(live), 0)
    (cup.folder / "round2.csv").write_text(pairs)
    live = cup.round(2)
    until_line(live, "  1  agrees")
    until(lambda: b'[White "Carlson"]' in cup.published(2) and b"Carlsen" not in cup.published(2), "the name of the table")
    same((cup.folder / "round1" / "round.names").exists(), True)
    same((cup.folder / "round2" / "round.names").exists(), False)
    same(stop(live), 0)


CASES = [names_typed, other_pairs, names_kept, next_round]
