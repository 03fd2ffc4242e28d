#!/usr/bin/env python3
"""Writes the samples: for each game what a board sends (.dgt), and what is due for it: the game (.pgn) and the lines of
`show` (.show), `follow` (.follow) and `watch` (.watch). They come from the lists below by the rules of docs/FORMATS.md, and not from the
program. A word names another folder to write into.

A line of a list is a ply, or the result, and then in words what the board sends until it stands:

    e2-        e2 is empty now
    e4P        e4 shows a white pawn now, by its letter in a FEN
    h3N?Nh3    the same, and so the board shows this other move
    b8-/       the update is cut off after its header
    g4n!       the update has lost its first byte
    1:29:56    a time message: the mover has this time left, the other side what it had
    dump       a dump
    clock      the clock acknowledges a command
    version    the board's version, another message: it changes nothing
"""

import pathlib
import re
import sys

CUT_OFF, BEHEADED = "/", "!"

SHORT = """
e4      1:29:56 1:29:55 e2- e4P
e5      1:29:49 1:29:48 e7- e5p
Nf3     1:29:42 g1- h3N?Nh3 1:29:41 h3- f3N
Nc6     version 1:29:31 b8-/ dump 1:29:30 c6n
Bb5     1:29:20 f1- b5B
"""

LONG = """
e4      1:29:56 e2- 1:29:55 e4P
e6      1:29:54 e7- 1:29:53 e6p
d4      1:29:53 d2- 1:29:52 d4P
d5      1:29:49 d7- 1:29:48 d5p
e5      1:29:44 e4- 1:29:43 e5P
c5      1:29:46 c7- 1:29:45 c5p
c3      version 1:29:39 c2- 1:29:36 c3P
Nc6     1:29:43 b8- 1:29:42 c6n
Nf3     1:29:36 g1- h3N?Nh3 h3- 1:29:33 f3N
Bd7     1:29:39 c8- 1:29:38 d7b
Be2     1:29:16 f1- 1:29:15 e2B
Qb6     1:26:11 d8- c7q?Qc7 1:26:09 c7- 1:26:08 b6q
O-O     1:29:12 e1- g1K h1- 1:29:11 f1R
O-O-O   1:26:05 a8- d8r?Rd8 e8- 1:26:04 c8k
Na3     d5- d5p 1:28:49 b1- 1:28:46 a3N
f5      1:25:54 f7- 1:25:53 f5p
exf6    1:25:18 e5- f6P 1:25:16 f5-
Nxf6    1:23:34 f6- g8- 1:23:33 f6n
dxc5    1:25:10 d4- 1:25:09 c5P
Qxc5    1:22:54 c5- b6- 1:22:53 c5q
Be3     1:22:50 c1- 1:22:49 e3B
Qd6     dump 1:19:24 c5- 1:19:23 d6q
b4      1:19:20 b2- 1:19:19 b4P
Ng4     1:17:51 f6- 1:17:48 g4n! dump
Bc1     1:18:42 e3-/ c1B 1:18:39 dump
Be7     1:14:21 f8- 1:14:18 e7b
h3      1:18:01 h2- 1:17:59 h3P
h5      1:14:01 h7- 1:14:00 h5p
Nb5     1:17:42 a3- 1:17:41 b5N
Qb8     1:10:32 d6- 1:10:30 b8q
a4      1:15:24 a2- 1:15:21 a4P
g5      1:09:53 g7- 1:09:50 g5p
Ra2     1:14:57 a1- 1:14:56 a2R
Rdg8    clock 1:09:46 d8- e8r?Rde8 e8- f8r?Rdf8 f8- 1:09:43 g8r
Rc2     1:14:47 a2- 1:14:45 c2R
Rh7     1:09:35 h8- 1:09:32 h7r
c4      1:13:41 c3- 1:13:40 c4P
d4      1:09:27 d5- 1:09:25 d4p
Bd3     1:13:02 e2- 1:13:00 d3B
Rh6     1:05:58 h7- 1:05:55 h6r
c5      1:09:33 c4- 1:09:30 c5P
Rf8     1:05:49 g8- 1:05:48 f8r
Bxg5    1:09:08 c1- 1:09:05 g5B
Rxf3    1:05:42 f3- f8- 1:05:41 f3r
hxg4    1:08:43 g4- h3- 1:08:40 g4P
Qe5     1:05:19 b8- 1:05:16 e5q
Bxh6    1:08:01 h6- g5- 1:08:00 h6B
Rf4     1:03:43 f3- 1:03:41 f4r
Re1     1:07:50 f1- 1:07:49 e1R
Qf6     1:02:07 e5- 1:02:06 f6q
Bxf4    1:07:33 f4- h6- 1:07:31 f4B
Qxf4    1:01:56 f6- 1:01:55 f4q
Nd6+    1:06:29 b5- 1:06:26 d6N
Kc7     1:00:21 c8- 1:00:20 c7k
b5      1:06:18 b4- 1:06:15 b5P
Nb4     0:59:17 c6- 0:59:15 b4n
gxh5    1:06:07 h5- g4- 1:06:04 h5P
Qg5     0:56:57 f4- 0:56:55 g5q
Qf3     1:05:01 d1- 1:04:59 f3Q
Nd5     0:55:51 b4- 0:55:50 d5n
Bc4     1:04:49 d3- 1:04:48 c4B
d3      0:55:40 d4- 0:55:39 d3p
Bxd3    1:04:31 d3- c4- 1:04:30 d3B
Bf6     0:55:38 e7- 0:55:35 f6b
g3      1:01:01 g2- 1:01:00 g3P
Bd4     0:55:12 f6- 0:55:10 d4b
c6      1:00:57 c5- 1:00:56 c6P
Nf4     0:54:07 d5- 0:54:05 f4n
Qxf4    0:57:28 f4- f3- 0:57:26 f4Q
Qxf4    0:53:55 g5- 0:53:54 f4q
cxb7+   0:55:54 b7- c6- 0:55:51 b7P
Bc5     0:52:52 d4- 0:52:49 c5b
Rxc5+   0:54:47 c2- 0:54:46 c5R
Kxd6    0:51:17 d6- c7- 0:51:14 d6k
b8=Q+   0:54:43 b7- b8P b8- 0:54:42 b8Q
Kxc5    0:51:08 d6- 0:51:07 c5k
Qxa7+   0:53:08 a7- b8- 0:53:07 a7Q
Kb4     0:51:02 c5- 0:51:00 b4k
gxf4    0:49:38 g3- 0:49:37 f4P
1-0     0:50:31 b4- g1- e4K d5k
"""

LETTERS = "-PRNBKQprnbkq"  # by their codes
INITIAL = "rnbqkbnr" + "p" * 8 + "-" * 32 + "P" * 8 + "RNBQKBNR"
SQUARES = [file + rank for rank in "87654321" for file in "abcdefgh"]
HOMES = {"K": [("e1", "K"), ("h1", "R")], "Q": [("e1", "K"), ("a1", "R")], "k": [("e8", "k"), ("h8", "r")], "q": [("e8", "k"), ("a8", "r")]}
RESULTS = ["1-0", "0-1", "1/2-1/2"]
ROSTER = ["Event", "Site", "Date", "Round", "White", "Black"]


def frame(identifier, data):
    size = 3 + len(data)
    return bytes([identifier, size >> 7, size & 0x7F, *data])


def placement(codes):
    """The first field of a FEN."""
    ranks = ["".join(LETTERS[code] for code in codes[row:row + 8]) for row in range(0, 64, 8)]
    return "/".join(re.sub("-+", lambda empty: str(len(empty[0])), rank) for rank in ranks)


class Position:
    """What a FEN says, by the boards alone: no rule is needed where each ply is a legal one."""

    def __init__(self, codes):
        self.board = "".join(LETTERS[code] for code in codes)
        self.white, self.rights, self.target, self.halfmove, self.fullmove = True, "KQkq", "-", 0, 1

    def after(self, codes):
        """The position after the ply that leads to this board."""
        new = Position(codes)
        pawn = "P" if self.white else "p"
        left, come = ([place for place in range(64) if a[place] == pawn != b[place]]
                      for a, b in ((self.board, new.board), (new.board, self.board)))
        taken = new.board.count("-") > self.board.count("-")
        new.white = not self.white
        new.rights = "".join(right for right in self.rights if all(new.board[SQUARES.index(square)] == letter
                             for square, letter in HOMES[right]))
        if left and come and abs(left[0] - come[0]) == 16:
            new.target = SQUARES[(left[0] + come[0]) // 2]
        new.halfmove = 0 if left or taken else self.halfmove + 1
        new.fullmove = self.fullmove + (not self.white)
        return new

    def fen(self):
        codes = [LETTERS.index(letter) for letter in self.board]
        return f"{placement(codes)} {'w' if self.white else 'b'} {self.rights or '-'} {self.target} {self.halfmove} {self.fullmove}"


class Sample:
    def __init__(self, plies):
        self.codes = [LETTERS.index(letter) for letter in INITIAL]
        self.before = self.position = Position(self.codes)  # before the last ply, and as the moves so far have it
        self.seen = None  # the picture that came last
        self.trusted = False
        self.clocks = ["1:30:00", "1:30:00"]
        self.reading = None  # as it was told last
        self.sent = b""
        self.shown = []
        self.followed = []
        self.watched = [f"0 position {self.position.fen()}"]
        self.tokens = []
        self.result = "*"
        self.dump(None)
        self.time()
        for number, line in enumerate(plies.strip().splitlines()):
            self.play(number, *line.split())

    def play(self, number, san, *words):
        side = number % 2
        full_move = f"{number // 2 + 1}{'...' if side else '.'}"
        pictures = [place for place, word in enumerate(words) if word == "dump" or word[0] in "abcdefgh" and word[1].isdigit()]
        answer = "move"
        for place, word in enumerate(words):
            word, _, settled = word.partition("?")
            if place == pictures[-1]:
                settled = san
            if settled in RESULTS:
                told = f"result {settled}"
            elif settled:
                told = f"{answer} {full_move} {settled} {self.clocks[side]}"
                answer = "correction"
            else:
                told = None
            if word == "dump":
                self.dump(told)
            elif place in pictures:
                self.update(word[:2], word[2], word[3:], told)
            elif word == "version":
                self.message(0x93, [1, 8], "other 93 5")
            elif word == "clock":
                self.message(0x8D, [0x0A, 0, 0, 0, 0, 0, 0], "time 0a 00 00 00 00 00 00")
            else:
                self.clocks[side] = word
                self.time()
        if san in RESULTS:
            self.result = san
        else:
            self.tokens += [full_move, san, f"{{[%clk {self.clocks[side]}]}}"]

    def message(self, identifier, data, line):
        self.sent += frame(identifier, data)
        self.shown.append(f"{len(self.sent) - 1} {line}")

    def dump(self, told):
        self.message(0x86, self.codes, "dump " + "".join(f"{code:x}" for code in self.codes))
        self.trusted = True
        self.see(told)

    def time(self):
        digits = [f"{int(part):02}" for clock in self.clocks for part in clock.split(":")] + ["00"]
        self.message(0x8D, [int(two, 16) for two in digits], "time " + " ".join(digits))
        if self.clocks != self.reading:
            self.reading = list(self.clocks)
            self.watched.append(f"{len(self.sent) - 1} clock {' '.join(self.clocks)}")

    def update(self, square, letter, damage, told):
        field, code = SQUARES.index(square), LETTERS.index(letter)
        self.codes[field] = code
        if damage == CUT_OFF:
            self.fault(len(self.sent) + 3, "cut")  # at the first byte of the next frame
            self.sent += frame(0x8E, [field, code])[:3]
        elif damage == BEHEADED:
            self.fault(len(self.sent), "stray")
            self.sent += frame(0x8E, [field, code])[1:]
        else:
            self.message(0x8E, [field, code], f"update {field} {code}")
            if self.trusted:
                self.see(told)

    def fault(self, offset, kind):
        for lines in (self.shown, self.followed, self.watched):
            lines.append(f"{offset} fault {kind}")
        self.trusted = False

    def see(self, told):
        """The board's picture comes. What is told of it is a move or a result; else the picture waits."""
        if self.codes == self.seen:
            return
        self.seen = list(self.codes)
        offset = len(self.sent) - 1
        self.watched.append(f"{offset} picture {placement(self.codes)}")
        changes = told is not None
        if told is None:
            stands = [LETTERS.index(letter) for letter in self.position.board]
            differing = [square for square, a, b in zip(SQUARES, self.codes, stands) if a != b]
            told = " ".join(["differs", *differing]) if differing else "agrees"
        elif not told.startswith("result"):
            if told.startswith("move"):
                self.before = self.position
            self.position = self.before.after(self.codes)
        self.followed.append(f"{offset} {told}")
        self.watched.append(f"{offset} {told}")
        if changes:
            self.watched.append(f"{offset} position {self.position.fen()}")

    def pgn(self):
        lines = [f'[{tag} "{"????.??.??" if tag == "Date" else "?"}"]' for tag in ROSTER]
        lines += [f'[Result "{self.result}"]', ""]
        line = ""
        for token in [*self.tokens, self.result]:
            if line and len(line) + 1 + len(token) > 79:
                lines.append(line)
                line = ""
            line += " " + token if line else token
        return "\n".join([*lines, line, "", ""])

    def write(self, path):
        path.with_suffix(".dgt").write_bytes(self.sent)
        path.with_suffix(".pgn").write_text(self.pgn())
        path.with_suffix(".show").write_text("\n".join([*self.shown, "rest 0", ""]))
        path.with_suffix(".follow").write_text("\n".join([*self.followed, "rest 0", ""]))
        path.with_suffix(".watch").write_text("\n".join([*self.watched, "rest 0", ""]))


folder = pathlib.Path(sys.argv[1] if len(sys.argv) > 1 else __file__.rpartition("/")[0] or ".")
Sample(SHORT).write(folder / "short-game")
Sample(LONG).write(folder / "long-game")
