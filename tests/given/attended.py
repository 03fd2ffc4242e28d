"""What `live` answers. Times of requests are a second apart, the next one half a second after an update; a square that differs is in a
player's hand for its first ten seconds."""

from typing import Any, Iterable, Iterator, List, Tuple

from decided.table import same
from given.case import Case, but, dump, leave, leave_by_bytes, left_by, pgn, updates
from given.messages import E2_EMPTY, E4_PAWN, INITIAL, KINGS_PAWN, TURNED, TWO_KINGS
from given.recorded import LONG_NAME
from given.recovered import BISHOP, HIDDEN
from given.watched import START

# `live` over no input.
LIVE = Case(words=["live"], out=START)

# The board's serial number is 01234; another one's is 01235.
NUMBER, OTHER_NUMBER = b"\x91\x00\x0801234", b"\x91\x00\x0801235"

# What a host tells, and what it is answered.
Turns = Iterable[Tuple[bytes, bytes]]


def turns(told: Turns, **changed: Any) -> Case:
    """The case in which all of this is told, and answered."""
    rows = list(told)
    return but(LIVE, sent=b"".join(row[0] for row in rows), out=START + b"".join(row[1] for row in rows), **changed)


def digest(data: bytes) -> int:
    """FNV-1a with 64 bits."""
    value = 0xCBF29CE484222325
    for byte in data:
        value = (value ^ byte) * 0x100000001B3 % 2**64
    return value


CAPTURE = NUMBER + INITIAL + E2_EMPTY  # 8, 67 and 5 bytes

# On a rotated board e2 is field 63 - 52.
E2_EMPTY_TURNED = b"\x8e\x00\x05\x0b\x00"

SHOWN = b"74 picture rnbqkbnr/pppppppp/8/8/8/8/PPPPPPPP/RNBQKBNR\n74 agrees\n"
LIFTED = b"79 picture rnbqkbnr/pppppppp/8/8/8/8/PPPP1PPP/RNBQKBNR\n79 differs e2\n"

# One call: the board gives its number and its pieces, is asked again, a pawn is lifted, and the cable is pulled.
CALL = [
    (b"0 begin 0\n", b"keep\nstate WAITS -\ndone -\n"),
    (b"5 opened\n", b"keep\nask EBK\ndone 1000\n"),
    (b"95 heard 8\n" + NUMBER, b"kept 8\n" + NUMBER + b"keep\nnumber 01234\ndone 910\n"),
    (b"120 heard 67\n" + INITIAL, b"kept 67\n" + INITIAL + SHOWN + b"keep\nstate AGREES 0\ndone 885\n"),
    (b"1005 wake\n", b"keep\nask B\ndone 1000\n"),
    (b"1100 heard 5\n" + E2_EMPTY, b"kept 5\n" + E2_EMPTY + LIFTED + b"keep\nstate IN-HAND 0 e2\ndone 905\n"),
    (b"1500 gone\n", b"keep\nstate UNPLUGGED 0\ndone -\n"),
]

# The next call, 35 s later: another board is on the cable until the arbiter takes it.
NEXT_CALL = [
    (b"0 begin 80\n", b"keep\nstate UNPLUGGED 0\ndone -\n"),
    (b"0 away 35000\n", b"keep\ndone -\n"),
    (b"0 number 5\n01234", b"keep\ndone -\n"),
    (b"10 opened\n", b"hold\nask EBK\nstate WAITS -\ndone 1000\n"),
    (b"60 heard 8\n" + OTHER_NUMBER, b"other 01235\ndone 950\n"),
    (b"300 lent\n", b"other 01235\ndone 710\n"),
    (b"400 took\n", b"keep\nnumber 01235\ndone 610\n"),
]

ATTENDED = [
    LIVE,
    turns(CALL),
    turns(CALL + NEXT_CALL),
    # a time before the last one counts as that
    turns([*CALL[:2], (b"3 heard 8\n" + NUMBER, b"kept 8\n" + NUMBER + b"keep\nnumber 01234\ndone 1000\n")]),
    # bytes that were added by hand are in the capture already; then a dump is wanted, 0.2 s after the last request
    turns([*CALL[:2], (b"95 added 67\n" + INITIAL, b"66 picture rnbqkbnr/pppppppp/8/8/8/8/PPPPPPPP/RNBQKBNR\n66 agrees\nkeep\nstate AGREES 0\ndone 110\n")]),
    # and so it is if they came over another game's cable
    turns([*CALL[:2], (b"95 brought 67\n" + INITIAL, b"66 picture rnbqkbnr/pppppppp/8/8/8/8/PPPPPPPP/RNBQKBNR\n66 agrees\nkeep\nstate AGREES 0\ndone 110\n")]),
]

# ---- the number of the game's board

# The host has told it before the board gives it.
TOLD_NUMBER = [
    (b"0 begin 0\n", b"keep\nstate WAITS -\ndone -\n"),
    (b"0 number 5\n01234", b"keep\ndone -\n"),
    (b"5 opened\n", b"hold\nask EBK\ndone 1000\n"),
    (b"95 heard 8\n" + NUMBER, b"kept 8\n" + NUMBER + b"keep\ndone 910\n"),
]

NUMBERS = [
    turns(TOLD_NUMBER),
    # it comes again, and the arbiter takes the board that is the game's already
    turns([*CALL[:3], (b"96 heard 8\n" + NUMBER, b"kept 8\n" + NUMBER + b"keep\ndone 909\n"), (b"97 took\n", b"keep\ndone 908\n")]),
    # two come in one read: the first is the game's, and the last that of the board on the cable
    turns([*CALL[:2], (b"95 heard 16\n" + NUMBER + OTHER_NUMBER, b"other 01235\nnumber 01234\ndone 910\n")]),
    # what the host tells is no number
    turns([*CALL[:3], (b"96 number 5\n0123 ", b"keep\ndone 909\n"), (b"97 number 4\n0123", b"keep\ndone 908\n")]),
    # the host tells another one
    turns([*CALL[:3], (b"96 number 5\n01235", b"other 01234\ndone 909\n"), (b"97 took\n", b"keep\nnumber 01234\ndone 908\n")]),
]

# ---- the text of the game


def game(text: bytes) -> bytes:
    return b"game %d\n%s" % (len(text), text)


MOVED = (
    b"84 picture rnbqkbnr/pppppppp/8/8/4P3/8/PPPP1PPP/RNBQKBNR\n84 move 1. e4\n"
    b"84 position rnbqkbnr/pppppppp/8/8/4P3/8/PPPP1PPP/RNBQKBNR b KQkq e3 0 1\n"
)

# The first call but its last entry; then the pawn is set down.
PLAYED = [
    *CALL[:6],
    (b"1200 text\n", game(pgn()) + b"keep\ndone 805\n"),
    (
        b"1300 heard 5\n" + E4_PAWN,
        b"kept 5\n" + E4_PAWN + MOVED + b"keep\nstate AGREES 0\ndone 705\n",
    ),
    (b"1400 text\n", game(pgn("1. e4 *")) + b"keep\ndone 605\n"),
]

TAGS = ["--event", "Open", "--site", "Oslo", "--date", "2024.??.??", "--round", "1", "--white", 'Anna "A"', "--black", ""]
TAGGED = pgn("1. e4 *", event="Open", site="Oslo", date="2024.??.??", round="1", white='Anna \\"A\\"', black="")

# A capture of a call before, in which it was.
BEFORE = [(b"0 capture 85\n" + CAPTURE + E4_PAWN, SHOWN + LIFTED + MOVED + b"done -\n")]

TEXTS = [
    turns(PLAYED),
    # before anything has happened, twice
    turns([(b"0 text\n", game(pgn()) + b"keep\ndone -\n")] * 2),
    # otherwise it is a wake: the board is asked
    turns([*CALL[:4], (b"1005 text\n", game(pgn()) + b"keep\nask B\ndone 1000\n"), *CALL[5:]]),
    # of a call before
    turns([*BEFORE, (b"0 text\n", game(pgn("1. e4 *")) + b"keep\ndone -\n")]),
    turns([*BEFORE, (b"0 text\n", game(TAGGED) + b"keep\ndone -\n")], words=["live", *TAGS]),
]

# ---- what was kept of the calls before


def kept(times: bytes, capture: bytes = CAPTURE) -> bytes:
    return b"0 kept %d\n%s0 capture %d\n%s" % (len(times), times, len(capture), capture)


# The file of times of the first call. The capture was empty when it was made.
HEADING = b"1 times 0\n0 digest %d\n" % digest(b"")
TIMES = HEADING + b"0 begin 0\n5 opened\n5 asked 3\n95 heard 8\n120 heard 67\n1005 asked 1\n1100 heard 5\n1500 gone\n"

# The report alone is said of what was kept.
REPORT = b"keep\ndone -\n" + SHOWN + LIFTED + b"done -\n"

# A recorder that begins again with the pawn still in the hand, and what it says: for how long it has been there.
BEGUN_AGAIN = [
    (b"0 begin 80\n", b"keep\nstate WAITS -\ndone -\n"),
    (b"5 opened\n", b"keep\nask EBK\ndone 1000\n"),
]

KEPT = [
    # it answers as the recorder that lived through it
    turns([(kept(TIMES), REPORT), *NEXT_CALL]),
    # of a torn line nothing counts, and its bytes came when the next call began
    turns([(kept(TIMES[: TIMES.index(b"1100")] + b"1100 hea"), REPORT), *BEGUN_AGAIN]),
    # no file of times, one of another capture, that of a newer program, and what is none
    turns([(b"0 capture 80\n" + CAPTURE, SHOWN + LIFTED + b"done -\n"), *BEGUN_AGAIN]),
    turns([(kept(b"1 times 0\n80 digest 1\n0 begin 0\n1500 gone\n"), REPORT), *BEGUN_AGAIN]),
    turns([(kept(b"2 times 0\n0 digest 1\n0 begin 0\n1500 gone\n"), REPORT), *BEGUN_AGAIN]),
    turns([(kept(b"no times\n"), REPORT), *BEGUN_AGAIN]),
    # a file of times has no such line
    turns([(kept(TIMES.replace(b"1100 heard", b"1100 text\n1100 heard")), REPORT), *BEGUN_AGAIN]),
    # a file that tells of more bytes than the capture has
    turns([(kept(TIMES.replace(b"120 heard 67", b"120 heard 70")), REPORT), *NEXT_CALL]),
    # the last of two files of times counts
    turns([(b"0 kept 9\nno times\n", b"keep\ndone -\n"), (kept(TIMES), REPORT), *NEXT_CALL]),
    # an empty capture
    turns([(kept(b"", b""), b"keep\ndone -\ndone -\n"), *CALL]),
]

# ---- alarms

# What the host suspects is said once, and again when a call begins, until somebody has looked.
SUSPECTED = [
    *CALL[:4],
    (b"200 suspect 3\n", b"look SUSPECT 3\nkeep\ndone 805\n"),
    (b"210 suspect 7\n", b"look SUSPECT 7\nkeep\ndone 795\n"),
    (b"220 wake\n", b"keep\ndone 785\n"),
    (b"230 ok\n", b"keep\ndone 775\n"),
    (b"240 suspect 9\n", b"look SUSPECT 9\nkeep\ndone 765\n"),
    (b"250 back\n", b"keep\ndone 755\n"),
    (b"1500 gone\n", b"keep\nstate UNPLUGGED 0\ndone -\n"),
    (b"0 begin 75\n", b"look SUSPECT 9\nkeep\nstate UNPLUGGED 0\ndone -\n"),
    (b"0 ok\n", b"keep\ndone -\n"),
    (b"0 begin 75\n", b"keep\nstate UNPLUGGED 0\ndone -\n"),
]

ALARMS = [
    turns(SUSPECTED),
    # of calls before: the answer to their capture says none
    turns([(kept(TIMES + b"1600 suspect 3\n1700 ok\n1800 suspect 7\n"), REPORT), (b"0 begin 80\n", b"look SUSPECT 7\nkeep\nstate UNPLUGGED 300\ndone -\n")]),
]

# ---- how a game ends


def heard(at: int, sent: bytes) -> bytes:
    return b"%d heard %d\n%s" % (at, len(sent), sent)


def added(at: int, put: bytes) -> bytes:
    return b"%d added %d\n%s" % (at, len(put), put)


def brought(at: int, sent: bytes) -> bytes:
    return b"%d brought %d\n%s" % (at, len(sent), sent)


BOTH_PAWNS = dump("rnbqkbnr/pppp1ppp/8/4p3/4P3/8/PPPP1PPP/RNBQKBNR")
KNIGHT = dump("rnbqkbnr/pppp1ppp/8/4p3/4P3/5N2/PPPP1PPP/RNBQKB1R")
BLACK_WINS = dump("rnbq1bnr/pppppppp/8/4k3/3KP3/8/PPPP1PPP/RNBQ1BNR")  # after 1. e4
HALF = dump("8/8/8/8/8/8/PPPPPPPP/RNBQKBNR")  # of the pieces are off the board


def captured(*sent: bytes) -> List[bytes]:
    """A capture of the calls before without times, and the beginning of a call."""
    capture = b"".join(sent)
    return [b"0 capture %d\n%s" % (len(capture), capture), b"0 begin %d\n" % len(capture)]


SIGNED = [b"0 begin 0\n", heard(100, INITIAL), heard(1100, KINGS_PAWN), heard(3100, BLACK_WINS)]

SEEN = heard(13100, BLACK_WINS)  # ten seconds later the kings still stand there
STOOD = [*SIGNED, SEEN]
STOOD_LATE = [*STOOD, heard(20000, BOTH_PAWNS)]
NC6 = dump("r1bqkbnr/pppp1ppp/2n5/4p3/4P3/5N2/PPPP1PPP/RNBQKB1R")
BB5 = dump("r1bqkbnr/pppp1ppp/2n5/1B2p3/4P3/5N2/PPPP1PPP/RNBQK2R")
E6 = dump("rnbqkbnr/pppp1ppp/4p3/8/4P3/8/PPPP1PPP/RNBQKBNR")
NO_KINGS = dump("rnbq1bnr/pppp1ppp/8/4p3/4P3/8/PPPP1PPP/RNBQ1BNR")

# After 1. e4 e5 2. Nf3 Nf6 the kings show a draw. Then the knights go home, and White plays d4.
BOTH_OUT = dump("rnbqkb1r/pppp1ppp/5n2/4p3/4P3/5N2/PPPP1PPP/RNBQKB1R")
DRAWN = dump("rnbq1b1r/pppp1ppp/5n2/3kp3/3KP3/5N2/PPPP1PPP/RNBQ1B1R")
ONE_HOME = dump("rnbqkb1r/pppp1ppp/5n2/4p3/4P3/8/PPPP1PPP/RNBQKBNR")
D4 = dump("rnbqkbnr/pppp1ppp/8/4p3/3PP3/8/PPP2PPP/RNBQKBNR")
KNIGHTS = [*SIGNED[:3], heard(2100, BOTH_PAWNS), heard(3100, KNIGHT), heard(4100, BOTH_OUT), heard(6100, DRAWN)]
KNIGHTS_HOME = [*KNIGHTS, heard(16100, DRAWN), heard(20000, ONE_HOME), heard(25000, BOTH_PAWNS)]
# The same, kept: the capture, and the first lines of its file of times.
SIGNED_BYTES = INITIAL + KINGS_PAWN + BLACK_WINS
SIGNED_TIMES = HEADING + b"0 begin 0\n100 heard 67\n1100 heard 67\n3100 heard 67\n"


def signed(more: bytes) -> List[bytes]:
    """The files of a call before, whose times end with this, and the beginning of a call."""
    return [kept(SIGNED_TIMES + more, SIGNED_BYTES), b"0 begin 201\n"]


def stood(more: bytes) -> List[bytes]:
    """The same, and the board was heard when the result had stood."""
    return [kept(SIGNED_TIMES + b"13100 heard 67\n" + more, SIGNED_BYTES + BLACK_WINS), b"0 begin 268\n"]


TYPED = [*SIGNED[:3], added(3100, BLACK_WINS + KINGS_PAWN)]
# Pieces were put off the board, and the start stands there when he types. It ends the game at once.
TYPED_LATE = [*SIGNED[:3], heard(2100, HALF), added(3100, BLACK_WINS + INITIAL)]
TYPED_BYTES = INITIAL + KINGS_PAWN + BLACK_WINS + KINGS_PAWN
TYPED_BEFORE = [kept(HEADING + b"0 begin 0\n100 heard 67\n1100 heard 67\n3100 added 134\n", TYPED_BYTES), b"0 begin 268\n"]

# What a host tells; in which answer what is said of the end.
ENDS = [
    ("the kings", [*SIGNED, heard(13099, BLACK_WINS), SEEN, b"13200 wake\n"], [(5, b"over STOOD 0-1 201 sure")]),
    ("the board isn't heard", [*SIGNED, b"13100 wake\n", b"20099 wake\n", b"20100 wake\n"], [(6, b"over STOOD 0-1 201 unsure")]),
    ("its cable is gone", [*SIGNED, b"5000 gone\n", b"20100 wake\n"], [(5, b"over STOOD 0-1 201 unsure")]),
    ("it is heard in time", [*SIGNED, b"5000 gone\n", b"19000 opened\n", heard(20099, BLACK_WINS)], [(6, b"over STOOD 0-1 201 sure")]),
    ("it is heard too late", [*SIGNED, heard(20100, BLACK_WINS)], [(4, b"over STOOD 0-1 201 unsure")]),
    ("another move", [*SIGNED, heard(5000, BOTH_PAWNS)], [(4, b"over PLAYS-ON 0-1 201 sure")]),
    ("it is added: that takes the result off", [*SIGNED, added(5000, BOTH_PAWNS), b"13100 wake\n", b"30000 wake\n"], []),
    ("it comes over another game's cable", [*SIGNED, brought(5000, BOTH_PAWNS)], [(4, b"over PLAYS-ON 0-1 201 sure")]),
    ("two moves after it", [*STOOD_LATE, heard(25000, KNIGHT)], [(4, b"over STOOD 0-1 201 sure"), (6, b"played 2")]),
    ("one move after it", STOOD_LATE, [(4, b"over STOOD 0-1 201 sure")]),
    ("and they go on", [*STOOD_LATE, heard(25000, KNIGHT), heard(30000, NC6), heard(35000, BB5)],
     [(4, b"over STOOD 0-1 201 sure"), (6, b"played 2"), (7, b"played 3"), (8, b"played 4")]),
    ("a move that is put right is one", [*STOOD_LATE, heard(25000, E6)], [(4, b"over STOOD 0-1 201 sure")]),
    ("pieces are lifted", [*STOOD_LATE, heard(25000, NO_KINGS), heard(30000, BOTH_PAWNS)], [(4, b"over STOOD 0-1 201 sure")]),
    ("both knights go home", KNIGHTS_HOME, [(7, b"over STOOD 1/2-1/2 402 sure")]),
    ("and a third move", [*KNIGHTS_HOME, heard(30000, D4)], [(7, b"over STOOD 1/2-1/2 402 sure"), (10, b"played 3")]),
    ("the next game", [*STOOD_LATE, heard(25000, INITIAL), heard(30000, KNIGHT), heard(35000, NC6)], [(4, b"over STOOD 0-1 201 sure")]),
    ("the start again", [*SIGNED, heard(9000, INITIAL)], [(4, b"over SET-UP 0-1 201 sure")]),
    (
        "no result",
        [*SIGNED[:3], heard(21100, BOTH_PAWNS), heard(41100, HALF), heard(45000, INITIAL)],
        [(5, b"over UNFINISHED * 201 sure")],
    ),
    ("a move of the set-up", [b"0 begin 0\n", heard(100, HALF), heard(1100, KINGS_PAWN), heard(5000, INITIAL)], [(3, b"begins 201")]),
    ("a call before", captured(INITIAL, KINGS_PAWN, HALF, INITIAL), [(1, b"over UNFINISHED * 134 unsure")]),
    ("a result of one", [*captured(INITIAL, KINGS_PAWN, BLACK_WINS), heard(9999, BLACK_WINS), heard(10000, BLACK_WINS)], [(3, b"over STOOD 0-1 201 sure")]),
    ("and nothing is heard", [*captured(INITIAL, KINGS_PAWN, BLACK_WINS), b"16999 wake\n", b"17000 wake\n"], [(3, b"over STOOD 0-1 201 unsure")]),
    ("an arbiter reopens it", [*STOOD, b"14000 reopened\n", b"60000 wake\n"], [(4, b"over STOOD 0-1 201 sure")]),
    ("before it is over", [*SIGNED, b"13099 reopened\n", SEEN, b"60000 wake\n"], []),
    ("as time ends it", [*SIGNED, b"20000 reopened\n", b"60000 wake\n"], []),
    (
        "it goes on, and ends again",
        [*STOOD, b"14000 reopened\n", heard(21100, BOTH_PAWNS), heard(41100, HALF), heard(45000, INITIAL)],
        [(4, b"over STOOD 0-1 201 sure"), (8, b"over UNFINISHED * 335 sure")],
    ),
    ("moves after it", [*STOOD, b"14000 reopened\n", heard(20000, BOTH_PAWNS), heard(25000, KNIGHT)], [(4, b"over STOOD 0-1 201 sure")]),
    ("the host has noted that it is over", [*STOOD, b"13100 over 201\n", b"0 begin 268\n"], [(4, b"over STOOD 0-1 201 sure"), (6, b"over STOOD 0-1 201 sure")]),
    ("it hasn't, and the board was heard", [*STOOD, b"0 begin 268\n"], [(4, b"over STOOD 0-1 201 sure"), (5, b"over STOOD 0-1 201 sure")]),
    (
        "it hasn't, and the board wasn't heard",
        [*SIGNED, b"20100 wake\n", b"0 begin 201\n", b"16999 wake\n", b"17000 wake\n"],
        [(4, b"over STOOD 0-1 201 unsure"), (7, b"over STOOD 0-1 201 unsure")],
    ),
    ("the computer slept", [*SIGNED, b"20000 stopped 10000\n", heard(29999, BLACK_WINS), heard(30000, BLACK_WINS)], [(6, b"over STOOD 0-1 201 sure")]),
    ("for less", [*SIGNED, b"13000 stopped 9999\n", SEEN], [(5, b"over STOOD 0-1 201 sure")]),
    ("it was over before", [*STOOD, b"13100 over 201\n", b"60000 stopped 35000\n", b"90000 wake\n"], [(4, b"over STOOD 0-1 201 sure")]),
    ("it slept in a call before", [*signed(b"60000 stopped 50000\n65000 over 201\n"), heard(9999, BLACK_WINS), heard(10000, BLACK_WINS)], [(4, b"over STOOD 0-1 201 sure")]),
    ("over in a call before", stood(b"13100 over 201\n"), [(2, b"over STOOD 0-1 201 sure")]),
    ("over there unheard", signed(b"20100 over 201\n"), [(2, b"over STOOD 0-1 201 unsure")]),
    (
        "another move, over another game's cable",
        [kept(SIGNED_TIMES + b"5000 brought 67\n", SIGNED_BYTES + BOTH_PAWNS), b"0 begin 268\n"],
        [(2, b"over PLAYS-ON 0-1 201 sure")],
    ),
    ("it was added", [kept(SIGNED_TIMES + b"5000 added 67\n", SIGNED_BYTES + BOTH_PAWNS), b"0 begin 268\n", b"10000 wake\n"], []),
    ("noted too soon", [*signed(b"20099 over 201\n"), heard(9999, BLACK_WINS), heard(10000, BLACK_WINS)], [(4, b"over STOOD 0-1 201 sure")]),
    ("reopened in a call before", [*stood(b"13100 over 201\n14000 reopened\n"), b"60000 wake\n"], []),
    ("two calls before", stood(b"13100 over 201\n0 begin 268\n0 away 35000\n"), [(2, b"over STOOD 0-1 201 sure")]),
    # An arbiter adds a result: the kings' sign, and behind it what the board shows. The game ends with all of that.
    ("an arbiter adds it", [*TYPED, b"13099 wake\n", b"13100 wake\n"], [(5, b"over STOOD 0-1 268 sure")]),
    (
        "the board shows the same over another game's cable: it ends with the kings",
        [*SIGNED[:3], brought(3100, BLACK_WINS + KINGS_PAWN), brought(13099, KINGS_PAWN), brought(13100, KINGS_PAWN)],
        [(5, b"over STOOD 0-1 201 sure")],
    ),
    ("a move after that", [*TYPED, heard(5000, BOTH_PAWNS)], [(4, b"over PLAYS-ON 0-1 268 sure")]),
    ("the start after that", [*TYPED, heard(5000, INITIAL)], [(4, b"over SET-UP 0-1 268 sure")]),
    ("the start stands there when he adds it", TYPED_LATE, [(4, b"over SET-UP 0-1 335 sure")]),
    ("he added it in a call before", [*TYPED_BEFORE, b"9999 wake\n", b"10000 wake\n"], [(4, b"over STOOD 0-1 268 sure")]),
    ("and nothing says who added it", [*captured(TYPED_BYTES), heard(9999, KINGS_PAWN), heard(10000, KINGS_PAWN)], [(3, b"over STOOD 0-1 201 sure")]),
]

# ---- what is no entry

REFUSED = but(LIVE, status=1, err=b"input: no entry\n")

NO_ENTRIES = [
    but(REFUSED, sent=sent)
    for sent in (
        b"5 opens\n",  # no word
        b"05 opened\n",  # a zero before a number
        b"opened\n",
        b"\n",
        b"5 opened 3\n",
        b"5 text 3\n",
        b"5 heard\n",
        b"5 brought\n",
        b"5 ok 3\n",
        b"5 reopened 3\n",
        b"5 suspect\n",
        b"18446744073709551616 opened\n",  # 2^64
        b"0 capture 67108865\n",  # more than a capture may have
        b"12 heard 3\nab",  # it ends within an entry
        b"12 brought 3\nab",
        b"12 hea",
        b"1" * 64,
    )
]

# The entries before it are answered.
BEFORE_NO_ENTRY = [
    turns(CALL, status=1, err=b"input: no entry\n"),
    but(turns(CALL[:2]), sent=CALL[0][0] + CALL[1][0] + b"95 heard 9\n" + NUMBER, status=1, err=b"input: no entry\n"),
]
BEFORE_NO_ENTRY[0] = but(BEFORE_NO_ENTRY[0], sent=BEFORE_NO_ENTRY[0].sent + b"1600 opens\n")

# ---- streams that fail, and options

FAILING = [
    but(LIVE, fails=True, status=3, err=b"read fault\n"),
    but(turns(CALL), fails=True, status=3, err=b"read fault\n"),
    # within an entry
    but(turns(CALL[:2]), sent=CALL[0][0] + CALL[1][0] + b"95 heard 8\n" + NUMBER[:3], fails=True, status=3, err=b"read fault\n"),
    but(LIVE, words=["live", "--fen", "x"], status=1, out=b"", err=b"fen: form\n"),
    but(LIVE, words=["live", "--white", LONG_NAME], status=1, out=b"", err=b"tag White: long\n"),
    but(LIVE, words=["live", "--white", LONG_NAME, "--fen", "x"], status=1, out=b"", err=b"fen: form\n"),
]

# The text of a whole call, and the part of it that finds room.
WHOLE = turns(CALL)
CUT_OFF = [
    but(WHOLE, room=10, status=3, out=WHOLE.out[:10], err=b"write fault\n"),
    but(WHOLE, room=len(WHOLE.out) - 1, status=3, out=WHOLE.out[:-1], err=b"write fault\n"),
    but(TEXTS[0], room=len(TEXTS[0].out) - 40, status=3, out=TEXTS[0].out[:-40], err=b"write fault\n"),
    but(WHOLE, sent=WHOLE.sent + b"\n", status=1, error_room=3, err=b"inp"),
]

def turned(text: bytes) -> bytes:
    """The same from a board that stands the other way round."""
    return text.replace(INITIAL, TURNED).replace(E2_EMPTY, E2_EMPTY_TURNED)


KINGS = "4k3/8/8/8/8/8/8/4K3 w - -"

OPTIONS = [
    but(WHOLE, words=["live", "--rotated"], sent=turned(WHOLE.sent), out=turned(WHOLE.out)),
    but(
        LIVE,
        words=["live", "--fen", KINGS],
        sent=b"0 capture 67\n" + TWO_KINGS,
        out=b"0 position 4k3/8/8/8/8/8/8/4K3 w - - 0 1\n66 picture 4k3/8/8/8/8/8/8/4K3\n66 agrees\ndone -\n",
    ),
]

# Where the first write fails, nothing is read.
UNTOLD = but(LIVE, out=b"", status=3, err=b"write fault\n", more=1, unread=1, room=0)

# A capture as large as it may be: a run of stray bytes.
LARGEST = but(LIVE, sent=b"0 capture 67108864\n", more=67108864, out=START + b"0 fault stray\ndone -\n")


def live() -> None:
    """`live` whole, and where a read gives one byte."""
    leave("live", ATTENDED, NUMBERS, TEXTS, KEPT, ALARMS, NO_ENTRIES, BEFORE_NO_ENTRY, FAILING, CUT_OFF, OPTIONS, [UNTOLD, LARGEST])
    leave_by_bytes("live byte by byte", ATTENDED, NUMBERS, TEXTS, KEPT, ALARMS, NO_ENTRIES, BEFORE_NO_ENTRY)


def lines_of(out: bytes) -> Iterator[bytes]:
    """The lines of answers, without the bytes that stand behind some of them."""
    while out:
        line, _, out = out.partition(b"\n")
        if line.startswith((b"kept ", b"game ")):
            out = out[int(line.split()[1]) :]
        yield line


def said_in(told: Iterable[bytes], words: Tuple[bytes, ...]) -> List[Tuple[int, bytes]]:
    """The lines of the answers that begin with one of these words, and in which answer each is."""
    _, out, _, _ = left_by(but(LIVE, sent=b"".join(told)))
    answers, found = 0, []
    for line in lines_of(out):
        answers += line.startswith(b"done ")
        if line.startswith(words):
            found.append((answers, line))
    return found


def ends() -> None:
    """What is said of the end of a game, and when."""
    for name, told, expected in ENDS:
        same(name, said_in(told, (b"over ", b"played ", b"begins ")), expected)


def recovers() -> None:
    """Only with `--recover` a pair that no picture showed is in the report, and in the text."""
    hidden = INITIAL + HIDDEN + BISHOP
    told = b"0 heard %d\n" % len(hidden) + hidden + b"0 text\n"
    for words, count, text in [
        (["live"], 0, pgn("1. e4 e5 *")),
        (["live", "--recover"], 1, pgn("1. e4 e5 2. Nf3 Nc6 3. Bb5 *")),
    ]:
        status, out, err, _ = left_by(but(LIVE, words=words, sent=told))
        same(f"{words}", (status, out.count(b"116 recovered 2. Nf3 2... Nc6\n"), out.count(game(text)), err), (0, count, 1, b""))


# After them 3... a6, 4. Ba4 and Nf6 by two hands at once, and 5. d3.
BEHIND = updates("a7- a6p b5- g8- a4B f6n d2- d3P")

# Each line of the game is at its byte of the capture, though six dumps were put in.
WITH_PAIRS = [
    b"76 move 1. e4",
    b"86 move 1... e5",
    b"116 recovered 2. Nf3 2... Nc6",
    b"116 move 2. Nf3",
    b"116 move 2... Nc6",
    b"116 move 3. Bb5",
    b"126 move 3... a6",
    b"156 recovered 4. Ba4 4... Nf6",
    b"156 move 4. Ba4",
    b"156 move 4... Nf6",
    b"156 move 5. d3",
]


def offsets() -> None:
    """Of two pairs, and of what comes behind them."""
    sent = INITIAL + HIDDEN + BISHOP + BEHIND
    for told in (b"0 heard %d\n" % len(sent) + sent, b"0 capture %d\n" % len(sent) + sent):
        _, out, _, _ = left_by(but(LIVE, words=["live", "--recover"], sent=told))
        lines = [line for line in out.split(b"\n") if line.partition(b" ")[2].startswith((b"move", b"recovered"))]
        same(f"{told[:12]!r}", lines, WITH_PAIRS)


TABLES = [live, ends, recovers, offsets]
