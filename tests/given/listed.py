"""What `moves`, `positions` and `times` list, and what they refuse."""

from decided.table import same
from given.case import Case, but, leave, left_by

LISTED_MOVES = [
    Case(words=["moves"], out=b"a4\na3\nb4\nb3\nc4\nc3\nd4\nd3\ne4\ne3\nf4\nf3\ng4\ng3\nh4\nh3\nNa3\nNc3\nNf3\nNh3\n"),
    Case(words=["moves", "--fen", "8/4P2k/8/8/8/8/8/4K3 w - - 0 1"], out=b"e8=Q\ne8=R\ne8=B\ne8=N\nKd2\nKe2\nKf2\nKd1\nKf1\n"),
    Case(words=["moves", "--fen", "rnb1kbnr/pppp1ppp/8/4p3/6Pq/5P2/PPPPP2P/RNBQKBNR w KQkq - 1 3"]),
]

REFUSED_MOVES = Case(status=1)

# Positions whose text or counters are wrong.
REFUSED_TEXTS = [
    but(REFUSED_MOVES, words=["moves", "--fen", "4k3/8/8/8/8/8/8/4K3 w - - "], err=b"fen: form\n"),
    but(REFUSED_MOVES, words=["moves", "--fen", "4k3/8/8/8/8/8/8/4K3 w - - 0"], err=b"fen: form\n"),
    but(REFUSED_MOVES, words=["moves", "--fen", "4k3/8/8/8/8/8/8/4K3 w - - bm Ke2;"], err=b"fen: form\n"),
    but(REFUSED_MOVES, words=["moves", "--fen", "x w - - 00 1"], err=b"fen: counters\n"),
    but(REFUSED_MOVES, words=["moves", "--fen", "4k3/8/8/8/8/8/8/4K3 w - - 0 10000"], err=b"fen: counters\n"),
    but(REFUSED_MOVES, words=["moves", "--fen", "4k3/8/8/8/8/8/8/4K12 w - - 0 1"], err=b"fen: placement\n"),
]

# Positions that are not valid.
REFUSED_POSITIONS = [
    but(REFUSED_MOVES, words=["moves", "--fen", "8/8/8/8/8/8/8/4K3 w - - 0 1"], err=b"fen: kings\n"),
    but(REFUSED_MOVES, words=["moves", "--fen", "8/8/8/8/8/8/8/4K3 w - -"], err=b"fen: kings\n"),
    but(REFUSED_MOVES, words=["moves", "--fen", "4k2P/8/8/8/8/8/8/4K3 w - - 0 1"], err=b"fen: pawns\n"),
    but(REFUSED_MOVES, words=["moves", "--fen", "4k3/8/8/8/8/8/8/4K3 w K - 0 1"], err=b"fen: rights\n"),
    but(REFUSED_MOVES, words=["moves", "--fen", "4k3/8/8/8/8/8/8/4K3 w - d6 0 1"], err=b"fen: en passant\n"),
    but(REFUSED_MOVES, words=["moves", "--fen", "4k3/8/8/8/8/8/8/4RK2 w - - 0 1"], err=b"fen: check\n"),
]

# Both sides may castle on both wings.
CASTLING_MOVES = Case(words=["moves", "--fen", "r3k2r/p1ppqpb1/bn2pnp1/3PN3/1p2P3/2N2Q1p/PPPBBPPP/R3K2R w KQkq - 0 1"])

PAWNS = Case(words=["moves", "--fen", "8/2p5/3p4/KP5r/1R3p1k/8/4P1P1/8 w - - 0 1"])

POSITIONS = Case(words=["positions"])

# The FEN of the initial position.
START = b"rnbqkbnr/pppppppp/8/8/8/8/PPPPPPPP/RNBQKBNR w KQkq - 0 1\n"

# After 1. e4.
AFTER_E4 = b"rnbqkbnr/pppppppp/8/8/4P3/8/PPPP1PPP/RNBQKBNR b KQkq e3 0 1\n"

# After 1. e4 c5.
AFTER_C5 = b"rnbqkbnr/pp1ppppp/8/2p5/4P3/8/PPPP1PPP/RNBQKBNR w KQkq c6 0 2\n"

# After 1. e4 c5 2. Nf3: with the three above it is the example of the PGN standard, section 16.1.4.
AFTER_NF3 = b"rnbqkbnr/pp1ppppp/8/2p5/4P3/5N2/PPPP1PPP/RNBQKB1R b KQkq - 1 2\n"

# Words between any blanks, or none.
WORDS = [
    but(POSITIONS, out=START),
    but(POSITIONS, sent=b" \t\r\n\n ", out=START),
    but(POSITIONS, sent=b"e4 c5 Nf3", out=START + AFTER_E4 + AFTER_C5 + AFTER_NF3),
    but(POSITIONS, sent=b"\t e4\r\n\r\nc5\tNf3\n", out=START + AFTER_E4 + AFTER_C5 + AFTER_NF3),
    # as many bytes as an input has at most
    but(POSITIONS, sent=b"e4", more=1_048_574, like=b" ", out=START + AFTER_E4),
]

# Moves that change more than two squares, and starts that are given.
STARTS = [
    but(
        POSITIONS,
        words=["positions", "--fen", "r3k2r/8/8/8/8/8/8/R3K2R w KQkq - 0 1"],
        sent=b"O-O O-O-O",
        out=b"r3k2r/8/8/8/8/8/8/R3K2R w KQkq - 0 1\n" + b"r3k2r/8/8/8/8/8/8/R4RK1 b kq - 1 1\n"
        + b"2kr3r/8/8/8/8/8/8/R4RK1 w - - 2 2\n",
    ),
    but(
        POSITIONS,
        words=["positions", "--fen", "r3k2r/8/8/8/8/8/8/R3K2R b KQkq - 0 1"],
        sent=b"O-O O-O-O",
        out=b"r3k2r/8/8/8/8/8/8/R3K2R b KQkq - 0 1\n" + b"r4rk1/8/8/8/8/8/8/R3K2R w KQ - 1 2\n"
        + b"r4rk1/8/8/8/8/8/8/2KR3R b - - 2 2\n",
    ),
    # en passant, from a FEN of four fields
    but(
        POSITIONS,
        words=["positions", "--fen", "4k3/8/8/8/3p4/8/4P3/4K3 w - -"],
        sent=b"e4 dxe3",
        out=b"4k3/8/8/8/3p4/8/4P3/4K3 w - - 0 1\n" + b"4k3/8/8/8/3pP3/8/8/4K3 b - e3 0 1\n"
        + b"4k3/8/8/8/8/4p3/8/4K3 w - - 0 2\n",
    ),
    but(
        POSITIONS,
        words=["positions", "--fen", "8/4P2k/8/8/8/8/8/4K3 w - - 3 40"],
        sent=b"e8=N Kg8",
        out=b"8/4P2k/8/8/8/8/8/4K3 w - - 3 40\n" + b"4N3/7k/8/8/8/8/8/4K3 b - - 0 40\n" + b"4N1k1/8/8/8/8/8/8/4K3 w - - 1 41\n",
    ),
    # a word of seven characters
    but(
        POSITIONS,
        words=["positions", "--fen", "7k/8/8/8/8/Q7/1p6/Q1Q1K3 w - - 0 1"],
        sent=b"Qa1xb2+",
        out=b"7k/8/8/8/8/Q7/1p6/Q1Q1K3 w - - 0 1\n" + b"7k/8/8/8/8/Q7/1Q6/2Q1K3 b - - 0 1\n",
    ),
    # and one of eight
    but(
        POSITIONS,
        words=["positions", "--fen", "7k/8/8/8/8/Q7/1p6/Q1Q1K3 w - - 0 1"],
        sent=b"Qa1xb2++",
        status=1,
        out=b"7k/8/8/8/8/Q7/1p6/Q1Q1K3 w - - 0 1\n",
        err=b"move 1: not a legal move\n",
    ),
]

REFUSED_WORDS = Case(words=["positions"], status=1)

REFUSED_INPUTS = [
    # the third word, and what comes behind it counts for nothing
    but(REFUSED_WORDS, sent=b"e4 c5 e5e6 Nf3", out=START + AFTER_E4 + AFTER_C5, err=b"move 3: not a legal move\n"),
    # a move that was legal before it was made
    but(REFUSED_WORDS, sent=b"e4 e4", out=START + AFTER_E4, err=b"move 2: not a legal move\n"),
    # other bytes are no blanks
    but(REFUSED_WORDS, sent=b"e4\0c5", out=START, err=b"move 1: not a legal move\n"),
    # one byte past the limit is read, and no more
    but(REFUSED_WORDS, sent=b"e4", more=1_048_579, like=b" ", unread=4, err=b"input: too long\n"),
    # a start that is refused: nothing is read
    but(REFUSED_WORDS, words=["positions", "--fen", "4k3/8/8/8/8/8/8/8 w - -"], more=3, unread=3, err=b"fen: kings\n"),
]

TIMES = Case(words=["times"])

REFUSED_TIMES = but(TIMES, status=1)

# A heading alone; a game of two calls, with each event; a torn line, and one of a byte.
LISTED = [
    but(TIMES, sent=b"1 times 0\n0 digest 14695981039346656037\n", out=b"generation 0, bytes when it began: 0\n"),
    but(
        TIMES,
        sent=b"1 times 2\n67 digest 2582411440320444296\n"
        + b"0 begin 67\n0 away 35000\n5 opened\n5 asked 3\n12 heard 67\n1600 added 5\n1700 brought 10\n3600000 heard 0\n3600000 brought 0\n"
        + b"0 begin 149\n59999 answered\n60000 took\n3599999 stopped 86400001\n3661001 called\n36000000 gone\n36000001 over 134\n"
        + b"36000002 ok\n36000003 back\n36000004 suspect 7\n36000005 reopened\n",
        out=b"generation 2, bytes when it began: 67\n" + b"0:00:00.000 a call begins, bytes in the capture: 67\n"
        + b"0:00:00.000 nobody had listened before this call for 0:00:35.000\n" + b"0:00:00.005 the line is open\n"
        + b"0:00:00.005 the board is asked, bytes sent: 3\n" + b"0:00:00.012 bytes 67 to 133 came\n"
        + b"0:00:01.600 bytes 134 to 138 were added by hand\n"
        + b"0:00:01.700 bytes 139 to 148 came over the cable of another game\n" + b"1:00:00.000 no bytes came\n"
        + b"1:00:00.000 no bytes came over the cable of another game\n" + b"0:00:00.000 a call begins, bytes in the capture: 149\n"
        + b"0:00:59.999 the board behind the serial server answers\n"
        + b"0:01:00.000 the arbiter takes the board on the cable\n"
        + b"0:59:59.999 nobody had listened for 24:00:00.001\n" + b"1:01:01.001 the serial server is called again\n"
        + b"10:00:00.000 the line has gone away\n" + b"10:00:00.001 the game is over, its bytes: 134\n"
        + b"10:00:00.002 somebody has looked: no alarm is open\n" + b"10:00:00.003 the pieces are to be put where they belong\n"
        + b"10:00:00.004 the recorder suspects something, its number: 7\n" + b"10:00:00.005 an arbiter reopens the game\n",
    ),
    but(
        TIMES,
        sent=b"1 times 0\n0 digest 14695981039346656037\n0 begin 0\n7 heard 1\n9 hea",
        out=b"generation 0, bytes when it began: 0\n" + b"0:00:00.000 a call begins, bytes in the capture: 0\n"
        + b"0:00:00.007 bytes 0 to 0 came\n" + b"no event, bytes at the end: 5\n",
    ),
]

# Nothing; no heading; one of another version.
OTHERS = [
    but(REFUSED_TIMES, err=b"times: empty\n"),
    but(REFUSED_TIMES, sent=b"0 begin 0\n", err=b"times: no heading\n"),
    but(REFUSED_TIMES, sent=b"2 times 0\n0 digest 14695981039346656037\n", err=b"times: another version\n"),
]

def moves() -> None:
    """`moves` of positions, and of texts and positions that it refuses; as many as there are."""
    leave("moves", LISTED_MOVES, REFUSED_TEXTS, REFUSED_POSITIONS)
    for case, count in ((CASTLING_MOVES, 48), (PAWNS, 14)):
        status, out, _, _ = left_by(case)
        same(f"the moves of {case.words}", (status, out.count(b"\n")), (0, count))

def positions() -> None:
    """`positions` as moves are played."""
    leave("positions", WORDS, STARTS, REFUSED_INPUTS)

def times() -> None:
    """`times` of files of times."""
    leave("times", LISTED, OTHERS)

TABLES = [moves, positions, times]
