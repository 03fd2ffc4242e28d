"""What `recover` gives on."""

from given.case import Case, but, dump, leave, updates
from given.messages import BROKEN, CUT, E2_EMPTY, E2_PAWN, E4_PAWN, INITIAL, OTHER, TIME

# 1. e4 e5, and then two hands at once: both knights are lifted, and f3 is set down before c6.
HIDDEN = updates("e2- e4P e7- e5p g1- b8- f3N c6n")

# 3. Bb5.
BISHOP = updates("f1- b5B")

# After 2. Nf3.
FIRST = dump("rnbqkbnr/pppp1ppp/8/4p3/4P3/5N2/PPPP1PPP/RNBQKB1R")

# After 2... Nc6.
SECOND = dump("r1bqkbnr/pppp1ppp/2n5/4p3/4P3/5N2/PPPP1PPP/RNBQKB1R")

# After 3. Bb5.
THIRD = dump("r1bqkbnr/pppp1ppp/2n5/1B2p3/4P3/5N2/PPPP1PPP/RNBQK2R")

LINE = b"116 recovered 2. Nf3 2... Nc6\n"

RECOVER = Case(words=["recover"])

GIVEN_ON = [
    RECOVER,
    # the dumps are put in behind the picture that confirms the pair, and what comes then behind them
    but(
        RECOVER,
        sent=INITIAL + HIDDEN + BISHOP + OTHER,
        out=INITIAL + HIDDEN + BISHOP + FIRST + SECOND + THIRD + OTHER,
        err=LINE,
    ),
    # no move goes on from the pair
    but(RECOVER, sent=INITIAL + HIDDEN, out=INITIAL + HIDDEN),
    # faults, times, corrections and a rest are given on as they are
    but(
        RECOVER,
        sent=INITIAL + TIME + E2_EMPTY + E2_PAWN + E2_EMPTY + E4_PAWN + BROKEN + OTHER + CUT,
        out=INITIAL + TIME + E2_EMPTY + E2_PAWN + E2_EMPTY + E4_PAWN + BROKEN + OTHER + CUT,
    ),
]

FAILED = [
    but(
        RECOVER,
        sent=INITIAL + HIDDEN + BISHOP,
        fails=True,
        status=3,
        out=INITIAL + HIDDEN + BISHOP + FIRST + SECOND + THIRD,
        err=b"116 recovered 2. Nf3 2... Nc6\nread fault\n",
    ),
    # no frame stands whose line was not told
    but(RECOVER, sent=INITIAL + HIDDEN + BISHOP, error_room=10, status=3, err=b"116 recove"),
]

# The output has room for ten bytes.
FULL = but(
    RECOVER,
    sent=INITIAL + HIDDEN + BISHOP,
    status=3,
    out=b"\x86\0C\x08\t\n\x0c\x0b\n\t",
    err=b"116 recovered 2. Nf3 2... Nc6\nwrite fault\n",
)

def recover() -> None:
    """`recover` over captures, and over streams that fail."""
    leave("recover", GIVEN_ON, FAILED, [but(FULL, room=10)])

TABLES = [recover]
