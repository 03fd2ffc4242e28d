"""Messages of boards, and what is said of them."""

from given.case import dump, pgn, updates

# The dump of the initial position.
INITIAL = dump("rnbqkbnr/pppppppp/8/8/8/8/PPPPPPPP/RNBQKBNR")

# The initial position on a rotated board.
TURNED = dump("RNBKQBNR/PPPPPPPP/8/8/8/8/pppppppp/rnbkqbnr")

# The two kings at home.
TWO_KINGS = dump("4k3/8/8/8/8/8/8/4K3")

# White may mate on h8.
MATE = dump("k7/8/1K6/8/8/8/8/7R")

# After 1. e4.
KINGS_PAWN = dump("rnbqkbnr/pppppppp/8/8/4P3/8/PPPP1PPP/RNBQKBNR")

# White may castle short.
CASTLING = dump("4k3/8/8/8/8/8/8/4K2R")

# The position of that dump.
CASTLING_FEN = "4k3/8/8/8/8/8/8/4K2R w K - 0 1"

# e2 is empty now.
E2_EMPTY = updates("e2-")

# e2 shows a white pawn now.
E2_PAWN = updates("e2P")

# e4 shows a white pawn now.
E4_PAWN = updates("e4P")

# The first bytes of an update.
CUT = b"\x8e\x00\x05\x34"

# A message that is ignored.
OTHER = b"\x93\x00\x05\x01\x08"

# A stray byte, a frame of a wrong size, and one with a wrong field.
BROKEN = b"\x05\x34\x00\x8e\x00\x06\x8e\x00\x05\x40"

# 1:30:00 and 1:29:59.
TIME = b"\x8d\x00\x0a\x01\x30\x00\x01\x29\x59\x00"

# No clock is connected.
NO_CLOCK = b"\x8d\x00\x0a\x01\x30\x00\x01\x29\x59\x20"

ONE_MOVE = pgn(movetext="1. e4 *")

# The text of a game in which White castles short.
CASTLED = pgn(fen=CASTLING_FEN, movetext="1. O-O *")

# What `pictures` says of the initial position.
INITIAL_PLACEMENT = b"rnbqkbnr/pppppppp/8/8/8/8/PPPPPPPP/RNBQKBNR\n"

# The same without the pawn of e2.
LIFTED_PLACEMENT = b"rnbqkbnr/pppppppp/8/8/8/8/PPPP1PPP/RNBQKBNR\n"

# After 1. e4.
KINGS_PAWN_PLACEMENT = b"rnbqkbnr/pppppppp/8/8/4P3/8/PPPP1PPP/RNBQKBNR\n"

# What `show` says of the dump of the initial position, where it comes first.
INITIAL_LINE = b"66 dump 89acba9877777777000000000000000000000000000000001111111123465432\n"
