"""The frames that tests and measurements send as a board would: the recorder itself makes none."""

from typing import Sequence


def dump(picture: Sequence[int], rotated: bool) -> bytes:
    """The dump of a board that shows these 64 codes. It goes by field; field n of a rotated board is square 63 - n."""
    return b"\x86\x00\x43" + bytes(reversed(picture) if rotated else picture)
