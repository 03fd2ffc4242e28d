"""The words that the recorder prints, as far as the cases wait for them: a change of words is a change of one line here.

Each is as short as it can be and still tell; a case that looks for more says so itself.
"""

import re

AGREES = "agrees"
CLOCK_STOPPED = "; clock stopped"
IN_HAND = "in hand"
WAITS = "waits for the board"
WRONG = "WRONG"
NO_START = "NO START"
SILENT = "SILENT"
UNPLUGGED = "UNPLUGGED"
BACK = "is there"
DISK_FULL = "DISK FULL"
CORRECTION = "correction"
RESULT = "result "
RESULT_TAKEN_BACK = "result *"
OTHER_BOARD = "another board"
ROTATED = "--rotated"
SETTING_UP = "setting up"
BEGINS = "begins"
RECORDS = "records"
LIMIT = "64 MiB"
DROPPED = "dropped"
PLAYED = "what was played is in"
GOES_ON = "the recording then goes on"
OTHER_DEVICE = "isn't there: plug it in. Is it another device? Ctrl-C, and see dgt_live --devices"
GONE_AWAY = "has gone away"

# What is refused, on standard error.
FULL = "is the disk full?"
TOO_LARGE = "(File too large): put that right"  # by a limit of the case
ANOTHER_RECORDER = "another dgt_live"
RESULT_GONE = "the result {} is gone: add it again"
LEAVE_IT_OUT = "For --first, --recover and --strict leave the device out: dgt_live"
IS_RECORDED = "is being recorded: Ctrl-C there, and then this again"
OTHER_OPTIONS = "other options"
WHITE_NAME = "the white player's name"
NO_LINE = "no serial line"
NO_DEVICE = "no device: see dgt_live --devices"
NO_FOLDER = "no folder"
NOT_WRITTEN = "can't be written"

# What to look at where no board answers.
SILENT_ADVICE = ("cable", "power", "right device", "another program")

# The time of day and two blanks stand in front of each line; strokes where it was played before this call.
TIMED = re.compile(r"^(?:\d\d:\d\d:\d\d|--:--:--)  (.*)$")
# What a terminal takes for a command and not for text.
CONTROLS = re.compile(r"\x1b\[[0-9;?]*[A-Za-z]|\x1b[=>78]")
LINE_BEGINS = re.compile(r"\x1b\[[0-9]+;1H")


def plain(text: str) -> str:
    """What a terminal shows, with each text that was written over on a line of its own."""
    return CONTROLS.sub("", LINE_BEGINS.sub("\n", text)).replace("\r\n", "\n").replace("\r", "\n")


def untimed(line: str) -> str:
    """A line without the time of day in front of it."""
    timed = TIMED.match(line)
    return timed.group(1) if timed else line
