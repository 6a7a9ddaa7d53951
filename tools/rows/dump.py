"""`hart dump`: what was heard, and its lines."""

from rows import FailedWrite, Read

# The beginning of a message with the byte count 255, and a whole message in its payload.
FALSE_START = "FF FF 82 B7 42 0A 1B 2C 13 FF FF FF FF FF FF 02 80 00 00 82"
FIRST_LINE = "2 7 STX P 0 @0 - 0 -\n"

# A message of each master, and their lines.
TWO_MESSAGES = "FF FF 02 80 00 00 82 FF FF 02 00 00 00 02"
TWO_LINES = FIRST_LINE + "9 14 STX S 0 @0 - 0 -\n"

# The longest message.
LONGEST_MESSAGE = "FF" * 20 + "E28000000000000000 00FF" + "00" * 255 + "9D"
LONGEST_LINE = "20 287 STX P 0 all 000000 0 " + "00" * 255 + "\n"

# What was heard, its lines, and the line of its fault, if it has one.
ROWS = (
    ("", "", ""),
    ("02 80 00 00 82", "", ""),
    ("FF FF 02 80 00 00 82", FIRST_LINE, ""),
    (TWO_MESSAGES, TWO_LINES, ""),
    ("FF FF 02 80 7D 00 FF FF 02 00 00 00 02", "2 7 STX P 0 @0 - 125 -\n", ""),
    ("FF FF!40 02 80 00 00 82", "", ""),
    ("FF!40 FF FF 02 80 00 00 82", "3 8 STX P 0 @0 - 0 -\n", ""),
    (FALSE_START, "15 20 STX P 0 @0 - 0 -\n", ""),
    ("FF FF 82 B7 42 0A 1B 2C 13 03 01 23 45 3D", "2 14 STX P 0 37420A1B2C - 19 012345\n", ""),
    ("FF FF 86 77 42 0A 1B 2C 13 05 00 40 01 23 45 BF", "2 16 ACK S 1 37420A1B2C - 19 0040012345\n", ""),
    ("FF FF E2 80 00 00 00 00 AA BB CC 0B 01 FF 4A", "2 15 STX P 0 all AABBCC 11 FF\n", ""),
    ("FF FF 22 BF 55 00 00 C8", "2 8 STX P 0 @63 55 0 -\n", ""),
    ("FF FF 02 80 00 00 82 8", FIRST_LINE, "bad hex at 21\n"),
    ("FF FF 02 80 00 00 82!08", "", "bad hex at 18\n"),
    ("FF FF 0G", "", "bad hex at 6\n"),
    ("02!08", "", "bad hex at 0\n"),
    ("\xe9", "", "bad hex at 0\n"),
    ("FFFF0280000082 G FFFF0200000002", FIRST_LINE, "bad hex at 15\n"),
    (LONGEST_MESSAGE, LONGEST_LINE, ""),
    (FALSE_START + " 00" * 246, "15 20 STX P 0 @0 - 0 -\n", ""),
)

# A message whose last item is not whole yet, because nothing follows its digits.
OPEN_MESSAGE = "FF FF 02 80 00 00 82"
ONE_MESSAGE = OPEN_MESSAGE + " "
MESSAGES = "FF FF 02 80 00 00 82 FF FF 02 00 00 00 02 FF FF 02 80 7D 00 FF "
LINES = TWO_LINES + "16 21 STX P 0 @0 - 125 -\n"

# An earlier start holds back the whole message within its body, until the last but one item turns out not to be its check byte. The
# second text ends before that item.
HELD_BACK = "FF FF 02 80 00 08 FF FF 02 80 00 00 82 00 00 00 "
STILL_HELD_BACK = "FF FF 02 80 00 08 FF FF 02 80 00 00 82 00 "
HELD_LINE = "8 13 STX P 0 @0 - 0 -\n"

BAD_HEX = "FF FF 02 80 00 00 82 8G FF FF 02 00 00 00 02 "

# Each line is written before more is read, so a write that fails ends the call there.
FAILED_WRITES = (
    FailedWrite(MESSAGES, write=0, reads=21),
    FailedWrite(MESSAGES, write=1, reads=42, written=FIRST_LINE),
    FailedWrite(MESSAGES, write=2, reads=63, written=TWO_LINES),
    FailedWrite(MESSAGES, most_written=1, write=20, reads=21, written="2 7 STX P 0 @0 - 0 -"),
    FailedWrite(MESSAGES, most_written=1, write=21, reads=42, written=FIRST_LINE),
    FailedWrite(MESSAGES, most_read=2, write=0, reads=11),
    FailedWrite(MESSAGES, most_read=3, write=1, reads=14, written=FIRST_LINE),
    FailedWrite(MESSAGES, most_read=None, write=0, reads=1),
    FailedWrite(MESSAGES, most_read=None, most_written=1, write=21, reads=1, written=FIRST_LINE),
    FailedWrite(HELD_BACK, write=0, reads=45),
    FailedWrite(BAD_HEX, most_read=None, write=0, reads=1),
)

# Nothing is read after a fault or after the end.
READS = (
    Read(MESSAGES, reads=64, writes=3, written=LINES),
    Read(MESSAGES, most_read=None, reads=2, writes=1, written=LINES),
    Read(HELD_BACK, reads=49, writes=1, written=HELD_LINE),
    # The end makes an item whole, and a failed read does not.
    Read(OPEN_MESSAGE, reads=21, writes=1, written=FIRST_LINE),
    Read(OPEN_MESSAGE, after="failure", fault="read fault\n", reads=21, writes=0),
    Read(OPEN_MESSAGE, after="failure", most_read=None, fault="read fault\n", reads=2, writes=0),
    Read(ONE_MESSAGE, after="failure", fault="read fault\n", reads=22, writes=1, written=FIRST_LINE),
    Read(ONE_MESSAGE, after="failure", most_read=None, fault="read fault\n", reads=2, writes=1, written=FIRST_LINE),
    Read(STILL_HELD_BACK, after="failure", fault="read fault\n", reads=43, writes=1, written=HELD_LINE),
    # Bad hex is decided at the first byte after which it can no longer become an item.
    Read(BAD_HEX, fault="bad hex at 21\n", reads=23, writes=1, written=FIRST_LINE),
    Read(BAD_HEX, most_read=None, fault="bad hex at 21\n", reads=1, writes=1, written=FIRST_LINE),
    Read("FF 82!80 FF", fault="bad hex at 3\n", reads=7, writes=0),
    Read("FF 82!08 FF", fault="bad hex at 3\n", reads=8, writes=0),
)

# The end of an input of the greatest length, what comes after it, the line of the fault, and what is written.
LONGEST_INPUTS = (
    (OPEN_MESSAGE, "end", "", FIRST_LINE),
    (OPEN_MESSAGE, "spaces", "input too long\n", ""),
    (ONE_MESSAGE, "spaces", "input too long\n", FIRST_LINE),
)
