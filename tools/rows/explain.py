"""`hart explain`: what was heard, and what is said of it."""

import functools
import operator

from fuzz.units import unit_text
from rows import FailedWrite, Read

IDENTIFY_HEADER = "request of the primary master to the device at polling address 0, Command 0, read unique identifier\n"
IDENTIFY = f"2-7: {IDENTIFY_HEADER}"
IDENTIFY_AGAIN = IDENTIFY_HEADER.replace("\n", ", sending 2\n")
SEEMS_IDENTIFY = f"    seems: {IDENTIFY_HEADER}"

UNLISTED = "request of the primary master to the device at polling address 0, Command 125"
UNLISTED_REPLY = "{}-{}: reply of the device at polling address 0 to the primary master, Command 125"

REPLY_WITH_UNIT = bytes.fromhex("86B7420A1B2C01070000")
VALUE = bytes.fromhex("41C80000")
CODES = range(256)


def with_unit(code):
    """A reply to Command 1 with this unit code, after two preamble bytes."""
    checked = REPLY_WITH_UNIT + bytes([code]) + VALUE
    return b"\xff\xff" + checked + bytes([functools.reduce(operator.xor, checked)])


def said_with_unit(code, start):
    """What is said of that reply, whose preamble bytes begin at a place."""
    return (
        f"{start + 2}-{start + len(with_unit(code))}: reply of device 37420A1B2C to the primary master, Command 1, read primary variable\n"
        "    response code: 0, success\n"
        "    device status: none\n"
        f"    primary variable unit: {unit_text(code)}\n"
        "    primary variable: 0x41C80000\n"
    )


EACH_UNIT = (
    b"".join(with_unit(code) for code in CODES).hex(" ").upper(),
    "".join(said_with_unit(code, code * len(with_unit(0))) for code in CODES),
    "",
)

SEEMS_WRITE = "    seems: request of the primary master to device 37420A1B2C, Command 19, write final assembly number\n"

# What was heard, why no message stands at 2, and the line of its header, if that was heard.
SEEN_HEADERS = (
    # Cut right before and right after the command, by the end or by a fault.
    ("FF FF 82 B7 42 0A 1B 2C", "it ends before its byte count", ""),
    ("FF FF 82 B7 42 0A 1B 2C 13", "it ends before its byte count", SEEMS_WRITE),
    ("FF FF 82 B7 42 0A 1B 2C 13!40", "the character at 8 has the fault bits 0x40", ""),
    ("FF FF 82 B7 42 0A 1B 2C 13 03!40", "the character at 9 has the fault bits 0x40", SEEMS_WRITE),
    ("FF FF 02 80", "it ends before its byte count", ""),
    ("FF FF 02!40 80 00 00 82", "the character at 2 has the fault bits 0x40", ""),
    ("FF FF 82 B7 42 0A!20 1B 2C 13 03 01 23 45 3D", "the character at 5 has the fault bits 0x20", ""),
    # The command stands after the expansion bytes.
    ("FF FF 62 80 01 02 03", "it ends before its byte count", ""),
    (
        "FF FF 62 80 01 02 03 21",
        "it ends before its byte count",
        "    seems: request of the primary master to the device at polling address 0, Command 33\n",
    ),
    (
        "FF FF A6 77 42 0A 1B 2C 55 13 01",
        "it is a reply, and its byte count 1 is below 2",
        "    seems: reply of device 37420A1B2C to the secondary master, Command 19, write final assembly number\n",
    ),
    # Replies, broadcast and polling addresses.
    (
        "FF FF 86 A6 06 12 34 56 03 02 00 41!40",
        "the character at 11 has the fault bits 0x40",
        "    seems: reply of device 2606123456 to the primary master, Command 3, read dynamic variables and loop current\n",
    ),
    (
        "FF FF 86 00 00 00 00 00 0B 02 00",
        "it lacks 2 characters, the last of them its check byte",
        "    seems: reply of one of all devices to the secondary master, Command 11, read unique identifier associated with tag\n",
    ),
    (
        "FF FF 82 80 00 00 00 00 15 20 20",
        "it lacks 32 characters, the last of them its check byte",
        "    seems: request of the primary master to all devices, Command 21, read unique identifier associated with long tag\n",
    ),
    (
        "FF FF 06 7F FF 02 00 00 00",
        "the check byte is 0x00 at 8, and 0x84 would fit",
        "    seems: reply of the device at polling address 63 to the secondary master, Command 255\n",
    ),
    # No delimiter of this profile has a header.
    ("FF FF 81 B7 42 0A 1B 2C 13 03 01 23 45 3E", "it is a burst message, which is not read", ""),
    ("FF FF 8A B7 42 0A 1B 2C 13 03 01 23 45 35", "0x8A is no delimiter of this profile", ""),
)

# What was heard, what is said of it, and the line of its fault, if it has one.
ROWS = (
    ("", "", ""),
    ("FF FF", "", ""),
    ("02 80 00 00 82", "", ""),
    ("FF FF!40 02 80 00 00 82", "", ""),
    ("FF FF 02 80 00 00 82", IDENTIFY, ""),
    (
        "FF FF E2 80 00 00 00 00 AA BB CC 0B 01 FF 4A",
        "2-15: request of the primary master to all devices, Command 11, read unique identifier associated with tag\n"
        "    expansion bytes: 0xAABBCC\n"
        "    data: 0xFF\n"
        "    too few data: 1 of 6\n",
        "",
    ),
    (
        "FF FF 82 B7 42 0A 1B 2C 12 15 41 53 50 B7 1C 31 DA 28 10 25 01 60 82 08 20 82 08 20 05 01 7E 49",
        "2-32: request of the primary master to device 37420A1B2C, Command 18, write tag, descriptor, date\n"
        "    tag: \"PUMP-101\"\n"
        "    descriptor: \"6\" PIPE         \"\n"
        "    date: 2026-01-05\n",
        "",
    ),
    (
        "FF FF 82 B7 42 0A 1B 2C 16 20 50 6F 6D 70 65 20 E0 20 76 69 64 65 20 6E "
        "B0 20 33 20 20 20 20 20 20 20 20 20 20 20 20 20 20 20 08",
        "2-43: request of the primary master to device 37420A1B2C, Command 22, write long tag\n"
        "    long tag: \"Pompe à vide n° 3               \"\n",
        "",
    ),
    (
        "FF FF 82 B7 42 0A 1B 2C 16 20 7F 20 20 20 20 20 20 20 20 20 20 20 20 20 "
        "20 20 20 20 20 20 20 20 20 20 20 20 20 20 20 20 20 20 23",
        "2-43: request of the primary master to device 37420A1B2C, Command 22, write long tag\n"
        "    long tag: 0x7F20202020202020202020202020202020202020202020202020202020202020\n",
        "",
    ),
    (
        "FF FF 82 B7 42 0A 1B 2C 06 03 40 02 55 58",
        "2-14: request of the primary master to device 37420A1B2C, Command 6, write polling address\n"
        "    polling address: 64\n"
        "    loop current mode: 2\n"
        "    refused: 2, invalid selection\n"
        "    ignored: 0x55\n",
        "",
    ),
    (
        "FF FF 86 B7 42 0A 1B 2C 13 05 00 60 01 23 45 5F",
        "2-16: reply of device 37420A1B2C to the primary master, Command 19, write final assembly number\n"
        "    response code: 0, success\n"
        "    device status: configuration changed, cold start\n"
        "    final assembly number: 0x012345\n",
        "",
    ),
    (
        "FF FF 86 B7 42 0A 1B 2C 09 17 00 00 00 F5 00 27 41 40 00 00 C0 09 00 FA 7F A0 00 00 30 00 00 00 00 5F",
        "2-34: reply of device 37420A1B2C to the primary master, Command 9, read device variables with status\n"
        "    response code: 0, success\n"
        "    device status: none\n"
        "    extended device status: 0x00\n"
        "    device variables: code 245, classification 0, unit 39 (milliamperes), value 0x41400000, status 0xC0; "
        "code 9, classification 0, unit 250 (not used), value 0x7FA00000, status 0x30\n"
        "    time stamp: 0x00000000\n",
        "",
    ),
    (
        "FF FF 86 B7 42 0A 1B 2C 07 02 00 00 4B",
        "2-13: reply of device 37420A1B2C to the primary master, Command 7, read loop configuration\n"
        "    response code: 0, success\n"
        "    device status: none\n"
        "    data that are no reply to Command 7 of Revision 7: none\n",
        "",
    ),
    (
        "FF FF 86 B7 42 0A 1B 2C 13 03 88 00 01 D7",
        "2-14: reply of device 37420A1B2C to the primary master, Command 19, write final assembly number\n"
        "    communication faults: longitudinal parity\n"
        "    ignored: 0x01\n",
        "",
    ),
    (
        "FF FF 02 80 7D 00 FF FF 02 00 00 00 02",
        "2-7: request of the primary master to the device at polling address 0, Command 125\n"
        "8: no message: only one intact preamble byte stands directly before it\n"
        "    seems: request of the secondary master to the device at polling address 0, Command 0, read unique identifier\n",
        "",
    ),
    # The message lies in what would be a whole body after one preamble byte.
    (
        "FF 82 B7 42 0A 1B 2C 13 09 FF FF 02 80 00 00 82 00 00 50",
        "11-16: request of the primary master to the device at polling address 0, Command 0, read unique identifier\n",
        "",
    ),
    ("FF FF 02 80 00 00 83", "2: no message: the check byte is 0x83 at 6, and 0x82 would fit\n" + SEEMS_IDENTIFY, ""),
    *((heard, f"2: no message: {reason}\n{seems}", "") for heard, reason, seems in SEEN_HEADERS),
    (
        "55 FF FF 82 B7 42 0A 1B 2C 13 FF FF FF FF FF FF 02 80 00 00 82",
        "3: no message: it lacks 246 characters, the last of them its check byte\n"
        "    seems: request of the primary master to device 37420A1B2C, Command 19, write final assembly number\n"
        "16-21: request of the primary master to the device at polling address 0, Command 0, read unique identifier\n",
        "",
    ),
    (
        "FF FF 02 80 00 00 82 FF FF 06 80 0G",
        "2-7: request of the primary master to the device at polling address 0, Command 0, read unique identifier\n"
        "9: no message: it ends before its byte count\n",
        "bad hex at 33\n",
    ),
    # A silence ends what was heard before it, and places are counted on after it.
    ("/", "", ""),
    ("FF FF 02 80 00 00 82/", IDENTIFY, ""),
    ("FF FF 02 80/00 00 82", "2: no message: it ends before its byte count\n", ""),
    ("FF FF 02 80 00/00 82", "2: no message: it ends before its byte count\n" + SEEMS_IDENTIFY, ""),
    (
        "FF FF/02 80 00 00 82 FF/FF 02 80 00 00 82",
        "9: no message: only one intact preamble byte stands directly before it\n" + SEEMS_IDENTIFY,
        "",
    ),
    (
        "FF FF 82 B7 42 / FF FF 02 80 00 00 82 / FF FF 02 80 00 00 83",
        "2: no message: it ends before its byte count\n"
        "7-12: request of the primary master to the device at polling address 0, Command 0, read unique identifier\n"
        "14: no message: the check byte is 0x83 at 18, and 0x82 would fit\n" + SEEMS_IDENTIFY,
        "",
    ),
    ("FF FF 02 80 00/0/", "2: no message: it ends before its byte count\n" + SEEMS_IDENTIFY, "bad hex at 15\n"),
    ("FF FF 02!/", "", "bad hex at 6\n"),
    # The first line of each message or miss begins with the last date before that line's place, if there is one.
    ("@a", "", ""),
    ("@12:00:01.25 FF FF 02 80 00 00 82", f"12:00:01.25 {IDENTIFY}", ""),
    ("FF FF@a 02 80 00 00 82", f"a {IDENTIFY}", ""),
    ("FF FF 02@a 80 00 00 82", IDENTIFY, ""),
    ("@a @b FF FF 02 @c 80 00 00 83", f"b 2: no message: the check byte is 0x83 at 6, and 0x82 would fit\n{SEEMS_IDENTIFY}", ""),
    (
        "@a FF FF 82 B7 42 / FF FF 02 80 00 00 82 @b / FF FF 02 80 00 00 83",
        "a 2: no message: it ends before its byte count\n"
        "a 7-12: request of the primary master to the device at polling address 0, Command 0, read unique identifier\n"
        "b 14: no message: the check byte is 0x83 at 18, and 0x82 would fit\n" + SEEMS_IDENTIFY,
        "",
    ),
    # The word of a date has 1 to 32 printable bytes, and a separator or the end after it.
    (f"@{'~' * 32} FF FF 02 80 00 00 82", f"{'~' * 32} {IDENTIFY}", ""),
    (f"FF @{'!' * 33} FF", "", "bad hex at 3\n"),
    ("FF @ FF", "", "bad hex at 3\n"),
    ("@", "", "bad hex at 0\n"),
    ("FF FF 02 80 00 00 82 @a/b@c FF FF 02 80 00 00 82", f"{IDENTIFY}a/b@c 9-14: {IDENTIFY_AGAIN}", ""),
    ("FF @a\u00e9 FF", "", "bad hex at 3\n"),
    ("@a\x7f FF", "", "bad hex at 0\n"),
    ("FF FF 02 80 00 00 82!08", "2: no message: it lacks 1 character, its check byte\n" + SEEMS_IDENTIFY, "bad hex at 18\n"),
    ("FF FF 0G", "", "bad hex at 6\n"),
    ("02!08", "", "bad hex at 0\n"),
    # Which sending a request is, if it is not the first one. A master asks again after a busy reply, and the other master asks in between.
    (
        "FF FF 02 80 7D 00 FF FF FF 06 80 7D 02 20 00 D9 FF FF 02 00 00 00 02 FF FF 02 80 7D 00 FF FF FF 06 80 7D 02 00 00 F9"
        " FF FF 02 80 7D 00 FF",
        f"2-7: {UNLISTED}\n"
        f"{UNLISTED_REPLY.format(9, 16)}\n    response code: 32, busy\n    device status: none\n"
        f"18-23: {IDENTIFY_HEADER.replace('primary', 'secondary')}"
        f"25-30: {UNLISTED}, sending 2\n"
        f"{UNLISTED_REPLY.format(32, 39)}\n    response code: 0, success\n    device status: none\n"
        f"41-46: {UNLISTED}\n",
        "",
    ),
    EACH_UNIT,
)

# An input after which a read fails, what is said of it, and its fault. An item is whole only once a byte follows it. Bad hex before the
# failed read is reported first.
FAILED_READS = (
    ("", "", "read fault\n"),
    ("FF FF 02 80 00 00 82 ", IDENTIFY, "read fault\n"),
    ("FF FF 02 80 00 00 82", "2: no message: it lacks 1 character, its check byte\n" + SEEMS_IDENTIFY, "read fault\n"),
    ("FF FF 02 80 00 00 82 G", IDENTIFY, "bad hex at 21\n"),
    ("FF FF 02 80 00 00 82 8", IDENTIFY, "read fault\n"),
    ("FF FF 02 80 00 00 82/8", IDENTIFY, "read fault\n"),
)

# What was heard as raw bytes, what is said of it, and the line of its fault, if it has one: no byte is bad hex, and none a separator.
RAW_ROWS = (
    (b"", "", ""),
    (b"\xFF\xFF\x02\x80\x00\x00\x82", IDENTIFY, ""),
    (
        b"FF FF 02 80 00 00 82\n\xFF\xFF\x02\x80\x00\x00\x83",
        "23: no message: the check byte is 0x83 at 27, and 0x82 would fit\n" + SEEMS_IDENTIFY,
        "",
    ),
    (b"\xFF\xFF\x02\x80\x00\x00", "2: no message: it lacks 1 character, its check byte\n" + SEEMS_IDENTIFY, ""),
    (b"0G!@/\xFF\xFF\x20", "7: no message: 0x20 is no delimiter of this profile\n", ""),
)

# An input of raw bytes after which a read fails, what is said of it, and its fault.
RAW_FAILED_READS = (
    (b"", "", "read fault\n"),
    (b"\xFF\xFF\x02\x80\x00\x00\x82", IDENTIFY, "read fault\n"),
    (b"\xFF\xFF\x02\x80\x00\x00", "2: no message: it lacks 1 character, its check byte\n" + SEEMS_IDENTIFY, "read fault\n"),
)

ONE_PREAMBLE = "8: no message: only one intact preamble byte stands directly before it\n" + SEEMS_IDENTIFY

# Two messages, the second with a single preamble byte. An item is whole once a byte follows its digits.
MESSAGES = "FF FF 02 80 00 00 82 FF 02 80 00 00 82 "

# A message whose first three preamble bytes are data of a body that may come after one preamble byte.
IN_OPEN_BODY = "FF 82 B7 42 0A 1B 2C 13 FF FF FF 02 80 00 00 82 "

# Each line is written before more is read, so a write that fails ends the call there.
FAILED_WRITES = (
    FailedWrite(MESSAGES, write=0, reads=21),
    FailedWrite(MESSAGES, write=1, reads=39, written=IDENTIFY),
    FailedWrite(MESSAGES, most_read=2, write=0, reads=11),
    FailedWrite(MESSAGES, most_written=1, write=20, reads=21, written=IDENTIFY[:20]),
    FailedWrite(MESSAGES, most_read=None, write=0, reads=1),
    FailedWrite("FF FF 02 80 00!40 ", write=0, reads=18),
    FailedWrite("FF FF 02 80 00 00 83 ", write=0, reads=21),
    # A silence decides at once whatever was undecided.
    FailedWrite("FF FF 82 B7/FF FF FF ", write=0, reads=12),
    FailedWrite(IN_OPEN_BODY, write=0, reads=48),
)

# Like `FAILED_WRITES`, for raw bytes.
RAW_FAILED_WRITES = (
    FailedWrite(bytes.fromhex(MESSAGES), write=0, reads=7),
    FailedWrite(bytes.fromhex(MESSAGES), write=1, reads=13, written=IDENTIFY),
    FailedWrite(bytes.fromhex(MESSAGES), most_read=7, write=0, reads=1),
)

# Nothing is read after a fault or after the end.
READS = (
    Read(MESSAGES, reads=40, writes=2, written=IDENTIFY + ONE_PREAMBLE),
    Read(MESSAGES, most_read=None, reads=2, writes=1, written=IDENTIFY + ONE_PREAMBLE),
    # The end of the input decides whatever was undecided.
    Read("FF FF 02 80 00 00 ", reads=19, writes=1, written="2: no message: it lacks 1 character, its check byte\n" + SEEMS_IDENTIFY),
    Read("FF FF 02 80 00 00 82 8G FF FF 02 00 00 00 02 ", fault="bad hex at 21\n", reads=23, writes=1, written=IDENTIFY),
    Read("FF 82!08 FF", fault="bad hex at 3\n", reads=8, writes=0),
)
