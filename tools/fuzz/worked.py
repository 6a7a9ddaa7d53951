"""Worked messages and scripts, against which the model is held before it judges anything."""

import re
import shlex
from typing import NamedTuple

from .commands import PAGE, SECTION
from .explain import EXAMPLES

REGISTERS = "010001" + "820820" * 14 + "000000"
LONG_TAG = "20" * 32
IMAGE_PREFIX = f"image 02{REGISTERS[2:]}"
WRITE = "P 20 82B7420A1B2C13030123453D\n"
WRITTEN = WRITE + "D 5 86B7420A1B2C130500400123457F\n"
WRITTEN_AFTER_RESTART = WRITE + "D 5 86B7420A1B2C130500600123455F\n"
FAULTS_REPLY = "D 5 86B7420A1B2C13028800D7\n"
IDENTITY = "180000FE37420507010218000A1B2C05040000000037003701"
SUBMIT_WRITE = "submit P 37420A1B2C 19 012345\n"
RESET = "P 20 82B7420A1B2C260200016F\n"
READ_POLLING = "P 20 82B7420A1B2C07004D\n"
FRAME_IN_DATA = "FFFF0280000082" + "00" * 17
REQUEST = "FF FF FF FF FF 82 B7 42 0A 1B 2C "
REPLY = "FF FF FF FF FF 86 B7 42 0A 1B 2C "
LONG_TAG_OF_PUMP = "50554D502D313031" + "20" * 24
IDENTIFY_LONG_PUMP = f"FF FF 82 80 00 00 00 00 15 20 {LONG_TAG_OF_PUMP} 32"
INSIDE = "FF FF 82 B7 42 0A 1B 2C 13 FF FF FF FF FF FF 02 80 00 00 82"
SPACES = "82 08 20 "
TAG_OF_PUMP = "41 53 50 B7 1C 31 "
IDENTIFY_PUMP = "FF FF 82 80 00 00 00 00 0B 06 41 53 50 B7 1C 31 D7"
TWO_MASTERS = SUBMIT_WRITE + "submit S 37420A1B2C 19 0A0B0C\nturn P ok lost\nturn S ok ok\n"
TWO_WRITTEN = WRITTEN + "S 20 8237420A1B2C13030A0B0CD7\nD 5 8637420A1B2C130500400A0B0C95\n"

IDENTIFIED = "request of the primary master to the device at polling address 0, Command 0, read unique identifier"
IDENTITY_REPLY = "reply of the device at polling address 0 to the primary master, Command 0, read unique identifier"

# How wide the names of the parts in docs/worked.txt are.
NAME_WIDTH = 9


class Call(NamedTuple):
    """A call of docs/worked.txt: its words, what it reads, what it writes, its fault or "", and whether more input may follow."""

    words: list
    text: str
    written: str
    fault: str
    goes_on: bool


def calls():
    """The calls of docs/worked.txt."""
    for block in PAGE.with_name("worked.txt").read_text(encoding="utf-8").split("\n\n"):
        parts, name = {}, ""
        for line in block.splitlines():
            if not line.startswith("#"):
                name = line[:NAME_WIDTH].strip() or name
                parts[name] = f"{parts[name]}\n{line[NAME_WIDTH:]}" if name in parts else line[NAME_WIDTH:]
        if parts:
            words, fault, so_far = shlex.split(parts.pop("call")), parts.pop("fault", ""), parts.pop("so far", "")
            written = parts["output"] + "\n" if parts.get("output") else ""
            yield Call(words, parts.get("input", so_far[1:-1]), written, fault, so_far != "")


CALLS = tuple(calls())

# The input of `hart dump`, its lines, and its fault.
DUMPED = (
    (INSIDE + " 00" * 246, "15 20 STX P 0 @0 - 0 -\n", ""),
    ("FF" * 20 + "E2800000000000000000FF" + "00" * 255 + "9D", "20 287 STX P 0 all 000000 0 " + "00" * 255 + "\n", ""),
    ("FF FF 06 80 00 01 00 87", "", ""),
)

# What is said, as the pages show it: lines after the first are indented by nine spaces, continued lines by eight more.
SAID = r"said     (.+(?:\n {9}.+)*)\n"
INDENT, GOES_ON = "\n" + 9 * " ", "\n" + 17 * " "


def said_text(shown):
    """The text of what a page shows as said."""
    return shown.replace(GOES_ON, " ").replace(INDENT, "\n") + "\n"


# What `hart explain` hears and says, as docs/explained.txt shows it; what is heard may be wrapped.
HEARD = re.compile(r"^heard    (.+(?:\n {9}.+)*)\n" + SAID, re.MULTILINE)

# The blocks of docs/COMMANDS.md that show what a new bench device hears and replies. The parts of a block, in this order: what happened
# before (optional), the request, the reply or `silence`, and what is said of request and reply (optional).
SHOWN = re.compile(r"^```\n(?:after    (.+)\n)?request  ([0-9A-F\s]+)^(?:reply    ([0-9A-F\s]+)|silence\n)(?:" + SAID + ")?^```$",
                   re.MULTILINE)
ON_PAGE = [shown for after, *shown in SHOWN.findall(PAGE.read_text(encoding="utf-8")) if not after]
AFTER_COMMAND = re.compile(r"Command (\d+)")


def served_after():
    """Yields input and output of `hart serve` for each worked message that comes after another one, or after a word, as the page says."""
    page = PAGE.read_text(encoding="utf-8")
    first = {number: SHOWN.search(section) for number, _, section in SECTION.findall(page)}
    for after, request, reply, _ in SHOWN.findall(page):
        if after:
            command = AFTER_COMMAND.fullmatch(after)
            before = first[command[1]] if command else None
            heard, said = (before[2], before[3]) if before else (after, "ok")
            yield f"{line_of(heard)}\n{line_of(request)}\n", f"{line_of(said)}\n{line_of(reply)}\n"


def line_of(shown):
    """A message of the page as the program writes it; words are left as they are."""
    try:
        return bytes.fromhex(shown).hex(" ").upper()
    except ValueError:
        return shown


# A request and its reply, as docs/WIRE.md shows them.
PAIR = re.compile(r"^request +([0-9A-F ]+)\nreply +([0-9A-F ]+)$", re.MULTILINE)

# A request and its reply, as docs/explained.txt shows them, and what is said of both.
SAID_OF_BOTH = re.compile(r"^request  ([0-9A-F\s]+)^reply    ([0-9A-F\s]+)^" + SAID, re.MULTILINE)

# The input of `hart explain`, its text, and its fault.
EXPLAINED = (
    *((heard, said_text(said), "") for heard, said in HEARD.findall(EXAMPLES)),
    *((request + reply, said_text(said), "") for request, reply, said in ON_PAGE if said),
    *((request + reply, said_text(said), "") for request, reply, said in SAID_OF_BOTH.findall(EXAMPLES)),
    ("FF 02 80 00 00 82", f"1: no message: only one intact preamble byte stands directly before it\n    seems: {IDENTIFIED}\n", ""),
    ("FF!40 FF 02 80 00 00 82", f"2: no message: only one intact preamble byte stands directly before it\n    seems: {IDENTIFIED}\n", ""),
    ("FF FF FF!40 02 80 00 00 82", "2: no message: the character at 2 has the fault bits 0x40\n", ""),
    ("FF FF 01 80!40 00 00 81", "2: no message: it is a burst message, which is not read\n", ""),
    ("FF FF 26 80 55 00 00!20", f"2: no message: the character at 6 has the fault bits 0x20\n    seems: {IDENTITY_REPLY}\n", ""),
    ("FF FF 26 80 55 00 00 00!20", f"2: no message: it is a reply, and its byte count 0 is below 2\n    seems: {IDENTITY_REPLY}\n", ""),
    ("FF FF 02 80 00 00", f"2: no message: it lacks 1 character, its check byte\n    seems: {IDENTIFIED}\n", ""),
    ("FF FF 02 80 00 00 82 8", f"2-7: {IDENTIFIED}\n", "bad hex at 21"),
)

# The input of `hart answer`, and its reply.
ANSWERED = (
    *((request, reply) for request, reply, _ in ON_PAGE),
    *PAIR.findall(PAGE.with_name("WIRE.md").read_text(encoding="utf-8")),
    ("FF FF 02 00 00 00 02", "FF" * 5 + "060000" + IDENTITY + "B1"),
    (INSIDE, "FF" * 5 + "068000" + IDENTITY + "31"),
    ("FF FF 02 80 00 00 82 FF FF 02 00 00 00 02", ""),
    (IDENTIFY_PUMP, ""),
    (REQUEST + "13 03 01 23!40 45 3D", REPLY + "13 02 C0 00 9F"),
    (REQUEST + "13 03!20 01 23 45 3C", REPLY + "13 02 A8 00 F7"),
    (REQUEST + "13 03!20 01 23!40 45 3C", REPLY + "13 02 E8 00 B7"),
    (REQUEST + "13 02 01 23 45 3D", REPLY + "13 02 88 00 D7"),
    (REQUEST + "12 03 01 23 45 3D", REPLY + "12 02 88 00 D6"),
    (REQUEST + "13 04 01 23 45 3D", ""),
    ("FF FF 82 B7 42 0A 1B 2D 13 03 01 23 45 3C", ""),
    ("FF FF 02 80 00 00 83", ""),
    ("FF FF 82 37 42 0A 1B 2C 13 03 0A 0B 0C D6", "FF FF FF FF FF 86 37 42 0A 1B 2C 13 02 88 00 57"),
    ("FF FF 82 B7 42!10 0A 1B 2C 13 03 01 23 45 3D", ""),
    (REQUEST + "13 03 01 23 45", ""),
    ("FF FF 00 " + REQUEST + "13 03 01 23 45 3C", ""),
    (REQUEST + "13 03 01 23 45 3C FF FF 02 80 00 00 82", "FF" * 5 + "068000" + IDENTITY + "31"),
    ("FF FF 82 80 00 00 00 00 15 20" + LONG_TAG + "37", "FF" * 5 + "86800000000015" + IDENTITY + "A4"),
    (IDENTIFY_LONG_PUMP, ""),
    (REQUEST + "16 21" + "FF" * 33 + "82", REPLY + "16 22 00 40" + "FF" * 32 + "3A"),
)

# The image of `hart answer`, its input, and its reply.
ANSWERED_FROM = (
    (f"{REGISTERS}000000000004", REQUEST + "13 03 01 23 45 3D", REPLY + "13 02 07 00 58"),
    (f"{REGISTERS}000000000004", REQUEST + "12 15 " + TAG_OF_PUMP + SPACES * 4 + "1D 02 00 8A", REPLY + "12 02 07 00 59"),
    (f"{REGISTERS}000000000000", REQUEST + "12 15 " + TAG_OF_PUMP + SPACES * 4 + "1D 02 00 8A", REPLY + "12 02 09 00 57"),
    (f"{REGISTERS}000000000000", IDENTIFY_PUMP, ""),
    ("010001" + "820820" * 8 + "415350b71c31" + "820820" * 4 + "000000000000000000", IDENTIFY_PUMP,
     "FF" * 5 + "8680000000000B" + IDENTITY + "BA"),
    ("010001" + "820820" * 8 + "415350b71c31" + "820820" * 4 + "000000000000000000", IDENTIFY_LONG_PUMP,
     "FF" * 5 + "86800000000015" + IDENTITY + "A4"),
    (f"{REGISTERS}000000000004", REQUEST + "16 20" + "FF" * 32 + "7C", REPLY + "16 02 07 00 5D"),
    (f"{REGISTERS}012345000103", "FF FF FF FF FF 02 80 00 00 82",
     "FF FF FF FF FF 06 80 00 18 00 40 FE 37 42 05 07 01 02 18 00 0A 1B 2C 05 04 00 01 00 00 37 00 37 01 70"),
    (f"{REGISTERS}012345000103", REQUEST + "26 02 00 01 6F", REPLY + "26 04 00 00 00 01 6D"),
)

# Words that are no image, and the fault of each.
NO_IMAGES = (
    ("0", "bad hex at 1"),
    ("0G", "bad hex at 1"),
    ("é", "bad hex at 0"),
    ("0é", "bad hex at 3"),
    ("", "bad image: length"),
    ("00", "bad image: version"),
    ("03", "bad image: version"),
    ("01", "bad image: length"),
    ("02", "bad image: length"),
    (f"02{REGISTERS[2:]}000000000000", "bad image: length"),
    (f"{REGISTERS}000000{LONG_TAG}000000", "bad image: length"),
    (f"02{REGISTERS[2:]}000000{LONG_TAG}000008", "bad image: field"),
    (f"{REGISTERS}000000000008", "bad image: field"),
    (f"0140{REGISTERS[4:]}000000000000", "bad image: field"),
    (f"010002{REGISTERS[6:]}000000000000", "bad image: field"),
    (f"{REGISTERS[:-6]}1D0200000000000000", "bad image: field"),
)

# The script of `hart sim`, and its text.
PLAYED = (
    ("", f"counter 0\n{IMAGE_PREFIX}000000{LONG_TAG}000000\n"),
    ("turn P ok ok", f"counter 0\n{IMAGE_PREFIX}000000{LONG_TAG}000000\n"),
    ("submit P @0 1", f"1 refused 3\ncounter 0\n{IMAGE_PREFIX}000000{LONG_TAG}000000\n"),
    (SUBMIT_WRITE + "turn P ok lost\nturn P ok ok\n",
     WRITTEN * 2 + f"1 answered 2 00 40 012345\ncounter 2\n{IMAGE_PREFIX}012345{LONG_TAG}000203\n"),
    (SUBMIT_WRITE + "turn P ok FFFF86B7420A1B2C130500400123457E\nturn P ok ok\n",
     WRITTEN * 2 + f"1 answered 2 00 40 012345\ncounter 2\n{IMAGE_PREFIX}012345{LONG_TAG}000203\n"),
    (SUBMIT_WRITE + "turn P FFFF82!40B7420A1B2C13030123453D ok\nturn P ok ok\n",
     WRITE + WRITTEN + f"1 answered 2 00 40 012345\ncounter 1\n{IMAGE_PREFIX}012345{LONG_TAG}000103\n"),
    (SUBMIT_WRITE + "turn P FFFF82B7420A1B2C13030123453C ok\nturn P ok ok\n",
     WRITE + FAULTS_REPLY + WRITTEN + f"1 answered 2 00 40 012345\ncounter 1\n{IMAGE_PREFIX}012345{LONG_TAG}000103\n"),
    ("noise FFFF82B7420A1B2C13030123453C", FAULTS_REPLY + f"counter 0\n{IMAGE_PREFIX}000000{LONG_TAG}000000\n"),
    ("turn S FFFF82B7420A1B2C13030123453C ok", FAULTS_REPLY + f"counter 0\n{IMAGE_PREFIX}000000{LONG_TAG}000000\n"),
    (SUBMIT_WRITE + "turn P lost ok\n" * 4, WRITE * 4 + f"1 noreply 4\ncounter 0\n{IMAGE_PREFIX}000000{LONG_TAG}000000\n"),
    ("submit P all 0\nsubmit S 37420A1B2C 16\nsubmit S 37420A1B2C 16\n",
     f"1 refused 3\n2 unfinished 0\n3 refused 2\ncounter 0\n{IMAGE_PREFIX}000000{LONG_TAG}000000\n"),
    (TWO_MASTERS + "turn P ok ok\n",
     TWO_WRITTEN + WRITTEN + f"1 answered 2 00 40 012345\n2 answered 1 00 40 0A0B0C\ncounter 3\n{IMAGE_PREFIX}012345{LONG_TAG}000303\n"),
    (TWO_MASTERS + "protect on\nturn P ok ok\n",
     TWO_WRITTEN + WRITE + "D 5 86B7420A1B2C1302074018\n1 answered 2 07 40 -\n2 answered 1 00 40 0A0B0C\n"
     f"counter 2\n{IMAGE_PREFIX}0A0B0C{LONG_TAG}000207\n"),
    ("submit P @0 0\nsubmit S 37420A1B2C 6 0501\nturn P ok lost\nturn S ok ok\nturn P ok ok\n",
     f"P 20 0280000082\nD 5 068000{IDENTITY}31\nS 20 8237420A1B2C06020501CA\nD 5 8637420A1B2C06040040050188\nP 20 0280000082\n"
     "1 unfinished 2\n2 answered 1 00 40 0501\ncounter 1\nimage 020501" + "820820" * 14 + "000000" * 2 + LONG_TAG + "000103\n"),
    (SUBMIT_WRITE + "turn P ok ok\nsubmit P 37420A1B2C 38 0001\nturn P ok ok\n",
     WRITTEN + "P 20 82B7420A1B2C260200016F\nD 5 86B7420A1B2C2604000000016D\n1 answered 1 00 40 012345\n2 answered 1 00 00 0001\n"
     f"counter 1\n{IMAGE_PREFIX}012345{LONG_TAG}000102\n"),
    (f"submit P all 21 {LONG_TAG}\nturn P ok ok\nsubmit P all 20\nsubmit P 37420A1B2C 22 " + "FF" * 33 + "\nturn P ok ok\n",
     f"P 20 8280000000001520{LONG_TAG}37\nD 5 86800000000015{IDENTITY}A4\n"
     "P 20 82B7420A1B2C1620" + "FF" * 32 + "7C\nD 5 86B7420A1B2C16220040" + "FF" * 32 + "3A\n"
     f"1 answered 1 00 00 {IDENTITY[6:]}\n2 refused 3\n3 answered 1 00 40 " + "FF" * 32
     + f"\ncounter 1\n{IMAGE_PREFIX}000000" + "FF" * 32 + "000103\n"),
    ("restart", f"counter 0\n{IMAGE_PREFIX}000000{LONG_TAG}000000\n"),
    ("restart\n" + SUBMIT_WRITE + "turn P ok ok\nsubmit P 37420A1B2C 7\nturn P ok ok\nsubmit S 37420A1B2C 7\nturn S ok ok\n",
     WRITTEN_AFTER_RESTART + READ_POLLING + "D 5 86B7420A1B2C0704004000010C\nS 20 8237420A1B2C0700CD\nD 5 8637420A1B2C070400600001AC\n"
     f"1 answered 1 00 60 012345\n2 answered 1 00 40 0001\n3 answered 1 00 60 0001\ncounter 1\n{IMAGE_PREFIX}012345{LONG_TAG}000103\n"),
    ("restart\nsubmit P 37420A1B2C 7\nturn P ok lost\nturn P ok ok\n",
     READ_POLLING + "D 5 86B7420A1B2C0704002000016C\n" + READ_POLLING + "D 5 86B7420A1B2C0704000000014C\n"
     f"1 answered 2 00 00 0001\ncounter 0\n{IMAGE_PREFIX}000000{LONG_TAG}000000\n"),
    ("restart\nprotect on\nnoise FFFF82B7420A1B2C13030123453C\n" + SUBMIT_WRITE + "turn P ok ok\nsubmit P 37420A1B2C 7\nturn P ok ok\n",
     FAULTS_REPLY + WRITE + "D 5 86B7420A1B2C1302072078\n" + READ_POLLING + "D 5 86B7420A1B2C0704000000014C\n"
     f"1 answered 1 07 20 -\n2 answered 1 00 00 0001\ncounter 0\n{IMAGE_PREFIX}000000{LONG_TAG}000004\n"),
    (SUBMIT_WRITE + "turn P ok lost\nrestart\nturn P ok ok\n",
     WRITTEN + WRITTEN_AFTER_RESTART + f"1 answered 2 00 60 012345\ncounter 2\n{IMAGE_PREFIX}012345{LONG_TAG}000203\n"),
)

# The image of `hart sim`, its script, and its text.
PLAYED_FROM = (
    ("010001" + "820820" * 8 + "415350B71C31" + "820820" * 4 + "000000000000000000", "",
     "counter 0\nimage 020001" + "820820" * 8 + "415350B71C31" + "820820" * 4 + "000000" * 2 + LONG_TAG_OF_PUMP + "000000\n"),
    (f"{REGISTERS}000000000000", "", f"counter 0\n{IMAGE_PREFIX}000000{LONG_TAG}000000\n"),
    (f"{REGISTERS}000000000103", "submit P 37420A1B2C 38 0001\nsubmit S 37420A1B2C 19 0A0B0C\nturn P ok lost\nturn S ok ok\nturn P ok ok\n",
     RESET + "D 5 86B7420A1B2C2604000000016D\nS 20 8237420A1B2C13030A0B0CD7\nD 5 8637420A1B2C130500400A0B0C95\n"
     + RESET + f"D 5 86B7420A1B2C2602094023\n1 answered 2 09 40 -\n"
     f"2 answered 1 00 40 0A0B0C\ncounter 2\n{IMAGE_PREFIX}0A0B0C{LONG_TAG}000203\n"),
    (f"{REGISTERS}000000FFFF00", SUBMIT_WRITE + "turn P ok ok\n",
     WRITTEN + f"1 answered 1 00 40 012345\ncounter 0\n{IMAGE_PREFIX}012345{LONG_TAG}000003\n"),
    (f"{REGISTERS}012345000103", "submit P 37420A1B2C 16\nturn P ok ok\n",
     "P 20 82B7420A1B2C10005A\nD 5 86B7420A1B2C100500400123457C\n1 answered 1 00 40 012345\n"
     f"counter 1\n{IMAGE_PREFIX}012345{LONG_TAG}000103\n"),
)

# The script of `hart sim`, and its fault.
NOT_PLAYED = (
    ("submit P @0 0\nturn P ok FFFF06800002000084", "undetected damage at event 1, down"),
    (SUBMIT_WRITE + "turn P FFFF82B7420A1B2C13030123463E ok", "undetected damage at event 1, up"),
    ("turn P FFFF0280000082 ok", "undetected damage at event 0, up"),
    ("noise FFFF0280000082", "undetected damage at event 0, noise"),
    ("turn P FFFF82B7420A1B2C13030123453C FFFF86B7420A1B2C13028900D6", "undetected damage at event 0, down"),
    (f"submit P 37420A1B2C 17 {FRAME_IN_DATA}\nturn P FFFF82!40B7420A1B2C1118{FRAME_IN_DATA}43 ok", "undetected damage at event 1, up"),
    ("protect on\nturn X ok ok\n", "bad line 2"),
    ("# a comment\n\nturn P ok ok ok", "bad line 3"),
    ("restart now", "bad line 1"),
)

# Rows for `hart serve`: the image of its device ("" for a new device), its input, and what it answers to the lines of the input.
SERVED = (
    ("", "", ""),
    ("", "\n\r\n", "-\n-\n"),
    (
        "",
        f"restart\n{REQUEST}10 00 5A\n{REQUEST}10 00 5A",
        f"ok\n{REPLY}10 05 00 20 00 00 00 7B\n{REPLY}10 05 00 00 00 00 00 5B\n",
    ),
    (
        "",
        f"{REQUEST}13 03 01 23 45 3D\r\nprotect on\n{REQUEST}13 03 01 23 45 3D\nprotect off\n{REQUEST}10 00 5A\ncounter\nimage\n",
        f"{REPLY}13 05 00 40 01 23 45 7F\nok\n{REPLY}13 02 07 40 18\nok\n{REPLY}10 05 00 40 01 23 45 7C\ncounter 1\n"
        f"{IMAGE_PREFIX}012345{LONG_TAG}000103\n",
    ),
    ("", "FF FF 0G\n restart\ncounter\n", "bad line: bad hex at 6\nbad line: bad hex at 1\ncounter 0\n"),
    (f"{REGISTERS}000000FFFF00", f"counter\n{REQUEST}13 03 01 23 45 3D\ncounter",
     f"counter 65535\n{REPLY}13 05 00 40 01 23 45 7F\ncounter 0\n"),
    *(("", heard, said) for heard, said in served_after()),
)

# The words of `hart encode`, its message, and its fault; words that make no call have None.
ENCODED = (
    ("P @0 0", "FF FF FF FF FF 02 80 00 00 82", ""),
    ("S @07 0 --preambles 6", "FF FF FF FF FF FF 02 07 00 00 05", ""),
    ("P 37420A1B2C 19 012345", REQUEST + "13 03 01 23 45 3D", ""),
    ("P all 11 415350B71C31", "FF FF FF FF FF 82 80 00 00 00 00 0B 06 41 53 50 B7 1C 31 D7", ""),
    ("p @64 0", "", "bad word 1"),
    ("P @64 0", "", "bad word 2"),
    ("P @0 256", "", "bad word 3"),
    ("P @0 0 0", "", "bad word 4"),
    ("P @0 0 --preambles 4", "", None),
)
