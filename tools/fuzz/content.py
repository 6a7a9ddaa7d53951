"""What the status bytes and the data of a message say: names of codes and bits, which bytes are fields, and what does not fit."""

import re
from typing import NamedTuple

from . import commands
from .commands import COMMANDS
from .device import COMMUNICATION_FAULTS
from .fields import fields_of

FAULT_NAMES = {0x40: "vertical parity", 0x20: "overrun", 0x10: "framing", 0x08: "longitudinal parity", 0x02: "buffer overflow"}
STATUS_NAMES = {
    0x80: "device malfunction", 0x40: "configuration changed", 0x20: "cold start", 0x10: "more status available",
    0x08: "loop current fixed", 0x04: "loop current saturated", 0x02: "non-primary variable out of limits",
    0x01: "primary variable out of limits"}
# A row of the response codes in docs/COMMANDS.md: code and meaning. A meaning that names a command holds only for that command.
CODE_ROW = re.compile(r"^\| (\d+) \| `[0-9A-F]{2}` \| ([^|]+) \|", re.MULTILINE)
OF_COMMAND = re.compile(r"(.+), of Command (\d+)")
# How many bytes of data Command 38 needs, if it has any.
COUNTER_BYTES = 2


def code_names():
    """The names in the table of response codes, by code and command. The command is None if the name holds for all commands."""
    names = {}
    for code, cell in CODE_ROW.findall(commands.PAGE.read_text(encoding="utf-8")):
        for meaning in cell.removesuffix(" (implementation choice)").split("; "):
            of_command = OF_COMMAND.fullmatch(meaning)
            name, command = (of_command[1], int(of_command[2])) if of_command else (meaning, None)
            names[int(code), command] = name
    return names


CODE_NAMES = code_names()


def code_name(command, code):
    """The name of a response code of a command; None if it has none."""
    return CODE_NAMES.get((code, command)) or CODE_NAMES.get((code, None))


def bit_names(names, byte):
    """The names of the bits that are set in a byte, from the highest on."""
    return [name for bit, name in names.items() if byte & bit]


class Problem(NamedTuple):
    """Why the data of a message are not all fields and ignored bytes: the name of the reason, and its details by their names."""

    reason: str
    details: dict


class Content(NamedTuple):
    """What the data of a message are: fields, each with its bytes; the bytes after them, which are ignored; and a problem or None."""

    fields: list
    ignored: bytes
    problem: Problem | None


NOTHING = Content([], b"", None)


def content_of(frame):
    """What the data of a frame are."""
    if frame.kind == "STX":
        return of_request(frame.command, frame.payload)
    return of_reply(frame.command, frame.payload[0], frame.payload[2:])


def data_of(frame):
    """The data of a frame: its payload without status bytes."""
    return frame.payload if frame.kind == "STX" else frame.payload[2:]


def has_communication_faults(first):
    """Whether the first status byte of a reply says communication faults, and no response code."""
    return bool(first & COMMUNICATION_FAULTS)


def of_request(command, data):
    """What the data of a request are; write protection and counter are not known."""
    if command not in COMMANDS:
        return NOTHING
    code = commands.request_code(command, data)
    if code == commands.TOO_FEW_BYTES:
        return Content([], b"", Problem("too_few_data", {"needed": commands.NEEDED[command] or COUNTER_BYTES}))
    taken = len(commands.written_data(command, data))
    problem = Problem("refused", {"code": code, "name": code_name(command, code)}) if code != commands.SUCCESS else None
    return Content(list(fields_of("STX", command, data[:taken])), data[taken:], problem)


def of_reply(command, first, data):
    """What the data of a reply with this first status byte are."""
    if has_communication_faults(first):
        return Content([], data, None)
    if command not in COMMANDS:
        return NOTHING
    if first != commands.SUCCESS:
        return Content([], b"", Problem("not_read", {"code": first}) if data else None)
    taken = commands.reply_data(command, data)
    if taken is None:
        return Content([], b"", Problem("no_reply", {}))
    return Content(list(fields_of("ACK", command, taken)), data[len(taken):], None)
