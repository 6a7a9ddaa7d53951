"""What the data of requests and replies mean, for each command of the profile."""

import datetime
import pathlib
import re
from typing import NamedTuple

PAGE = pathlib.Path(__file__).parents[2] / "docs" / "COMMANDS.md"


class Field(NamedTuple):
    """A field: its name, its fewest bytes, how many bytes it has if it is there, None if that varies, and the kind of its value."""

    name: str
    least: int
    size: int | None
    kind: str


class Row(NamedTuple):
    """What the table of a command in docs/COMMANDS.md says: its fields, the codes that refuse it, and whether it writes."""

    name: str
    request: tuple
    reply: tuple
    refusals: tuple
    is_write: bool


SECTION = re.compile(r"^## Command (\d+): ([^\n]+)\n(.*?)(?=^## )", re.MULTILINE | re.DOTALL)
TABLE_ROW = re.compile(r"^\| ([^|]*?) ?\| ([^|]*?) ?\| ([^|]*?) ?\|$", re.MULTILINE)
BYTES = re.compile(r"(?:(\d+)( or | to ))?(\d+), (.+)")
FIELDS_OF = re.compile(r"the fields of (?:the (request)|\[Command (\d+)\]\(\S+\))")
CODE = re.compile(r"\b(\d+): ")


def field_of(name, cell):
    """A field by its name and the cell of its bytes and kind, such as `3, bytes`, `0 or 2, number` and `1 to 8, bytes`."""
    least, between, most, kind = BYTES.fullmatch(cell).groups()
    return Field(name, int(least or most), None if between == " to " else int(most), kind)


def parts_of(section):
    """The rows of the table of a command, by the part that they describe: pairs of cells."""
    lines = section.partition("| Part | Field | Bytes, kind |\n")[2].partition("\n\n")[0]
    parts, part = {}, ""
    for cell, *cells in TABLE_ROW.findall(lines):
        part = cell or part
        parts.setdefault(part, []).append(cells)
    if set(parts) - {"request", "reply", "refused", "writes"}:
        raise ValueError(f"a table of docs/COMMANDS.md has other parts: {list(parts)}")
    return parts


def fields_in(cells, request, rows):
    """The fields that rows list or name: those of the request, or of the reply of an earlier command."""
    name, form = cells[0]
    if name == "none":
        return ()
    if form:
        return tuple(field_of(*pair) for pair in cells)
    named = FIELDS_OF.fullmatch(name)
    return request if named[1] else rows[int(named[2])].reply


def table():
    """The rows of the commands by their numbers."""
    rows = {}
    for number, name, section in SECTION.findall(PAGE.read_text(encoding="utf-8")):
        parts = parts_of(section)
        request = fields_in(parts["request"], (), rows)
        refusals = tuple(int(code) for code in CODE.findall(parts.get("refused", [[""]])[0][0]))
        rows[int(number)] = Row(name, request, fields_in(parts["reply"], request, rows), refusals, "writes" in parts)
    if list(rows) != sorted(rows):
        raise ValueError("the commands of docs/COMMANDS.md do not stand in the order of their numbers")
    return rows


def least(fields):
    """Returns the fewest bytes that fields have."""
    return sum(field.least for field in fields)


COMMANDS = table()
UNKNOWN = [number for number in range(256) if number not in COMMANDS]
# How many bytes of its request data a command needs, from the first on.
NEEDED = {number: least(row.request) for number, row in COMMANDS.items()}
WITH_DATA = [number for number, row in COMMANDS.items() if row.request]
WRITES = [number for number, row in COMMANDS.items() if row.is_write]
MOST_CODES = 8

SUCCESS = 0
INVALID_SELECTION = 2
TOO_FEW_BYTES = 5
WRITE_PROTECTED = 7
INVALID_DATE = COUNTER_MISMATCH = 9
INVALID_MODE = 12
NOT_IMPLEMENTED = 64

# How many bytes the reply of a command has at least; Commands 3, 9 and 48 have rules of their own.
REPLY_NEEDED = {number: least(row.reply) for number, row in COMMANDS.items()}
IDENTITY_COMMANDS = [number for number, row in COMMANDS.items() if row.reply == COMMANDS[0].reply]
IDENTITY_FIRST = 254


class Reply(NamedTuple):
    """A reply as a master takes it: response code, device status, and the data without what was ignored."""

    code: int
    status: int
    data: bytes


def is_date(data):
    """Whether three bytes are a day of the calendar from 1900 to 2155, or not set."""
    day, month, year = data
    try:
        datetime.date(1900 + year, month, day)
    except ValueError:
        return data == bytes(3)
    return True


def polling_and_mode(data):
    """What Command 6 sets: older masters send the address alone, which means mode 1 for address 0 and otherwise mode 0."""
    return (data[0], data[1]) if len(data) > 1 else (data[0], int(data[0] == 0))


def value_code(command, data, counter):
    """The response code for the values in data that are long enough. A counter of None is not compared."""
    if command == 6:
        address, mode = polling_and_mode(data)
        if address > 63:
            return INVALID_SELECTION
        return INVALID_MODE if mode > 1 else SUCCESS
    if command == 18 and not is_date(data[18:21]):
        return INVALID_DATE
    if command == 38 and data and counter is not None and int.from_bytes(data[:2], "big") != counter:
        return COUNTER_MISMATCH
    return SUCCESS


def request_code(command, data, protected=False, counter=None):
    """The response code to a request: the first that holds of 64, 5, 7, 2, 12 and 9, or 0."""
    if command not in NEEDED:
        return NOT_IMPLEMENTED
    if len(data) < NEEDED[command] or command == 38 and len(data) == 1:
        return TOO_FEW_BYTES
    if command in WRITES and protected:
        return WRITE_PROTECTED
    return value_code(command, data, counter)


def written_data(command, data):
    """Returns the data with which a request is sent: the bytes that the command takes."""
    if command == 6:
        return bytes(polling_and_mode(data))
    if command == 9:
        return data[:MOST_CODES]
    if command == 38:
        return data[:2]
    return data[:NEEDED[command]]


def reply_data(command, data):
    """What a master takes of the data of a reply with code 0; None if they do not fit the command."""
    if command == 3:
        groups = min((len(data) - 4) // 5, 4)
        return data[:4 + 5 * groups] if groups >= 1 else None
    if command == 9:
        groups, rest = divmod(len(data) - 5, 8)
        return data if rest == 0 and 1 <= groups <= MOST_CODES else None
    if command == 48:
        return data[:25] or None
    if len(data) < REPLY_NEEDED[command] or command in IDENTITY_COMMANDS and data[0] != IDENTITY_FIRST:
        return None
    return data[:REPLY_NEEDED[command]]


def read_reply(command, payload):
    """Returns the reply in a payload; None if it is no reply, as with communication faults."""
    if len(payload) < 2 or payload[0] & 0x80 or command not in NEEDED:
        return None
    if payload[0] != SUCCESS:
        return Reply(payload[0], payload[1], b"")
    data = reply_data(command, payload[2:])
    return None if data is None else Reply(SUCCESS, payload[1], data)
