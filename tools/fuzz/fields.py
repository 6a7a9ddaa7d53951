"""The fields into which the data of a command fall, with their names, and how `hart explain` writes the value of each."""

from .commands import COMMANDS, is_date
from .device import unpacked
from .units import unit_text

VARIABLE_BYTES = 8
NOT_SET = bytes(3)
# The fields of the tables in docs/COMMANDS.md, by the kind of the message and the command.
FIELDS = {(kind, number): fields for number, row in COMMANDS.items() for kind, fields in (("STX", row.request), ("ACK", row.reply)) if fields}


def fallen(fields, data):
    """The fields that these bytes reach, each with its bytes. A field without a fixed size has all that the others leave."""
    left = len(data) - sum(field.size or 0 for field in fields)
    place = 0
    for field in fields:
        stop = place + (left if field.size is None else field.size)
        if place < len(data):
            yield field, data[place:stop]
        place = stop


def bytes_text(data):
    """Bytes in hex."""
    return f"0x{data.hex().upper()}"


def number_text(data):
    """A number, the most significant byte first."""
    return str(int.from_bytes(data, "big"))


def packed_text(data):
    """All characters of a packed text, in quotes."""
    return f'"{unpacked(data).decode()}"'


def printable_text(data):
    """The characters of a text in Latin-1, if all of them can be printed; otherwise None."""
    text = data.decode("latin-1")
    return text if all(" " <= character <= "~" or "\xa0" <= character for character in text) else None


def latin_text(data):
    """The characters of a text in Latin-1 in quotes, if all of them can be printed, and otherwise its bytes."""
    text = printable_text(data)
    return bytes_text(data) if text is None else f'"{text}"'


def day_text(data):
    """A day by its year, month and day."""
    day, month, year = data
    return f"{1900 + year}-{month:02}-{day:02}"


def date_text(data):
    """A date that is set, not set or no date."""
    if data == NOT_SET:
        return "not set"
    return day_text(data) if is_date(data) else f"{bytes_text(data)}, no date"


def variable_text(data):
    """A device variable by its parts."""
    code, classification, unit = data[:3]
    return (f"code {code}, classification {classification}, unit {unit_text(unit)}, value {bytes_text(data[3:7])}, "
            f"status {bytes_text(data[7:])}")


def variables_of(data):
    """The bytes of each device variable."""
    return [data[place:place + VARIABLE_BYTES] for place in range(0, len(data), VARIABLE_BYTES)]


def variables_text(data):
    """Device variables, one after the other."""
    return "; ".join(map(variable_text, variables_of(data)))


VALUES = {"bytes": bytes_text, "float": bytes_text, "number": number_text, "unit": lambda data: unit_text(data[0]),
          "packed text": packed_text, "Latin-1 text": latin_text, "date": date_text, "variables": variables_text}


def fields_of(kind, command, data):
    """The fields of these data of a command in a message of a kind, each with its bytes."""
    return fallen(FIELDS.get((kind, command), ()), data)
