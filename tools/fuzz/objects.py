"""What `hart explain --json` writes: a JSON object for each message and each miss, a line each."""

import json

from .before import Masters
from .commands import COMMANDS, is_date
from .content import FAULT_NAMES, STATUS_NAMES, bit_names, code_name, content_of, data_of, has_communication_faults
from .fields import NOT_SET, day_text, printable_text, variables_of
from .frames import Found
from .misses import Miss
from .sightings import sightings
from .texts import address_text

KINDS = {"STX": "request", "ACK": "reply"}
MASTERS = {"P": "primary", "S": "secondary"}
# Details of a miss that are a byte, and not a number.
BYTES = ("faults", "byte", "fits")


def hex_digits(data):
    """Bytes in hex, "" for none."""
    return data.hex().upper()


def number(data):
    """A number, the most significant byte first."""
    return int.from_bytes(data, "big")


def packed(data):
    """All characters of a packed text: six bits each, for the codes hex 20 to 5F."""
    bits = "".join(f"{byte:08b}" for byte in data)
    codes = (int(bits[place:place + 6], 2) for place in range(0, len(bits), 6))
    return "".join(chr(code if code >= 0x20 else code + 0x40) for code in codes)


def latin(data):
    """The characters of a text in Latin-1, if all can be printed; otherwise its bytes."""
    text = printable_text(data)
    return hex_digits(data) if text is None else text


def date(data):
    """A day; None if the date is not set; the bytes if they are no date."""
    if data == NOT_SET:
        return None
    return day_text(data) if is_date(data) else hex_digits(data)


def variable(data):
    """A device variable by its parts."""
    code, classification, unit = data[:3]
    return {"code": code, "classification": classification, "unit": unit, "value": hex_digits(data[3:7]), "status": hex_digits(data[7:])}


def variables(data):
    """A list of device variables."""
    return [variable(part) for part in variables_of(data)]


VALUES = {"bytes": hex_digits, "float": hex_digits, "number": number, "unit": number, "packed text": packed, "Latin-1 text": latin,
          "date": date, "variables": variables}


def header_members(frame):
    """Who says a frame to whom."""
    return {"kind": KINDS[frame.kind], "master": MASTERS[frame.master], "address": address_text(frame.address)}


def command_members(frame):
    """The command of a frame, with its name or None."""
    return {"command": frame.command, "command_name": COMMANDS[frame.command].name if frame.command in COMMANDS else None}


def status_members(frame):
    """What the status bytes of a reply say."""
    first, second = frame.payload[:2]
    has_faults = has_communication_faults(first)
    return {
        "status": hex_digits(frame.payload[:2]),
        "response_code": None if has_faults else first,
        "response": None if has_faults else code_name(frame.command, first),
        "device_status": None if has_faults else bit_names(STATUS_NAMES, second),
        "communication_faults": bit_names(FAULT_NAMES, first) if has_faults else None,
    }


def data_members(frame):
    """The data of a frame."""
    content = content_of(frame)
    problem = content.problem
    return {
        "data": hex_digits(data_of(frame)),
        "fields": {field.name.replace(" ", "_"): VALUES[field.kind](part) for field, part in content.fields},
        "ignored": hex_digits(content.ignored),
        "problem": None if problem is None else {"reason": problem.reason, **problem.details},
    }


def message_object(found, time, preambles, masters):
    """The object of a message."""
    frame, (sending, answers) = found.frame, masters.hear(found)
    return {
        "type": "message", **time, "start": found.start, "stop": found.stop, "preambles": preambles, **header_members(frame),
        "burst": bool(frame.burst), "expansion": hex_digits(frame.expansion), **command_members(frame),
        **(status_members(frame) if frame.kind == "ACK" else {}), **data_members(frame),
        **({"sending": sending} if frame.kind == "STX" else {"answers": answers})}


def miss_object(miss, time):
    """The object of a miss."""
    details = {name: f"{value:02X}" if name in BYTES else value for name, value in miss.reason.details.items()}
    seems = None if miss.header is None else {**header_members(miss.header), **command_members(miss.header)}
    return {"type": "miss", **time, "start": miss.place, "place": miss.place, "reason": miss.reason.name, **details, "seems": seems}


def object_of(sighting, masters):
    """The object of a sighting."""
    time = {} if sighting.date is None else {"time": sighting.date}
    if isinstance(sighting.seen, Found):
        return message_object(sighting.seen, time, sighting.preambles, masters)
    return miss_object(sighting.seen, time)


def as_objects(heard):
    """The lines of what is said of characters, silences and dates."""
    masters = Masters()
    objects = (object_of(sighting, masters) for sighting in sightings(heard))
    return "".join(json.dumps(one, ensure_ascii=False, separators=(",", ":")) + "\n" for one in objects).encode()
