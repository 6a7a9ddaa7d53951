"""The cases of docs/vectors.tsv in which a device hears something once."""

import dataclasses
import pathlib
import re
from typing import NamedTuple

from fuzz import commands, explain, texts, worked
from fuzz.device import COMMUNICATION_FAULTS, GREATEST_POLLING, LONGITUDINAL_PARITY, OWN_ADDRESS, Device, new_device
from fuzz.frames import BROADCAST, Frame, Polling, Unique, frames_of

DOCS = pathlib.Path(__file__).parents[1] / "docs"
WIRE, FORMATS = ((DOCS / name).read_text(encoding="utf-8") for name in ("WIRE.md", "FORMATS.md"))
PREAMBLES = 5
FAULT_BITS = (0x40, 0x20, 0x10, 0x02)
ALL_FAULT_BITS = sum(FAULT_BITS)
COUNTER_BYTES = 2

# What TO and FROM stand for in the rows of garbled requests in docs/WIRE.md. Then the patterns of a row that begins with what is heard,
# and of a cell that can be a reply.
WORDS = {word: digits for word, digits in re.findall(r"\b(TO|FROM) (?:stands )?for\s+`([0-9A-F ]+)`", WIRE)}
ROW = re.compile(r"^\| ((?:TO )?`[0-9A-F! ]+`) \| (.+?) \|", re.MULTILINE)
CODE_CELL = re.compile(r"(?:TO |FROM )?`[0-9A-F! ]+`")


class Case(NamedTuple):
    """A case: the device, what it hears, and what is known of its reply: the message ("" for silence), or its first status byte.

    The device is one of the model, or the digits of an image.
    """

    device: Device | str
    heard: str
    reply: str | None = None
    first: int | None = None


def cell_text(cell):
    """Returns what a cell of a row says in digits, with TO and FROM written out."""
    return " ".join(WORDS.get(part, part) for part in cell.replace("`", "").split())


def is_heard(text):
    """Whether a text consists of items, with two preamble bytes in a row among them."""
    try:
        return "FF FF" in heard_text(texts.read_items(text.encode()))
    except texts.BadHex:
        return False


def of_rows(page):
    """The rows of a page that begin with what is heard."""
    for heard, reply in ROW.findall(page):
        if is_heard(cell_text(heard)):
            known = cell_text(reply) if CODE_CELL.fullmatch(reply) else "" if reply == "silence" else None
            yield Case(new_device(), cell_text(heard), known)


def of_pages():
    """The worked examples of the pages, which are answered, listed or explained there."""
    yield from (Case(new_device(), heard, reply) for heard, reply in worked.ANSWERED)
    for image, heard, reply in worked.ANSWERED_FROM:
        yield Case(image.upper(), heard, reply)
    yield from of_rows(WIRE)
    yield from (Case(new_device(), call.text) for call in worked.CALLS if call.words == ["dump"] and not call.fault and not call.goes_on)
    yield from of_rows(FORMATS)
    served = (line for call in worked.CALLS if call.words == ["serve"] for line in call.text.split("\n"))
    yield from (Case(new_device(), line) for line in served if is_heard(line))
    yield from (Case(new_device(), heard) for heard, _, fault in worked.DUMPED if not fault)
    yield from (Case(new_device(), heard) for heard, _ in worked.HEARD.findall(explain.EXAMPLES))


def message(frame, preambles=PREAMBLES):
    """The message of a frame in hex."""
    return texts.message_text(frame, preambles).decode().strip()


def request(command, data=b"", master="P", address=OWN_ADDRESS, **more):
    """The request of a master, in hex."""
    return message(Frame(**{"kind": "STX", "burst": 0, "expansion": b"", **more},
                         master=master, address=address, command=command, payload=data))


def lone(text):
    """Returns the only frame of a text; None if the text has no frame, or several."""
    found = frames_of(texts.read_items(text.encode()))
    return found[0].frame if len(found) == 1 else None


def worked_data():
    """Returns, for each command, the data of its first request in docs/COMMANDS.md whose reply has code 0."""
    taken = {}
    for heard, reply, _ in worked.ON_PAGE:
        asked, answered = lone(heard), lone(reply) if reply else None
        if asked and answered and answered.payload[0] == commands.SUCCESS:
            taken.setdefault(asked.command, asked.payload)
    return taken


DATA = worked_data()
NEW = new_device()
PROTECTED = dataclasses.replace(NEW, protected=True)
PUMP_TAG = bytes.fromhex(worked.TAG_OF_PUMP)
PUMP_LONG_TAG = bytes.fromhex(worked.LONG_TAG_OF_PUMP)
NO_DATE = bytes.fromhex("1D0200")
# A device in which every register differs from that of a new device.
WRITTEN = dataclasses.replace(
    NEW, polling=5, mode=0, message=PUMP_TAG * 4, tag=PUMP_TAG, descriptor=PUMP_TAG * 2, date=bytes.fromhex("1D0264"),
    assembly=bytes.fromhex("012345"), long_tag=PUMP_LONG_TAG, counter=0xFFFF, changed={"P": True, "S": False})
TAGS = ((11, NEW.tag, PUMP_TAG), (21, NEW.long_tag, PUMP_LONG_TAG))


def too_few(command):
    """Too few request data for a command: none, and a byte less than it needs. Command 38 may have none, so it has one byte."""
    needed = commands.NEEDED[command]
    if needed == 0:
        return [bytes(COUNTER_BYTES - 1)]
    return [DATA[command][:length] for length in sorted({0, needed - 1})]


def refused_data(command, code):
    """Request data of a command that are refused with a code, in one or more ways."""
    return {
        commands.TOO_FEW_BYTES: too_few(command),
        commands.WRITE_PROTECTED: [DATA[command]],
        commands.INVALID_SELECTION: [b"\x40", b"\x40\x02", b"\xFF\x00"],
        commands.INVALID_MODE: [b"\x3F\x02", b"\x00\xFF"],
        commands.INVALID_DATE: [DATA[command][:-3] + NO_DATE] if command == 18 else [b"\x00\x01", b"\x01\x00", b"\xFF\xFF"],
    }[code]


def refusals():
    """Each refusal of each command, as the tables in docs/COMMANDS.md name them, and which comes first if several hold."""
    for command, row in commands.COMMANDS.items():
        for code in row.refusals:
            device = PROTECTED if code == commands.WRITE_PROTECTED else NEW
            for data in refused_data(command, code):
                yield Case(device, request(command, data), first=code)
                yield Case(device, request(command, data, master="S"), first=code)
    for command in commands.WRITES:
        yield Case(PROTECTED, request(command, DATA[command][:-1]), first=commands.TOO_FEW_BYTES)
    yield Case(PROTECTED, request(6, b"\x40\x02"), first=commands.WRITE_PROTECTED)
    yield Case(PROTECTED, request(18, DATA[18][:-3] + NO_DATE), first=commands.WRITE_PROTECTED)
    for command in commands.UNKNOWN:
        if {command - 1, command + 1} & {*commands.COMMANDS, 256}:
            yield Case(NEW, request(command), first=commands.NOT_IMPLEMENTED)
            yield Case(PROTECTED, request(command, b"\x55", master="S"), first=commands.NOT_IMPLEMENTED)


def with_item(text, place, item):
    """A text of items with another item at a place."""
    items = text.split()
    return " ".join([*items[:place], item, *items[place + 1:]])


def communication_faults():
    """Each communication fault at each kind of character, and damaged requests that are met with silence."""
    asked = request(19, DATA[19])
    items = asked.split()
    last = len(items) - 1
    for place in (11, 12, 13, last):
        for bit in (*FAULT_BITS, ALL_FAULT_BITS):
            yield Case(NEW, with_item(asked, place, f"{items[place]}!{bit:02X}"), first=COMMUNICATION_FAULTS | bit)
        changed = f"{int(items[place], 16) ^ 1:02X}"
        if place != 12:
            yield Case(NEW, with_item(asked, place, changed), first=COMMUNICATION_FAULTS | LONGITUDINAL_PARITY)
            yield Case(NEW, with_item(asked, place, f"{changed}!{ALL_FAULT_BITS:02X}"),
                       first=COMMUNICATION_FAULTS | LONGITUDINAL_PARITY | ALL_FAULT_BITS)
    for device, command, master in ((NEW, 19, "S"), (PROTECTED, 19, "P"), (NEW, 0, "P"), (NEW, 33, "P")):
        asked_so = request(command, DATA.get(command, b""), master=master)
        yield Case(device, asked_so[:-2] + f"{int(asked_so[-2:], 16) ^ 0x80:02X}", first=COMMUNICATION_FAULTS | LONGITUDINAL_PARITY)
    for place in range(PREAMBLES - 2, PREAMBLES + 6):
        yield Case(NEW, with_item(asked, place, f"{items[place]}!40"), "")
    for length in range(PREAMBLES, len(items)):
        yield Case(NEW, " ".join(items[:length]), "")
    for address in (Polling(0), BROADCAST):
        damaged = request(0 if address == Polling(0) else 11, NEW.tag, address=address)
        yield Case(NEW, damaged[:-2] + f"{int(damaged[-2:], 16) ^ 1:02X}", "")


def addresses():
    """Requests of both masters to each kind of address, with commands that are answered there and commands that are not."""
    other_id, other_type = Unique(OWN_ADDRESS.type, OWN_ADDRESS.id ^ 1), Unique(OWN_ADDRESS.type ^ 1, OWN_ADDRESS.id)
    for master in "PS":
        for polling in (0, 1, GREATEST_POLLING):
            device = dataclasses.replace(NEW, polling=polling)
            for asked in (0, 1, GREATEST_POLLING):
                known = {"first": 0} if asked == polling else {"reply": ""}
                yield Case(device, request(0, master=master, address=Polling(asked)), **known)
        for command, data in DATA.items():
            yield Case(NEW, request(command, data, master=master), first=0)
            if command != 0:
                yield Case(NEW, request(command, data, master=master, address=Polling(0)), "")
            if command not in (11, 21):
                yield Case(NEW, request(command, data, master=master, address=BROADCAST), "")
        for address in (other_id, other_type):
            yield Case(NEW, request(0, master=master, address=address), "")
        yield Case(NEW, request(0, master=master, burst=1), first=0)
        yield Case(NEW, request(0, master=master, expansion=b"\x55"), "")
        yield Case(NEW, request(0, bytes(2), master=master, kind="ACK"), "")


def tags():
    """Both tags, by broadcast and at the device's own address: its own tag, another one, too few bytes, and too many."""
    for command, new_tag, pump_tag in TAGS:
        for device, tag, other in ((NEW, new_tag, pump_tag), (WRITTEN, pump_tag, new_tag)):
            for master in "PS":
                for address in (BROADCAST, OWN_ADDRESS):
                    asked = {"master": master, "address": address}
                    yield Case(device, request(command, tag, **asked), first=0)
                    yield Case(device, request(command, tag + b"\x55", **asked), first=0)
                    yield Case(device, request(command, other, **asked), "")
                    few = {"reply": ""} if address == BROADCAST else {"first": commands.TOO_FEW_BYTES}
                    yield Case(device, request(command, tag[:-1], **asked), **few)


def states():
    """What a device holds: what each command reads of it, and what each master is shown of it."""
    for command, data in DATA.items():
        if command not in (11, 21):
            yield Case(WRITTEN, request(command, data), first=0)
    for flags in range(8):
        device = dataclasses.replace(NEW, changed={"P": bool(flags & 1), "S": bool(flags & 2)}, protected=bool(flags & 4))
        yield from (Case(device, request(command, master=master), first=0) for command in (7, 15, 38) for master in "PS")
    yield Case(WRITTEN, request(38, b"\xFF\xFF"), first=0)
    yield Case(WRITTEN, request(38, b"\xFF\xFE"), first=commands.COUNTER_MISMATCH)
    yield from (Case(NEW, request(6, bytes([polling])), first=0) for polling in (0, 1, GREATEST_POLLING))
    for codes in (bytes(range(4)), bytes(range(244, 250)), bytes(range(240, 248)), bytes(range(244, 253))):
        yield Case(NEW, request(9, codes), first=0)


def preambles():
    """A request after too few preamble bytes, after the fewest that suffice, and after more."""
    body = " ".join(request(0).split()[PREAMBLES:])
    for count in (0, 1, 2, 3, 20, 255):
        known = {"first": 0} if count >= 2 else {"reply": ""}
        yield Case(NEW, "FF " * count + body, **known)


def heard_text(chars):
    """Characters as they are written in a row."""
    return " ".join(f"{char.byte:02X}" + (f"!{char.faults:02X}" if char.faults else "") for char in chars)


def image_word(device):
    """The image of a device as it is written in a row, - for the new one."""
    if device == NEW:
        return "-"
    return device if isinstance(device, str) else device.image().hex().upper()


def cases():
    """All cases, each once."""
    seen = set()
    for source in (of_pages, refusals, communication_faults, addresses, tags, states, preambles):
        for case in source():
            heard = heard_text(texts.read_items(case.heard.encode()))
            image = image_word(case.device)
            if (image, heard) not in seen:
                seen.add((image, heard))
                yield image, heard, case
