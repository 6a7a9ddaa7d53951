"""The cases of docs/vectors.tsv that are made for what a delivery leaves in a device: writes, refusals, damage and resets."""

import dataclasses

from afterwards import RESET, carried_out, status
from cases import DATA, NEW, PREAMBLES, PROTECTED, PUMP_LONG_TAG, PUMP_TAG, WRITTEN, heard_text, image_word, request, with_item
from fuzz import commands, texts
from fuzz.device import COMMUNICATION_FAULTS, LONGITUDINAL_PARITY, OWN_ADDRESS
from fuzz.frames import BROADCAST, Polling, Unique, with_check_byte
from hart_bench.vectors import RESTART
from restarts import MASTERS, SILENCE, Part, Run

# Data that write each register: values other than those of a new device, and values other than those of `WRITTEN`.
TO_PUMP = {6: b"\x05\x00", 17: PUMP_TAG * 4, 18: PUMP_TAG * 3 + bytes.fromhex("1D0264"), 19: bytes.fromhex("012345"), 22: PUMP_LONG_TAG}
TO_OTHER = {6: b"\x3E\x01", 17: bytes(range(1, 25)), 18: bytes(range(65, 83)) + bytes.fromhex("0A0B0C"), 19: bytes.fromhex("FEDCBA"),
            22: bytes(range(0xE0, 0x100))}
UNCHANGED, BOTH_CHANGED = {"P": False, "S": False}, {"P": True, "S": True}
DEVICES = ((NEW, TO_PUMP), (dataclasses.replace(WRITTEN, changed=UNCHANGED), TO_OTHER))
# Counters at which the lower byte or both bytes wrap, and one at which the highest bit changes.
COUNTERS = (0xFF, 0x7FFF, 0xFFFE, 0xFFFF)
NO_DAYS = ("1D0200", "1D02C8", "1F0400", "200101", "1F0D64", "010D64", "010064", "000164", "000001", "010000", "1E0265")
DAYS = ("1D0264", "1D02FC", "1C02C8", "1F0CFF", "010100", "1E0464", "000000")
MOST_CODES_OF_A_ROW = 8
NEIGHBOURS = (Unique(OWN_ADDRESS.type, OWN_ADDRESS.id ^ 1), Unique(OWN_ADDRESS.type ^ 0x2000, OWN_ADDRESS.id))


class Story:
    """What happens to a device in turn, with what is known of each reply."""

    def __init__(self, device):
        self.first = self.device = device
        self.parts = []

    def hear(self, heard, shown=SILENCE):
        """Adds a delivery that changes nothing but perhaps a cold start bit, and the known status bytes of its reply."""
        self.parts.append(Part(heard, shown))
        return self

    def restart(self):
        """Adds a restart."""
        self.device = dataclasses.replace(self.device, cold_start={"P": True, "S": True})
        return self.hear(RESTART)

    def ask(self, command, data=b"", master="P", code=commands.SUCCESS, **more):
        """Adds a request that gets a response code."""
        if code == commands.SUCCESS:
            self.device = carried_out(self.device, command, data, master)
        self.hear(request(command, data, master=master, **more), f"{code:02X} {status(self.device, master):02X}")
        self.device = dataclasses.replace(self.device, cold_start=self.device.cold_start | {master: False})
        return self

    def run(self):
        """The case of all this."""
        return Run(self.first, tuple(self.parts))


def writes():
    """Each write of each master: from both devices, with each counter, twice with the same values, and with data that are ignored."""
    for master, other in MASTERS.items():
        for command in commands.WRITES:
            for device, data in DEVICES:
                yield Story(device).ask(command, data[command], master).run()
                yield Story(device).ask(command, data[command], master).ask(command, data[command], other).run()
                yield Story(device).ask(command, data[command] + b"\x55\xAA", master, burst=1).run()
                yield Story(device).restart().ask(command, data[command], master).ask(7, master=other).run()
            for counter in COUNTERS:
                yield Story(dataclasses.replace(NEW, counter=counter)).ask(command, TO_PUMP[command], master).run()
            body = request(command, TO_PUMP[command], master=master).split()[PREAMBLES:]
            carried = Story(NEW).ask(command, TO_PUMP[command], master).run().parts[0].shown
            yield Run(NEW, (Part(" ".join(["00", *["FF"] * 2, *body, "00"]), carried),))
            yield Run(NEW, (Part(" ".join(["FF", *body]), SILENCE),))


def values():
    """Values at the limits: dates, polling addresses and modes, and texts of all bytes."""
    for day in DAYS:
        yield Story(NEW).ask(18, TO_PUMP[18][:-3] + bytes.fromhex(day)).run()
    for polling in (0, 1, 62, 63):
        for mode in (b"", b"\0", b"\1"):
            yield Story(dataclasses.replace(NEW, polling=7)).ask(6, bytes([polling]) + mode).run()
    for first in range(0, 256, 32):
        yield Story(NEW).ask(22, bytes(range(first, first + 32))).run()
    for texts_of in (bytes(24), b"\xFF" * 24, b"\xFF\xFF\x02\x80\x00\x00\x82" + bytes(17)):
        yield Story(NEW).ask(17, texts_of).run()


def refusal_data(command, data):
    """Each refusal of a write: the code, whether the device is protected, and data that would change each register."""
    for few in (b"",) if command == 6 else (data[:-1], b""):
        for is_protected in (False, True):
            yield commands.TOO_FEW_BYTES, is_protected, few
    yield commands.WRITE_PROTECTED, True, data
    if command == 6:
        for polling in (0x40, 0x7F, 0x80, 0xFF):
            yield commands.INVALID_SELECTION, False, bytes([polling])
            yield commands.INVALID_SELECTION, False, bytes([polling, 2])
            yield commands.WRITE_PROTECTED, True, bytes([polling, 2])
        for mode in (2, 3, 0x80, 0xFF):
            yield commands.INVALID_MODE, False, data[:1] + bytes([mode])
    if command == 18:
        for day in NO_DAYS:
            yield commands.INVALID_DATE, False, data[:-3] + bytes.fromhex(day)
        yield commands.WRITE_PROTECTED, True, data[:-3] + bytes.fromhex(NO_DAYS[0])


def refusals():
    """Each refusal of each write, by each master, from both devices, with the changed bits clear and set, also after a restart."""
    for command in commands.WRITES:
        for number, (device, data) in enumerate(DEVICES):
            for code, is_protected, refused in refusal_data(command, data[command]):
                for master in MASTERS:
                    held = dataclasses.replace(device, protected=is_protected, changed=BOTH_CHANGED if number else UNCHANGED)
                    yield Story(held).ask(command, refused, master, code).run()
            held = dataclasses.replace(device, protected=True)
            yield Story(held).restart().ask(command, data[command], "S", commands.WRITE_PROTECTED).run()


def resets():
    """Command 38 of each master with each pair of changed bits: without a counter, with the right one and with wrong ones."""
    for flags in range(4):
        changed = {"P": bool(flags & 1), "S": bool(flags & 2)}
        for master in MASTERS:
            for counter in (0, 0x0102, 0xFFFF):
                device = dataclasses.replace(NEW, changed=changed, counter=counter)
                right = counter.to_bytes(2, "big")
                yield Story(device).ask(RESET, b"", master).run()
                yield Story(device).ask(RESET, right, master).run()
                yield Story(device).ask(RESET, right + b"\x55", master).run()
                yield Story(device).ask(RESET, right[:1], master, commands.TOO_FEW_BYTES).run()
                for wrong in (counter ^ 1, counter ^ 0x100):
                    yield Story(device).ask(RESET, wrong.to_bytes(2, "big"), master, commands.COUNTER_MISMATCH).run()
            yield Story(dataclasses.replace(PROTECTED, changed=changed)).ask(RESET, b"", master).run()


def masters():
    """The changed bits of both masters in turn: each is set by each write, and reset by its own master."""
    for master, other in MASTERS.items():
        story = Story(NEW)
        for number, command in enumerate(commands.WRITES):
            story = story.ask(command, TO_PUMP[command], other if number % 2 else master)
            story = story.ask(7, b"", other).ask(RESET, b"", master).ask(7, b"", other).ask(7, b"", master)
            story = story.ask(RESET, story.device.counter.to_bytes(2, "big"), other).ask(7, b"", other)
        yield story.run()


def damages():
    """Each write and each reset, damaged after a restart: by a wrong byte, and by a fault bit at its byte count, data or check byte."""
    device = dataclasses.replace(NEW, changed=BOTH_CHANGED)
    for command in (*commands.WRITES, RESET):
        for master in MASTERS:
            whole = request(command, TO_PUMP.get(command, b"\0\0"), master=master)
            items = whole.split()
            for place in (PREAMBLES + 6, PREAMBLES + 8, len(items) - 1):
                changed = with_item(whole, place, f"{int(items[place], 16) ^ 1:02X}")
                yield Story(device).restart().hear(changed, f"{COMMUNICATION_FAULTS | LONGITUDINAL_PARITY:02X} 00").run()
            for place in (PREAMBLES + 6, PREAMBLES + 7, PREAMBLES + 8, len(items) - 1):
                marked = with_item(whole, place, items[place] + "!40")
                yield Story(device).restart().hear(marked, f"{COMMUNICATION_FAULTS | 0x40:02X} 00").run()
            for place in (PREAMBLES - 1, PREAMBLES, PREAMBLES + 1, PREAMBLES + 5):
                yield Story(device).restart().hear(with_item(whole, place, items[place] + "!40")).run()
            yield Story(device).restart().hear(" ".join(items[:-1])).run()
            for address in NEIGHBOURS:
                theirs = request(command, TO_PUMP.get(command, b"\0\0"), master=master, address=address)
                yield Story(device).restart().hear(with_item(theirs, len(items) - 1, items[-1] + "!40")).run()


def elsewhere():
    """Writes and resets that are not for the device: to other addresses, twice at once, as a reply, and with expansion bytes."""
    for command in (*commands.WRITES, RESET):
        data = TO_PUMP.get(command, b"")
        for master in MASTERS:
            device = dataclasses.replace(NEW, changed=BOTH_CHANGED)
            for address in (*NEIGHBOURS, BROADCAST, Polling(0), Polling(1)):
                yield Story(device).hear(request(command, data, master=master, address=address)).run()
            asked = request(command, data, master=master)
            yield Story(device).hear(f"{asked} {asked}").run()
            yield Story(device).hear(request(command, b"\0\0" + data, master=master, kind="ACK")).run()
            yield Story(device).hear(request(command, data, master=master, expansion=b"\x55")).run()
            # The delimiter announces an expansion byte, but there is none.
            lacking = bytes.fromhex(asked)[PREAMBLES:-1]
            lacking = bytes([lacking[0] | 0x20]) + lacking[1:]
            yield Story(device).hear(texts.hex_text(b"\xFF" * PREAMBLES + with_check_byte(lacking))).run()


def names():
    """What a device is called by: a new polling address, a new tag and a new long tag, each known by its new name alone."""
    for master, other in MASTERS.items():
        old, new = (request(0, master=other, address=Polling(number)) for number in (0, 5))
        yield Story(NEW).ask(6, TO_PUMP[6], master).hear(old).hear(new, "00 48").run()
        for write, ask, tag, blank in ((18, 11, PUMP_TAG, NEW.tag), (22, 21, PUMP_LONG_TAG, NEW.long_tag)):
            for address in (OWN_ADDRESS, BROADCAST):
                by_old, by_new = (request(ask, name, master=other, address=address) for name in (blank, tag))
                yield Story(NEW).ask(write, TO_PUMP[write], master).hear(by_old).hear(by_new, "00 40").run()


def near_names():
    """Tags and long tags that differ from the device's own in one character, or in the case of a letter."""
    device = dataclasses.replace(NEW, tag=PUMP_TAG, long_tag=b"Feed pump, building 3".ljust(32))
    for command, name in ((11, device.tag), (21, device.long_tag)):
        for master in MASTERS:
            story = Story(device)
            for place in (0, len(name) // 4, len(name) // 2, len(name) - 1):
                for bit in (1, 0x20):
                    near = name[:place] + bytes([name[place] ^ bit]) + name[place + 1:]
                    story = story.hear(request(command, near, master=master, address=BROADCAST)).hear(request(command, near, master=master))
            yield story.ask(command, name, master, address=BROADCAST).run()


def known():
    """What each command reads of a written device that is protected, and of images of version 1."""
    device = dataclasses.replace(WRITTEN, protected=True, counter=0x1234)
    for master in MASTERS:
        for command in DATA:
            if command not in (*commands.WRITES, 11, 21):
                yield Story(device).ask(command, b"\xF4\xF5" if command == 9 else b"", master).run()
    for first in range(0, 256, MOST_CODES_OF_A_ROW):
        yield Story(NEW).ask(9, bytes(range(first, first + MOST_CODES_OF_A_ROW))).run()
    for count in range(1, 11):
        yield Story(NEW).ask(9, bytes([246, 0, 244, 245] * 3)[:count]).run()


def unknown():
    """All commands that are not implemented, some in each row, with data and without, to the device and elsewhere."""
    for first in range(0, len(commands.UNKNOWN), MOST_CODES_OF_A_ROW):
        for master, data in (("P", b""), ("S", bytes(8))):
            story = Story(dataclasses.replace(NEW, changed=BOTH_CHANGED))
            for command in commands.UNKNOWN[first:first + MOST_CODES_OF_A_ROW]:
                story = story.ask(command, data, master, commands.NOT_IMPLEMENTED)
            yield story.run()


def versions():
    """Images of version 1, whose long tag is the text of their tag: it is read, and found by the secondary master."""
    for tag, text in ((PUMP_TAG, b"PUMP-101"), (bytes.fromhex("000420C30D05"), b"@ABBCP4E")):
        image = "010501" + (PUMP_TAG * 4 + tag + PUMP_TAG * 2).hex() + "1D0264" + "012345" + "00FF" + "03"
        asked = Part(request(21, text.ljust(32), master="S", address=BROADCAST), "00 40") if text == b"PUMP-101" else None
        yield Run(image.upper(), (Part(request(20), "00 40"), *filter(None, [asked]), Part(request(19, b"\1\2\3"), "00 40")))


SOURCES = (writes, values, refusals, resets, masters, damages, elsewhere, names, near_names, known, unknown, versions)


def turns():
    """All these cases, each once: the image, the parts of what is heard, and the known status bytes of each."""
    seen = set()
    for source in SOURCES:
        for run in source():
            heard = tuple(part.heard if part.heard == RESTART else heard_text(texts.read_items(part.heard.encode())) for part in run.parts)
            image = image_word(run.device)
            if (image, heard) not in seen:
                seen.add((image, heard))
                yield image, heard, tuple(part.shown for part in run.parts)
