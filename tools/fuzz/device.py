"""The bench device: what it holds, and what it answers."""

from dataclasses import dataclass
from functools import reduce
from operator import or_

from . import commands
from .frames import BROADCAST, Frame, Polling, Unique, first_start, frames_of, parity, read_address

OWN_ADDRESS = Unique(0x3742, 0x0A1B2C)
RESPONSE_PREAMBLES = 5

LOOP_CURRENT = bytes.fromhex("41400000")
PERCENT = bytes.fromhex("42480000")
VARIABLE_UNIT = b"\x20"
VARIABLE_VALUE = bytes.fromhex("41C80000")
VARIABLE_STATUS = b"\xC0"
TIME_STAMP = bytes(4)
ADDITIONAL_STATUS = bytes(25)
EXTENDED_STATUS = ADDITIONAL_STATUS[6:7]
SENSOR = bytes.fromhex("000000 20 43480000 00000000 41200000")
OUTPUT = bytes.fromhex("00 00 20 42C80000 00000000 3F800000")
CHANNEL_FLAGS = b"\x00"

# What follows the requested code in a group of Command 9, for each code. Every other code has `NO_VARIABLE`.
VARIABLES = {
    244: bytes([0, 57]) + PERCENT + VARIABLE_STATUS,
    245: bytes([0, 39]) + LOOP_CURRENT + VARIABLE_STATUS,
    246: b"\x00" + VARIABLE_UNIT + VARIABLE_VALUE + VARIABLE_STATUS,
    0: b"\x00" + VARIABLE_UNIT + VARIABLE_VALUE + VARIABLE_STATUS,
}
NO_VARIABLE = bytes.fromhex("00 FA 7FA00000 30")

LONG_REQUEST = 0x82
GARBLED_PREFIX = 6
COMMUNICATION_FAULTS = 0x80
LONGITUDINAL_PARITY = 0x08

CONFIGURATION_CHANGED = 0x40
COLD_START = 0x20
LOOP_CURRENT_FIXED = 0x08

IMAGE_VERSION = 2
# How many bytes an image of each version has: one of version 1 has no long tag.
IMAGE_BYTES = {1: 54, 2: 86}
GREATEST_POLLING, GREATEST_MODE, GREATEST_FLAGS = 63, 1, 7
NEW_IMAGE = bytes.fromhex("020001" + "820820" * 14 + "000000" + "000000" + "20" * 32 + "0000" + "00")


def bytes_fault(data):
    """Returns the first reason why bytes are no image; None if they are an image."""
    if not data:
        return "length"
    if data[0] not in IMAGE_BYTES:
        return "version"
    if len(data) != IMAGE_BYTES[data[0]]:
        return "length"
    taken = data[1] <= GREATEST_POLLING and data[2] <= GREATEST_MODE and data[-1] <= GREATEST_FLAGS
    return None if taken and commands.is_date(data[45:48]) else "field"


def unpacked(packed):
    """The text of packed bytes: four characters of six bits in three bytes, codes hex 20 to 5F."""
    bits = int.from_bytes(packed, "big")
    codes = (bits >> shift & 63 for shift in range(8 * len(packed) - 6, -1, -6))
    return bytes(code + 64 if code < 32 else code for code in codes)


@dataclass
class Device:
    """What a device holds: its registers, its counter, a changed bit and a cold start bit for each master, and its write protection."""

    polling: int
    mode: int
    message: bytes
    tag: bytes
    descriptor: bytes
    date: bytes
    assembly: bytes
    long_tag: bytes
    counter: int
    changed: dict
    protected: bool
    cold_start: dict

    @classmethod
    def from_image(cls, image):
        """The device that goes on from a good image. After a version 1 image its long tag is the text of its tag and spaces."""
        long_tag = image[51:-3] or unpacked(image[27:33]).ljust(32)
        counter, flags = int.from_bytes(image[-3:-1], "big"), image[-1]
        changed = {"P": bool(flags & 1), "S": bool(flags & 2)}
        return cls(image[1], image[2], image[3:27], image[27:33], image[33:45], image[45:48], image[48:51],
                   long_tag, counter, changed, bool(flags & 4), {"P": False, "S": False})

    def image(self):
        """The bytes that say what the device holds."""
        flags = self.changed["P"] | 2 * self.changed["S"] | 4 * self.protected
        prefix = bytes([IMAGE_VERSION, self.polling, self.mode])
        registers = self.message + self.tag + self.descriptor + self.date + self.assembly + self.long_tag
        return prefix + registers + self.counter.to_bytes(2, "big") + bytes([flags])

    def restart(self):
        """Restarts the device, which then shows a cold start to each master once."""
        self.cold_start = {"P": True, "S": True}

    def hear(self, heard):
        """The answer to a delivery: to its only frame, or, if it has no frame, to a garbled request. None is silence."""
        found = frames_of(heard)
        if not found:
            return reply_to_garbled(heard)
        return self.receive(found[0].frame) if len(found) == 1 else None

    def receive(self, frame):
        """The answer to a frame; None is silence."""
        if frame.kind != "STX" or frame.expansion or not self.is_asked(frame.address, frame.command):
            return None
        command, data = frame.command, frame.payload
        code = commands.request_code(command, data, self.protected, self.counter)
        if code != commands.SUCCESS and frame.address == BROADCAST:
            return None
        if code == commands.SUCCESS and (command == 11 and data[:6] != self.tag or command == 21 and data[:32] != self.long_tag):
            return None
        content = b""
        if code == commands.SUCCESS:
            self.execute(command, commands.written_data(command, data), frame.master)
            content = self.content(command, data)
        payload = bytes([code, self.status(frame.master)]) + content
        self.cold_start[frame.master] = False
        return Frame("ACK", frame.master, 0, frame.address, b"", command, payload)

    def is_asked(self, address, command):
        """Whether the device is asked by a request with this address and command."""
        if isinstance(address, Polling):
            return address.number == self.polling and command == 0
        return address == OWN_ADDRESS or address == BROADCAST and command in (11, 21)

    def execute(self, command, data, master):
        """Carries out a command that has code 0."""
        if command == 38:
            self.changed[master] = False
        if command not in commands.WRITES:
            return
        if command == 6:
            self.polling, self.mode = data
        elif command == 17:
            self.message = data
        elif command == 18:
            self.tag, self.descriptor, self.date = data[:6], data[6:18], data[18:]
        elif command == 19:
            self.assembly = data
        else:
            self.long_tag = data
        self.counter = (self.counter + 1) % 0x10000
        self.changed = {"P": True, "S": True}

    def status(self, master):
        """The device status that this master is given."""
        return (CONFIGURATION_CHANGED * self.changed[master] | COLD_START * self.cold_start[master]
                | LOOP_CURRENT_FIXED * (self.mode == 0))

    def identity(self):
        """Who the device is, 22 bytes."""
        return (bytes.fromhex("FE 3742 05 07 01 02 18 00 0A1B2C 05 04") + self.counter.to_bytes(2, "big")
                + EXTENDED_STATUS + bytes.fromhex("0037 0037 01"))

    def content(self, command, data):
        """The reply data of a command that was carried out."""
        if command == 9:
            codes = data[:commands.MOST_CODES]
            groups = (bytes([code]) + VARIABLES.get(code, NO_VARIABLE) for code in codes)
            return EXTENDED_STATUS + b"".join(groups) + TIME_STAMP
        tag = self.tag + self.descriptor + self.date
        polling = bytes([self.polling, self.mode])
        return {
            0: self.identity(), 11: self.identity(), 21: self.identity(),
            1: VARIABLE_UNIT + VARIABLE_VALUE,
            2: LOOP_CURRENT + PERCENT,
            3: LOOP_CURRENT + VARIABLE_UNIT + VARIABLE_VALUE,
            6: polling, 7: polling,
            8: bytes(4),
            12: self.message, 17: self.message,
            13: tag, 18: tag,
            14: SENSOR,
            15: OUTPUT + bytes([self.protected, 250]) + CHANNEL_FLAGS,
            16: self.assembly, 19: self.assembly,
            20: self.long_tag, 22: self.long_tag,
            38: self.counter.to_bytes(2, "big"),
            48: ADDITIONAL_STATUS,
        }[command]


def garbled_request(heard):
    """The characters of the garbled request at the first start of what was heard; None if there is none."""
    start = first_start(heard)
    if start is None:
        return None
    begun = heard[start:]
    if len(begun) < GARBLED_PREFIX + 2 or any(char.faults for char in begun[:GARBLED_PREFIX]):
        return None
    delimiter, *address = (char.byte for char in begun[:GARBLED_PREFIX])
    length = GARBLED_PREFIX + 2 + begun[GARBLED_PREFIX + 1].byte + 1
    if delimiter != LONG_REQUEST or read_address(bytes(address))[2] != OWN_ADDRESS or len(begun) < length:
        return None
    return begun[:length]


def reply_to_garbled(heard):
    """The communication-fault reply to the garbled request in characters without a frame; None without such a request."""
    garbled = garbled_request(heard)
    if garbled is None:
        return None
    faults = reduce(or_, (char.faults for char in garbled))
    if parity(char.byte for char in garbled):
        faults |= LONGITUDINAL_PARITY
    master = read_address(bytes(char.byte for char in garbled[1:GARBLED_PREFIX]))[0]
    payload = bytes([COMMUNICATION_FAULTS | faults, 0])
    return Frame("ACK", master, 0, OWN_ADDRESS, b"", garbled[GARBLED_PREFIX].byte, payload)


def new_device():
    """The bench device as it is new."""
    return Device.from_image(NEW_IMAGE)
