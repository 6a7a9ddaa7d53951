"""Frames, the bodies that they are on the wire, and where they stand in a list of received characters."""

from dataclasses import dataclass
from functools import reduce
from operator import xor
from typing import NamedTuple

LONGEST_BODY = 267
LEAST_ACK_PAYLOAD = 2
KIND_BITS = {"STX": 2, "ACK": 6}
KINDS = {bits: kind for kind, bits in KIND_BITS.items()}


class Char(NamedTuple):
    """A received character: a byte, and the fault bits that the receiver noticed at it, 0 for none."""

    byte: int
    faults: int = 0


PREAMBLE = Char(0xFF)


@dataclass(frozen=True)
class Polling:
    """A polling address, 0 to 63."""

    number: int


@dataclass(frozen=True)
class Unique:
    """A unique address: the lower 14 bits of the expanded device type, and the device id of 24 bits."""

    type: int
    id: int


BROADCAST = Unique(0, 0)


@dataclass(frozen=True)
class Frame:
    """What a body says: the kind, `STX` or `ACK`, the master, `P` or `S`, and the rest of its fields."""

    kind: str
    master: str
    burst: int
    address: Polling | Unique
    expansion: bytes
    command: int
    payload: bytes


class Found(NamedTuple):
    """A frame in a list: the place of its delimiter, the place after its check byte, and the frame."""

    start: int
    stop: int
    frame: Frame

    def moved(self, first):
        """The frame with `first` added to its places."""
        return Found(self.start + first, self.stop + first, self.frame)


def parity(data):
    """The exclusive or of all bytes."""
    return reduce(xor, data, 0)


def faultless(data):
    """The characters of bytes that are heard without a fault."""
    return tuple(Char(byte) for byte in data)


def address_bytes(address, master, burst):
    """An address as it stands in a message of this master with this burst bit."""
    bits = 0x80 * (master == "P") | 0x40 * burst
    if isinstance(address, Polling):
        return bytes([bits | address.number])
    return bytes([bits | address.type >> 8, address.type & 0xFF]) + address.id.to_bytes(3, "big")


def read_address(data):
    """The master, the burst bit and the address that one or five bytes say."""
    master, burst, rest = "P" if data[0] & 0x80 else "S", data[0] >> 6 & 1, data[0] & 0x3F
    if len(data) == 1:
        return master, burst, Polling(rest)
    return master, burst, Unique(rest << 8 | data[1], int.from_bytes(data[2:], "big"))


def with_check_byte(data):
    """Bytes and, after them, the byte that gives them even parity."""
    return data + bytes([parity(data)])


def body_of(frame):
    """The bytes of a frame from its delimiter to its check byte."""
    wide = 0x80 * isinstance(frame.address, Unique)
    delimiter = wide | len(frame.expansion) << 5 | KIND_BITS[frame.kind]
    address = address_bytes(frame.address, frame.master, frame.burst)
    count = len(frame.payload)
    return with_check_byte(bytes([delimiter]) + address + frame.expansion + bytes([frame.command, count]) + frame.payload)


def is_delimiter(byte):
    """Whether a byte is a delimiter of the profile: physical layer 0, and of an STX or an ACK."""
    return byte & 0x18 == 0 and byte & 7 in KINDS


def leading_frame(data):
    """The frame whose body these bytes begin with, and the length of the body; None if they begin with none."""
    if not data or not is_delimiter(data[0]):
        return None
    kind = KINDS[data[0] & 7]
    after_address = 1 + (5 if data[0] & 0x80 else 1)
    after_expansion = after_address + (data[0] >> 5 & 3)
    payload = after_expansion + 2
    if len(data) < payload:
        return None
    count = data[payload - 1]
    length = payload + count + 1
    if len(data) < length or parity(data[:length]) or kind == "ACK" and count < LEAST_ACK_PAYLOAD:
        return None
    master, burst, address = read_address(data[1:after_address])
    expansion, command = data[after_address:after_expansion], data[after_expansion]
    return Frame(kind, master, burst, address, expansion, command, data[payload:payload + count]), length


def first_start(heard):
    """Returns the first place at which a body may start, whatever is heard there; None without such a place."""
    for place in range(2, len(heard)):
        if heard[place - 2] == heard[place - 1] == PREAMBLE != heard[place]:
            return place
    return None


def faultless_bytes(heard, place):
    """The bytes of characters from a place on, up to the first with a fault, and at most as many as the longest body has."""
    run = bytearray()
    for char in heard[place:place + LONGEST_BODY]:
        if char.faults:
            break
        run.append(char.byte)
    return bytes(run)


def first_frame(heard, begin):
    """Returns the first frame of the list that begins at `begin`; None without a frame."""
    for place in range(begin + 2, len(heard)):
        if heard[place - 1] == heard[place - 2] == PREAMBLE and is_delimiter(heard[place].byte):
            leading = leading_frame(faultless_bytes(heard, place))
            if leading is not None:
                frame, length = leading
                return Found(place, place + length, frame)
    return None


def frames_of(heard):
    """The frames of a list: the first one, and then those of what follows its body, which is searched as a list of its own."""
    found, rest = [], 0
    while (first := first_frame(heard, rest)) is not None:
        found.append(first)
        rest = first.stop
    return found
