"""Images of a device: what they hold, and images that are made at random."""

from typing import NamedTuple

from .vectors import NEW

BLANK_TAG = bytes.fromhex("820820820820")
PUMP_TAG = bytes.fromhex("415350B71C31")
BLANK_LONG_TAG = b" " * 32
LONG_TAGS = (BLANK_LONG_TAG, b"PUMP-101".ljust(32), b"Feed pump, building 3".ljust(32), bytes(range(0xE0, 0x100)), bytes(range(32)))
DAYS = ("000000", "1D0264", "1C02C8", "1F0CFF", "010100", "1E0464", "0A0B0C")
NO_DAYS = ("1D0200", "1D02C8", "1F0400", "200101", "1F0D64", "010064", "000164", "000001", "1E0265")
# Counters just before both bytes wrap, before the lower byte wraps, and before the highest bit changes.
COUNTERS = (0xFFFF, 0xFFFF, 0xFF, 0x7FFF)
PROTECTED = 4
NEW_IMAGE = bytes.fromhex("020001" + "820820" * 14 + "000000" + "000000" + "20" * 32 + "0000" + "00")
TAG_START, DATE_START, LONG_TAG_START = 27, 45, 51


class Image(NamedTuple):
    """The fields of an image that matter to whoever makes requests."""

    polling: int
    tag: bytes
    long_tag: bytes
    counter: int
    is_protected: bool


def unpacked(packed):
    """The text of packed bytes."""
    bits = int.from_bytes(packed, "big")
    codes = (bits >> shift & 63 for shift in range(8 * len(packed) - 6, -1, -6))
    return bytes(code + 64 if code < 32 else code for code in codes)


def read(word):
    """The fields of an image in hex, or of the new device."""
    image = NEW_IMAGE if word == NEW else bytes.fromhex(word)
    tag = image[TAG_START:TAG_START + 6]
    long_tag = image[LONG_TAG_START:-3] or unpacked(tag).ljust(32)
    return Image(image[1], tag, long_tag, int.from_bytes(image[-3:-1], "big"), bool(image[-1] & PROTECTED))


def random_tag(rng):
    """A tag, often one of two."""
    return rng.choice((BLANK_TAG, PUMP_TAG, rng.randbytes(6)))


def random_image(rng):
    """An image in hex, of both versions, often with a counter that soon wraps, as a rule without write protection."""
    counter = rng.choice((*COUNTERS, rng.randrange(0x10000))) - rng.randrange(4)
    flags = rng.randrange(4) | PROTECTED * (rng.random() < 0.2)
    registers = random_tag(rng) * 4 + random_tag(rng) + random_tag(rng) * 2 + bytes.fromhex(rng.choice(DAYS)) + rng.randbytes(3)
    version = rng.choice((1, 2, 2))
    long_tag = rng.choice(LONG_TAGS) if version == 2 else b""
    polling = rng.choice((0, 0, 5, 63))
    image = bytes([version, polling, rng.randrange(2)]) + registers + long_tag + max(counter, 0).to_bytes(2, "big") + bytes([flags])
    return image.hex().upper()
