"""The texts that go in and come out: items, the lines of `hart dump`, the words of the other calls, and the faults."""

import re
from typing import NamedTuple

from .device import RESPONSE_PREAMBLES, Device, bytes_fault, new_device
from .frames import BROADCAST, Char, Frame, Polling, Unique, body_of, frames_of

INPUT_LIMIT = 1_048_576
# The only limit on what `hart explain` reads is that of 64 bits, which no input here comes near.
NO_LIMIT = 2 ** 64 - 1
LONGEST_ITEM = 5
MOST_DATA = 255
LEAST_PREAMBLES, MOST_PREAMBLES = 5, 20
READ_FAULT = "read fault"
TOO_LONG = "input too long"

SEPARATORS = re.compile(rb"[ \t\r\n]*")
HEX_DIGITS = re.compile(rb"[0-9A-Fa-f]*")
# The longest run with which an item can begin: two hex digits, then `!`, then fault bits from 02 to 72.
ITEM_PREFIX = re.compile(rb"(?:[0-9A-Fa-f](?:[0-9A-Fa-f](?:!(?:02?|[1-7][02]?)?)?)?)?")
# What stands between texts of items: a silence, a date or the end.
MARK = re.compile(rb"[/@]|\Z")
# The word of a date may have up to 32 bytes from `!` to `~`.
WORD = re.compile(rb"[!-~]*")
LONGEST_WORD = 32
DECIMAL_DIGITS = re.compile(rb"[0-9]+")


class Given(NamedTuple):
    """What a call is given: the words after its name, and the text that it may read. With None every read fails.

    With portions the text comes through a pipe. They are the numbers of bytes that its reads give in turn, over and over.
    """

    words: list
    text: bytes | None
    portions: tuple = ()


class Result(NamedTuple):
    """How a call ends: its status, what it writes, the fault that it gives, and whether it leaves its input unread.

    The fault is None for any text of usage or help.
    """

    status: int
    written: bytes
    fault: bytes | None
    unread: bool = False


USAGE = Result(2, b"", None, True)


def done(written):
    """The end of a call that did its work."""
    return Result(0, written, b"")


def failed(fault, written=b"", unread=False):
    """The end of a call with a fault."""
    return Result(1, written, fault.encode() + b"\n", unread)


class BadHex(Exception):
    """Something that is neither a separator nor an item, at a place of the text; and the characters before it."""

    def __init__(self, place, before):
        super().__init__(place)
        self.place = place
        self.before = before

    def fault(self):
        """The text of the fault."""
        return f"bad hex at {self.place}"


def is_hex(data):
    """Whether all bytes are hex digits of either case."""
    return HEX_DIGITS.fullmatch(data) is not None


def item_char(item):
    """Returns the character of an item."""
    return Char(int(item[:2], 16), int(item[3:] or b"0", 16))


def read_items(text, cut_short=False):
    """The characters of a text; raises `BadHex`. If the text is cut short, an item at its end is left out."""
    heard = []
    place = SEPARATORS.match(text).end()
    while place < len(text):
        item = ITEM_PREFIX.match(text, place).group()
        if cut_short and place + len(item) == len(text):
            break
        if len(item) not in (2, LONGEST_ITEM):
            raise BadHex(place, heard)
        heard.append(item_char(item))
        place = SEPARATORS.match(text, place + len(item)).end()
    return heard


def read_heard(text, cut_short=False):
    """What was heard in a text, with None for each `/`, where the line fell silent, and the word of each `@`; raises `BadHex`."""
    heard, place = [], 0
    while True:
        stop = MARK.search(text, place).start()
        heard += read_after(heard, place, text[place:stop], cut_short and stop == len(text))
        if stop == len(text):
            return heard
        if text[stop:stop + 1] == b"/":
            heard, place = heard + [None], stop + 1
            continue
        word = WORD.match(text, stop + 1).group()
        place = stop + 1 + len(word)
        if place == len(text) and cut_short and len(word) <= LONGEST_WORD:
            return heard
        if not 1 <= len(word) <= LONGEST_WORD or place < len(text) and text[place] not in b" \t\r\n":
            raise BadHex(stop, heard)
        heard += [word]


def read_after(heard, first, text, cut_short):
    """The characters of a stretch whose text begins at `first`, after what was `heard`; raises `BadHex`."""
    try:
        return read_items(text, cut_short)
    except BadHex as bad:
        raise BadHex(first + bad.place, heard + bad.before) from None


def address_text(address):
    """An address as it is written."""
    if isinstance(address, Polling):
        return f"@{address.number}"
    return "all" if address == BROADCAST else f"{address.type:04X}{address.id:06X}"


def hex_text(data):
    """Bytes in hex with spaces between them."""
    return data.hex(" ").upper()


def hex_or_dash(data):
    """Bytes in hex, or `-` for none."""
    return data.hex().upper() or "-"


def dumped(heard):
    """A line for each frame of the characters."""
    lines = []
    for start, stop, frame in frames_of(heard):
        fields = [start, stop, frame.kind, frame.master, frame.burst, address_text(frame.address)]
        fields += [hex_or_dash(frame.expansion), frame.command, hex_or_dash(frame.payload)]
        lines.append(" ".join(map(str, fields)) + "\n")
    return "".join(lines).encode()


def up_to_fault(text, limit, read=read_items):
    """What was heard in an input before its first fault, in the order of the bytes; and this fault, or None."""
    if text is None:
        return [], READ_FAULT
    too_long = len(text) > limit
    try:
        return read(text[:limit], cut_short=too_long), TOO_LONG if too_long else None
    except BadHex as bad:
        return bad.before, bad.fault()


def told(given, text_of, limit, read=read_items):
    """The end of a call that writes the text of what was heard before the first fault, and reports that fault."""
    heard, fault = up_to_fault(given.text, limit, read)
    written = text_of(heard)
    return done(written) if fault is None else failed(fault, written)


def dump(given):
    """What `hart dump` does with an input."""
    return told(given, dumped, INPUT_LIMIT)


def message_text(frame, preambles):
    """The line of a message, or nothing for None."""
    if frame is None:
        return b""
    return hex_text(b"\xFF" * preambles + body_of(frame)).encode() + b"\n"


def answer(given):
    """What `hart answer` does with its words and an input: the device hears it whole."""
    try:
        device = device_of(given)
        heard = read_items(given.text)
    except Ended as ended:
        return ended.result
    except BadHex as bad:
        return failed(bad.fault())
    return done(message_text(device.hear(heard), RESPONSE_PREAMBLES))


def decimal(word, most_digits, greatest):
    """The number in a word of decimal digits; None if the word has another form, or the number is too great."""
    if not DECIMAL_DIGITS.fullmatch(word) or len(word) > most_digits or int(word) > greatest:
        return None
    return int(word)


def read_who(word):
    """The master that a word names, or None."""
    return {b"P": "P", b"S": "S"}.get(word)


def read_address_word(word):
    """The address that a word names, or None. Only the lower 14 bits of a type count."""
    if word == b"all":
        return BROADCAST
    if word[:1] == b"@":
        number = decimal(word[1:], 2, 63)
        return None if number is None else Polling(number)
    if len(word) != 10 or not is_hex(word):
        return None
    return Unique(int(word[:4], 16) & 0x3FFF, int(word[4:], 16))


def read_command(word):
    """The command that a word names, or None."""
    return decimal(word, 3, 255)


def read_data(word):
    """The bytes of a data word, or None."""
    if len(word) % 2 or len(word) > 2 * MOST_DATA or not is_hex(word):
        return None
    return bytes.fromhex(word.decode())


REQUEST_WORDS = (read_who, read_address_word, read_command, read_data)


def read_preambles(word):
    """The number of preamble bytes that the word of the option says, or None."""
    digits = word.removeprefix(b"+")
    number = int(digits) if DECIMAL_DIGITS.fullmatch(digits) else None
    return number if number in range(LEAST_PREAMBLES, MOST_PREAMBLES + 1) else None


def is_utf8(word):
    """Whether the bytes of a word are UTF-8."""
    try:
        word.decode()
    except UnicodeDecodeError:
        return False
    return True


def is_plain(word):
    """Whether a word is neither an option nor `--`, after which there are no options."""
    return word == b"-" or not word.startswith(b"-")


def split_words(words, option):
    """Returns a pair of the plain words of a call and the value of its option, None without it. Returns None if the words make no call."""
    rest, plain, values = list(words), [], []
    while rest and rest[0] != b"--":
        word = rest.pop(0)
        if is_plain(word):
            plain.append(word)
            continue
        name, joined, value = word.partition(b"=")
        if name != option or values or not joined and not (rest and is_plain(rest[0])):
            return None
        values.append(value if joined else rest.pop(0))
    return (plain + rest[1:], values[0] if values else None) if all(map(is_utf8, words)) else None


class Ended(Exception):
    """The end of a call before its text is looked at, with its result."""

    def __init__(self, result):
        super().__init__(result)
        self.result = result


def image_fault(word):
    """What is wrong with the word of an image; None if it is one."""
    digits = HEX_DIGITS.match(word).end()
    if len(word) % 2 or digits < len(word):
        return f"bad hex at {len(word) if len(word) % 2 else digits}"
    fault = bytes_fault(bytes.fromhex(word.decode()))
    return fault and f"bad image: {fault}"


def device_at_start(words):
    """The device of a call that may go on from an image; raises `Ended` for its words, then for the image."""
    split = split_words(words, b"--image")
    if split is None or split[0]:
        raise Ended(USAGE)
    word = split[1]
    fault = None if word is None else image_fault(word)
    if fault is not None:
        raise Ended(failed(fault, unread=True))
    return new_device() if word is None else Device.from_image(bytes.fromhex(word.decode()))


def device_of(given):
    """The device of a call of `hart answer` or `hart sim`; raises `Ended` for its words, for the image, then for its input."""
    device = device_at_start(given.words)
    if given.text is None or len(given.text) > INPUT_LIMIT:
        raise Ended(failed(READ_FAULT if given.text is None else TOO_LONG))
    return device


def encode(given):
    """What `hart encode` does with the words that follow it."""
    split = split_words(given.words, b"--preambles")
    if split is None or len(split[0]) not in (3, 4):
        return USAGE
    plain, word = split
    preambles = LEAST_PREAMBLES if word is None else read_preambles(word)
    if preambles is None:
        return USAGE
    values = [read(word) for read, word in zip(REQUEST_WORDS, plain)]
    if None in values:
        return failed(f"bad word {values.index(None) + 1}")
    who, address, command = values[:3]
    data = values[3] if len(values) > 3 else b""
    return done(message_text(Frame("STX", who, 0, address, b"", command, data), preambles))
