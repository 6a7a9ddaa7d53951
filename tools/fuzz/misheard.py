"""Makes characters of which `hart explain` has more to say: broken messages, and messages whose data do not fit."""

from . import heard
from .commands import COMMANDS, UNKNOWN
from .frames import PREAMBLE, Char, faultless
from .heard import reply_payload, request_data, weighted

BESIDE_LISTED = [number for number in UNKNOWN if {number - 1, number + 1} & set(COMMANDS)]


def command_of(rng):
    """A command, each of the profile as often as any other, and sometimes one that is not listed."""
    return rng.choice((*COMMANDS, rng.choice(UNKNOWN), rng.choice(BESIDE_LISTED)))


def body(rng):
    """A body of a request or a reply, whose data mostly come near to those of its command."""
    command, ack = command_of(rng), rng.random() < 0.6
    expansion = rng.randbytes(weighted(rng, (12, 0), (1, 1), (1, 2), (1, 3)))
    payload = reply_payload(rng, command) if ack else request_data(rng, command)
    return heard.body_of_fields(rng, ack, heard.random_address(rng), expansion, command, payload)


def start(rng):
    """Two or more preamble bytes."""
    return (PREAMBLE,) * rng.choice((2, 2, 3, 5))


def message(rng):
    """A whole message."""
    return start(rng) + faultless(body(rng))


def cut_message(rng):
    """A message of which the last characters are missing."""
    whole = body(rng)
    left = rng.choice((1, 2, len(whole) - 1, len(whole) - 1, len(whole) - 2, rng.randrange(len(whole))))
    return start(rng) + faultless(whole[:left])


def one_preamble(rng):
    """A body after one preamble byte, before which another byte, a damaged character or nothing stands."""
    before = rng.choice(((), faultless(heard.noise(rng)), (Char(0xFF, 0x40),), (Char(0xFE),)))
    return before + (PREAMBLE,) + faultless(body(rng))


def after_check_byte_of_preamble(rng):
    """A body whose check byte is FF, then one preamble byte or none, then another body."""
    first = faultless(heard.with_check_byte_of_preamble(rng))
    return start(rng) + first + (PREAMBLE,) * rng.randrange(2) + faultless(body(rng))


def wrong_check_byte(rng):
    """A message with a wrong check byte."""
    whole = body(rng)
    return start(rng) + faultless(whole[:-1] + bytes([whole[-1] ^ rng.choice((1, 0x80, rng.randrange(1, 256)))]))


def marked_body(rng):
    """A message with fault bits on one character, sometimes cut short before or after it."""
    characters = list(faultless(body(rng)))
    place = rng.choice((0, 1, rng.randrange(len(characters)), rng.randrange(len(characters)), len(characters) - 1))
    characters[place] = Char(rng.choice((characters[place].byte, 0xFF, rng.randrange(256))), heard.fault_bits(rng))
    if rng.random() < 0.2:
        characters = characters[:rng.randrange(len(characters) + 1)]
    return start(rng) + tuple(characters)


def other_delimiter(rng):
    """A message that begins with a byte which is no delimiter of the profile, often that of a burst message."""
    rest = body(rng)[1:]
    delimiter = rng.choice((0x01, 0x81, 0x21, 0xE1, 0x00, 0x03, 0x05, 0x07, 0x09, 0x0A, 0x12, 0x1A, 0x8E, 0xFE, rng.randrange(255)))
    return start(rng) + faultless(bytes([delimiter]) + rest)


def short_reply(rng):
    """An ACK whose byte count is below 2."""
    expansion = rng.randbytes(weighted(rng, (3, 0), (1, 1), (1, 3)))
    payload = rng.randbytes(rng.randrange(2))
    whole = faultless(heard.body_of_fields(rng, True, heard.random_address(rng), expansion, command_of(rng), payload))
    return start(rng) + (heard.marked(rng, whole) if rng.random() < 0.2 else whole)


PIECES = ((16, message), (3, cut_message), (3, one_preamble), (2, after_check_byte_of_preamble), (2, wrong_check_byte), (3, marked_body),
          (2, other_delimiter), (2, short_reply), (1, lambda rng: faultless(heard.noise(rng))), (1, lambda rng: (Char(0xFF, 0x40),)))


def misheard(rng):
    """Some pieces end to end."""
    pieces = [weighted(rng, *PIECES)(rng) for _ in range(weighted(rng, (6, 1), (4, 2), (2, 4), (1, 8)))]
    if rng.random() < 0.2:
        pieces.append(cut_message(rng))
    characters = tuple(char for piece in pieces for char in piece)
    return heard.damaged(rng, characters) if rng.random() < 0.1 else characters


def spoken(rng):
    """Many whole messages, one after the other."""
    return tuple(char for _ in range(rng.randint(4, 20)) for char in message(rng))
