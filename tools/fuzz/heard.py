"""Makes random messages, and what may be heard of them: damage, noise, false starts and messages inside of others. Makes payloads of
which `hart explain` has much to say: data that their command takes, and data that are too few, too many or refused."""

from .commands import COMMANDS, IDENTITY_COMMANDS, IDENTITY_FIRST, NEEDED, REPLY_NEEDED, UNKNOWN, WITH_DATA
from .device import OWN_ADDRESS
from .frames import BROADCAST, LONGEST_BODY, PREAMBLE, Char, Polling, Unique, address_bytes, faultless, parity, with_check_byte

BLANK_TAG = bytes.fromhex("820820" * 2)
OTHER_TAG = bytes.fromhex("415350B71C31")
BLANK_LONG_TAG = b" " * 32
OTHER_LONG_TAG = b"PUMP-101".ljust(32)
DATES = [bytes.fromhex(date) for date in ("000000", "1D0264", "1D0200", "1F0CFF", "000164", "1D02C8", "1F0400", "010101", "200101")]
STATUS_PAIRS = [bytes.fromhex(pair) for pair in ("0000", "0040", "0740", "8800", "C005", "2000", "7F00", "8000")]
SMALL_MESSAGE = bytes.fromhex("FFFF0280000082")
NOISE_BYTES = [0xFF] * 6 + [0x02, 0x82, 0x06, 0x86, 0x00, 0x00, 0x80, 0x01, 0x81, 0xE2, 0x26, 0x0A]
CODES = (1, 2, 3, 4, 5, 6, 7, 8, 9, 10, 11, 12, 13, 14, 16, 32, 33, 34, 35, 36, 64, 65, 127)
FAULT_BYTES = (0x80, 0x81, 0x82, 0x84, 0x85, 0x88, 0x90, 0xA0, 0xC0, 0xE8, 0xFA, 0xFF)
STATUS_BYTES = (0x00, 0x00, 0x40, 0x48, 0x60, 0x80, 0x10, 0x08, 0x04, 0x02, 0x01, 0xFF)
MOST_REPLY_DATA = 253
LONG_TAG_BYTES = 32
LATIN = b' "\\/\'ABab09~\xa0\xad\xb0\xe9\xff'
UNPRINTABLE = b"\x00\x09\x0a\x1f\x7f\x80\x85\x9f"


def weighted(rng, *choices):
    """Returns one of the values in these pairs of weight and value, by their weights."""
    return rng.choices([value for _, value in choices], [weight for weight, _ in choices])[0]


def random_master(rng):
    """A master."""
    return rng.choice("PS")


def random_address(rng, polling=0):
    """An address; the polling address is that of the device, which is often asked for."""
    bit = rng.randrange(38)
    near = Unique(OWN_ADDRESS.type ^ 1 << bit >> 24, OWN_ADDRESS.id ^ (1 << bit) % (1 << 24))
    return weighted(
        rng, (12, OWN_ADDRESS), (4, Polling(polling)), (1, Polling(rng.randrange(64))), (1, Polling(63)), (3, BROADCAST),
        (1, near), (1, Unique(rng.randrange(1 << 14), rng.randrange(1 << 24))), (1, Unique(0, 1)))


def random_command(rng):
    """A command, mostly one of the profile."""
    return weighted(rng, (12, rng.choice(list(NEEDED))), (6, rng.choice(WITH_DATA)), (1, rng.randrange(256)), (1, rng.choice(UNKNOWN)))


def random_bytes(rng, length):
    """Returns `length` bytes, of any values or of those that are common in messages."""
    if rng.random() < 0.5:
        return rng.randbytes(length)
    return bytes(rng.choices(NOISE_BYTES, k=length))


def with_message_inside(rng, data):
    """Bytes in which a whole small message stands, if there is room for it."""
    if len(data) < len(SMALL_MESSAGE):
        return data
    place = rng.randrange(len(data) - len(SMALL_MESSAGE) + 1)
    return data[:place] + SMALL_MESSAGE + data[place + len(SMALL_MESSAGE):]


def random_date(rng):
    """The bytes of a date, which may be in no calendar, or not set."""
    day = bytes([rng.randint(1, 31), rng.randint(1, 12), rng.randrange(256)])
    return weighted(rng, (2, rng.choice(DATES)), (2, day), (1, rng.randbytes(3)), (1, bytes(3)))


def good_data(rng, command, counter=0, tag=BLANK_TAG, long_tag=BLANK_LONG_TAG):
    """Request data that the command takes, as a rule."""
    if command == 6:
        address = bytes([rng.choice((0, 0, 5, 62, 63, 64, 255, rng.randrange(64)))])
        return address + bytes(rng.choices((0, 1, 1, 2, 255), k=rng.randrange(2)))
    if command == 9:
        return bytes(rng.choices((244, 245, 246, 247, 249, 0, 1, 3, 4, 9, 243, 250, 255), k=rng.randint(1, 9)))
    if command == 11:
        return rng.choice((tag, tag, tag, BLANK_TAG, OTHER_TAG, rng.randbytes(6)))
    if command == 17:
        text = rng.choice((BLANK_TAG * 4, rng.randbytes(24), bytes([255] * 24)))
        return with_message_inside(rng, text) if rng.random() < 0.3 else text
    if command == 18:
        return rng.choice((BLANK_TAG, OTHER_TAG)) + rng.choice((BLANK_TAG * 2, rng.randbytes(12))) + random_date(rng)
    if command == 19:
        return rng.choice((bytes.fromhex("012345"), rng.randbytes(3), bytes.fromhex("FFFFFF")))
    if command == 21:
        near = bytearray(long_tag)
        near[rng.randrange(32)] ^= 1 << rng.randrange(8)
        return rng.choice((long_tag, long_tag, long_tag, BLANK_LONG_TAG, OTHER_LONG_TAG, bytes(near), rng.randbytes(32)))
    if command == 22:
        text = rng.choice((BLANK_LONG_TAG, OTHER_LONG_TAG, rng.randbytes(32), bytes([255] * 32)))
        return with_message_inside(rng, text) if rng.random() < 0.3 else text
    if command == 38:
        near = (counter, counter, counter, 0, counter + 1, 0xFFFF, rng.randrange(0x10000))
        return b"" if rng.random() < 0.3 else (rng.choice(near) % 0x10000).to_bytes(2, "big")
    return b""


def random_data(rng, command, counter=0, tag=BLANK_TAG, long_tag=BLANK_LONG_TAG):
    """Request data of any command: as it wants them, too few, too many, the most that there are, or of any bytes."""
    data = good_data(rng, command, counter, tag, long_tag)
    return weighted(
        rng, (12, lambda: data), (2, lambda: data[:rng.randrange(len(data) + 1)]), (2, lambda: data[:-1]),
        (2, lambda: data + random_bytes(rng, rng.choice((1, 1, 2, 8, 30)))),
        (1, lambda: (data + random_bytes(rng, 255))[:rng.choice((254, 255))]),
        (1, lambda: random_bytes(rng, rng.randrange(40))),
        (1, lambda: with_message_inside(rng, random_bytes(rng, rng.randint(7, 40)))))()


def random_payload(rng, command, ack):
    """The payload of a message: request data, or for an ACK status bytes and any data, sometimes too few for a frame."""
    if not ack:
        return random_data(rng, command)
    data = rng.choice(STATUS_PAIRS) + random_bytes(rng, rng.choice((0, 0, 1, 2, 3, 5, 22, 25, rng.randrange(254))))
    return data[:rng.randrange(4)] if rng.random() < 0.3 else data


def random_body(rng, polling=0):
    """A body, mostly a request to the device. Its fields may have any values that fit into a body."""
    ack = rng.random() < 0.25
    if rng.random() < 0.02:
        return body_of_fields(rng, ack, OWN_ADDRESS, rng.randbytes(3), random_command(rng), random_bytes(rng, 255))
    address, command = random_address(rng, polling), random_command(rng)
    expansion = rng.randbytes(weighted(rng, (12, 0), (1, 1), (1, 2), (1, 3)))
    payload = random_payload(rng, command, ack)
    return body_of_fields(rng, ack, address, expansion, command, payload)


def body_of_fields(rng, ack, address, expansion, command, payload):
    """The bytes of a body with these fields and any master. An ACK may be too short for a frame."""
    delimiter = 0x80 * isinstance(address, Unique) | len(expansion) << 5 | (6 if ack else 2)
    burst = int(rng.random() < 0.15)
    prefix = bytes([delimiter]) + address_bytes(address, random_master(rng), burst) + expansion
    return with_check_byte(prefix + bytes([command, len(payload)]) + payload)


def with_check_byte_of_preamble(rng):
    """A body whose check byte is FF, so that it looks like the first preamble byte of what follows."""
    prefix = bytes.fromhex("02 80")
    payload = random_bytes(rng, rng.randrange(4))
    command = parity(prefix + bytes([len(payload)]) + payload) ^ 0xFF
    return with_check_byte(prefix + bytes([command, len(payload)]) + payload)


def preamble(rng):
    """Preamble bytes, two or more as a rule."""
    return b"\xFF" * weighted(rng, (1, 0), (2, 1), (8, 2), (3, 3), (8, 5), (1, 20), (1, rng.randrange(26)))


def false_start(rng):
    """Two preamble bytes and a body that is cut at its byte count or before it."""
    delimiter = rng.choice((0x02, 0x82, 0x82, 0x86, 0x06, 0xE2, 0xA6, 0x22))
    prefix = bytes([delimiter]) + random_bytes(rng, (5 if delimiter & 0x80 else 1) + (delimiter >> 5 & 3))
    count = rng.choice((0, 1, 2, 5, 9, 30, 255, 255, rng.randrange(256)))
    prefix += bytes([rng.choice((0x13, 0xFF, rng.randrange(256))), count])
    return b"\xFF\xFF" + prefix[:rng.choice((1, 2, len(prefix), len(prefix), len(prefix)))]


def unknown_message(rng):
    """A message with a check byte that fits, but a delimiter of no frame: of a burst message or another physical layer."""
    body = random_body(rng)
    delimiter = rng.choice((body[0] & 0xF8 | rng.choice((0, 1, 3, 4, 5, 7)), body[0] | rng.choice((0x08, 0x10, 0x18))))
    return preamble(rng) + with_check_byte(bytes([delimiter]) + body[1:-1])


def filled_start(rng):
    """A message with other heard bytes as its payload. Its check byte fits half of the time."""
    inner = heard_bytes(rng, rng.randrange(3))[:255]
    body = body_of_fields(rng, False, random_address(rng), b"", random_command(rng), inner)
    return preamble(rng) + body[:-1] + bytes([body[-1] ^ rng.choice((0, 0, 1, 0x80))])


def noise(rng):
    """Some bytes that mean nothing."""
    return random_bytes(rng, rng.choice((1, 1, 2, 3, 5, 8, 13, 40)))


def heard_bytes(rng, depth=0):
    """The bytes of some pieces, end to end."""
    kinds = [(10, lambda r: preamble(r) + random_body(r)), (3, noise), (4, false_start), (1, unknown_message),
             (2, lambda r: preamble(r) + with_check_byte_of_preamble(r)), (2 if depth < 2 else 0, filled_start)]
    return b"".join(weighted(rng, *kinds)(rng) for _ in range(weighted(rng, (6, 1), (4, 2), (3, 3), (1, 5))))


def fault_bits(rng):
    """Fault bits of a damaged character."""
    return rng.choice((0x40, 0x20, 0x10, 0x02, 0x72, rng.randrange(256) & 0x72 or 0x42))


def marked(rng, heard):
    """What was heard, with fault bits on one or more characters, whose bytes may change."""
    heard = list(heard)
    for _ in range(weighted(rng, (8, 1), (2, 2), (1, 6))):
        place = rng.randrange(len(heard))
        heard[place] = Char(rng.choice((heard[place].byte, rng.randrange(256), 0xFF)), fault_bits(rng))
    return tuple(heard)


def changed(rng, heard):
    """What was heard, with one character replaced by a faultless one."""
    place = rng.randrange(len(heard))
    byte = rng.choice((heard[place].byte ^ 1 << rng.randrange(8), rng.randrange(256), 0xFF))
    return heard[:place] + (Char(byte),) + heard[place + 1:]


def mended(rng, heard):
    """What was heard, with the same bits changed in two characters, so that the parity stays."""
    bits = rng.choice((1 << rng.randrange(8), rng.randrange(1, 256)))
    heard = list(heard)
    for place in (rng.randrange(len(heard)), rng.randrange(len(heard))):
        heard[place] = Char(heard[place].byte ^ bits)
    return tuple(heard)


def garbled_request(rng):
    """A request to the device that is damaged after its address, in noise or after a false start, and sometimes cut short."""
    prefix = b"\x82" + address_bytes(OWN_ADDRESS, random_master(rng), int(rng.random() < 0.2))
    count = weighted(rng, (6, 3), (3, 0), (2, 1), (1, 255), (2, rng.randrange(40)))
    after = with_check_byte(prefix + bytes([random_command(rng), count]) + random_bytes(rng, count))[len(prefix):]
    damage = rng.choice((marked, marked, changed, mended))
    characters = faultless(b"\xFF" * rng.choice((2, 2, 3, 5)) + prefix) + damage(rng, faultless(after))
    if rng.random() < 0.1:
        characters = characters[:-1]
    quiet = faultless(noise(rng)) if rng.random() < 0.2 else ()
    return (faultless(false_start(rng)) if rng.random() < 0.1 else quiet) + characters + quiet


def lost_part(rng, heard):
    """What was heard, without a run of its characters."""
    place = rng.randrange(len(heard))
    return heard[:place] + heard[place + rng.choice((1, 1, 2, 3, 10, 300)):]


def put_in(rng, heard):
    """What was heard, with characters in between that nobody sent."""
    place = rng.randrange(len(heard) + 1)
    return heard[:place] + faultless(noise(rng)) + heard[place:]


def damaged(rng, heard):
    """What was heard with one kind of damage."""
    return rng.choice((marked, marked, changed, changed, mended, lost_part, put_in))(rng, heard) if heard else heard


def random_heard(rng):
    """Any characters: messages end to end, in noise and in each other, damaged or not."""
    heard = faultless(heard_bytes(rng))
    if rng.random() < 0.02:
        heard += (PREAMBLE,) * rng.randrange(3 * LONGEST_BODY)
    for _ in range(weighted(rng, (6, 0), (3, 1), (1, 2), (1, 4))):
        heard = damaged(rng, heard)
    return heard


def latin_text(rng):
    """A long tag with quotes and backslashes, sometimes with a character that cannot be printed."""
    text = rng.choices(LATIN, k=LONG_TAG_BYTES)
    if rng.random() < 0.2:
        text[rng.randrange(LONG_TAG_BYTES)] = rng.choice(UNPRINTABLE)
    return bytes(text)


def request_data(rng, command):
    """Data of a request: as its command wants them, too few, too many, or refused; any data for an unlisted command."""
    if command not in COMMANDS:
        return random_bytes(rng, rng.choice((0, 1, 3, 8)))
    if command == 6:
        named = bytes([rng.choice((0, 5, 63, 64, 255, rng.randrange(64))), rng.choice((0, 0, 1, 1, 2, 255))])
        return (named + random_bytes(rng, 3))[:rng.choice((0, 1, 1, 2, 2, 2, 3, 5))]
    if command == 9:
        return random_bytes(rng, rng.randrange(11))
    if command == 38:
        return random_bytes(rng, rng.randrange(4))
    if command in (21, 22) and rng.random() < 0.5:
        return latin_text(rng) + random_bytes(rng, rng.choice((0, 0, 1)))
    return random_data(rng, command)


def reply_size(rng, command):
    """How many bytes of data a reply with code 0 has. Some of them may be ignored, or there may be too many or too few."""
    if command == 3:
        return 4 + 5 * rng.randint(1, 5) + rng.choice((0, 0, 0, 1, 2, 3, 4))
    if command == 9:
        return 5 + 8 * rng.choice((0, 1, 1, 2, 7, 8, 8, 8, 9, rng.randint(3, 6))) + rng.choice((0, 0, 0, 0, 0, 0, 0, 0, 0, 1, 4, 7))
    if command == 48:
        return rng.choice((1, 2, 24, 25, 26, 27, rng.randint(1, 25)))
    return REPLY_NEEDED.get(command, rng.choice((0, 1, 3, 8)))


def reply_data(rng, command):
    """Data of a reply with code 0: mostly as they must be, or too few, too many, or others."""
    data = random_bytes(rng, reply_size(rng, command))
    if command in (13, 18):
        data = data[:18] + random_date(rng)
    if command in (20, 22) and rng.random() < 0.7:
        data = latin_text(rng)
    if command in IDENTITY_COMMANDS and rng.random() < 0.8:
        data = bytes([IDENTITY_FIRST]) + data[1:]
    more = random_bytes(rng, rng.choice((1, 1, 2, 4, 5, 8, 30)))
    return weighted(rng, (12, data), (3, data + more), (2, data[:-1]), (1, data[:rng.randrange(len(data) + 1)]), (1, more), (1, b""))


def reply_payload(rng, command):
    """The payload of a reply: a response code, mostly 0, or communication faults, a second byte, and data, which may be none."""
    kind = weighted(rng, (12, "success"), (4, "refused"), (3, "faults"))
    second = rng.choice((*STATUS_BYTES, rng.randrange(256)))
    if kind == "success":
        return bytes([0, second]) + reply_data(rng, command)[:MOST_REPLY_DATA]
    first = rng.choice((*CODES, rng.randrange(1, 128))) if kind == "refused" else rng.choice((*FAULT_BYTES, rng.randrange(128, 256)))
    data = rng.choice((b"", reply_data(rng, command)))
    return bytes([first, rng.choice((0, second)) if kind == "faults" else second]) + data[:MOST_REPLY_DATA]
