"""Makes the random inputs of `hart dump` and `hart answer`, and the random words of `hart encode`."""

from . import heard
from .frames import Polling, Unique, faultless
from .heard import weighted
from .texts import INPUT_LIMIT

ODD_BYTES = b"!!!00224478FfGg#@xz \t\r\n\x00\x0b\x0c\x7f\x80\xff\xa0"


def in_any_case(rng, digits):
    """Hex digits in upper, lower or mixed case."""
    case = rng.randrange(8)
    if case:
        return digits.upper() if case < 5 else digits.lower()
    return "".join(rng.choice((digit.lower(), digit.upper())) for digit in digits)


def item(char):
    """A character as it is written."""
    return f"{char.byte:02X}!{char.faults:02X}" if char.faults else f"{char.byte:02X}"


def separators(rng):
    """What may stand between two items."""
    return weighted(rng, (6, " "), (3, ""), (1, "\n"), (1, "\r\n"), (1, "\t"), (1, "  "), (1, " \t \r\n "))


def item_text(rng, characters):
    """Characters as a text, with one kind of separator or with mixed ones."""
    one = weighted(rng, (5, " "), (3, ""), (1, "\n"), (1, "\t"), (2, None))
    parts = [separators(rng) if rng.random() < 0.2 else ""]
    for char in characters:
        parts += [item(char), separators(rng) if one is None else one]
    if rng.random() < 0.6:
        parts.pop()
    return in_any_case(rng, "".join(parts)).encode()


def spoilt(rng, text):
    """A text with a byte put in, taken out or replaced, with part of an item put in, or cut off."""
    place = rng.randrange(len(text) + 1)
    odd = bytes([rng.choice(ODD_BYTES)])
    return rng.choice((text[:place] + odd + text[place:], text[:place] + text[place + 1:], text[:place] + odd + text[place + 1:],
                       text[:place], text[:place] + rng.choice((b"!08", b"!40", b"!0", b"!", b"!00", b"!8", b"0")) + text[place:]))


def at_the_limit(rng, text):
    """A text filled up to the limit of an input, or nearly so."""
    room = INPUT_LIMIT - len(text) + rng.choice((0, 0, 0, 1, 1, -1, 2, 3, 5000))
    filling = rng.choice((b" ", b" ", b"\n", b"FF "))
    filling = (filling * (room // len(filling) + 1))[:room]
    return rng.choice((text + filling, filling + text, filling[:-1] + rng.choice((b"8", b"!", b"G", b" ")) + text))


def input_text(rng, characters):
    """A text of characters: as a rule a good one, sometimes a spoilt one, and seldom one of the longest."""
    text = item_text(rng, characters)
    if rng.random() < 0.25:
        text = spoilt(rng, text)
    return at_the_limit(rng, text) if rng.random() < 0.0005 else text


def dump_input(rng):
    """An input of `hart dump`."""
    return input_text(rng, heard.random_heard(rng))


def answer_input(rng, device):
    """An input of `hart answer`: mostly one request to the device, in noise or alone."""
    if rng.random() < 0.3:
        return input_text(rng, rng.choice((heard.random_heard, heard.garbled_request))(rng))
    command = heard.random_command(rng)
    address = heard.random_address(rng, device.polling)
    if rng.random() < 0.3:
        address, command = rng.choice(((Polling(device.polling), 0), (heard.BROADCAST, 11), (heard.BROADCAST, 21)))
    expansion = rng.randbytes(weighted(rng, (20, 0), (1, 1), (1, 3)))
    data = heard.random_data(rng, command, device.counter, device.tag, device.long_tag)
    body = heard.body_of_fields(rng, rng.random() < 0.05, address, expansion, command, data)
    characters = faultless(b"\xFF" * weighted(rng, (1, 1), (3, 2), (8, 5), (1, 20)) + body)
    if rng.random() < 0.3:
        characters = faultless(heard.noise(rng)) + characters + faultless(heard.noise(rng))
    if rng.random() < 0.15:
        characters = heard.damaged(rng, characters)
    return input_text(rng, characters)


def address_word(rng, address):
    """One of the words for an address."""
    if isinstance(address, Polling):
        return rng.choice((f"@{address.number}", f"@{address.number:02}"))
    if address == heard.BROADCAST and rng.random() < 0.7:
        return "all"
    upper = rng.choice((0, 0, 0, 0x4000, 0x8000, 0xC000))
    return in_any_case(rng, f"{address.type | upper:04x}{address.id:06x}")


def command_word(rng, command):
    """One of the words for a command."""
    return f"{command:0{rng.choice((1, 1, 1, 2, 3))}}"


def data_word(rng, data):
    """Data as a word."""
    return in_any_case(rng, data.hex())


def request_words(rng, who, address, command, data):
    """The words of a request, with no word for empty data."""
    words = [who, address_word(rng, address), command_word(rng, command)]
    return words + [data_word(rng, data)] if data else words


def bad_word(rng, number):
    """A word that, as a rule, does not have the form of the word with this number."""
    digits = rng.choice(("0" * 510, "0" * 511, "0" * 512, "F" * 514))
    return rng.choice((
        ("p", "s", "PS", "", "P ", "primary", "0", "D"),
        ("@64", "@", "@007", "@-1", "@+1", "@ 1", "@0x", "ALL", "al", "", "37420A1B2", "37420A1B2C0", "37420A1B2G", "0", "@63 ",
         "@٣", "@99", "@100", "4000000000", "@00"),
        ("256", "999", "0000", "1000", "", "1a", "+1", "0x1", " 1", "1 ", "000", "٣", "4294967296"),
        ("0", "0G", "012", "", "zz", "00 ", " 00", "00 00", "FF!40", "0x00", '""', "é", digits),
    )[number])


def option_words(rng):
    """The option with a good or a bad number, in one of its two forms."""
    number = rng.choice(("5", "6", "7", "19", "20", "20", "4", "21", "0", "255", "256", "", "+7", "x", "-1", "7.0", " 7", "07", "é"))
    return rng.choice(([f"--preambles={number}"], ["--preambles", number]))


def encode_input(rng):
    """Words after `hart encode`."""
    command = heard.random_command(rng)
    words = request_words(rng, heard.random_master(rng), random_word_address(rng), command, heard.random_data(rng, command))
    for _ in range(weighted(rng, (6, 0), (4, 1), (1, 2))):
        number = rng.randrange(4)
        words[number:number + 1] = [bad_word(rng, number)]
    if rng.random() < 0.3:
        place = rng.randrange(len(words) + 1)
        words[place:place] = option_words(rng)
    if rng.random() < 0.08:
        words = spoilt_words(rng, words)
    encoded = [word.encode() for word in words]
    if rng.random() < 0.02:
        encoded[rng.randrange(len(encoded))] = rng.choice((b"\xFF", b"P\x80", b"\xC3"))
    return encoded


def random_word_address(rng):
    """Any address, those at the limits too."""
    return weighted(rng, (4, heard.random_address(rng)), (1, Polling(rng.randrange(64))), (1, Unique(0x3FFF, 0xFFFFFF)))


def spoilt_words(rng, words):
    """Words with one of them missing or twice there, or with one too many, which may be an unknown option."""
    place = rng.randrange(len(words) + 1)
    more = rng.choice(("-", "--", "-x", "--help", "-h", "--version", "--preambles", "--pre=7", "help", "00", "--preambles=9"))
    return rng.choice((words[:place] + words[place + 1:], words[:place] + words[place - 1:], words[:place] + [more] + words[place:]))
