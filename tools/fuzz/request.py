"""What `hart request` writes for words, and random words for it, by docs/FORMATS.md and docs/COMMANDS.md."""

import datetime
import re

from . import commands, inputs
from .fields import FIELDS
from .frames import Frame
from .heard import random_command, random_master, weighted
from .texts import LEAST_PREAMBLES, REQUEST_WORDS, USAGE, Given, done, failed, message_text, read_preambles, split_words

FIRST_FIELD = 4
COMMAND_WORD = 3
MOST_CODES = 8
LONG_TAG = 32
NUMBER = re.compile(r"\+?[0-9]+")
MOST_BYTES = 255
BYTES = re.compile(rf"0x((?:[0-9A-Fa-f]{{2}}){{0,{MOST_BYTES}}})")
DAY = re.compile(r"([0-9]{4})-([0-9]{2})-([0-9]{2})")
PACKED = [chr(code) for code in range(0x20, 0x60)]
LATIN = [chr(code) for code in range(0x100) if 0x20 <= code <= 0x7E or code >= 0xA0]
WITH_FIELDS = sorted(command for kind, command in FIELDS if kind == "STX")


class Bad(Exception):
    """The reason why a word has no value."""


def packed_bytes(text):
    """The bytes of a text whose length is divisible by four: six bits a character."""
    bits = 0
    for character in text:
        bits = bits << 6 | ord(character) & 63
    return bits.to_bytes(3 * len(text) // 4, "big")


def padded(text, most, allowed):
    """Returns a text with spaces after it, `most` characters in all."""
    for place, character in enumerate(text[:most]):
        if character not in allowed:
            raise Bad(f"bad character at {place}")
    if len(text) > most:
        raise Bad(f"too long: at most {most} characters")
    return text.ljust(most)


def number_value(text, size):
    greatest = 256 ** size - 1
    if not NUMBER.fullmatch(text) or int(text) > greatest:
        raise Bad(f"no number from 0 to {greatest}")
    return int(text).to_bytes(size, "big")


def bytes_value(text, size):
    found = BYTES.fullmatch(text)
    data = bytes.fromhex(found[1]) if found else b""
    if size is None and not (found and 1 <= len(data) <= MOST_CODES):
        raise Bad(f"not 0x and 1 to {MOST_CODES} bytes in hex")
    if size is not None and not (found and len(data) == size):
        raise Bad(f"not 0x and {size} bytes in hex")
    return data


def date_value(text, _size):
    if text == "not set":
        return bytes(3)
    found = DAY.fullmatch(text)
    try:
        day = datetime.date(*map(int, found.groups())) if found else None
    except ValueError:
        day = None
    if day is None or not 1900 <= day.year <= 2155:
        raise Bad("no date")
    return bytes((day.day, day.month, day.year - 1900))


def latin_value(text, size):
    if text.startswith("0x"):
        return bytes_value(text, size)
    return padded(text, size, LATIN).encode("latin-1")


def packed_value(text, size):
    return packed_bytes(padded(text, 4 * size // 3, PACKED))


VALUES = {"number": number_value, "bytes": bytes_value, "date": date_value, "Latin-1 text": latin_value, "packed text": packed_value}


def word_name(field):
    return field.name.replace(" ", "_")


def bad_name(fields, words):
    """The place of the first word with a bad name, and what is wrong with it; None if all names are good."""
    names, given = {word_name(field) for field in fields}, set()
    for place, word in enumerate(words):
        name, equals, _ = word.partition("=")
        reason = "no NAME=VALUE" if not equals else "unknown field" if name not in names else "given twice" if name in given else None
        if reason:
            return place, reason
        given.add(name)
    return None


def request_data(command, words):
    """The data that words give to a command; or the number and the reason of the first bad word."""
    if command not in commands.COMMANDS:
        return None, (COMMAND_WORD, "unknown command")
    fields = FIELDS.get(("STX", command), [])
    bad = bad_name(fields, words)
    if bad:
        return None, (FIRST_FIELD + bad[0], bad[1])
    places = {word.partition("=")[0]: place for place, word in enumerate(words)}
    data = b""
    for field in fields:
        place = places.get(word_name(field))
        if place is None:
            return None, (FIRST_FIELD + len(words), f"missing field {field.name}")
        try:
            data += VALUES[field.kind](words[place].partition("=")[2], field.size)
        except Bad as why:
            return None, (FIRST_FIELD + place, str(why))
    code = commands.request_code(command, data)
    return (data, None) if code == commands.SUCCESS else (None, (COMMAND_WORD, f"refused with code {code}"))


def request(given):
    """What `hart request` does with the words that follow it."""
    split = split_words(given.words, b"--preambles")
    if split is None or len(split[0]) < COMMAND_WORD:
        return USAGE
    plain, word = split
    preambles = LEAST_PREAMBLES if word is None else read_preambles(word)
    if preambles is None:
        return USAGE
    values = [read(word) for read, word in zip(REQUEST_WORDS[:COMMAND_WORD], plain)]
    if None in values:
        return failed(f"bad word {values.index(None) + 1}")
    who, address, command = values
    data, bad = request_data(command, [word.decode() for word in plain[COMMAND_WORD:]])
    if bad:
        return failed(f"bad word {bad[0]}: {bad[1]}")
    return done(message_text(Frame("STX", who, 0, address, b"", command, data), preambles))


def random_text(rng, most, allowed):
    length = weighted(rng, (4, rng.randrange(most + 1)), (2, most), (1, most + 1), (1, 0))
    text = "".join(rng.choice(allowed) for _ in range(length))
    if text and rng.random() < 0.15:
        place = rng.randrange(len(text))
        text = text[:place] + rng.choice("a\t\u0100\u20acé~`") + text[place + 1:]
    return text


def random_hex(rng, size):
    good = size if size is not None else rng.randrange(1, MOST_CODES + 1)
    length = weighted(rng, (16, good), (2, rng.randrange(40)), (1, MOST_BYTES + rng.randrange(2)))
    text = rng.randbytes(length).hex()
    text = text.upper() if rng.random() < 0.5 else text
    return weighted(rng, (12, "0x" + text), (1, text), (1, "0X" + text), (1, f"0x{text}0"), (1, "0x"))


def random_date(rng):
    day = (datetime.date(1900, 1, 1) + datetime.timedelta(days=rng.randrange(93502))).isoformat()
    form = rng.choice(("{}T10:00", "{} 10:00:00", "{}T10:00+01:00", "{}[u-ca=iso8601]", "+00{}", "{} ", "{}Z"))
    other = rng.choice((form.format(day), day.replace("-", ""), "2026-02-30", "1899-12-31", "2156-01-01", "", "x"))
    return weighted(rng, (8, day), (2, "not set"), (5, other))


def random_number(rng, size):
    number = weighted(rng, (6, rng.randrange(256 ** size)), (1, 256 ** size), (1, 256 ** size - 1), (1, 64), (2, rng.randrange(2)))
    return weighted(rng, (10, f"{number}"), (1, f"+{number}"), (1, f"00{number}"), (1, f"-{number}"), (1, ""), (1, f"0x{number}"))


def random_value(rng, field):
    """A word's value for a field, good as a rule."""
    if field.kind == "number":
        return random_number(rng, field.size)
    if field.kind == "packed text":
        return random_text(rng, 4 * field.size // 3, PACKED)
    if field.kind == "Latin-1 text":
        return weighted(rng, (4, random_text(rng, LONG_TAG, LATIN)), (1, random_hex(rng, LONG_TAG)))
    return random_date(rng) if field.kind == "date" else random_hex(rng, field.size)


def field_words(rng, command):
    """A word for each field of a command, in any order, with a mistake now and then."""
    words = [f"{word_name(field)}={random_value(rng, field)}" for field in FIELDS.get(("STX", command), [])]
    rng.shuffle(words)
    if rng.random() < 0.12:
        place = rng.randrange(len(words) + 1)
        more = rng.choice(("tag=X", "date", "=", "Tag=X", "message=1", "final assembly number=0x000000", *words))
        words = rng.choice((words[:place] + [more] + words[place:], words[:place] + words[place + 1:]))
    return words


def request_given(rng):
    """What `hart request` is given."""
    command = weighted(rng, (8, rng.choice(WITH_FIELDS)), (1, random_command(rng)))
    words = inputs.request_words(rng, random_master(rng), inputs.random_word_address(rng), command, b"")
    if rng.random() < 0.1:
        number = rng.randrange(COMMAND_WORD)
        words[number] = inputs.bad_word(rng, number)
    words += field_words(rng, command)
    if rng.random() < 0.2:
        place = rng.randrange(len(words) + 1)
        words[place:place] = inputs.option_words(rng)
    if rng.random() < 0.05:
        words = inputs.spoilt_words(rng, words)
    return Given([word.encode() for word in words], b"")
