"""`hart serve`: the lines of an input, what a device says to each, and random runs of many lines."""

from . import inputs
from .device import RESPONSE_PREAMBLES
from .heard import weighted
from .texts import INPUT_LIMIT, READ_FAULT, BadHex, Ended, device_at_start, done, failed, message_text, read_items

MOST_LINES = 40
WORDS = (b"restart", b"restart", b"protect on", b"protect off", b"image", b"counter")


def lines_of(text):
    """The lines of an input that ended, each without a carriage return at its end. An empty last line does not count."""
    lines = [line.removesuffix(b"\r") for line in text.split(b"\n")]
    return lines if lines[-1] else lines[:-1]


def heard_line(device, line):
    """What a device says to a line that is none of the words."""
    try:
        reply = device.hear(read_items(line))
    except BadHex as bad:
        return f"bad line: {bad.fault()}\n".encode()
    return message_text(reply, RESPONSE_PREAMBLES) or b"-\n"


def said(device, line):
    """What a device says to a line."""
    if len(line) > INPUT_LIMIT:
        return b"bad line: too long\n"
    if line == b"restart":
        device.restart()
    elif line in (b"protect on", b"protect off"):
        device.protected = line == b"protect on"
    elif line == b"image":
        return f"image {device.image().hex().upper()}\n".encode()
    elif line == b"counter":
        return f"counter {device.counter}\n".encode()
    else:
        return heard_line(device, line)
    return b"ok\n"


def serve(given):
    """What `hart serve` does with its words and an input."""
    try:
        device = device_at_start(given.words)
    except Ended as ended:
        return ended.result
    if given.text is None:
        return failed(READ_FAULT)
    return done(b"".join(said(device, line) for line in lines_of(given.text)))


def heard_text(rng, device):
    """A line that a device hears: an input of `hart answer`, put on one line."""
    return b" ".join(inputs.answer_input(rng, device).split(b"\n"))


def word_text(rng, _device):
    """A line that is one of the words, or nearly one."""
    word = rng.choice(WORDS)
    return inputs.spoilt(rng, word).replace(b"\n", b" ") if rng.random() < 0.1 else word


def empty_text(_rng, _device):
    """An empty line."""
    return b""


def serve_input(rng, device):
    """An input of `hart serve`: lines for one device. It hears each line once it is made, so that the next one suits its state."""
    text = b""
    for _ in range(rng.randrange(MOST_LINES)):
        make = weighted(rng, (12, heard_text), (6, word_text), (1, empty_text))
        line = make(rng, device)
        said(device, line.removesuffix(b"\r"))
        text += line + weighted(rng, (9, b"\n"), (1, b"\r\n"))
    return text[:-1] if text and rng.random() < 0.2 else text
