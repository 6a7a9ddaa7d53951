"""Scripts: the events in a text, and what `hart sim` writes for them."""

import re

from . import commands, texts
from .line import LOST, OK, Line, Noise, Protect, Restart, Submit, Turn, Undetected

WORDS = re.compile(rb"[^ \t]+")
LEGS = {b"ok": OK, b"lost": LOST}
SWITCH = {b"on": True, b"off": False}


def read_heard(word):
    """The characters of a word, which are items end to end; None if it is something else."""
    if b"\r" in word:
        return None
    try:
        return tuple(texts.read_items(word))
    except texts.BadHex:
        return None


def read_submit(words):
    """The event of the words after `submit`; None if they have another form, or are refused as a request."""
    if len(words) not in (3, 4):
        return None
    values = [read(word) for read, word in zip(texts.REQUEST_WORDS, words)]
    if None in values:
        return None
    who, address, command = values[:3]
    data = values[3] if len(values) > 3 else b""
    if commands.request_code(command, data) != commands.SUCCESS:
        return None
    return Submit(who, address, command, data)


def read_turn(words):
    """The event of the words after `turn`, or None."""
    if len(words) != 3:
        return None
    who, up, down = texts.read_who(words[0]), *(LEGS.get(word) or read_heard(word) for word in words[1:])
    return None if None in (who, up, down) else Turn(who, up, down)


def read_protect(words):
    """The event of the words after `protect`, or None."""
    on = SWITCH.get(words[0]) if len(words) == 1 else None
    return None if on is None else Protect(on)


def read_noise(words):
    """The event of the words after `noise`, or None."""
    heard = read_heard(words[0]) if len(words) == 1 else None
    return None if heard is None else Noise(heard)


def read_restart(words):
    """The event of `restart`, or None if words follow it."""
    return None if words else Restart()


EVENTS = {b"submit": read_submit, b"turn": read_turn, b"protect": read_protect, b"noise": read_noise, b"restart": read_restart}


class BadLine(Exception):
    """A line that says no event, with its number from 1."""

    def __init__(self, number):
        super().__init__(number)
        self.number = number


def read_script(text):
    """The events of a script; raises `BadLine` for its first bad line."""
    events = []
    for number, line in enumerate(text.split(b"\n"), 1):
        words = WORDS.findall(line.removesuffix(b"\r"))
        if not words or words[0].startswith(b"#"):
            continue
        event = EVENTS[words[0]](words[1:]) if words[0] in EVENTS else None
        if event is None:
            raise BadLine(number)
        events.append(event)
    return events


def sim(given):
    """What `hart sim` does with its words and an input."""
    try:
        line = Line(texts.device_of(given))
        events = read_script(given.text)
    except texts.Ended as ended:
        return ended.result
    except BadLine as bad:
        return texts.failed(f"bad line {bad.number}")
    for number, event in enumerate(events):
        try:
            line.carry_out(event)
        except Undetected as undetected:
            return texts.failed(f"undetected damage at event {number}, {undetected.leg}")
    return texts.done(line.text())
