"""The faults that happen to the messages between a master and its device, by a plan or by chance."""

from typing import NamedTuple

from .requests import COMMUNICATION_FAULTS, PREAMBLE
from .vectors import SILENCE

REQUEST, REPLY = "request", "reply"
LOSE, FLIP, CUT, NOISE = "lose", "flip", "cut", "noise"
BUSY, DELAY, NONE = "busy", "delay", "ok"
DAMAGES = (LOSE, FLIP, CUT, NOISE)
LEGS = (REQUEST, REPLY)
PARITY_FAULT = "!40"
MOST_NOISE = 6
# The words of a plan, each for one sending of the master.
WORDS = (NONE, *(f"{kind}-{leg}" for leg in LEGS for kind in DAMAGES), BUSY, DELAY)


class Chances(NamedTuple):
    """How likely each kind of fault is, in percent, and the legs on which messages are damaged."""

    percent: dict
    legs: tuple

    def words(self, rng):
        """Yields the fault of each sending."""
        while True:
            yield self.word(rng)

    def word(self, rng):
        """Returns the fault of a sending: the first of WORDS that chance picks, or NONE."""
        for word in WORDS[1:]:
            kind, _, leg = word.partition("-")
            if (not leg or leg in self.legs) and rng.random() * 100 < self.percent.get(kind, 0):
                return word
        return NONE


def planned(plan):
    """Yields the fault of each sending as a plan says, and no fault after its end."""
    yield from plan
    while True:
        yield NONE


def first_place(items):
    """The place of the first character after the preamble."""
    return next((place for place, item in enumerate(items) if item != PREAMBLE), 0)


def damaged(rng, kind, line, has_marks):
    """Returns a message as it arrives, "" if nothing does. With `has_marks`, a character with a flipped bit has a parity fault."""
    items = line.split()
    start = first_place(items)
    if kind == LOSE or not items:
        return ""
    if kind == CUT:
        return " ".join(items[:rng.randrange(start, len(items))])
    if kind == NOISE:
        return " ".join([f"{rng.randrange(0xFF):02X}" for _ in range(rng.randint(1, MOST_NOISE))] + items)
    place = rng.randrange(start, len(items))
    flipped = f"{int(items[place][:2], 16) ^ 1 << rng.randrange(8):02X}"
    items[place] = flipped + PARITY_FAULT * has_marks
    return " ".join(items)


def of_leg(word, leg):
    """The kind of damage that a fault does to a leg, or nothing."""
    kind, _, on = word.partition("-")
    return kind if on == leg else None


def is_reply_code(line):
    """Whether a message of a device has a response code, and no communication faults."""
    if line == SILENCE or not line:
        return False
    body = line.split()[first_place(line.split()):]
    status = (8 if int(body[0], 16) & 0x80 else 4) + (int(body[0], 16) >> 5 & 3)
    return not int(body[status], 16) & COMMUNICATION_FAULTS
