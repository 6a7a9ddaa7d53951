"""Why no message stands at a place at which one seems to start: what `hart explain` says of it, in words or as an object."""

from typing import NamedTuple

from .frames import KINDS, LEAST_ACK_PAYLOAD, PREAMBLE, Frame, is_delimiter, parity, read_address

BURST_BITS = 1

# The words of each reason, with its details.
WORDS = {
    "faulty": "the character at {at} has the fault bits 0x{faults:02X}",
    "burst": "it is a burst message, which is not read",
    "bad_delimiter": "0x{byte:02X} is no delimiter of this profile",
    "ends_before_byte_count": "it ends before its byte count",
    "short_reply": "it is a reply, and its byte count {byte_count} is below 2",
    "missing": "it lacks {count} characters, the last of them its check byte",
    "bad_check": "the check byte is 0x{byte:02X} at {at}, and 0x{fits:02X} would fit",
    "one_preamble": "only one intact preamble byte stands directly before it",
}
ONLY_CHECK_BYTE = "it lacks 1 character, its check byte"


class Reason(NamedTuple):
    """Why no message stands at a place: the name of the reason, and its details by their names."""

    name: str
    details: dict

    def text(self):
        """The reason in words."""
        return ONLY_CHECK_BYTE if self.details == {"count": 1} else WORDS[self.name].format(**self.details)

    def moved(self, first):
        """The reason with `first` added to the place that it names, if it names one."""
        return Reason(self.name, {name: value + first * (name == "at") for name, value in self.details.items()})


ENDS_EARLY = Reason("ends_before_byte_count", {})
ONE_PREAMBLE = Reason("one_preamble", {})


class Miss(NamedTuple):
    """A place at which a message only seems to start, the reason, and the header that is heard there, None if it is not whole."""

    place: int
    reason: Reason
    header: Frame | None

    def moved(self, first):
        """The miss with `first` added to its places."""
        return Miss(self.place + first, self.reason.moved(first), self.header)


class Wrong(Exception):
    """What is wrong first with the characters from a place on."""

    def __init__(self, reason):
        super().__init__(reason)
        self.reason = reason


class Walk:
    """A walk over the characters from a place on, up to the first thing that is wrong."""

    def __init__(self, heard, place):
        self.heard = heard
        self.place = place
        self.bytes = b""

    def take(self, count, at_end):
        """Returns the bytes of the next `count` characters. If some are missing, `at_end` of their number is the reason."""
        for taken in range(count):
            if self.place == len(self.heard):
                raise Wrong(at_end(count - taken))
            char = self.heard[self.place]
            if char.faults:
                raise Wrong(Reason("faulty", {"at": self.place, "faults": char.faults}))
            self.bytes += bytes([char.byte])
            self.place += 1
        return self.bytes[len(self.bytes) - count:]


def early_end(_):
    """The reason at an end before the byte count."""
    return ENDS_EARLY


def later_end(missing):
    """The reason at an end after the byte count, by the number of the characters that are missing."""
    return Reason("missing", {"count": missing})


def judge_delimiter(byte):
    """Raises `Wrong` unless a byte is a delimiter of the profile."""
    if byte & 0x18 == 0 and byte & 7 == BURST_BITS:
        raise Wrong(Reason("burst", {}))
    if not is_delimiter(byte):
        raise Wrong(Reason("bad_delimiter", {"byte": byte}))


def walk_header(walk):
    """Goes on to the place after the command. Returns a frame of what comes before it, without a payload."""
    delimiter, = walk.take(1, early_end)
    judge_delimiter(delimiter)
    master, burst, address = read_address(walk.take(5 if delimiter & 0x80 else 1, early_end))
    expansion = walk.take(delimiter >> 5 & 3, early_end)
    command, = walk.take(1, early_end)
    return Frame(KINDS[delimiter & 7], master, burst, address, expansion, command, b"")


def walk_body(walk):
    """Goes on to the end of a whole body."""
    header = walk_header(walk)
    count, = walk.take(1, early_end)
    if header.kind == "ACK" and count < LEAST_ACK_PAYLOAD:
        raise Wrong(Reason("short_reply", {"byte_count": count}))
    walk.take(count + 1, later_end)
    last, fits = walk.bytes[-1], parity(walk.bytes[:-1])
    if last != fits:
        raise Wrong(Reason("bad_check", {"at": walk.place - 1, "byte": last, "fits": fits}))


def wrong_from(heard, place):
    """What is wrong first with the characters from a place on, None if a whole body stands there."""
    try:
        walk_body(Walk(heard, place))
    except Wrong as wrong:
        return wrong.reason
    return None


def header_from(heard, place):
    """The header that is heard from a place on, as a frame; None if it is not whole."""
    try:
        return walk_header(Walk(heard, place))
    except Wrong:
        return None


def stands_alone(heard, place):
    """Whether a whole body stands at a place, and no two `FF` in a row begin in it, not even with its last character."""
    walk = Walk(heard, place)
    try:
        walk_body(walk)
    except Wrong:
        return False
    return [PREAMBLE, PREAMBLE] not in (heard[first:first + 2] for first in range(place, walk.place))


def missed(heard, begin, end):
    """The misses between `begin`, where a message stopped, and `end`. What stands before `begin` does not count."""
    for place in range(begin + 1, end):
        if heard[place - 1] != PREAMBLE or heard[place] == PREAMBLE:
            continue
        reason = wrong_from(heard, place)
        if place - 2 < begin or heard[place - 2] != PREAMBLE:
            reason = ONE_PREAMBLE if stands_alone(heard, place) else None
        if reason is not None:
            yield Miss(place, reason, header_from(heard, place))
