"""Tries a device: it hears the vectors and random sessions, and has to answer as `hart serve` does."""

import random
from collections import Counter
from typing import NamedTuple

from .compare import frame_of
from .images import random_image
from .sessions import KNOWN, session
from .tested import answers, as_answer
from .vectors import NEW, SILENCE

SESSION_LINES = 400
SHORT_SESSION = 25
MOST_TRIES, MOST_TRIES_AT_PORT = 200, 20


def name_of(heard):
    """The name under which a delivery is counted: its command, if the table of the commands lists it."""
    if heard is None:
        return "no message"
    command = heard[0].frame.command
    return str(command) if command in KNOWN else "other"


class Difference(NamedTuple):
    """A difference: where it was found, the image before, and the lines with expected and given answers, of which the last differ."""

    where: str
    image: str
    lines: list
    expected: list
    came: list


class Case(NamedTuple):
    """A case as a test report names it: its name, and what was different or why it was left out, or nothing."""

    group: str
    name: str
    difference: Difference | None = None
    left_out: str = ""


class Trial:
    """Tries one device, and counts what it was told and what it answered."""

    def __init__(self, tested, reference, progress):
        self.tested, self.reference, self.progress = tested, reference, progress
        self.deliveries, self.replies, self.codes = Counter(), Counter(), Counter()
        self.cases = []
        self.count = self.left_out = self.tries = 0

    def note(self, lines, came):
        """Counts deliveries and replies by command."""
        for line, answer in zip(lines, came):
            if line[:1].islower():
                continue
            self.count += 1
            heard, replied = frame_of(line), None if answer == SILENCE else frame_of(answer)
            name = name_of(heard)
            self.deliveries[name] += 1
            if replied:
                self.replies[name] += 1
                self.codes[name, replied[0].frame.payload[0]] += 1

    def heard(self, where, image, lines, wanted=None):
        """Lets the device hear lines, and counts them. Returns the first difference from `wanted`, or else from the reference, or None."""
        came, begun = answers(self.tested, image, lines)
        self.note(lines, came)
        expected = wanted if wanted is not None and begun == image else self.reference.answers(begun, lines)
        return self.first_difference(where, begun, lines, expected, came)

    def again(self, found, lines):
        """Lets the device hear some of the lines of a difference. Returns the first difference."""
        came, begun = answers(self.tested, found.image, lines)
        return self.first_difference(found.where, begun, lines, self.reference.answers(begun, lines), came)

    def first_difference(self, where, begun, lines, expected, came):
        """Returns the first difference between answers, with the lines up to it; None without one."""
        for place, line in enumerate(lines):
            shown = came[place] if place < len(came) else "nothing"
            if not self.tested.yardstick.agrees(expected[place], shown):
                stop = place + 1
                return Difference(where, begun, lines[:stop], expected[:stop], [*came[:place], shown])
        return None

    def vectors(self, rows):
        """Lets the device hear rows. Returns the first difference."""
        for number, row in enumerate(rows, start=1):
            lines = [part.heard for part in row.parts]
            name = f"line {row.line}: {row.note}"
            reason = self.left_out_because(row.image, lines)
            if reason:
                self.left_out += 1
                self.cases.append(Case("vectors", name, left_out=reason))
                continue
            wanted = None
            if self.tested.yardstick.identity is None:
                wanted = [as_answer(*part) for part in row.parts]
            found = self.heard(f"line {row.line} of the vectors", row.image, lines, wanted)
            self.cases.append(Case("vectors", name, found))
            self.progress(f"vectors: {number} of {len(rows)} rows")
            if found:
                return found
        return None

    def left_out_because(self, image, lines):
        """Why a row is not tried; "" if it is."""
        if not all(map(self.tested.can_say, lines)):
            return "the device cannot be told this, or the command is left out"
        if self.tested.port is not None and image != NEW and int(image[-1], 16) & 4:
            return "the write protection of a device at a port is not switched"
        return ""

    def sessions(self, seed, deliveries):
        """Lets the device hear random sessions with `deliveries` deliveries in all. Returns the first difference, or None."""
        number, end = 0, self.count + deliveries
        while self.count < end:
            number += 1
            rng = random.Random(f"{seed} {number}")
            image = self.tested.image if number == 1 else random_image(rng)
            length = min(SESSION_LINES if self.tested.port is None else SHORT_SESSION, end - self.count)
            lines = session(rng, image, length, self.tested.can_say)
            where = f"session {number} of seed {seed}"
            found = self.heard(where, image, lines)
            self.cases.append(Case("random sessions", where, found))
            self.progress(f"random: {self.count} deliveries, {number} sessions")
            if found:
                return found
        return None

    def shrunk(self, found):
        """The smallest difference that is found by leaving out lines."""
        self.tries = MOST_TRIES if self.tested.port is None else MOST_TRIES_AT_PORT
        size, length = len(found.lines) // 2, len(found.lines)
        while size and self.tries > 0:
            found = self.without_runs(found, size)
            is_shorter, length = len(found.lines) < length, len(found.lines)
            size = min(size if size == 1 and is_shorter else size // 2, length // 2)
        return found

    def without_runs(self, found, size):
        """Returns the difference without any run of `size` lines that it does not need."""
        place = 0
        while place < len(found.lines) and self.tries > 0:
            self.tries -= 1
            left = found.lines[:place] + found.lines[place + size:]
            smaller = self.again(found, left) if left else None
            found, place = (smaller, place) if smaller else (found, place + size)
        return found
