"""The line: one device and two masters, and what the events of a script lead to."""

from dataclasses import dataclass, field
from typing import NamedTuple

from .device import RESPONSE_PREAMBLES, Device, reply_to_garbled
from .frames import Frame, body_of, frames_of
from .master import MASTER_PREAMBLES, MOST_SENDINGS, Master

OK = "ok"
LOST = "lost"


class Submit(NamedTuple):
    """A master is to take a request in hand."""

    who: str
    address: object
    command: int
    data: bytes


class Turn(NamedTuple):
    """A master has its turn. A leg is `ok`, `lost`, or the characters that are heard in place of what was sent."""

    who: str
    up: object
    down: object


class Protect(NamedTuple):
    """The write protection of the device is switched."""

    on: bool


class Noise(NamedTuple):
    """All hear characters that nobody sent."""

    heard: tuple


class Restart(NamedTuple):
    """The device was without power, and is on again."""


class Spoken(NamedTuple):
    """A message that was spoken: by `P`, `S` or `D`, with its number of preamble bytes and its frame."""

    party: str
    preambles: int
    frame: Frame

    def text(self):
        """The message as a line of the output."""
        return f"{self.party} {self.preambles} {body_of(self.frame).hex().upper()}"


class Undetected(Exception):
    """A leg in which a frame other than the one sent was heard, or more than one frame."""

    def __init__(self, leg):
        super().__init__(leg)
        self.leg = leg


def arrives(sent, heard, leg):
    """Whether what was sent in a leg arrives, by the frames that are heard in it; `sent` is None if nothing was sent."""
    if heard == OK:
        return sent is not None
    frames = [] if heard == LOST else [found.frame for found in frames_of(heard)]
    if not frames:
        return False
    if frames != [sent]:
        raise Undetected(leg)
    return True


def answer_in(device, sent, heard, leg):
    """What a device answers in a leg: to what was sent, if it arrives, and otherwise to a garbled request. None is silence."""
    if arrives(sent, heard, leg):
        return device.receive(sent)
    return None if heard in (OK, LOST) else reply_to_garbled(heard)


@dataclass
class Line:
    """The device, the masters, the outcome of each submission in words, and what was spoken."""

    device: Device
    masters: dict = field(default_factory=lambda: {who: Master(who) for who in "PS"})
    outcomes: list = field(default_factory=list)
    spoken: list = field(default_factory=list)

    def carry_out(self, event):
        """Carries out an event by its rule; raises `Undetected`."""
        if isinstance(event, Submit):
            self.submit(event)
        elif isinstance(event, Turn):
            self.turn(event)
        elif isinstance(event, Protect):
            self.device.protected = event.on
        elif isinstance(event, Restart):
            self.device.restart()
        else:
            self.speak_back(answer_in(self.device, None, event.heard, "noise"))

    def submit(self, event):
        """A submission, which has its outcome at once: refused, or not yet sent."""
        number = len(self.outcomes) + 1
        refusal = self.masters[event.who].submit(number, event.address, event.command, event.data)
        self.outcomes.append("unfinished 0" if refusal is None else f"refused {refusal}")

    def turn(self, event):
        """A turn of a master: its request goes up, the answer comes down, and its time passes."""
        master = self.masters[event.who]
        request = master.request()
        if request is not None:
            master.pending.sendings += 1
            self.spoken.append(Spoken(event.who, MASTER_PREAMBLES, request))
        answer = answer_in(self.device, request, event.up, "up")
        self.speak_back(answer)
        reply = master.accepted(answer) if arrives(answer, event.down, "down") else None
        self.end_turn(master, reply)

    def speak_back(self, answer):
        """Writes down what the device answers, if it does."""
        if answer is not None:
            self.spoken.append(Spoken("D", RESPONSE_PREAMBLES, answer))

    def end_turn(self, master, reply):
        """Writes down the outcome of the request in hand, which leaves the hand after its reply or its last sending."""
        asked = master.pending
        if asked is None:
            return
        if reply is not None:
            data = reply.data.hex().upper() or "-"
            outcome = f"answered {asked.sendings} {reply.code:02X} {reply.status:02X} {data}"
        elif asked.sendings == MOST_SENDINGS:
            outcome = f"noreply {asked.sendings}"
        else:
            outcome = f"unfinished {asked.sendings}"
        self.outcomes[asked.number - 1] = outcome
        if not outcome.startswith("unfinished"):
            master.pending = None

    def text(self):
        """What was spoken, what became of each submission, and the device at the end."""
        lines = [spoken.text() for spoken in self.spoken]
        lines += [f"{number} {outcome}" for number, outcome in enumerate(self.outcomes, 1)]
        lines += [f"counter {self.device.counter}", f"image {self.device.image().hex().upper()}"]
        return "".join(line + "\n" for line in lines).encode()
