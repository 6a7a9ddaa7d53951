"""A master: the request that it has in hand, how often it sends it, and which reply it accepts."""

from dataclasses import dataclass

from . import commands
from .frames import BROADCAST, Frame, Polling

MASTER_PREAMBLES = 20
MOST_SENDINGS = 4
PENDING = 2
WRONG_ADDRESS = 3


@dataclass
class Pending:
    """A request in hand: the number of its submission, where it goes, what it asks, and how often it was sent."""

    number: int
    address: object
    command: int
    data: bytes
    sendings: int = 0


@dataclass
class Master:
    """The primary or the secondary master, `P` or `S`."""

    who: str
    pending: Pending | None = None

    def submit(self, number, address, command, data):
        """Takes a request in hand and returns None, or returns the number of the refusal."""
        if self.pending is not None:
            return PENDING
        if isinstance(address, Polling) and command != 0 or address == BROADCAST and command not in (11, 21):
            return WRONG_ADDRESS
        self.pending = Pending(number, address, command, commands.written_data(command, data))
        return None

    def request(self):
        """The frame of the request in hand; None without one."""
        if self.pending is None:
            return None
        return Frame("STX", self.who, 0, self.pending.address, b"", self.pending.command, self.pending.data)

    def accepted(self, frame):
        """Returns the reply to the request in hand that a frame holds; None if it holds no such reply."""
        asked = self.pending
        if asked is None or frame.kind != "ACK" or frame.expansion or frame.master != self.who:
            return None
        if (frame.address, frame.command) != (asked.address, asked.command):
            return None
        return commands.read_reply(frame.command, frame.payload)
