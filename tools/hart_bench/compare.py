"""Says whether a reply is the one that is expected of a device, which may have another identity and other process values."""

from fuzz.frames import Unique, faultless, frames_of, with_check_byte

from .requests import COMMUNICATION_FAULTS, OWN_ADDRESS, PREAMBLE, moved, text_of
from .vectors import SILENCE

IDENTITY_COMMANDS = (0, 11, 21)
# The commands whose replies hold process values or say what the device is.
VALUE_COMMANDS = (1, 2, 3, 8, 9, 14, 15, 48)
IDENTITY_BYTES = 22
PREAMBLES_OF_REPLY = 12
COUNTER = slice(14, 17)
# The bits of the device status that come from process values.
VALUE_BITS = 0x80 | 0x10 | 0x04 | 0x02 | 0x01


def frame_of(line):
    """The only frame of a line without fault bits, and its number of preamble bytes; None without one."""
    items = line.split()
    try:
        found = frames_of(faultless(bytes.fromhex(line)))
    except ValueError:
        return None
    return (found[0], items[:found[0].start].count(PREAMBLE)) if len(found) == 1 else None


def spaced(line):
    """An answer in the form of `hart serve`, if it is bytes in hex."""
    try:
        return text_of(bytes.fromhex(line)) if line else line
    except ValueError:
        return line


class Yardstick:
    """Compares replies with those of `hart serve`. `left_out` counts the replies that were accepted though only a part was compared."""

    def __init__(self, identity=None, has_other_values=False):
        self.identity, self.has_other_values = identity, has_other_values
        self.address = OWN_ADDRESS
        self.left_out = 0
        if identity is not None:
            number = int.from_bytes(identity[9:12], "big")
            self.address = Unique(int.from_bytes(identity[1:3], "big") & 0x3FFF, number)

    def to_device(self, line):
        """A line as the device under test has to hear it."""
        return line if self.identity is None else moved(line, OWN_ADDRESS, self.address)

    def expected(self, answer):
        """The answer of `hart serve` as the device under test has to give it."""
        if self.identity is None or frame_of(answer) is None:
            return answer
        answer = moved(answer, OWN_ADDRESS, self.address)
        found, _ = frame_of(answer)
        body = bytes.fromhex("".join(answer.split()[found.start:]))
        if found.frame.command in IDENTITY_COMMANDS and len(found.frame.payload) == IDENTITY_BYTES + 2:
            held = found.frame.payload[2:]
            said = self.identity[:COUNTER.start] + held[COUNTER] + self.identity[COUNTER.stop:]
            body = with_check_byte(body[:-IDENTITY_BYTES - 1] + said)
        return text_of(b"\xFF" * self.identity[PREAMBLES_OF_REPLY] + body)

    def agrees(self, expected, came):
        """Whether an answer is the expected one, in all that is compared. Its hex digits may have either case, and stand together."""
        if expected == spaced(came):
            return True
        if not self.has_other_values or SILENCE in (expected, came):
            return False
        frames = frame_of(expected), frame_of(came)
        if None in frames or frames[0][1] != frames[1][1]:
            return False
        (wanted, _), (shown, _) = frames
        is_alike = compared(wanted.frame) == compared(shown.frame)
        self.left_out += is_alike
        return is_alike


def compared(frame):
    """What is compared of a reply of a device with other process values."""
    payload = frame.payload
    if payload[0] & COMMUNICATION_FAULTS:
        return frame.master, frame.burst, frame.address, frame.expansion, frame.command, payload
    head = bytes([payload[0], payload[1] & ~VALUE_BITS])
    data = b"" if frame.command in VALUE_COMMANDS else payload[2:]
    return frame.master, frame.burst, frame.address, frame.expansion, frame.command, head + data
