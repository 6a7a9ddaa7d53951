"""The device under test: how it is started with an image, and what it can be told."""

import dataclasses

from .bridge import OK, DeviceAtPort, Gone, Lines
from .compare import frame_of
from .images import NEW_IMAGE, PROTECTED, TAG_START, unpacked
from .requests import RESET, request
from .sessions import PROTECT_OFF, PROTECT_ON
from .vectors import NEW, RESTART, SILENCE

IMAGE_WORD = "{image}"
COUNTER = slice(-3, -1)
COUNTER_IN_REPLY = slice(16, 18)


def hex_of(image):
    """An image in hex."""
    return NEW_IMAGE.hex().upper() if image == NEW else image


def upgraded(image):
    """An image of version 2 that has the same fields."""
    if image[0] == 2:
        return image
    return b"\2" + image[1:51] + unpacked(image[TAG_START:TAG_START + 6]).ljust(32) + image[51:]


def writes_of(image):
    """The requests that give a device the registers of an image, and its changed bits as far as they can be cleared."""
    yield request(6, image[1:3])
    yield request(17, image[3:27])
    yield request(18, image[27:48])
    yield request(19, image[48:51])
    yield request(22, image[51:83])
    for master, bit in (("P", 1), ("S", 2)):
        yield request(7, master=master)
        if not image[-1] & bit:
            yield request(RESET, master=master)


@dataclasses.dataclass
class Tested:
    """What is under test: a command that answers line by line, or a device at a port; the image with which a command begins; and the
    commands that are left out.
    """

    command: list
    port: DeviceAtPort | None
    image: str
    yardstick: object
    without: frozenset = frozenset()

    def takes_images(self):
        """Whether the device begins with the image that its command is given."""
        return any(IMAGE_WORD in word for word in self.command)

    def can_say(self, line):
        """Whether the device can be told a line, and the line asks for no command that is left out."""
        heard = frame_of(line) if self.without else None
        if heard and heard[0].frame.command in self.without:
            return False
        return self.port is None or self.port.can_say(self.yardstick.to_device(line))

    def start(self, image):
        """Starts the device, with an image as far as it can be given. Returns what answers line by line, and the image that it has."""
        if self.port is not None:
            return self.port, self.written(self.port, image)
        if self.takes_images():
            return Lines([word.replace(IMAGE_WORD, hex_of(image)) for word in self.command]), image
        device = Lines(self.command)
        return device, image if image == self.image else self.written(device, image)

    def written(self, device, image):
        """Writes an image into a device by requests, except its counter and, at a port, its write protection. Returns the image then."""
        wanted = upgraded(bytes.fromhex(hex_of(image)))
        is_protected = bool(wanted[-1] & PROTECTED) and self.port is None
        lines = [self.yardstick.to_device(line) for line in (*writes_of(wanted), request(0))]
        *_, answer = device.say_all([*([] if self.port else [PROTECT_OFF]), *lines])
        if is_protected:
            device.say(PROTECT_ON)
        found = frame_of(answer)
        if found is None or len(found[0].frame.payload) < COUNTER_IN_REPLY.stop:
            raise Gone(f"the device was asked for its identity by Command 0, and answered {answer}")
        counter = found[0].frame.payload[COUNTER_IN_REPLY]
        flags = wanted[-1] & ~PROTECTED | PROTECTED * is_protected
        return (wanted[:COUNTER.start] + counter + bytes([flags])).hex().upper()

    def end(self, device):
        """Ends a started device. A port stays open for the next start."""
        if device is not self.port:
            device.close()


class Reference:
    """`hart serve`, to which the device under test is compared."""

    def __init__(self, program, yardstick):
        self.program, self.yardstick = program, yardstick

    def answers(self, image, lines):
        """The expected answers to lines of a device that begins with an image."""
        serve = Lines([self.program, "serve", *([] if image == NEW else ["--image", image])])
        try:
            return [self.yardstick.expected(answer) for answer in serve.say_all(lines)]
        finally:
            serve.close()


def answers(tested, image, lines):
    """Returns the answers of a device under test to lines, and the image with which it began.

    If a command breaks off, it is run once more, line by line. The answers then end with the reason, at the line where it broke off."""
    device, begun = tested.start(image)
    came = []
    try:
        told = [tested.yardstick.to_device(line) for line in lines]
        came = device.say_all(told)
    except Gone as gone:
        if not isinstance(device, Lines):
            raise
        came = one_by_one(tested, image, told, str(gone))
    finally:
        tested.end(device)
    return came, begun


def one_by_one(tested, image, lines, reason):
    """The answers of a device up to the line at which it breaks off, and there the reason."""
    device, _ = tested.start(image)
    came = []
    try:
        for line in lines:
            came.append(device.say(line))
    except Gone:
        came.append(reason)
    finally:
        tested.end(device)
    return came


def as_answer(heard, reply):
    """The answer to a line of a row: `ok` for a restart."""
    return OK if heard == RESTART and reply == SILENCE else reply
