"""The example capture: 40 minutes of a loop with four devices and two masters, with everything that a report can show.
Its messages are made as the items that `hart explain` reads."""
import functools
import math
import operator
import random
import struct

REQUEST, REPLY = 2, 6
PRIMARY, SECONDARY = 0x80, 0x00
CHARACTER = 11 / 1200
PREAMBLE = b"\xff" * 5
START = 9 * 3600 + 41 * 60
CELSIUS, CUBIC_METERS, BARS = 32, 19, 7
COLD_START, CHANGED, MALFUNCTION, FIXED, OUT_OF_LIMITS = 0x20, 0x40, 0x80, 0x08, 0x01
TEMPERATURE, FLOW, PRESSURE, LEVEL = (bytes.fromhex(text) for text in ("37420A1B2C", "2606123456", "11820003A7", "3742FFEE01"))
NOT_A_NUMBER = bytes.fromhex("7FA00000")
DATE = bytes([27, 11, 126])


def body(kind, master, address, command, payload, expansion=b"", burst=0):
    """Returns the bytes of a message from its delimiter to its check byte. A polling address is a number, a unique one five bytes."""
    is_short = isinstance(address, int)
    first = kind | (0 if is_short else 0x80) | len(expansion) << 5
    where = bytes([address]) if is_short else address
    where = bytes([where[0] & 0x3F | master | burst << 6]) + where[1:]
    whole = bytes([first]) + where + expansion + bytes([command, len(payload)]) + payload
    return whole + bytes([functools.reduce(operator.xor, whole)])


def packed(text, characters):
    """Returns a text as packed text."""
    bits = "".join(f"{ord(one) & 0x3F:06b}" for one in text.ljust(characters))
    return bytes(int(bits[place:place + 8], 2) for place in range(0, len(bits), 8))


def latin(text):
    """Returns a long tag."""
    return text.ljust(32).encode("latin-1")


def single(number):
    """Returns a float of four bytes."""
    return struct.pack(">f", number)


def items(message, damage=()):
    """Returns the items of a message; `damage` has a place and what is there instead, or a fault bit."""
    texts = [f"{byte:02X}" for byte in message]
    for place, text in damage:
        texts[place] = text if len(text) == 2 else texts[place] + text
    return texts


class Line:
    """What is heard on a line: items, with a date before each message and a silence after it, as hart-listen writes them."""

    def __init__(self, clock):
        self.clock = clock
        self.lines = []

    def date(self):
        """Returns the date of now, as a word."""
        seconds = self.clock % 86400
        return f"@{int(seconds // 3600):02}:{int(seconds // 60 % 60):02}:{seconds % 60:05.2f}"

    def hear(self, texts, silence=True):
        """Adds the items that came together."""
        self.lines.append(" ".join([self.date(), *texts]))
        self.clock += len(texts) * CHARACTER
        if silence:
            self.lines.append("/")

    def wait(self, seconds):
        """Lets time go by."""
        self.clock += seconds

    def text(self):
        """Returns all that was heard, as text for hart explain."""
        return "\n".join(self.lines) + "\n"


def identity(address, counter, revision=7):
    """Returns the data of a reply to Command 0. Before revision 7 they have only twelve bytes."""
    if revision < 7:
        return bytes([254, address[0], address[1], 5, revision, 3, 2, 0x10, 0]) + address[2:]
    # The upper two bits of a type are not part of the address.
    first = bytes([254, address[0] | 0x80, address[1], 5, 7, 1, 2, 0x18, 0]) + address[2:]
    return first + bytes([5, 4]) + counter.to_bytes(2, "big") + bytes([0, 0, address[0], 0, address[0], 1])


class Device:
    """A device of the example: its address, what it measures, and its registers."""

    def __init__(self, address, polling, unit, middle, swing, revision=7):
        self.address, self.polling, self.unit, self.middle, self.swing, self.revision = address, polling, unit, middle, swing, revision
        self.tag, self.long_tag, self.counter, self.status = "", "", 0, {PRIMARY: 0, SECONDARY: 0}

    def percent(self, clock):
        """Returns the percent of range at a time."""
        return 50 + 40 * math.sin(clock / 190 + self.polling) + 4 * math.sin(clock / 11)

    def data(self, command, clock):
        """Returns the reply data of a command that reads."""
        percent = self.percent(clock)
        value = bytes([self.unit]) + single(self.middle + self.swing * (percent - 50) / 50)
        current = single(4 + percent * 0.16)
        return {0: identity(self.address, self.counter, self.revision), 1: value, 2: current + single(percent), 3: current + value,
                7: bytes([self.polling, 1]), 13: packed(self.tag, 8) + packed("BUILDING 3", 16) + DATE, 20: latin(self.long_tag),
                15: bytes([0, 0, self.unit]) + single(self.middle + self.swing) + single(self.middle - self.swing) + single(1)
                + b"\0\xfa\0",
                48: bytes(25)}[command]


class Example:
    """Makes the capture, message by message, from a fixed seed."""

    def __init__(self, seed=94):
        self.line, self.chance = Line(START), random.Random(seed)
        self.devices = [Device(TEMPERATURE, 0, CELSIUS, 60, 45), Device(FLOW, 1, CUBIC_METERS, 12, 9),
                        Device(PRESSURE, 2, BARS, 4, 1.5, revision=5), Device(LEVEL, 4, 45, 3, 2.5)]
        for device, tag, long_tag in zip(self.devices, ("TT-101", "FT-1204", "PT-7", "<B>&\"'"), (
                "Kessel 3, Rücklauf", "Feed pump, building 3", "", "<script>alert(1)</script>")):
            device.tag, device.long_tag = tag, long_tag

    def ask(self, master, address, command, data=b"", damage=()):
        """A request is heard, perhaps damaged."""
        self.line.hear(items(PREAMBLE + body(REQUEST, master, address, command, data), damage), silence=False)
        self.line.wait(0.03)

    def reply(self, master, address, command, payload, damage=(), preamble=PREAMBLE, cut=None):
        """A reply is heard, perhaps damaged or cut."""
        self.line.hear(items(preamble + body(REPLY, master, address, command, payload), damage)[:cut])
        self.line.wait(0.12)

    def answer(self, master, device, command, data, address=None, **damage):
        """A device answers with code 0. The first reply after a restart shows the cold start to its master."""
        status = device.status[master]
        device.status[master] &= ~COLD_START
        where = device.address if address is None else address
        self.reply(master, where, command, bytes([0, status]) + data, **damage)

    def read(self, master, device, command):
        """A master reads, and may have to ask again."""
        trouble = self.chance.random()
        burst = 0.35 if 700 < self.line.clock - START < 900 else 0.05
        if trouble < burst:
            self.fail(master, device, command)
        self.ask(master, device.address, command)
        self.answer(master, device, command, device.data(command, self.line.clock))

    def fail(self, master, device, command):
        """A sending without success, in one of several ways."""
        way = self.chance.choice(("silence", "parity", "check", "cut", "damaged request", "damaged request", "framing"))
        data = device.data(command, self.line.clock)
        self.ask(master, device.address, command)
        if way == "silence":
            self.line.lines.append("/")
        elif way == "damaged request":
            fault = self.chance.choice((0x88, 0xC0, 0xA0, 0x90, 0x82))
            self.reply(master, device.address, command, bytes([fault, 0]))
        elif way == "cut":
            self.answer(master, device, command, data, cut=self.chance.randrange(9, 14))
        elif way == "check":
            self.answer(master, device, command, data, damage=((14, "5A"),))
        else:
            self.answer(master, device, command, data, damage=((self.chance.randrange(13, 17), "!40" if way == "parity" else "!10"),))
        self.line.wait(0.3)

    def identify(self, master, polling):
        """A master looks for a device at a polling address."""
        device = next((one for one in self.devices if one.polling == polling), None)
        self.ask(master, polling, 0)
        if device:
            self.answer(master, device, 0, device.data(0, self.line.clock), address=polling)
        else:
            self.line.lines.append("/")
            self.line.wait(0.35)

    def write(self, master, device, command, data, code=0):
        """A master writes, and the device carries it out or refuses it."""
        self.ask(master, device.address, command, data)
        if code:
            self.reply(master, device.address, command, bytes([code, device.status[master]]))
            return
        device.counter += 1
        device.status = {who: status | CHANGED for who, status in device.status.items()}
        self.answer(master, device, command, data)

    def noise(self):
        """Something is heard that is no message."""
        way = self.chance.choice(("burst", "delimiter", "short", "one preamble", "hum", "hum"))
        message = body(REQUEST, PRIMARY, TEMPERATURE, 3, b"")
        heard = {"burst": b"\xff\xff\x81" + TEMPERATURE + b"\x03\x00", "delimiter": b"\xff\xff\x0a\x80\x00",
                 "short": b"\xff\xff\x06\x80\x00\x01\x00\x87", "one preamble": b"\xff" + message,
                 "hum": bytes(self.chance.randrange(255) for _ in range(12))}[way]
        self.line.hear(items(heard))
        self.line.wait(0.2)

    def start(self):
        """Both masters look who is there, and read who it is."""
        for master in (PRIMARY, SECONDARY):
            for polling in range(6 if master == PRIMARY else 3):
                self.identify(master, polling)
        for device in self.devices:
            for command in (13, 20, 7, 15, 48):
                if command != 20 or device.revision > 6:
                    self.read(PRIMARY, device, command)

    def cycle(self, number):
        """One round of polling."""
        for device in self.devices:
            self.read(PRIMARY, device, 3)
        if number % 3 == 0:
            self.read(SECONDARY, self.devices[0], 2)
            self.read(SECONDARY, self.devices[1], 1)
        if self.chance.random() < 0.12:
            self.noise()
        self.line.wait(3)

    def events(self, number):
        """What happens once."""
        temperature, flow, pressure, level = self.devices
        if number in (40, 95, 180):
            temperature.status = {who: status | COLD_START for who, status in temperature.status.items()}
        if number == 60:
            self.write(SECONDARY, flow, 18, packed("FT-1205", 8) + packed("BUILDING 4", 16) + DATE)
            self.write(SECONDARY, flow, 22, latin("Feed pump, building 4"))
        if number == 61:
            self.write(PRIMARY, level, 19, bytes.fromhex("012345"), code=7)
            self.write(PRIMARY, level, 6, bytes([64, 1]), code=2)
        if number == 90:
            self.ask(PRIMARY, temperature.address, 17, packed("CHECKED IN NOVEMBER", 32))
            self.line.lines.append("/")
            self.write(PRIMARY, temperature, 17, packed("CHECKED IN NOVEMBER", 32))
            self.ask(PRIMARY, pressure.address, 19, bytes.fromhex("000007"))
            self.line.lines.append("/")
        if number == 120:
            pressure.status = {who: status | MALFUNCTION | OUT_OF_LIMITS for who, status in pressure.status.items()}
            self.ask(SECONDARY, temperature.address, 3)
            self.reply(SECONDARY, temperature.address, 3, bytes([0, 0]) + NOT_A_NUMBER + bytes([CELSIUS]) + NOT_A_NUMBER)
        if number == 150:
            pressure.status = dict.fromkeys(pressure.status, 0)
            level.status = {who: status | FIXED for who, status in level.status.items()}
            self.odd_messages()

    def odd_messages(self):
        """Messages that are right, but seldom: an unknown command, a broadcast, expansion bytes, a reply that nobody asked for, a busy
        device."""
        level = self.devices[3]
        self.write(PRIMARY, level, 19, bytes.fromhex("000008"), code=32)
        self.write(PRIMARY, level, 19, bytes.fromhex("000008"))
        self.ask(PRIMARY, level.address, 33, b"\1\2")
        self.reply(PRIMARY, level.address, 33, bytes([64, 0]))
        self.ask(PRIMARY, bytes(5), 21, latin("<script>alert(1)</script>"))
        self.answer(PRIMARY, level, 21, level.data(0, 0), address=bytes(5))
        self.ask(SECONDARY, level.address, 9, bytes([244, 245, 246, 9]))
        current_and_value = level.data(3, self.line.clock)
        percent, current, value = single(level.percent(self.line.clock)), current_and_value[:4], current_and_value[5:]
        variables = b"".join(bytes(head) + number + b"\xc0" for head, number in (
            ((244, 0, 57), percent), ((245, 0, 39), current), ((246, 0, level.unit), value), ((9, 0, 250), NOT_A_NUMBER)))
        self.reply(SECONDARY, level.address, 9, bytes([0, 0, 0]) + variables + bytes(4))
        self.reply(SECONDARY, bytes.fromhex("0101010101"), 1, bytes([0, 0, BARS]) + single(1))
        self.line.hear(items(PREAMBLE + body(REQUEST, SECONDARY, level.address, 1, b"\x55", expansion=b"\xaa", burst=1)))
        self.ask(SECONDARY, level.address, 11, b"\x41")
        self.reply(SECONDARY, level.address, 11, bytes([5, 0, 65]))

    def make(self):
        """Returns the whole capture as text."""
        self.start()
        for number in range(260):
            self.events(number)
            self.cycle(number)
        self.fail(PRIMARY, self.devices[1], 3)
        self.noise()
        self.read(PRIMARY, self.devices[1], 3)
        return self.line.text()


def example():
    """Returns the example capture as text for hart explain."""
    return Example().make()
