"""Makes random sessions: what happens to a device in turn, one line each, as `hart serve` reads them."""

from fuzz.frames import BROADCAST, Frame, Polling, Unique, body_of, with_check_byte

from .images import BLANK_TAG, DAYS, LONG_TAGS, NO_DAYS, PUMP_TAG, random_tag, read
from .requests import OWN_ADDRESS, PREAMBLES, RESET, WRITES, request, text_of
from .vectors import RESTART

PROTECT_ON, PROTECT_OFF = "protect on", "protect off"
READS = (0, 1, 2, 3, 7, 8, 9, 9, 9, 12, 13, 14, 15, 16, 20, 48)
# The commands that show a device's state.
STATES = (0, 7, 7, 12, 13, 15, 16, 20)
CODES = (0, 1, 2, 3, 4, 9, 244, 245, 246, 247, 248, 250, 255)
KNOWN = (*READS, *WRITES, RESET, 11, 21)
UNKNOWN = tuple(number for number in range(256) if number not in KNOWN)
FAULT_BITS = (0x40, 0x20, 0x10, 0x02, 0x72)
NEIGHBOURS = (Unique(OWN_ADDRESS.type, OWN_ADDRESS.id ^ 1), Unique(OWN_ADDRESS.type ^ 0x2000, OWN_ADDRESS.id),
              Unique(OWN_ADDRESS.type, OWN_ADDRESS.id ^ 0x800000))
CHECKED = 6


def weighted(rng, *choices):
    """Returns one of the values in these pairs of weight and value, by their weights."""
    return rng.choices([value for _, value in choices], [weight for weight, _ in choices])[0]


class Maker:
    """Makes the lines of a session for a device that begins with an image. It knows roughly what the device holds at each line."""

    def __init__(self, rng, image):
        self.rng = rng
        held = read(image)
        self.polling, self.counter, self.is_protected = held.polling, held.counter, held.is_protected
        self.tag, self.long_tag = held.tag, held.long_tag
        self.waiting = []

    def line(self):
        """The next line."""
        if self.waiting:
            return self.waiting.pop()
        make = weighted(self.rng, (30, self.write), (25, self.state), (8, self.reset), (10, self.name), (8, self.polled),
                        (10, self.damaged), (8, self.read), (5, self.odd), (4, self.not_known), (4, self.word))
        return make()

    def master(self):
        """A master."""
        return self.rng.choice("PS")

    def ask(self, command, data=b"", **more):
        """A request, with more preamble bytes or the burst bit at times."""
        preambles = weighted(self.rng, (12, PREAMBLES), (2, 2), (1, 3), (1, 20), (1, 1))
        burst = int(self.rng.random() < 0.05)
        return request(command, data, **{"master": self.master(), "preambles": preambles, "burst": burst, **more})

    def state(self):
        """A request that reads what the device holds."""
        return self.ask(self.rng.choice(STATES), preambles=PREAMBLES)

    def read(self):
        """A request that reads."""
        command = self.rng.choice(READS)
        data = bytes(self.rng.choices(CODES, k=self.rng.randint(0, 9))) if command == 9 else self.rng.randbytes(self.rng.choice((0, 0, 2)))
        return self.ask(command, data)

    def write(self):
        """Returns a write: as a rule a good one, at times one byte short, too long or empty. Either master may send it again later."""
        rng = self.rng
        command = rng.choice(list(WRITES))
        data = self.good_data(command)
        data = weighted(rng, (12, data), (2, data[:-1]), (1, data + rng.randbytes(rng.choice((1, 2, 9)))), (1, b""))
        self.follow(command, data)
        # The result of the write is often read back, and sometimes the same values are written again.
        looks = [self.ask({6: 7, 17: 12, 18: 13, 19: 16, 22: 20}[command], preambles=PREAMBLES), self.ask(0, preambles=PREAMBLES)]
        self.waiting = rng.choice(([], looks[:1], looks, [*looks, self.ask(command, data)]))
        return self.ask(command, data)

    def good_data(self, command):
        """Data of a write, of which values near a limit may be refused."""
        rng = self.rng
        if command == 6:
            mode = weighted(rng, (3, b""), (3, b"\1"), (3, b"\0"), (2, b"\2"), (1, b"\xFF"))
            return bytes([rng.choice((0, 5, 5, 62, 63, 64, 64, 255))]) + mode
        if command == 17:
            return rng.choice((BLANK_TAG * 4, PUMP_TAG * 4, rng.randbytes(24)))
        if command == 18:
            day = bytes.fromhex(rng.choice((*DAYS, *NO_DAYS)))
            return random_tag(rng) + random_tag(rng) + random_tag(rng) + day
        if command == 19:
            return rng.choice((bytes.fromhex("012345"), rng.randbytes(3)))
        return rng.choice((*LONG_TAGS, rng.randbytes(32)))

    def follow(self, command, data):
        """Notes what a write changes in the device, unless the device refuses it."""
        if self.is_protected or len(data) < WRITES[command]:
            return
        if command == 6:
            if data[0] > 63 or data[1:2] > b"\1":
                return
            self.polling = data[0]
        if command == 18:
            if data[18:21].hex().upper() in NO_DAYS:
                return
            self.tag = data[:6]
        if command == 22:
            self.long_tag = data[:32]
        self.counter = (self.counter + 1) % 0x10000

    def reset(self):
        """Returns Command 38: as a rule without a counter or with the right one, at times with a wrong one, a byte of it, or too much."""
        right = self.counter.to_bytes(2, "big")
        data = weighted(self.rng, (4, b""), (4, right), (1, right[:1]), (1, right + b"\x55"), (1, (self.counter ^ 1).to_bytes(2, "big")),
                        (1, self.rng.randbytes(2)))
        self.waiting = [self.ask(7, preambles=PREAMBLES), self.ask(0, preambles=PREAMBLES)]
        return self.ask(RESET, data)

    def near(self, name):
        """A tag as it is, or with a bit changed, or cut, or followed by another byte."""
        place = self.rng.randrange(len(name))
        changed = name[:place] + bytes([name[place] ^ self.rng.choice((1, 0x20))]) + name[place + 1:]
        return weighted(self.rng, (4, name), (3, changed), (1, name[:-1]), (1, name + b"\x55"))

    def name(self):
        """A request for the device with a tag or a long tag."""
        command, name = self.rng.choice(((11, self.tag), (21, self.long_tag)))
        return self.ask(command, self.near(name), address=self.rng.choice((BROADCAST, OWN_ADDRESS)))

    def polled(self):
        """A request to a polling address, to all devices or to a neighbour, mostly of a command that is answered there."""
        rng = self.rng
        polling = Polling(rng.choice((self.polling, self.polling, 0, 1, 63)))
        command = rng.choice((0, 0, 0, *KNOWN))
        data = self.good_data(command) if command in WRITES else self.tag if command == 11 else b""
        return self.ask(command, data, address=rng.choice((polling, polling, BROADCAST, *NEIGHBOURS)))

    def not_known(self):
        """A command that is not implemented."""
        return self.ask(self.rng.choice(UNKNOWN), self.rng.randbytes(self.rng.choice((0, 0, 3))))

    def damaged(self):
        """Returns a request, mostly a damaged one: with a changed bit, with fault bits, or without its last character. A read follows."""
        rng, master = self.rng, self.master()
        command = rng.choice((*WRITES, RESET, 0, 33))
        data = self.good_data(command) if command in WRITES else b""
        items = request(command, data, master=master, address=rng.choice((OWN_ADDRESS, OWN_ADDRESS, OWN_ADDRESS, *NEIGHBOURS))).split()
        for _ in range(weighted(rng, (4, 1), (1, 2))):
            place = rng.randrange(PREAMBLES + CHECKED, len(items)) if rng.random() < 0.8 else rng.randrange(len(items))
            byte = int(items[place][:2], 16) ^ rng.choice((0, 1, 0x80))
            items[place] = f"{byte:02X}" + weighted(rng, (1, ""), (2, f"!{rng.choice(FAULT_BITS):02X}"))
        self.waiting = [self.ask(7, master=master, preambles=PREAMBLES)]
        return " ".join(items[:-1] if rng.random() < 0.1 else items)

    def odd(self):
        """Returns a delivery that is no lone request: two requests, a reply, expansion bytes, one preamble byte, noise or nothing; or a
        request in noise."""
        rng = self.rng
        command = rng.choice(list(WRITES))
        asked = self.ask(command, self.good_data(command), preambles=PREAMBLES)
        body = bytes.fromhex(asked)[PREAMBLES:-1]
        announced = text_of(b"\xFF" * PREAMBLES + with_check_byte(bytes([body[0] | 0x20]) + body[1:]))
        framed = [Frame(kind, self.master(), 0, OWN_ADDRESS, more, command, b"\0\0" + self.good_data(command))
                  for kind, more in (("ACK", b""), ("STX", b"\x55"))]
        messages = [text_of(b"\xFF" * PREAMBLES + body_of(frame)) for frame in framed]
        lonely = " ".join(["00", *asked.split()[PREAMBLES - 1:]])
        return rng.choice((f"{asked} {asked}", f"00 {asked} 00", lonely, announced, *messages, "", "FF FF FF", "00 13 FF"))

    def word(self):
        """A restart, which is often followed by a request of each master, or the write protection."""
        word = self.rng.choice((RESTART, RESTART, RESTART, PROTECT_ON, PROTECT_OFF, PROTECT_OFF))
        if word == RESTART:
            self.waiting = self.rng.choice(([], [self.ask(7, master="P"), self.ask(7, master="S")], [self.write()]))
        else:
            self.is_protected = word == PROTECT_ON
            self.waiting = [self.ask(self.rng.choice((15, *WRITES)), preambles=PREAMBLES), self.state()] if self.is_protected else []
        return word


def session(rng, image, count, can_say):
    """Returns the first `count` lines of a session that the device can be told."""
    maker, lines = Maker(rng, image), []
    while len(lines) < count:
        line = maker.line()
        if can_say(line):
            lines.append(line)
    return lines
