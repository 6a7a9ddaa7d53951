"""`hart master`: the lines of an input, what a master says to each, and random sessions of many lines."""

from dataclasses import replace

from . import commands, inputs, request
from .device import new_device
from .frames import BROADCAST, Frame, Polling, Unique, frames_of
from .heard import good_data, random_address, random_command, random_data, weighted
from .serve import lines_of
from .texts import (DECIMAL_DIGITS, INPUT_LIMIT, LEAST_PREAMBLES, READ_FAULT, REQUEST_WORDS, USAGE, BadHex, Given, done, failed, hex_or_dash,
                    is_plain, is_utf8, message_text, read_items)

MOST_LINES = 100
MOST_WORDS = 64
MOST_COUNT = 255
FAULTY = 0x80
RETRIES, PREAMBLES = 3, 20
LIMITS = {"P": 33, "S": 41}
OPTIONS = {b"--who": None, b"--retries": range(16), b"--limit": range(1, 256), b"--preambles": range(5, 21)}
UNIQUE = Unique(0x3742, 0x0A1B2C)
WORDS = {b"submit": 4, b"ask": MOST_WORDS, b"send": 1, b"tick": 2}
PENDING, WRONG_ADDRESS = b"refused: a request is pending\n", b"refused: wrong address\n"


class Bad(Exception):
    """Why a line is bad."""


class Asker:
    """A master: the request in hand, how often it was sent, what it waits for, and for how long."""

    def __init__(self, who="P", retries=RETRIES, limit=None, preambles=PREAMBLES):
        self.who, self.retries, self.limit, self.preambles = who, retries, limit or LIMITS[who], preambles
        self.request, self.sendings, self.state, self.time = None, 0, "idle", 0

    def submit(self, frame):
        """Takes a request in hand and returns `ok`, or returns why it is refused."""
        if self.state != "idle":
            return PENDING
        polls = isinstance(frame.address, Polling) and frame.command != 0
        if frame.command in commands.COMMANDS and (polls or frame.address == BROADCAST and frame.command not in (11, 21)):
            return WRONG_ADDRESS
        self.request, self.sendings, self.state = frame, 0, "due"
        return b"ok\n"

    def send(self):
        """Returns the message that is due, and begins to wait for its reply; `-` if none is due."""
        if self.state != "due":
            return b"-\n"
        self.sendings, self.state, self.time = self.sendings + 1, "waiting", 0
        return b"send " + message_text(self.request, self.preambles)

    def accepts(self, frame):
        """Whether a frame is the reply that is waited for."""
        asked = self.request
        if frame.kind != "ACK" or frame.expansion or (frame.master, frame.address, frame.command) != (self.who, asked.address, asked.command):
            return False
        if frame.command in commands.COMMANDS:
            return commands.read_reply(frame.command, frame.payload) is not None
        return frame.payload[0] < FAULTY

    def hear(self, heard):
        """Returns `answered` if the only frame of a delivery is the reply that is waited for, and otherwise `-`."""
        found = frames_of(heard)
        if self.state != "waiting" or len(found) != 1 or not self.accepts(found[0][2]):
            return b"-\n"
        self.state = "idle"
        return f"answered {self.sendings} {hex_or_dash(found[0][2].payload)}\n".encode()

    def tick(self, count):
        """Lets time pass. Returns `retry` or `noreply` when the limit is reached, and otherwise `-`."""
        if self.state != "waiting":
            return b"-\n"
        self.time = min(self.time + count, MOST_COUNT)
        if self.time < self.limit:
            return b"-\n"
        self.state = "due" if self.sendings <= self.retries else "idle"
        return b"retry\n" if self.state == "due" else f"noreply {self.sendings}\n".encode()


def words_of(line):
    """The words of a line; raises `Bad` at the first that is no UTF-8 or one too many."""
    words = [word for word in line.split(b"\t" if b"\t" in line else b" ") if word]
    for number, word in enumerate(words, start=1):
        if number > MOST_WORDS or not is_utf8(word):
            raise Bad(f"bad word {number}")
    return words


def asked_frame(asker, words):
    """The request that the words of `submit` or `ask` write."""
    given = [asker.who.encode(), *words[1:4], b"", b"", b""][:4]
    values = [read(word) for read, word in zip(REQUEST_WORDS[:3], given)]
    if None in values:
        raise Bad(f"bad word {values.index(None) + 1}")
    if words[0] == b"ask":
        data, bad = request.request_data(values[2], [word.decode() for word in words[3:]])
        if bad:
            raise Bad(f"bad word {bad[0]}: {bad[1]}")
    elif (data := REQUEST_WORDS[3](given[3])) is None:
        raise Bad("bad word 4")
    return Frame("STX", asker.who, 0, values[1], b"", values[2], data)


def obeyed(asker, line):
    """What a master says to a line of words."""
    words = words_of(line)
    most = WORDS.get(words[0] if words else b"")
    if most is None:
        raise Bad("bad word 1")
    if len(words) > most:
        raise Bad(f"bad word {most + 1}")
    if words[0] == b"send":
        return asker.send()
    if words[0] == b"tick":
        count = words[1] if len(words) > 1 else b""
        if not DECIMAL_DIGITS.fullmatch(count) or len(count) > 3 or int(count) > MOST_COUNT:
            raise Bad("bad word 2")
        return asker.tick(int(count))
    return asker.submit(asked_frame(asker, words))


def said(asker, line):
    """What a master says to a line."""
    if len(line) > INPUT_LIMIT:
        return b"bad line: too long\n"
    try:
        if line.startswith(b"heard") and line[5:6] in (b"", b" ", b"\t"):
            return asker.hear(read_items(line[5:]))
        return obeyed(asker, line)
    except BadHex as bad:
        return f"bad line: bad hex at {bad.place + 5}\n".encode()
    except Bad as bad:
        return f"bad line: {bad}\n".encode()


def options_of(words):
    """The values of the options, or None if the words make no call."""
    rest, values = list(words), {}
    while rest:
        name, joined, value = rest.pop(0).partition(b"=")
        if name not in OPTIONS or name in values or not joined and not (rest and is_plain(rest[0])):
            return None
        values[name] = value if joined else rest.pop(0)
    for name, value in values.items():
        digits = value.removeprefix(b"+")
        if not is_utf8(value) or OPTIONS[name] and not (DECIMAL_DIGITS.fullmatch(digits) and int(digits) in OPTIONS[name]):
            return None
    return {name[2:].decode(): int(value) if OPTIONS[name] else value for name, value in values.items()}


def asker_of(values):
    """The master with these options, or None if it is neither of the two."""
    who = REQUEST_WORDS[0](values.get("who", b"P"))
    return None if who is None else Asker(**(values | {"who": who}))


def master(given):
    """What `hart master` does with its words and an input."""
    values = options_of(given.words)
    if values is None:
        return USAGE
    asker = asker_of(values)
    if asker is None:
        return failed("bad word 1", unread=True)
    if given.text is None:
        return failed(READ_FAULT)
    return done(b"".join(said(asker, line) for line in lines_of(given.text)))


def submit_text(rng, _asker, _device):
    """A line that gives a request in hex."""
    command = random_command(rng)
    address = weighted(rng, (8, UNIQUE), (2, random_address(rng)), (1, BROADCAST))
    data = weighted(rng, (4, good_data(rng, command) if command in commands.COMMANDS else b""), (1, random_data(rng, command)))
    words = inputs.request_words(rng, "P", address, command, data)[1:]
    if rng.random() < 0.1:
        number = rng.randrange(1, len(words) + 1)
        words[number - 1] = inputs.bad_word(rng, number)
    return " ".join(["submit", *words]).encode()


def ask_text(rng, _asker, _device):
    """A line that gives a request by the names of its fields."""
    command = weighted(rng, (6, rng.choice(request.WITH_FIELDS)), (6, rng.choice((0, 1, 2, 3, 7, 16))), (1, random_command(rng)))
    address = weighted(rng, (8, "37420A1B2C"), (1, "@0"), (1, "all")) if command else "@0"
    words = ["ask", address, str(command), *request.field_words(rng, command)]
    between = weighted(rng, (4, "\t"), (1, " "))
    return between.join(words).encode()


def send_text(_rng, _asker, _device):
    """A line that asks for the message that is due."""
    return b"send"


def tick_text(rng, asker, _device):
    """A line that lets time pass."""
    return f"tick {weighted(rng, (4, rng.randrange(asker.limit)), (3, asker.limit), (1, rng.randrange(300)))}".encode()


def reply_of(rng, asker, device):
    """A reply to the request in hand: that of the device, one of another master or command, or any."""
    asked = asker.request
    if asked is None:
        return Frame("ACK", asker.who, 0, random_address(rng), b"", random_command(rng), rng.randbytes(2 + rng.randrange(9)))
    told = device.hear(read_items(message_text(asked, LEAST_PREAMBLES).strip()))
    if told is None or rng.random() < 0.15:
        payload = bytes((weighted(rng, (4, 0), (1, rng.randrange(256))), 0)) + rng.randbytes(rng.randrange(12))
        told = Frame("ACK", asked.master, 0, asked.address, b"", asked.command, payload)
    other = {"P": "S", "S": "P"}[told.master]
    return weighted(rng, (12, told), (1, replace(told, master=other)), (1, replace(told, command=(told.command + 1) % 256)),
                    (1, replace(told, burst=1)), (1, replace(told, kind="STX")))


def heard_text(rng, asker, device):
    """A line that says what was heard."""
    line = message_text(reply_of(rng, asker, device), weighted(rng, (6, 5), (1, 2), (1, 20))).strip()
    items = line.split(b" ")
    kind = weighted(rng, (12, "whole"), (1, "cut"), (1, "flipped"), (1, "noise"), (1, "twice"), (1, "nothing"))
    if kind == "cut":
        items = items[:rng.randrange(len(items))]
    elif kind == "flipped":
        place = rng.randrange(len(items))
        items[place] = f"{int(items[place], 16) ^ 1 << rng.randrange(8):02X}".encode() + rng.choice((b"", b"!40"))
    elif kind == "noise":
        items = [f"{rng.randrange(255):02X}".encode() for _ in range(rng.randint(1, 5))] + items
    elif kind == "twice":
        items = items + items
    elif kind == "nothing":
        items = []
    return b" ".join([b"heard", *items])


def other_text(rng, asker, device):
    """A line that is spoilt, or none at all."""
    make = rng.choice((submit_text, ask_text, send_text, tick_text, heard_text))
    return weighted(rng, (4, inputs.spoilt(rng, make(rng, asker, device)).replace(b"\n", b" ")), (1, b""),
                    (1, b"ask " + b"x " * rng.choice((62, 63, 64, 65))), (1, b"submit \xff 1"), (1, b"ask\t37420A1B2C\t22\tlong_tag=\xc3\xa9"))


def master_input(rng, asker):
    """An input of `hart master`: a session. The model hears each line once it is made, so that the next one suits its state."""
    text, device = b"", new_device()
    for _ in range(rng.randrange(MOST_LINES)):
        idle = asker.state == "idle"
        due = asker.state == "due"
        make = weighted(rng, (6 if idle else 1, submit_text), (6 if idle else 1, ask_text), (9 if due else 1, send_text),
                        (2 if idle or due else 6, heard_text), (1 if idle or due else 5, tick_text), (1, other_text))
        line = make(rng, asker, device)
        said(asker, line.removesuffix(b"\r"))
        text += line + weighted(rng, (9, b"\n"), (1, b"\r\n"))
    return text[:-1] if text and rng.random() < 0.2 else text


def master_words(rng):
    """Options of `hart master`, bad ones now and then."""
    words = []
    for name, good, bad in (("--who", "PS", ("p", "", "PS", "0")), ("--retries", range(16), (16, -1, "", "x", "+3", "03")),
                            ("--limit", range(1, 256), (0, 256, "", "+33")), ("--preambles", range(5, 21), (4, 21, "+7", "x"))):
        if rng.random() < 0.4:
            value = rng.choice(bad) if rng.random() < 0.04 else rng.choice(good)
            words += rng.choice(([name, f"{value}"], [f"{name}={value}"]))
    return [word.encode() for word in words]


def master_given(rng):
    """What `hart master` is given."""
    words = master_words(rng)
    values = options_of(words)
    asker = asker_of(values) if values is not None else None
    text = master_input(rng, asker or Asker())
    return Given(words, None if rng.random() < 0.01 else text)
