"""Makes random scripts: events, chosen by what was sent in each leg, and their lines, good and spoilt."""

from dataclasses import replace

from . import commands, heard, inputs
from .device import OWN_ADDRESS, RESPONSE_PREAMBLES
from .frames import Char, Frame, Polling, body_of, faultless, frames_of
from .heard import weighted
from .line import LOST, OK, Line, Noise, Protect, Restart, Submit, Turn, Undetected, answer_in
from .master import MASTER_PREAMBLES

BAD_LINES = (
    "submit P 37420A1B2C 6 4001", "submit P 37420A1B2C 6 0002", "submit P 37420A1B2C 6", "submit P 37420A1B2C 19 0123",
    "submit P 37420A1B2C 38 00", f"submit P 37420A1B2C {commands.UNKNOWN[0]}", "submit P @64 0", "submit X @0 0",
    "submit P all 21 " + "20" * 31, "submit P 37420A1B2C 22 " + "FF" * 31, "submit P 37420A1B2C 21", "submit P 37420A1B2C 22",
    "submit P @0 0 \"\"", "submit P @0", "submit P @0 0 00 00", "submit P all 11 41535B", "submit P 37420A1B2C 9",
    "submit P 37420A1B2C 256", "submit P 37420A1B2C 18 415350B71C318208208208208208208208201D0200", "submit", "Submit P @0 0",
    "turn P ok", "turn P ok ok ok", "turn P OK ok", "turn p ok ok", "turn", "turn P lost,ok", "turn P FF!08 ok", "turn P FFF ok",
    "turn P ok FF!", "turn X ok ok", "noise", "noise ok", "noise FF FF", "noise FF!08", "noise FF!00", "noise !40", "noise F",
    "protect", "protect On", "protect on off", "protect 1", "restart now", "restart restart", "Restart", "restarted", "restar",
    "restart\r\r", "restart # no comment", "x # no comment", "turn P ok ok # no comment", "\r", "turn P ok ok\r", "noise FF\r\r",
    "\x00", "counter 0", "protect\von", "\ufeffprotect on",
)
QUIET_LINES = ("", "", " ", "\t \t", "# any", "#", "#submit P @0 0", " \t# é \r x", "# turn P ok ok")


def leg_of_message(rng, sent, preambles):
    """What is heard in place of a message: the message whole, damaged, cut, twice, or with something else."""
    whole = faultless(b"\xFF" * preambles + body_of(sent))
    short = faultless(b"\xFF" * rng.choice((0, 1, 2, 2, 2, 3, 5, 21)) + body_of(sent))
    quiet = (Char(0x55), Char(0xFF), Char(0x00, 0x40), Char(0xFF, 0x10))
    return weighted(
        rng, (4, lambda: whole), (6, lambda: short), (4, lambda: rng.choices(quiet, k=3) + list(short) + rng.choices(quiet, k=2)),
        (12, lambda: heard.marked(rng, short)), (12, lambda: heard.changed(rng, short)), (1, lambda: heard.mended(rng, short)),
        (6, lambda: heard.lost_part(rng, short)), (3, lambda: heard.put_in(rng, short)),
        (6, lambda: short[:rng.randrange(len(short) + 1)]), (1, lambda: short + faultless(b"\xFF\xFF" + body_of(sent))),
        (1, lambda: heard.random_heard(rng)))()


def near_message(rng, sent):
    """A message that differs in one field from the one that was sent."""
    field, value = rng.choice((("burst", 1), ("master", "S" if sent.master == "P" else "P"), ("command", sent.command ^ 1),
                               ("payload", sent.payload + b"\x00"), ("expansion", b"\x00"), ("address", Polling(1)),
                               ("kind", "ACK" if sent.kind == "STX" else "STX")))
    fields = {name: getattr(sent, name) for name in Frame.__dataclass_fields__} | {field: value}
    fields["payload"] = fields["payload"][:255]
    return faultless(b"\xFF\xFF" + body_of(Frame(**fields)))


def without_frames(rng):
    """Characters in which no frame is heard: each message among them has a character with a fault."""
    make = heard.garbled_request if rng.random() < 0.3 else heard.random_heard
    characters = list(make(rng)) or [Char(0)]
    while found := frames_of(characters):
        place = rng.randrange(found[0].start - 2, found[0].stop)
        characters[place] = Char(characters[place].byte, heard.fault_bits(rng))
    return tuple(characters)


def random_leg(rng, sent, preambles, loss):
    """What is heard in a leg; `sent` is None if nothing was."""
    kind = weighted(rng, (1 - loss, OK), (loss * 0.6, LOST), (loss * 0.4 + 0.1, "heard"))
    if kind != "heard":
        return kind
    if sent is None:
        characters = heard.random_heard(rng) if rng.random() < 0.1 else without_frames(rng)
    elif rng.random() < 0.03:
        characters = near_message(rng, sent)
    else:
        characters = leg_of_message(rng, sent, preambles)
    return tuple(characters) or LOST


class Play:
    """A script in the making, carried out while it grows, so that each leg is chosen by what was sent in it."""

    def __init__(self, rng, device):
        self.rng = rng
        self.line = Line(device)
        self.loss = rng.choice((0, 0.2, 0.5, 0.8, 1))
        self.events = []
        self.stopped = False

    def event(self):
        """Returns the next event."""
        kinds = [(10, self.turn), (6, self.submit), (1, self.protect), (1, self.noise), (1, Restart)]
        return weighted(self.rng, *kinds)()

    def submit(self):
        """A submission of a well-formed request, which its master may refuse."""
        rng, device = self.rng, self.line.device
        command = rng.choice([*commands.WRITES, 38, 38]) if rng.random() < 0.5 else rng.choice(list(commands.NEEDED))
        address = OWN_ADDRESS if rng.random() < 0.5 else heard.random_address(rng, device.polling)
        if rng.random() < 0.2:
            address, command = rng.choice(((Polling(device.polling), 0), (heard.BROADCAST, 11), (heard.BROADCAST, 21)))
        data = None
        while data is None or commands.request_code(command, data) != commands.SUCCESS:
            data = heard.random_data(rng, command, device.counter, device.tag, device.long_tag)[:255]
        idle = [who for who, master in self.line.masters.items() if not master.pending]
        who = rng.choice(idle) if idle and rng.random() < 0.6 else heard.random_master(rng)
        return Submit(who, address, command, data)

    def turn(self):
        """A turn, as a rule of a master that has something in hand."""
        rng = self.rng
        busy = [who for who, master in self.line.masters.items() if master.pending]
        who = rng.choice(busy) if busy and rng.random() < 0.85 else heard.random_master(rng)
        sent = self.line.masters[who].request()
        up = random_leg(rng, sent, MASTER_PREAMBLES, self.loss * 0.7)
        try:
            answer = answer_in(self.trial_device(), sent, up, "up")
        except Undetected:
            answer = None
        return Turn(who, up, random_leg(rng, answer, RESPONSE_PREAMBLES, self.loss))

    def trial_device(self):
        """Returns a copy of the line's device."""
        device = self.line.device
        return replace(device, changed=dict(device.changed), cold_start=dict(device.cold_start))

    def protect(self):
        """A switch of the write protection."""
        return Protect(self.rng.random() < 0.5)

    def noise(self):
        """Noise, in which as a rule no frame is heard."""
        characters = heard.random_heard(self.rng) if self.rng.random() < 0.1 else without_frames(self.rng)
        return Noise(characters or (Char(0),))

    def step(self):
        """Adds an event, and carries it out unless the script has stopped."""
        event = self.event()
        self.events.append(event)
        if not self.stopped:
            try:
                self.line.carry_out(event)
            except Undetected:
                self.stopped = True


def heard_word(rng, characters):
    """Characters as a word of a script."""
    return inputs.in_any_case(rng, "".join(map(inputs.item, characters)))


def leg_word(rng, leg):
    """A leg as a word of a script."""
    return leg if leg in (OK, LOST) else heard_word(rng, leg)


def event_words(rng, event):
    """The words of an event's line."""
    if isinstance(event, Submit):
        return ["submit", *inputs.request_words(rng, *event)]
    if isinstance(event, Turn):
        return ["turn", event.who, leg_word(rng, event.up), leg_word(rng, event.down)]
    if isinstance(event, Protect):
        return ["protect", "on" if event.on else "off"]
    if isinstance(event, Restart):
        return ["restart"]
    return ["noise", heard_word(rng, event.heard)]


def event_line(rng, words, plain):
    """A line of these words, plain or with any spaces and tabs."""
    if plain:
        return " ".join(words)
    gaps = [rng.choice((" ", " ", "\t", "  ", " \t ")) for _ in words]
    ends = rng.choice(("", "", " ", "\t")), rng.choice(("", "", "\t", "  "))
    return ends[0] + "".join(word + gap for word, gap in zip(words, gaps)).rstrip(" \t") + ends[1]


def script_text(rng, lines):
    """The lines as one text, with one kind of line end or with mixed ones."""
    end = weighted(rng, (6, "\n"), (2, "\r\n"), (1, None))
    text = "".join(line + (end or rng.choice(("\n", "\r\n"))) for line in lines).encode()
    return text[:-1] if rng.random() < 0.2 else text


def quiet_script(rng, device):
    """The lines of a script without deliberately bad ones. The device is changed by its events."""
    play = Play(rng, device)
    plain = rng.random() < 0.7
    lines = []
    for _ in range(weighted(rng, (1, 0), (4, 3), (6, 8), (6, 20), (2, 45))):
        if rng.random() < (0.02 if plain else 0.2):
            lines.append(rng.choice(QUIET_LINES))
        play.step()
        lines.append(event_line(rng, event_words(rng, play.events[-1]), plain))
    return lines


def sim_input(rng, device):
    """An input of `hart sim`: as a rule a good script, sometimes with a bad line or a spoilt byte, seldom one of the longest."""
    lines = quiet_script(rng, device)
    if rng.random() < 0.07:
        lines.insert(rng.randrange(len(lines) + 1), rng.choice(BAD_LINES))
    text = script_text(rng, lines)
    if rng.random() < 0.07:
        text = inputs.spoilt(rng, text)
    return filled_script(rng, text) if rng.random() < 0.0005 else text


def filled_script(rng, text):
    """A script filled up with a comment, spaces or empty lines to the limit of an input, or nearly so."""
    room = inputs.INPUT_LIMIT - len(text) + rng.choice((0, 0, 0, 1, 1, -1, 2, 5000))
    filling = rng.choice((b"#" * (room - 1) + b"\n", b"\n" * room, b"\r\n" * (room // 2) + b"\n" * (room % 2), b" " * room))
    return rng.choice((filling + text, text + b"\n" + filling[:-1]))
