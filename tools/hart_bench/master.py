"""`hart-bench master`: is the device of a master, loses, damages and delays messages, and says what the master did."""

import dataclasses
import datetime
import os
import random
import signal
import sys
import time
import tty

from . import faults
from .bridge import GAP, Gone, Lines, Port, now
from .compare import frame_of
from .faults import BUSY, DELAY, NONE, REPLY, REQUEST
from .requests import message
from .vectors import NEW, SILENCE, program_of, serve_of
from .watch import Watch

RETRIES = 3
# The least number of milliseconds that a master waits for a reply: 33 characters at 1200 baud.
LIMIT = 305
DELAY_MS = 200
BUSY_PAYLOAD = b"\x20\x00"
STEP = 0.2


def add_words(parser):
    """Adds the words of the command line."""
    parser.add_argument("--port", metavar="PORT", help="the master is at this serial port, at 1200 baud; at a pseudo-terminal if absent")
    parser.add_argument("--image", metavar="HEX", default=NEW, help="the image with which the device begins")
    for kind, said in ((faults.LOSE, "a message does not arrive"), (faults.FLIP, "a bit of a message is changed"),
                       (faults.CUT, "a message ends early"), (faults.NOISE, "noise comes before a message"),
                       (BUSY, "the device replies that it is busy"), ("late", "a reply is delayed")):
        parser.add_argument(f"--{kind}", metavar="PERCENT", type=float, default=0, help=f"how often {said}")
    parser.add_argument("--on", choices=(*faults.LEGS, "both"), default="both", help="which messages are damaged; both if absent")
    parser.add_argument("--delay", metavar="MS", type=float, help=f"how long a late reply is delayed; {DELAY_MS} if absent. Without --late "
                        "and --plan all replies are late")
    parser.add_argument("--plan", metavar="FAULTS", help="the fault of each sending, with commas between: " + ", ".join(faults.WORDS))
    parser.add_argument("--seed", metavar="N", type=int, help="the number of the faults; another one each time if absent")
    parser.add_argument("--retries", metavar="N", type=int, default=RETRIES, help="how often the master may send again; 3 if absent")
    parser.add_argument("--limit", metavar="MS", type=float, default=LIMIT, help="how long it has to wait for a reply; 305 if absent")
    parser.add_argument("--gap", metavar="MS", type=float, default=GAP * 1000, help="so long a silence ends a message; 50 if absent")
    parser.add_argument("--seconds", metavar="N", type=float, help="end after so many seconds, if not ended by Control-C or the port")
    parser.add_argument("--hart", metavar="PROGRAM", help="the program hart; the one beside this program if absent")


def time_of_day():
    """The local time, as 12:00:01.25."""
    return f"{datetime.datetime.now():%H:%M:%S.%f}"[:-4]


def say(fault, line):
    """Writes what was on the line, as items for `hart explain`."""
    word = time_of_day() if fault == NONE else f"{time_of_day()},{fault}"
    print(f"@{word} {line} /" if line else f"@{word} /", flush=True)


class Bench:
    """The device of a master: `hart serve` behind the bridge, with faults on the way."""

    def __init__(self, port, serve, words, rng, delay, watch):
        self.port, self.serve, self.words, self.rng, self.delay, self.watch = port, serve, words, rng, delay, watch

    def hear(self, patience):
        """Waits `patience` seconds for a message of a master, and replies to it with the next fault. Returns whether anything came."""
        heard = self.port.hear(patience)
        if not heard:
            return False
        found = frame_of(heard)
        if found is None or found[0].frame.kind != "STX":
            self.watch.others += 1
            say(NONE, heard)
            self.send(NONE, self.serve.say(heard))
            return True
        frame = found[0].frame
        self.watch.sent(frame, self.port.began, self.port.ended)
        fault = next(self.words)
        self.watch.answer(frame.master, fault, *self.reply(frame, heard, fault))
        return True

    def reply(self, frame, heard, fault):
        """Replies to a request. Returns whether anything came back, and whether the master has to accept it."""
        say(fault if faults.of_leg(fault, REQUEST) else NONE, heard)
        damage = faults.of_leg(fault, REQUEST)
        arrived = faults.damaged(self.rng, damage, heard, True) if damage else heard
        said = self.answer(frame, arrived, fault)
        is_good = faults.is_reply_code(said)
        damage = faults.of_leg(fault, REPLY)
        if damage and said != SILENCE:
            said = faults.damaged(self.rng, damage, said, False) or SILENCE
            is_good = is_good and damage == faults.NOISE
        if fault == DELAY:
            time.sleep(self.delay)
            is_good = is_good and now() - self.port.ended < self.watch.limit
        self.send(fault if damage or fault in (BUSY, DELAY) else NONE, said)
        return said != SILENCE, is_good

    def answer(self, frame, arrived, fault):
        """What the device replies to what arrives."""
        if not arrived:
            return SILENCE
        if fault == BUSY:
            return message(dataclasses.replace(frame, kind="ACK", burst=0, expansion=b"", payload=BUSY_PAYLOAD))
        return self.serve.say(arrived)

    def send(self, fault, said):
        """Sends a reply, if there is one."""
        line = "" if said == SILENCE else said
        if line or fault != NONE:
            say(fault, line)
        if line:
            self.port.send(bytes.fromhex(line))


def opened(given):
    """The port of the master; and of a pseudo-terminal the other end, which is closed here once the master has opened it."""
    if given.port:
        return Port.opened(given.port, given.gap / 1000), None
    port, terminal = os.openpty()
    tty.setraw(terminal)
    print(f"the device is at {os.ttyname(terminal)}", file=sys.stderr, flush=True)
    return Port(port, given.gap / 1000, has_marks=False), terminal


def plan_of(parser, given, rng):
    """The fault of each sending."""
    if given.plan is not None:
        plan = [word.strip() for word in given.plan.split(",")]
        unknown = next((word for word in plan if word not in faults.WORDS), None)
        if unknown is not None:
            parser.error(f"--plan has {unknown}, and takes {', '.join(faults.WORDS)}")
        return faults.planned(plan)
    late = 100 if given.delay is not None and not given.late else given.late
    percent = {kind: getattr(given, kind) for kind in (*faults.DAMAGES, BUSY)} | {DELAY: late}
    return faults.Chances(percent, faults.LEGS if given.on == "both" else (given.on,)).words(rng)


def listen(bench, given, terminal):
    """Hears the master until the end."""
    end = None if given.seconds is None else now() + given.seconds
    while end is None or now() < end:
        was_heard = bench.hear(STEP)
        if was_heard and terminal is not None:
            os.close(terminal)
            terminal = None


def run(parser, given):
    """Carries out the call, and returns the status: 1 if the master broke a rule."""
    signal.signal(signal.SIGTERM, signal.default_int_handler)
    seed = random.SystemRandom().randrange(1 << 32) if given.seed is None else given.seed
    rng = random.Random(seed)
    words = plan_of(parser, given, rng)
    watch = Watch(given.retries, given.limit / 1000, time_of_day)
    delay = (DELAY_MS if given.delay is None else given.delay) / 1000
    serve = serve_of(program_of(given.hart), given.image)
    try:
        port, terminal = opened(given)
        bench = Bench(port, Lines(serve), words, rng, delay, watch)
    except Gone as gone:
        sys.exit(f"hart-bench: {gone}")
    try:
        listen(bench, given, terminal)
    except (KeyboardInterrupt, Gone):
        pass
    print(*watch.report(), f"seed {seed}", sep="\n", file=sys.stderr)
    return 1 if watch.broken else 0
