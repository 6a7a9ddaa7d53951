"""Tries examples/c/gateway.c with the devices of examples/c at a bad line: two pseudo-terminals, between which messages get lost.

Each request comes back to the gateway as an echo, and each reply to the device. A plan says what else happens to each sending: a message is
lost, damaged, cut or heard behind noise, the device is busy, or messages of others are heard before the request and before the reply.
What the gateway prints has to follow from the plan, line by line: it sends again until a good reply comes, at most four times. The device
has to carry out each write that reaches it and no other, and the commands of own_command.c have to do what that file says.

Usage: tools/bad_line.py GATEWAY DEVICE OWN_DEVICE: the built programs of gateway.c, device.c and own_command.c
"""

import contextlib
import os
import random
import re
import struct
import subprocess
import sys
import time
import tty

sys.dont_write_bytecode = True

from fuzz.frames import Frame, Unique  # noqa: E402
from hart_bench.bridge import Gone, Port, now  # noqa: E402
from hart_bench.compare import frame_of  # noqa: E402
from hart_bench.faults import BUSY, CUT, FLIP, LOSE, NOISE, REPLY, REQUEST, damaged, of_leg  # noqa: E402
from hart_bench.requests import OWN_ADDRESS, message, request  # noqa: E402

SENDINGS = 4
MOST_RUNS = 5
# After this many seconds a device ends by itself.
LIFE = "300"
# The silence that ends a message here, and the silence between two messages for a device, in seconds. The latter is longer, since the
# gateway and the devices end a message after 50 ms.
GAP, SILENCE = 0.015, 0.1
# How long a device may take for a reply, in seconds.
PATIENCE = 0.3
# The configuration change counter in an image.
COUNTER = slice(83, 85)
FOREIGN = "foreign"
OTHER = Unique(0x1234, 0x56789A)
BUSY_PAYLOAD = b"\x20\x00"
# What happens to the first sendings; all later ones go well. The last four fail all sendings of one request.
PLAN = ("ok", FOREIGN, f"{LOSE}-{REQUEST}", f"{FLIP}-{REQUEST}", f"{CUT}-{REQUEST}", f"{NOISE}-{REQUEST}", f"{LOSE}-{REPLY}",
        f"{FLIP}-{REPLY}", f"{CUT}-{REPLY}", f"{NOISE}-{REPLY}", BUSY, FOREIGN,
        f"{FLIP}-{REPLY}", BUSY, f"{LOSE}-{REQUEST}", f"{CUT}-{REPLY}")
DAMPING = 34
# How often a request is made, its command and data, and the response code and the data of the reply.
OWN = ((6, DAMPING, "40400000", 0, ", data 40400000"), (1, DAMPING, "404000", 5, ""), (1, DAMPING, "42740000", 3, ""),
       (1, DAMPING, "BF800000", 4, ""), (1, DAMPING, "7FC00000", 4, ""), (1, 15, "", 0, ", data [0-9A-F]*4040000000FA00"))
COUNT = 128


class Wrong(Exception):
    """Something that a program did not do as it had to."""


def only_frame(line):
    """Returns the only frame of a line. Raises `Wrong` if there is none, or if a slow machine left no silence between two."""
    found = frame_of(line)
    if found is None:
        raise Wrong(f"{line} has not one frame")
    return found[0].frame


def is_whole(kind):
    """Whether a message is heard whole, with this damage or none."""
    return kind in (None, NOISE)


def others(command):
    """Messages of others that a gateway hears: replies to this command of another device, and of this device to the secondary master."""
    payload = bytes.fromhex("00 00 20 42 F6 00 00")
    for master, address in (("P", OTHER), ("S", OWN_ADDRESS)):
        yield message(Frame("ACK", master, 0, address, b"", command, payload))


class Device:
    """A running device at its pseudo-terminal. It counts what it was asked."""

    def __init__(self, program):
        self.process = subprocess.Popen([program, LIFE], stdout=subprocess.PIPE, text=True)
        self.port = Port(os.open(self.process.stdout.readline().strip(), os.O_RDWR | os.O_NOCTTY), GAP, has_marks=False)
        self.replies, self.writes, self.spoke = 0, 0, 0.0

    def hears(self, line):
        """Lets the device hear a message, after a silence that separates it from the last one."""
        time.sleep(max(self.spoke + SILENCE - now(), 0))
        self.port.send(bytes.fromhex(line))
        self.spoke = now()

    def asked(self, line, is_write):
        """Lets the device hear a request, and returns its reply, which comes back to the device as an echo."""
        self.hears(line)
        reply = self.port.hear(PATIENCE)
        if reply:
            self.port.send(bytes.fromhex(reply))
            self.spoke = now()
            frame = only_frame(reply)
            self.replies += 1
            self.writes += is_write and frame.payload[0] == 0
        return reply

    def end(self):
        """Closes the port, after which the device shows its image. It has to have counted each write."""
        self.port.close()
        image = bytes.fromhex(self.process.communicate(timeout=10)[0])
        counter = int.from_bytes(image[COUNTER], "big")
        if self.process.returncode or counter != self.writes:
            raise Wrong(f"the device ends with status {self.process.returncode} and counter {counter}, and not {self.writes}")

    def kill(self):
        """Ends the device, if it still runs."""
        self.process.kill()
        self.process.wait()


@contextlib.contextmanager
def started(program):
    """A device that runs."""
    device = Device(program)
    try:
        yield device
    finally:
        device.kill()


class BadLine:
    """What is between a gateway and a device, with the rest of the plan. It keeps the lines that the gateway has to print."""

    def __init__(self, device, plan):
        self.device, self.plan, self.rng, self.lines, self.sendings = device, list(plan), random.Random(3), [], 0
        port, self.terminal = os.openpty()
        self.port = Port(port, GAP, has_marks=False)

    def carry(self, heard):
        """Carries a request of the gateway to the device, and the reply back. Notes what the gateway has to make of it."""
        word = self.plan.pop(0) if self.plan else "ok"
        asked = only_frame(heard)
        self.port.send(bytes.fromhex(heard))
        if word == FOREIGN:
            self.device.hears(request(asked.command, address=OTHER))
        reply = self.reply_to(heard, asked, word)
        kind = of_leg(word, REPLY)
        said = damaged(self.rng, kind, reply, False) if kind and reply else reply
        if word == FOREIGN:
            said = " ".join([*others(asked.command), said])
        self.port.send(bytes.fromhex(said))
        frame = only_frame(reply) if reply and is_whole(kind) else None
        self.note(asked, frame)

    def reply_to(self, heard, asked, word):
        """What the device replies, "" for nothing."""
        if word == BUSY:
            return message(Frame("ACK", "P", 0, asked.address, b"", asked.command, BUSY_PAYLOAD))
        kind = of_leg(word, REQUEST)
        arrived = damaged(self.rng, kind, heard, False) if kind else heard
        return self.device.asked(arrived, is_whole(kind) and asked.command == DAMPING) if arrived else ""

    def note(self, asked, frame):
        """Notes what the gateway has to print, if the request has come to its end: with a good reply, or after the last sending."""
        self.sendings += 1
        is_good = frame is not None and not frame.payload[0] & 0x80 and frame.payload[0] != BUSY_PAYLOAD[0]
        if not is_good and self.sendings < SENDINGS:
            return
        said = shown(frame) if is_good else "no reply"
        self.lines.append(f"command {asked.command}, sent {self.sendings}: {said}")
        self.sendings = 0

    def play(self, words):
        """Lets a gateway with these words talk to the device. Returns the lines that it printed; raises `Wrong` if others were wanted."""
        self.lines = []
        # A pseudo-terminal has no parity. The C library refuses attributes if it can make none of the changes.
        tty.setraw(self.terminal)
        gateway = subprocess.Popen([words[0], os.ttyname(self.terminal), *words[1:]], stdout=subprocess.PIPE, text=True)
        while gateway.poll() is None:
            heard = self.port.hear(PATIENCE)
            if heard:
                self.carry(heard)
        printed, wanted = gateway.stdout.read().splitlines(), self.lines
        missed = any("no reply" in line for line in wanted)
        if printed != wanted or gateway.returncode != 2 * missed:
            raise Wrong(f"the gateway ends with status {gateway.returncode} and prints {printed}, and not {wanted}")
        return wanted


def shown(frame):
    """What a gateway prints of a good reply."""
    code, status, data = frame.payload[0], frame.payload[1], frame.payload[2:]
    if frame.command == 1 and code == 0:
        value, = struct.unpack(">f", data[1:5])
        return f"code {code}, status {status:02X}, primary variable {value:g}, unit {data[0]}"
    return f"code {code}, status {status:02X}" + (f", data {data.hex().upper()}" if data else "")


def try_device(gateway, program):
    """Lets a gateway poll the bench device nine times; the whole plan has to happen. Returns the number of its requests."""
    with started(program) as device:
        line = BadLine(device, PLAN)
        lines = line.play([gateway, "9"])
        if line.plan:
            raise Wrong(f"{line.plan} did not happen")
        device.end()
    return len(lines)


def ask_own(line, gateway, polls, command, data, code, wanted):
    """Lets a gateway ask for a command of the device's own, between polls. Returns the number of its requests."""
    lines = line.play([gateway, str(polls), str(command), data])
    shown = [text for text in lines if text.startswith(f"command {command},") and "no reply" not in text]
    if not shown or not all(re.search(f": code {code}, status [0-9A-F]{{2}}{wanted}$", text) for text in shown):
        raise Wrong(f"Command {command} with data {data} is answered so: {shown}")
    return len(lines)


def try_own(gateway, program):
    """Lets a gateway ask a device for the device's own commands, at a line that is bad at first. Returns the number of its requests."""
    with started(program) as device:
        line = BadLine(device, PLAN)
        count = sum(ask_own(line, gateway, *row) for row in OWN)
        # The count includes the earlier reply to Command 0.
        count += ask_own(line, gateway, 1, COUNT, "", 0, f", data {device.replies + 1:04X}")
        device.end()
    return count


def patiently(test, *words):
    """Runs a test that needs a clock, at most MOST_RUNS times until it passes, since the machine may have been too slow."""
    for _ in range(MOST_RUNS - 1):
        try:
            return test(*words)
        except (Wrong, Gone) as wrong:
            print(f"bad line: {wrong}: once more", file=sys.stderr, flush=True)
    return test(*words)


def main():
    """Tries the gateway with each device."""
    gateway, device, own_device = map(os.path.realpath, sys.argv[1:])
    try:
        count = patiently(try_device, gateway, device) + patiently(try_own, gateway, own_device)
    except (Wrong, Gone) as wrong:
        sys.exit(f"bad line: {wrong}")
    print(f"a gateway with two devices at a bad line: what became of {count} requests followed from the plan")


if __name__ == "__main__":
    main()
