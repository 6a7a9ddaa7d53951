"""Holds the device of examples/c/device.c against the program: at a pseudo-terminal it replies byte for byte what the program says.

Each request of docs/COMMANDS.md, as `hart encode` makes it, goes to a new device, which must reply as `hart answer` does. The parts
of each case in tools/restarts.py go to one device, which is restarted where the case says so: it must reply as `hart serve` does, and
hold the image at the end that `hart sim` shows. All devices run at once. Bytes become lines by the bridge of hart-bench.

Usage: tools/device_example.py PROGRAM DEVICE
"""

import contextlib
import os
import signal
import subprocess
import sys
import tty

sys.dont_write_bytecode = True

from cases import lone  # noqa: E402
from fuzz import texts, worked  # noqa: E402
from hart_bench.bridge import Port, now  # noqa: E402
from hart_bench.vectors import RESTART  # noqa: E402
from restarts import runs, script_of  # noqa: E402
from vectors import call, replies_of  # noqa: E402

SECONDS = "60"
# How many seconds without a reply count as silence: much longer than the device waits for a byte.
QUIET = 0.5
PATIENCE = 20
# The silence after which a piece of a reply ends. Several pieces of a reply are put together here.
GAP = 0.005


class Played:
    """A running device, what it hears in turn, what it must reply, and the image that it must show at the end, if it is known."""

    def __init__(self, device, parts, replies, image=None):
        self.parts, self.replies, self.image = parts, list(replies), image
        self.process = subprocess.Popen([device, SECONDS], stdout=subprocess.PIPE, text=True)
        port = os.open(self.process.stdout.readline().strip(), os.O_RDWR | os.O_NOCTTY)
        if tty.tcgetattr(port)[3] & (tty.ECHO | tty.ICANON):
            self.fail("a port that changes bytes")
        self.port = Port(port, GAP, has_marks=False)

    def fail(self, what):
        """Ends the run."""
        sys.exit(f"device: {what}, at {self.parts}")

    def tell(self, turn):
        """Sends a part to the device in two pieces, or restarts the device."""
        if self.parts[turn] == RESTART:
            self.process.send_signal(signal.SIGUSR1)
            return
        heard = bytes.fromhex(self.parts[turn])
        self.port.send(heard[:8])
        self.port.send(heard[8:])

    def listen(self, turn, quiet):
        """Holds the device to its reply to a part. Where no reply is wanted, none may come before the time `quiet`."""
        wanted, replied = self.replies[turn], ""
        until = now() + PATIENCE if wanted else quiet
        while len(replied) < max(len(wanted), 1) and (more := self.port.hear(max(until - now(), 0))):
            replied = f"{replied} {more}".strip()
        if replied != wanted:
            self.fail(f"the reply {replied!r} to part {turn}, and not {wanted!r}")

    def end(self):
        """Closes the port, after which the device ends by itself and shows its image."""
        self.port.close()
        said, _ = self.process.communicate(timeout=PATIENCE)
        if self.process.returncode or self.image not in (None, said.strip()):
            self.fail(f"status {self.process.returncode} and image {said.strip()}, and not {self.image}")

    def kill(self):
        """Ends the device, if it still runs."""
        self.process.kill()
        self.process.wait()


def asked(program, heard):
    """Returns a request as `hart encode` makes it. Characters without exactly one frame stay as they are."""
    frame = lone(heard)
    if frame is None:
        return heard
    words = (frame.master, texts.address_text(frame.address), str(frame.command), frame.payload.hex())
    return call(program, ("encode", *(word for word in words if word)), "")


def plays(program):
    """What is heard, the replies, and the image at the end."""
    for heard, _, _ in worked.ON_PAGE:
        request = asked(program, heard)
        yield [request], [call(program, ("answer",), request)], None
    for image, parts, _ in runs():
        if image == "-" and "!" not in "".join(parts):
            script = "".join(f"{line}\n" for part in parts for line in script_of(part))
            yield parts, list(replies_of(program, image, parts)), call(program, ("sim",), script).split()[-1]


def main():
    """Runs all devices, and tells how many replied as they had to."""
    program, device = map(os.path.realpath, sys.argv[1:])
    with contextlib.ExitStack() as ended:
        played = []
        for parts, replies, image in plays(program):
            played.append(Played(device, parts, replies, image))
            ended.callback(played[-1].kill)
        for turn in range(max(len(one.parts) for one in played)):
            going = [one for one in played if turn < len(one.parts)]
            for one in going:
                one.tell(turn)
            quiet = now() + QUIET
            for one in sorted(going, key=lambda one: not one.replies[turn]):
                one.listen(turn, quiet)
        for one in played:
            one.end()
    print(f"{len(played)} devices at pseudo-terminals replied as the program does")


if __name__ == "__main__":
    main()
