"""The bridge from bytes to lines: a device that answers line by line, and ports at which a device or a master speaks in bytes.

A line is what `hart serve` reads and writes: the items of a delivery, a reply, or one of its words. Bytes become a line at a silence: what
a port delivers between two silences is one delivery. So the bridge needs a clock, and `hart serve` needs none.
"""

import importlib.machinery
import importlib.util
import os
import pathlib
import select
import subprocess
import time

from .vectors import RESTART, SILENCE

# The length of the silence that ends a delivery, in seconds. A character takes 9 ms at 1200 baud.
GAP = 0.050
PATIENCE = 10.0
# Lines are sent together, before their answers are read, only up to about this many bytes, so that they never fill a pipe.
MOST_TOGETHER = 4096
OK = "ok"


class Gone(Exception):
    """A device or a port that is gone, or that does not answer."""


def load_listener():
    """Returns hart-listen, which stands beside hart-bench, as a module: its code for ports is used here."""
    folders = (pathlib.Path(__file__).parents[1], pathlib.Path(__file__).parents[3] / "bin")
    path = next(folder / "hart-listen" for folder in folders if (folder / "hart-listen").exists())
    loader = importlib.machinery.SourceFileLoader("hart_listen", str(path))
    module = importlib.util.module_from_spec(importlib.util.spec_from_loader("hart_listen", loader))
    loader.exec_module(module)
    return module


LISTENER = load_listener()


def replies(say, parts):
    """Returns the replies of a device to the parts of a row, `-` for a restart that it confirms. `say` gives its answer to a line."""
    return [SILENCE if heard == RESTART and answer == OK else answer for heard, answer in ((heard, say(heard)) for heard in parts)]


class Lines:
    """A device that answers line by line: a running command."""

    def __init__(self, command):
        self.rest = b""
        try:
            self.process = subprocess.Popen(command, stdin=subprocess.PIPE, stdout=subprocess.PIPE, bufsize=0)
        except OSError as error:
            raise Gone(f"{command[0]}: {error.strerror}") from None

    def say(self, line):
        """Says a line, and returns the answer."""
        return self.say_all([line])[0]

    def say_all(self, lines):
        """Says lines, and returns their answers."""
        answers, waiting = [], []
        for line in lines:
            waiting.append(line.encode() + b"\n")
            if sum(map(len, waiting)) > MOST_TOGETHER:
                answers += self.exchange(waiting)
                waiting = []
        return answers + self.exchange(waiting)

    def exchange(self, lines):
        """Writes lines at once, and reads as many answers."""
        try:
            self.process.stdin.write(b"".join(lines))
        except BrokenPipeError:
            raise Gone("the device ended") from None
        answers = []
        while len(answers) < len(lines):
            answer, found, rest = self.rest.partition(b"\n")
            if found:
                answers.append(answer.removesuffix(b"\r").decode(errors="replace"))
                self.rest = rest
            else:
                self.rest += self.read()
        return answers

    def read(self):
        """Reads more of what the device says."""
        if not select.select([self.process.stdout], [], [], PATIENCE)[0]:
            raise Gone(f"the device said nothing for {PATIENCE:.0f} s")
        more = os.read(self.process.stdout.fileno(), 65536)
        if not more:
            raise Gone("the device ended")
        return more

    def close(self):
        """Ends the device, and returns its status."""
        self.process.stdin.close()
        try:
            status = self.process.wait(timeout=1)
        except subprocess.TimeoutExpired:
            self.process.kill()
            status = self.process.wait()
        self.process.stdout.close()
        return status


class Port:
    """A port at which bytes come and go. What is heard comes as items, with the fault bits that the port noticed."""

    def __init__(self, port, gap=GAP, has_marks=True):
        self.port, self.gap, self.has_marks = port, gap, has_marks
        self.reading = LISTENER.Reading()
        # When the first and the last bytes of the last delivery came.
        self.began = self.ended = 0.0

    @classmethod
    def opened(cls, name, gap=GAP):
        """Opens a port by its name, as hart-listen does, but for both directions."""
        try:
            return cls(LISTENER.opened(name, os.O_RDWR), gap)
        except (OSError, LISTENER.termios.error) as error:
            raise Gone(f"{name}: {error.args[-1]}") from None

    def send(self, data):
        """Sends bytes."""
        try:
            while data:
                try:
                    data = data[os.write(self.port, data):]
                except BlockingIOError:
                    select.select([], [self.port], [])
        except OSError as error:
            raise Gone(f"the port is gone: {error.strerror}") from None

    def hear(self, patience):
        """Returns what comes up to a silence, as a line of items; "" if nothing comes for `patience` seconds."""
        items, wait = [], patience
        while heard := LISTENER.received(self.port, wait):
            self.ended = now()
            self.began = self.began if items else self.ended
            items += self.reading.items(heard) if self.has_marks else [f"{byte:02X}" for byte in heard]
            wait = self.gap
        if heard is None:
            raise Gone("the port is gone")
        return " ".join(items)

    def close(self):
        """Closes the port."""
        os.close(self.port)


class DeviceAtPort:
    """A device at a port, which answers line by line through the bridge. A restart needs a command that switches it off and on."""

    def __init__(self, port, patience, restart=None):
        self.port, self.patience, self.restart = port, patience, restart

    def can_say(self, line):
        """Whether the device can be told a line: no fault bits, and no word but `restart`."""
        return line == RESTART and self.restart is not None or all(len(item) == 2 for item in line.split())

    def say(self, line):
        """Lets the device hear a delivery or restarts it, and returns its answer as a line."""
        if line == RESTART:
            subprocess.run(self.restart, shell=True, check=True)
            return OK
        self.port.send(bytes.fromhex(line))
        return self.port.hear(self.patience) or SILENCE

    def say_all(self, lines):
        """Says lines one after the other, and returns their answers."""
        return [self.say(line) for line in lines]

    def close(self):
        """Closes the port."""
        self.port.close()


def now():
    """The seconds of a clock that is never set."""
    return time.monotonic()
