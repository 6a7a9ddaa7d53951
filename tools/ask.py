#!/usr/bin/env python3
"""Tries `tools/hart-ask` on a device behind a pseudo-terminal at the pace of 1200 baud.

The device is `hart serve` behind the bridge of hart-bench, which loses, flips and cuts messages by plan. hart-ask has to read the primary
variable within 1.0 s when nothing is lost, write a tag, find a device by its tag, and get over a lost and a damaged message with as many
retries. A refused write ends with status 3, wrong words end with status 2, and a dead device with status 1 in the time of the limits.
A line that is never silent and a signal end hart-ask with status 1, and RTS is set only while it sends.

On a busy machine each of these may take longer by the time that the machine is late. A check that fails is repeated: it is tried five
times at most in all.

Usage: tools/ask.py PROGRAM
"""

import argparse
import contextlib
import importlib.machinery
import importlib.util
import os
import pathlib
import random
import signal
import subprocess
import sys
import threading
import time
import tty
from typing import NamedTuple
from unittest import mock

sys.dont_write_bytecode = True
HERE = pathlib.Path(__file__).resolve().parent
sys.path.insert(0, str(HERE))

from busy import Busy, Failed, patiently  # noqa: E402
from hart_bench import faults  # noqa: E402
from hart_bench.bridge import GAP, Gone, Lines, Port, now  # noqa: E402
from hart_bench.master import Bench  # noqa: E402
from hart_bench.watch import Watch  # noqa: E402

CHARACTER = 11 / 1200
DEVICE = "37420A1B2C"
# The time that a sending of Command 1 takes without a reply: 8 characters of silence, 29 of the message, and 33 of waiting.
DEAD_SENDING = (8 + 29 + 33) * CHARACTER
SLACK = 0.5
QUICK = 1.0
LIMIT = 0.305
# How often hart-ask, hart master and the device wake up for a character.
WAKINGS = 3
NOISE = b"\x55" * 64
NOWHERE = "/dev/null/none"
PATIENCE = 30.0


class Row(NamedTuple):
    """A call of hart-ask: its words, the faults on the way, whether its modem hears what it sends, and what has to come of it."""

    name: str
    words: tuple
    plan: tuple = ()
    echoes: bool = False
    status: int = 0
    says: str = ""
    sendings: int = 1
    at_most: float = 60.0
    at_least: float = 0.0


READS = (DEVICE, "1")
ROWS = (
    Row("reads the primary variable", READS, says="primary variable: 0x", at_most=QUICK),
    Row("writes a tag", (DEVICE, "18", "tag=FT-1204", "descriptor=FEED PUMP", "date=2026-11-27"), says='descriptor: "FEED PUMP'),
    Row("finds the tag", ("--tag", "FT-1204", "1"), says="primary variable: 0x", sendings=2),
    Row("reads as JSON", ("--json", *READS), says='"type":"message"'),
    Row("reads as it came", ("--raw", *READS), says="86 B7 42 0A 1B 2C 01"),
    Row("asks as the secondary master", ("--master", "S", *READS), says="to the secondary master"),
    Row("does not take its own message for a reply", READS, echoes=True, says="primary variable: 0x"),
    Row("shows no message of its own", ("--raw", *READS), ("noise-reply",), echoes=True, says=" FF FF FF FF FF 86 B7 42 0A 1B 2C 01"),
    Row("gets over a lost request", READS, ("lose-request",), says="primary variable: 0x", sendings=2),
    Row("gets over a lost reply", READS, ("lose-reply",), says="primary variable: 0x", sendings=2),
    Row("gets over a lost and a damaged message", READS, ("lose-request", "flip-reply"), says="primary variable: 0x", sendings=3),
    Row("gets over a damaged request", READS, ("flip-request",), says="primary variable: 0x", sendings=2),
    Row("gets over a cut reply and noise", READS, ("cut-reply", "noise-reply"), says="primary variable: 0x", sendings=2),
    Row("sends no more often than it may", ("--retries", "1", *READS), ("lose-request",) * 4, status=1, says="sent 2 times", sendings=2),
    Row("ends in time without a device", READS, ("lose-request",) * 9, status=1, says="Command 1, sent 4 times", sendings=4,
        at_most=4 * DEAD_SENDING + SLACK, at_least=4 * DEAD_SENDING),
    Row("waits as long as it is told", ("--retries", "0", "--limit", "200", *READS), ("lose-reply",), status=1, says="sent once",
        at_most=(8 + 29 + 200) * CHARACTER + SLACK, at_least=(8 + 29 + 200) * CHARACTER),
    Row("tells a response code", (DEVICE, "6", "polling_address=99", "loop_current_mode=0"), status=2, says="6: refused with code 2",
        sendings=0),
    Row("tells a refusal of the device", ("--raw", DEVICE, "6", "6300"), status=3, says="86 B7 42 0A 1B 2C 06", sendings=1),
    Row("refuses a field that it does not know", (DEVICE, "19", "number=1"), status=2, says="number=1: unknown field", sendings=0),
    Row("wants each field", (DEVICE, "19"), status=2, says="ask: missing field final assembly number", sendings=0),
    Row("wants a command", ("@0",), status=2, says="ADDRESS and COMMAND are needed", sendings=0),
    Row("refuses an address that may not be asked", ("@0", "1"), status=2, says="Command 1 does not go to @0", sendings=0),
    Row("refuses a bad address", ("@64", "0"), status=2, says="@64: wrong word", sendings=0),
    Row("refuses a second line", (DEVICE, "22", "long_tag=A\nsend"), status=2, says="control character", sendings=0),
    Row("refuses a number that hart master refuses", ("--retries", "16", *READS), status=2, says="hart master ended", sendings=0),
)


def fails(why):
    raise Failed(why)


class PacedPort(Port):
    """A port at which bytes take as long as on a line at 1200 baud."""

    def __init__(self, port, echoes):
        super().__init__(port, GAP / 10, has_marks=False)
        self.echoes = echoes

    def hear(self, patience):
        """Returns what comes between two silences, no earlier than its last character would come."""
        heard = super().hear(patience)
        if heard:
            if self.echoes:
                super().send(bytes.fromhex(heard))
            self.ended = self.began + len(heard.split()) * CHARACTER
            time.sleep(max(0.0, self.ended - now()))
        return heard

    def send(self, data):
        """Sends bytes one after the other."""
        start = now()
        for count, byte in enumerate(data, start=1):
            super().send(bytes([byte]))
            time.sleep(max(0.0, start + count * CHARACTER - now()))


class Device:
    """The device at a pseudo-terminal."""

    def __init__(self, program):
        self.port, self.terminal = os.openpty()
        tty.setraw(self.terminal)
        self.name = os.ttyname(self.terminal)
        self.serve = Lines([program, "serve"])
        self.ends = False
        self.heard = 0

    def run(self, row):
        """Hears a master until it is told to end, with the faults of a row."""
        watch, plan = Watch(15, LIMIT, lambda: ""), faults.planned(list(row.plan))
        bench = Bench(PacedPort(self.port, row.echoes), self.serve, plan, random.Random(1), 0.0, watch)
        try:
            while not self.ends:
                self.heard += bench.hear(0.02)
        except Gone as gone:
            fails(f"the device is gone: {gone}")

    def close(self):
        os.close(self.port)
        os.close(self.terminal)
        self.serve.close()


def command(device, program, words):
    """The words of a call of hart-ask at a device."""
    return [sys.executable, HERE / "hart-ask", device.name, "--hart", program, *words]


def asked(device, program, row):
    """Runs hart-ask on a row. Returns what it wrote and its status, its time, and how late a busy machine may make it."""
    device.ends, device.heard = False, 0
    hearing = threading.Thread(target=device.run, args=(row,))
    # The bench's output about the line is not shown.
    with open(os.devnull, "w", encoding="utf-8") as nowhere, contextlib.redirect_stdout(nowhere), Busy() as busy:
        hearing.start()
        start = time.monotonic()
        ended = subprocess.run(command(device, program, row.words), capture_output=True, text=True, check=False)
        took = time.monotonic() - start
        device.ends = True
        hearing.join()
    return ended, took, WAKINGS * busy.late


def check(row, ended, heard):
    """Raises `Failed` if a row ended otherwise than it says. `heard` is the number of messages that hart-ask sent."""
    said = ended.stdout + ended.stderr
    if ended.returncode != row.status:
        fails(f"{row.name}: status {ended.returncode}, and {row.status} is wanted: {said}")
    if row.says not in said:
        fails(f"{row.name}: it says {said!r}, without {row.says!r}")
    if heard != row.sendings:
        fails(f"{row.name}: {heard} messages were sent, and {row.sendings} are wanted")
    retries = ended.stderr.count("it is sent again")
    wanted = 0 if "--tag" in row.words else max(0, row.sendings - 1)
    if retries != wanted:
        fails(f"{row.name}: it tells {retries} retries, and {wanted} are wanted: {ended.stderr}")


def try_row(device, program, row):
    """Runs a row."""
    ended, took, late = asked(device, program, row)
    check(row, ended, device.heard)
    if not row.at_least <= took <= row.at_most + late:
        fails(f"{row.name}: {took:.2f} s, and {row.at_least:.2f} to {row.at_most:.2f} are wanted")
    print(f"ask: {row.name}: {took:.2f} s")


def try_gone(program):
    """Asks where there is no port, and with no program."""
    for words in (NOWHERE, "--hart", program), ("/dev/null", "--hart", NOWHERE):
        ended = subprocess.run([sys.executable, HERE / "hart-ask", *words, *READS], capture_output=True, text=True, check=False)
        if ended.returncode != 1 or ended.stderr != f"hart-ask: {NOWHERE}: Not a directory\n":
            fails(f"with {words} it ends with {ended.returncode} and {ended.stderr!r}")


def try_noise(device, program):
    """Lets noise come without an end, before hart-ask may send."""
    asks = subprocess.Popen(command(device, program, READS), stderr=subprocess.PIPE, text=True)
    latest = now() + PATIENCE
    while asks.poll() is None:
        os.write(device.port, NOISE)
        time.sleep(0.01)
        if now() > latest:
            asks.kill()
    if (said := asks.stderr.read().splitlines()[-1:]) != ["hart-ask: the line is never silent"] or asks.returncode != 1:
        fails(f"at noise it ends with {asks.returncode} and says {said}")
    print("ask: ends at noise without an end")


def try_signals(device, program):
    """Ends hart-ask by a signal once it sends."""
    for number in (signal.SIGINT, signal.SIGTERM):
        asks = subprocess.Popen(command(device, program, READS), stderr=subprocess.PIPE, text=True)
        os.read(device.port, 1)
        asks.send_signal(number)
        if asks.wait(timeout=PATIENCE) != 1 or "Traceback" in asks.stderr.read():
            fails(f"at {number.name} it ends with {asks.returncode}")
        # The rest of the message.
        os.read(device.port, 4096)
    print("ask: ends at a signal")


def calls_of_sending(module, write):
    """Returns the names of the calls that hart-ask makes at a port to send a message, with `write` in place of `os.write`."""
    port, terminal = os.openpty()
    tty.setraw(terminal)
    calls = []
    with mock.patch.object(module.LISTENER, "set_rts", lambda _, is_raised: calls.append("raise" if is_raised else "clear")), \
            mock.patch.object(module.os, "write", lambda _, data: calls.append("write") or write(data)), \
            mock.patch.object(module.termios, "tcdrain", lambda _: calls.append("drain")), contextlib.suppress(KeyboardInterrupt):
        module.Line(terminal, GAP).send(bytes(5))
    os.close(port)
    os.close(terminal)
    return calls


def breaks_off(_):
    """A write that is broken off."""
    raise KeyboardInterrupt


def try_rts():
    """RTS is raised before a message is written, and cleared after it is sent or broken off."""
    loader = importlib.machinery.SourceFileLoader("hart_ask", str(HERE / "hart-ask"))
    module = importlib.util.module_from_spec(importlib.util.spec_from_loader("hart_ask", loader))
    loader.exec_module(module)
    for write, wanted in ((len, ["raise", "write", "drain", "clear"]), (breaks_off, ["raise", "write", "clear"])):
        if (calls := calls_of_sending(module, write)) != wanted:
            fails(f"sending makes the calls {calls}, and {wanted} are wanted")
    print("ask: RTS is set only while it sends")


def main():
    parser = argparse.ArgumentParser()
    parser.add_argument("program")
    program = str(pathlib.Path(parser.parse_args().program).resolve())
    device = Device(program)
    patiently("ask", try_rts)
    patiently("ask", try_gone, program)
    for row in ROWS:
        patiently("ask", try_row, device, program, row)
    patiently("ask", try_noise, device, program)
    patiently("ask", try_signals, device, program)
    device.close()
    print("ask: as wanted")


if __name__ == "__main__":
    main()
