#!/usr/bin/env python3
"""Tries `tools/hart-listen` on a pseudo-terminal: what it hears at the pace of a line has to be explained in time.

Characters go to the pseudo-terminal at 1200 baud. `hart explain` has to say each message at most 0.2 s after its last character, and
each cut message at most 0.2 s after the silence behind it, each with a time of day. Then the port goes away. All this happens once more
with `hart explain --json`.

The items begin with a silence, also after a stall and when hart-listen starts again at the same port; that port may refuse parity. RTS is
cleared, and --silence sets how long a silence is. On a busy machine each of these may take longer by the time that the machine is late. A
check that fails is repeated: it is tried five times at most in all.

Usage: tools/listen.py PROGRAM
"""

import argparse
import importlib.machinery
import importlib.util
import os
import pathlib
import re
import select
import signal
import subprocess
import sys
import termios
import time
import tty

sys.dont_write_bytecode = True

from busy import Busy, Failed, patiently  # noqa: E402

LISTENER = pathlib.Path(__file__).with_name("hart-listen")
# A character has a start bit, 8 data bits, a parity bit and a stop bit.
CHARACTER = 11 / 1200
SILENCE = 0.050
LATE = 0.2
# How long to wait for output that may come at any time, and how often the programs wake up before they write something.
PATIENCE = 10.0
WAKINGS = 3
REQUEST = bytes.fromhex("FFFFFFFFFF82B7420A1B2C1303012345 3D")
CUT = REQUEST[:-3]
# The time of day of each line.
TIME = r"\d\d:[0-5]\d:[0-5]\d\.\d\d"
# What is heard, and how late after the last character an explanation may come.
HEARD = ((REQUEST, LATE), (CUT, SILENCE + LATE), (REQUEST, LATE))
# The words of each call, and how the first line for each part of `HEARD` begins.
CALLS = (
    (["explain"], (
        TIME + r" 5-17: request of the primary master",
        TIME + r" 22: no message: it lacks 3 characters",
        TIME + r" 36-48: request of the primary master")),
    (["explain", "--json"], (
        r'{"type":"message","time":"' + TIME + r'","start":5,"stop":17,.*,"sending":1}\n',
        r'{"type":"miss","time":"' + TIME + r'","start":22,"place":22,"reason":"missing","count":3,',
        r'{"type":"message","time":"' + TIME + r'","start":36,"stop":48,.*,"sending":2}\n')),
)
# What a port with marks delivers, in the pieces in which it comes, and the items of each piece.
READINGS = (
    ((b"\x02\x80",), ["02 80"]),
    ((b"\xff\xff\xff\xff\x02",), ["FF FF 02"]),
    ((b"\xff", b"\xff\x02"), ["", "FF 02"]),
    ((b"\x82\xff\x00\x41\x42",), ["82 41!40 42"]),
    ((b"\xff\x00", b"\x00\x01"), ["", "00!40 01"]),
    ((b"\xff", b"\x00", b"\xff\xff\xff"), ["", "", "FF!40 FF"]),
)


def fails(why):
    raise Failed(why)


def listener():
    """Returns hart-listen as a module."""
    loader = importlib.machinery.SourceFileLoader("hart_listen", str(LISTENER))
    module = importlib.util.module_from_spec(importlib.util.spec_from_loader("hart_listen", loader))
    loader.exec_module(module)
    return module


def try_readings():
    for pieces, wanted in READINGS:
        reading = listener().Reading()
        shown = [" ".join(reading.items(it)) for it in pieces]
        if shown != wanted:
            fails(f"{pieces} gives {shown}, but {wanted} is wanted")


def play(port, characters):
    """Sends characters at the pace of the line, and returns when the last one was sent."""
    start = time.monotonic()
    for count, byte in enumerate(characters, start=1):
        os.write(port, bytes([byte]))
        time.sleep(max(0.0, start + count * CHARACTER - time.monotonic()))
    return time.monotonic()


def first_line(output, patience=PATIENCE):
    """Returns the next line that is written, or None if none comes in time."""
    line = b""
    deadline = time.monotonic() + patience
    while not line.endswith(b"\n"):
        if not select.select([output], [], [], max(0.0, deadline - time.monotonic()))[0]:
            return None
        line += os.read(output.fileno(), 1)
    return line.decode()


def drop_rest(output):
    """Drops the rest of what is said of the same message."""
    while select.select([output], [], [], SILENCE)[0]:
        os.read(output.fileno(), 65536)


def try_rows(port, output, lines):
    for number, ((heard, limit), wanted) in enumerate(zip(HEARD, lines), start=1):
        ended = play(port, heard)
        with Busy() as busy:
            line = first_line(output)
            took = time.monotonic() - ended
        if line is None or took > limit + WAKINGS * busy.late:
            fails(f"row {number}: {line!r} was said after {took:.2f} s, and {limit} s are wanted")
        if not re.match(wanted, line):
            fails(f"row {number}: it says {line!r}, but {wanted!r} is wanted")
        print(f"listen: row {number}: said after {took:.3f} s")
        drop_rest(output)


def try_call(call, lines):
    port, terminal = os.openpty()
    tty.setraw(terminal)
    heard = started(terminal)
    said = subprocess.Popen(call, stdin=heard.stdout, stdout=subprocess.PIPE)
    heard.stdout.close()
    os.close(terminal)
    try_rows(port, said.stdout, lines)
    os.close(port)
    status, sentence = heard.wait(timeout=PATIENCE), heard.stderr.read().decode()
    if status != 1 or not sentence.endswith(" is gone\n"):
        fails(f"without a port it ends with {status} and {sentence!r}")
    if said.wait(timeout=PATIENCE) != 0:
        fails(f"{' '.join(call)} did not end with 0")


def started(terminal, *words):
    """Starts hart-listen at a pseudo-terminal, and returns it once it has said that the line is silent."""
    heard = subprocess.Popen([sys.executable, LISTENER, *words, os.ttyname(terminal)], stdout=subprocess.PIPE, stderr=subprocess.PIPE)
    if first_line(heard.stdout) != "/\n":
        fails(f"with the words {words} it does not begin with a silence")
    return heard


def ended(heard):
    """Ends hart-listen, and returns what it says of the port."""
    heard.send_signal(signal.SIGINT)
    if heard.wait(timeout=PATIENCE) != 0:
        fails(f"at Control-C it ends with {heard.returncode}")
    return heard.stderr.read().decode()


def items_of(line):
    """The items of a line, without its date."""
    return " ".join(line.split()[1:]) if line and line.startswith("@") else line


def try_starts():
    """Starts hart-listen twice at one pseudo-terminal. At the second start only parity is left to set, which this terminal refuses."""
    port, terminal = os.openpty()
    tty.setraw(terminal)
    ended(started(terminal))
    again = started(terminal)
    os.write(port, CUT)
    if items_of(first_line(again.stdout)) != CUT.hex(" ").upper():
        fails("started again, it hears something else")
    said = ended(again)
    if "refuses parity" not in said:
        fails(f"started again at a port that refuses parity, it says {said!r}")
    os.close(port)
    os.close(terminal)
    print("listen: started twice at one port")


def try_stall():
    """Stops hart-listen for longer than a silence: what came meanwhile stands after a silence."""
    port, terminal = os.openpty()
    tty.setraw(terminal)
    heard = started(terminal, "--silence", "1000")
    os.write(port, b"\x02")
    first = first_line(heard.stdout)
    heard.send_signal(signal.SIGSTOP)
    time.sleep(1.2)
    os.write(port, b"\x80")
    heard.send_signal(signal.SIGCONT)
    lines = [items_of(line) for line in (first, first_line(heard.stdout), first_line(heard.stdout))]
    if lines != ["02", "/\n", "80"]:
        fails(f"around a stall it says {lines}")
    ended(heard)
    os.close(port)
    os.close(terminal)
    print("listen: a stall is a silence")


def try_silence():
    """Lets the line be silent, for as long as --silence says."""
    port, terminal = os.openpty()
    tty.setraw(terminal)
    heard = started(terminal, "--silence", "400")
    with Busy() as busy:
        os.write(port, b"\x02")
        first_line(heard.stdout)
        start = time.monotonic()
        line, took = first_line(heard.stdout), time.monotonic() - start
    # The line of the byte may be read a little later than it is written.
    if line != "/\n" or not 0.35 - busy.late <= took <= 0.45 + WAKINGS * busy.late:
        fails(f"a silence of 400 ms is told as {line!r} after {took:.2f} s")
    ended(heard)
    os.close(port)
    os.close(terminal)
    print(f"listen: a silence of 0.4 s was told after {took:.3f} s")


def try_words():
    """Numbers that are no silence end hart-listen with status 2."""
    for word in ("0", "-1", "nan", "inf", "x"):
        heard = subprocess.run([sys.executable, LISTENER, f"--silence={word}", "/dev/null"], capture_output=True, text=True, check=False)
        if heard.returncode != 2 or "argument --silence" not in heard.stderr:
            fails(f"at --silence={word} it ends with {heard.returncode} and {heard.stderr!r}")


def try_rts():
    """Opens a port whose calls are recorded: RTS is cleared once, and never raised."""
    module, calls = listener(), []
    module.fcntl = type("Recorded", (), {"ioctl": staticmethod(lambda port, request, bits: calls.append((request, bits)))})
    port, terminal = os.openpty()
    os.close(module.opened(os.ttyname(terminal)))
    os.close(port)
    os.close(terminal)
    if calls != [(termios.TIOCMBIC, termios.TIOCM_RTS.to_bytes(4, sys.byteorder))]:
        fails(f"opening a port makes the calls {calls}")
    print("listen: RTS is cleared")


def main():
    parser = argparse.ArgumentParser()
    parser.add_argument("program")
    program = parser.parse_args().program
    # A script that runs in parallel with others ignores Control-C, and so would the programs that it starts.
    signal.signal(signal.SIGINT, signal.default_int_handler)
    for check in (try_readings, try_rts, try_starts, try_stall, try_silence, try_words):
        patiently("listen", check)
    for words, lines in CALLS:
        patiently("listen", try_call, [program, *words], lines)
    print("listen: as wanted")


if __name__ == "__main__":
    main()
