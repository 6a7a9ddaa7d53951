#!/usr/bin/env python3
"""Compares `hart serve` with docs/vectors.tsv and with the plain model in tools/fuzz, as a process that lives through many deliveries; and
`hart master` with its plain model, as a process that lives through many lines.

Each row of the vectors is heard by a process of its own, which begins with the image of the row and has to reply as the row says.
Then one process hears all rows, with a restart, the image and the counter after each. Another one hears many deliveries, each after it has
answered the one before, and may not take more memory than after the first few; so does a master. Lines go by the bridge of hart-bench.

Usage: tools/serve.py PROGRAM [--deliveries N]; N is 100000 if absent.
"""

import argparse
import os
import pathlib
import sys

sys.dont_write_bytecode = True

from fuzz.device import new_device  # noqa: E402
from fuzz.serve import said  # noqa: E402
from fuzz.session import Asker, said as asker_said  # noqa: E402
from hart_bench.bridge import Lines  # noqa: E402
from hart_bench.vectors import NEW, RESTART, rows_of  # noqa: E402

FIRST_LINES = 100
FILE = pathlib.Path(__file__).parents[1] / "docs" / "vectors.tsv"
# A request that writes, one that reads what was written, noise, a bad line, and two words.
LINES = (
    "FF FF 82 B7 42 0A 1B 2C 13 03 01 23 45 3D",
    "FF FF 82 B7 42 0A 1B 2C 10 00 5A",
    "00 FF!40 82",
    "FF FF 0G",
    "restart",
    "image",
)
# A request that is sent twice and answered, one that is given up, bad lines, and noise.
ASKED = (
    "submit 37420A1B2C 19 012345",
    "send",
    "heard FF FF 86 37 42 0A 1B 2C 13 05 00 40 01 23 45 FF",
    "tick 33",
    "send",
    "frob",
    "heard FF FF 86 B7 42 0A 1B 2C 13 05 00 40 01 23 45 7F",
    "ask\t37420A1B2C\t17\tmessage=FEED PUMP",
    *("send", "heard 00!40 0G", "tick 255") * 4,
    "ask @0 0 x",
)


def rows():
    """The rows of the vectors."""
    return rows_of(FILE.read_text(encoding="utf-8"))


def ended(program, words, lines):
    """Returns the lines that a process says to these lines."""
    device = Lines([program, "serve", *words])
    answers = device.say_all(lines)
    end(device)
    return answers


def end(device):
    """Ends a process, which may say nothing more and has to end with 0."""
    left, status = device.rest, device.close()
    if left or status:
        sys.exit(f"serve: status {status}, and {left!r} at the end")


def hold(shown, wanted, note):
    """Ends the run if lines are not the wanted ones."""
    if shown != wanted:
        place = next((place for place, pair in enumerate(zip(shown, wanted)) if pair[0] != pair[1]), min(len(shown), len(wanted)))
        sys.exit(f"serve: {note}: line {place + 1} is {shown[place:place + 1]}, but {wanted[place:place + 1]} is wanted")


def each_row_alone(program):
    """Lets each row be heard by a process of its own."""
    count = 0
    for row in rows():
        words = [] if row.image == NEW else ["--image", row.image]
        wanted = ["ok" if heard == RESTART else reply for heard, reply in row.parts]
        hold(ended(program, words, [heard for heard, _ in row.parts]), wanted, f"line {row.line} of the vectors")
        count += 1
    print(f"serve: {count} rows of the vectors, each in a process of its own")


def all_rows_together(program):
    """Lets all rows be heard by one process, with a restart, the image and the counter after each."""
    lines = [line for row in rows() for line in (*(heard for heard, _ in row.parts), RESTART, "image", "counter")]
    device = new_device()
    hold(ended(program, [], lines), [said(device, line.encode()).decode().rstrip("\n") for line in lines], "all rows")
    print(f"serve: {len(lines)} lines of the vectors in one process")


def resident(process):
    """Returns the most memory that a process has taken so far, in kilobytes."""
    status = pathlib.Path(f"/proc/{process.pid}/status").read_text(encoding="ascii")
    return next(int(line.split()[1]) for line in status.splitlines() if line.startswith("VmHWM:"))


def many_lines(program, word, lines, says, count):
    """Sends lines one by one, each after the answer to the line before; `says` gives what is wanted."""
    process, taken = Lines([program, word]), 0
    for number in range(count):
        line = lines[number % len(lines)]
        shown, wanted = process.say(line), says(line.encode()).decode().rstrip("\n")
        if shown != wanted:
            sys.exit(f"{word}: line {number + 1}: {shown!r}, but {wanted!r} is wanted")
        if number == FIRST_LINES:
            taken = resident(process.process)
    grown = resident(process.process) - taken
    end(process)
    if grown > 0:
        sys.exit(f"{word}: {grown} kB more memory than after {FIRST_LINES} lines")
    print(f"{word}: {count} lines one after another, and {taken} kB of memory from the first ones on")


def main():
    """Runs all checks."""
    parser = argparse.ArgumentParser(description=__doc__.split("\n", maxsplit=1)[0])
    parser.add_argument("program", help="the built program")
    parser.add_argument("--deliveries", type=int, default=100000, help="how many lines are sent one by one")
    chosen = parser.parse_args()
    program = os.path.realpath(chosen.program)
    each_row_alone(program)
    all_rows_together(program)
    device, asker = new_device(), Asker()
    many_lines(program, "serve", LINES, lambda line: said(device, line), chosen.deliveries)
    many_lines(program, "master", ASKED, lambda line: asker_said(asker, line), chosen.deliveries)


if __name__ == "__main__":
    main()
