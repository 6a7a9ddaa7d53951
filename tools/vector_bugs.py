#!/usr/bin/env python3
"""Tries whether the vectors find bugs: devices that each have one of the bugs of tools/planted.py hear the rows of docs/vectors.tsv.

Each of these devices has to reply to some row otherwise than the row says, and the device without a bug to none. With --random the
bugs are looked for by `hart-bench device` instead, in random sessions without the vectors. With --list the bugs are named.

Usage: tools/vector_bugs.py [--vectors FILE] [--random PROGRAM] [--list]; PROGRAM is the built program.
"""

import argparse
import contextlib
import functools
import io
import multiprocessing
import os
import pathlib
import runpy
import sys
import time

sys.dont_write_bytecode = True

from hart_bench.vectors import NEW, RESTART, rows_of  # noqa: E402
from planted import BUGS, model, said  # noqa: E402

TOOLS = pathlib.Path(__file__).parent
VECTORS = TOOLS.parent / "docs" / "vectors.tsv"
BENCH, PLANTED = TOOLS / "hart-bench", TOOLS / "planted.py"
LEAST_BUGS = 60
# The most processor time of all random searches, which a busy machine does not change, and the most deliveries of one search. The
# searches took 59 to 65 s while other programs shared the cores.
MOST_SECONDS = 90
MOST_DELIVERIES = 20000


def start(package, image):
    """A device of a model, with an image in hex or as it is new."""
    if image == NEW:
        return package.device.new_device()
    return package.device.Device.from_image(bytes.fromhex(image))


def replied(package, device, line):
    """What a device says to a line; the name of the exception at which it breaks off."""
    try:
        return said(package, device, line)
    except Exception as broken:  # noqa: BLE001
        return type(broken).__name__


def differs(package, row):
    """Whether a device does not reply to a row as the row says."""
    device = start(package, row.image)
    return any(replied(package, device, heard) != ("ok" if heard == RESTART else reply) for heard, reply in row.parts)


def first_difference(package, rows):
    """The first row at which a device differs; None without one."""
    return next((row for row in rows if differs(package, row)), None)


def by_vectors(rows):
    """Lets each device hear the vectors. Returns the bugs that they do not find."""
    missed = []
    for bug in BUGS:
        row = first_difference(model(bug), rows)
        print(f"vector_bugs: {bug.name}: {f'line {row.line}' if row else 'NOT FOUND'}")
        missed += [] if row else [bug.name]
    return missed


def searched(program, number):
    """Lets the bench look for a bug in random sessions. Returns its status and what it says."""
    words = ["device", "--hart", program, "--no-vectors", "--seed", str(number), "--deliveries", str(MOST_DELIVERIES), "--no-shrink", "--"]
    device = [sys.executable, "-S", str(PLANTED), str(number), "{image}"]
    shown = io.StringIO()
    with contextlib.redirect_stdout(shown):
        status = runpy.run_path(str(BENCH))["main"]([*words, *device])
    return status, shown.getvalue()


def by_random(program):
    """Lets the bench look for each bug, for several at once. Returns the bugs that it does not find."""
    missed = []
    numbers = range(1, len(BUGS) + 1)
    with multiprocessing.get_context("fork").Pool(os.cpu_count()) as pool:
        for bug, (status, shown) in zip(BUGS, pool.imap(functools.partial(searched, program), numbers)):
            is_found = status == 1 and "\ndifference at session " in shown
            print(f"vector_bugs: {bug.name}: {'found' if is_found else 'NOT FOUND'}", flush=True)
            missed += [] if is_found else [bug.name]
    return missed


def tell(missed, how, seconds):
    """Says what came of all bugs, and returns the status."""
    print(f"vector_bugs: {len(BUGS) - len(missed)} of {len(BUGS)} bugs found by {how} in {seconds:.1f} s")
    if missed:
        print("not found:", *missed, sep="\n  ")
    return 1 if missed or len(BUGS) < LEAST_BUGS else 0


def main():
    """Looks for the bugs."""
    parser = argparse.ArgumentParser(description=__doc__.split("\n", maxsplit=1)[0])
    parser.add_argument("--vectors", metavar="FILE", type=pathlib.Path, default=VECTORS, help="the vectors; docs/vectors.tsv if absent")
    parser.add_argument("--random", metavar="PROGRAM", help="look for the bugs by hart-bench; PROGRAM is the built program")
    parser.add_argument("--list", action="store_true", help="name the bugs")
    chosen = parser.parse_args()
    if chosen.list:
        print(*(f"{number} {bug.name}" for number, bug in enumerate(BUGS, start=1)), sep="\n")
        return 0
    begun = time.monotonic()
    if chosen.random:
        missed = by_random(os.path.realpath(chosen.random))
        seconds, taken = time.monotonic() - begun, sum(os.times()[:4])
        print(f"vector_bugs: {taken:.1f} s of processor time")
        if taken > MOST_SECONDS:
            missed.append(f"all within {MOST_SECONDS} s")
        return tell(missed, "random sessions", seconds)
    rows = list(rows_of(chosen.vectors.read_text(encoding="utf-8")))
    wrong = first_difference(model(), rows)
    if wrong or not rows:
        sys.exit(f"vector_bugs: the device without a bug differs at line {wrong.line if wrong else 'none'}")
    return tell(by_vectors(rows), "vectors", time.monotonic() - begun)


if __name__ == "__main__":
    sys.exit(main())
