#!/usr/bin/env python3
"""Measures `hart sim` on scripts of the largest size. It asserts no time.

Prints, for each script, its events a second, the ratio of its time to that of `hart dump` over as much text of clean frames,
and the ratio of its time to that of a script of half the size. Each time is the best of several runs of the whole program,
from its start to its end, with its output thrown away. Beside it stand the instructions for each byte of the script, by valgrind
where it is there, and how they grow from the first 64 KiB to the whole.

Figures that led to the code of the line:

- With `send` and `receive`, which return frames of some 300 bytes, in place of `send_into` and `receive_into`, `hart sim` takes 23 percent
  more instructions for clean turns, 39 for lost replies, and 100 for empty turns.
- A script of 1 MiB takes 11 MB, since each frame becomes a line of some 50 bytes at once; with kept frames it takes 25 to 37.
- Room that is reserved and not touched costs only address space: at most 46.5 MB for the messages of `run`, 8.4 MB for outcomes.

Usage: bench/sim.py [PROGRAM [RUNS]]; PROGRAM is ./hart, RUNS 15.
"""

import random
import sys

from dump import DIGITS_A_LINE, INPUT_LIMIT, dense, best_time, inputs
from instructions import counted

SUBMISSION = b"submit P 37420A1B2C 19 012345\n"
CLEAN_TURN = b"turn P ok ok\n"
LOST_TURN = b"turn P ok lost\n"


def repeated_lines(lines, size):
    return lines * (size // len(lines))


def noise_lines(size):
    """Returns lines of 500 characters of noise each, none of which is FF, so that no message can begin."""
    source = random.Random(1)
    line = b"noise " + bytes(source.randrange(255) for _ in range(500)).hex().encode() + b"\n"
    return repeated_lines(line, size)


def scripts(size):
    """Returns the scripts by their names, each of at most `size` bytes."""
    return {
        "submissions, each with a clean turn": repeated_lines(SUBMISSION + CLEAN_TURN, size),
        "submissions, each with four turns whose reply is lost": repeated_lines(SUBMISSION + 4 * LOST_TURN, size),
        "long noise": noise_lines(size),
    }


def main():
    program = sys.argv[1] if len(sys.argv) > 1 else "./hart"
    runs = int(sys.argv[2]) if len(sys.argv) > 2 else 15
    length = INPUT_LIMIT // (DIGITS_A_LINE + 1) * (DIGITS_A_LINE // 2)
    frames = dense(inputs(length)["clean frames"])
    dumped = best_time([program, "dump"], frames, runs)
    halves = scripts(INPUT_LIMIT // 2)
    for name, script in scripts(INPUT_LIMIT).items():
        seconds = best_time([program, "sim"], script, runs)
        half = best_time([program, "sim"], halves[name], runs)
        events = script.count(b"\n")
        print(f"{name}: {events / seconds / 1e6:.2f} million events a second, "
              f"{seconds / dumped:.2f} of the time of hart dump, {seconds / half:.2f} of the time of half of it; "
              f"{counted([program, 'sim'], script)}")


if __name__ == "__main__":
    main()
