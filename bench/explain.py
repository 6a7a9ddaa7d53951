#!/usr/bin/env python3
"""Measures `hart explain` on inputs of the largest size. It asserts no time.

Prints for each input, for `hart explain` and for `hart explain --json`, characters a second, the ratio of its time to that of `hart
dump` over the same text, and the size of what it writes beside what `hart dump` does. Each time is the best of several runs of the
whole program, from its start to its end, with its output thrown away. Beside it stand the instructions for each byte of the text, by
valgrind where it is there, and how they grow from the first 64 KiB to the whole.

Usage: bench/explain.py [PROGRAM [RUNS]]; PROGRAM is ./hart, RUNS 15.
"""

import subprocess
import sys

from dump import INPUT_LIMIT, SPACED, best_time, inputs, spaced, with_check_byte
from instructions import counted

REQUEST, REPLY = "82B7420A1B2C1303012345", "86B7420A1B2C13050040012345"


def written(command, text):
    """How many bytes a run writes."""
    return len(subprocess.run(command, input=text, capture_output=True, check=True).stdout)


def logged():
    """A log of `hart-listen`, as text: a date before each message, and a silence after it."""
    messages = (b"\xff" * 5 + with_check_byte(bytes.fromhex(body)) for body in (REQUEST, REPLY))
    turn = "".join(f"@12:00:01.25 {message.hex(' ').upper()} /\n" for message in messages).encode()
    return turn * (INPUT_LIMIT // len(turn))


def main():
    program = sys.argv[1] if len(sys.argv) > 1 else "./hart"
    runs = int(sys.argv[2]) if len(sys.argv) > 2 else 15
    dump = [program, "dump"]
    for words in (["explain"], ["explain", "--json"]):
        print(f"{' '.join(words)}, a log with dates and silences: {counted([program, *words], logged())}")
    for name, characters in inputs(SPACED).items():
        text = spaced(characters)
        dumped = best_time(dump, text, runs)
        for words in (["explain"], ["explain", "--json"]):
            call = [program, *words]
            seconds = best_time(call, text, runs)
            print(f"{' '.join(words)}, {name}: {SPACED / seconds / 1e6:.1f} million characters a second, "
                  f"{seconds / dumped:.2f} of the time of hart dump, writes {written(call, text)} bytes, "
                  f"hart dump {written(dump, text)}; {counted(call, text)}")


if __name__ == "__main__":
    main()
