#!/usr/bin/env python3
"""Measures `hart answer` on the largest input of noise with one request in its midst. It asserts no time.

Prints characters a second, and the ratio of its time to that of `hart dump` over the same text. Each time is the best of
several runs of the whole program, from its start to its end, with its output thrown away. Beside it stand the instructions for each
byte of the text, by valgrind where it is there, and how they grow from the first 64 KiB to the whole.

Usage: bench/answer.py [PROGRAM [RUNS]]; PROGRAM is ./hart, RUNS 15.
"""

import random
import subprocess
import sys

from dump import DIGITS_A_LINE, INPUT_LIMIT, dense, best_time, with_check_byte
from instructions import counted

REPLY = b"FF FF FF FF FF 86 B7 42 0A 1B 2C 13 05 00 40 01 23 45 7F\n"


def main():
    program = sys.argv[1] if len(sys.argv) > 1 else "./hart"
    runs = int(sys.argv[2]) if len(sys.argv) > 2 else 15
    length = INPUT_LIMIT // (DIGITS_A_LINE + 1) * (DIGITS_A_LINE // 2)
    request = b"\xff" * 5 + with_check_byte(bytes.fromhex("82B7420A1B2C1303012345"))
    # This noise has starts, but no frame: the answer shows that the request is the only frame.
    noise = random.Random(1).randbytes(length - len(request))
    middle = len(noise) // 2
    text = dense(noise[:middle] + request + noise[middle:])
    assert subprocess.run([program, "answer"], input=text, capture_output=True, check=True).stdout == REPLY
    seconds = best_time([program, "answer"], text, runs)
    dumped = best_time([program, "dump"], text, runs)
    print(f"one request in noise: {length / seconds / 1e6:.1f} million characters a second, "
          f"{seconds / dumped:.2f} of the time of hart dump; {counted([program, 'answer'], text)}")


if __name__ == "__main__":
    main()
