#!/usr/bin/env python3
"""Measures `hart dump` on inputs of the largest size, in one run on one machine. It asserts no time.

Prints for each input characters a second, the ratio of its time to that of `xxd -r -p` over the same text, and the ratio of its
time a character to that of the clean frames. Then it prints the characters a second of preamble bytes alone, one on each line, and of
items of which every eighth has fault bits, without these ratios; the time of an empty input; and the greatest memory of the process
for a short input and a long one. Each time is the best of several runs of the whole
program, from its start to its end, with its output thrown away. Beside it stand the instructions for each byte of the text, by
valgrind where it is there, and how they grow from the first 64 KiB to the whole.

Usage: bench/dump.py [PROGRAM [RUNS]]; PROGRAM is ./hart, RUNS 31. It needs `xxd`.
"""

import pathlib
import random
import subprocess
import sys
import tempfile
import time

from instructions import counted

INPUT_LIMIT = 1_048_576
DIGITS_A_LINE = 60
# An item of two digits and a space takes 3 bytes.
SPACED = INPUT_LIMIT // 3
# A line of 60 digits has 30 characters and its line feed.
DENSE = INPUT_LIMIT // (DIGITS_A_LINE + 1) * (DIGITS_A_LINE // 2)


def with_check_byte(body):
    check = 0
    for byte in body:
        check ^= byte
    return body + bytes([check])


def repeated(piece, length):
    return (piece * (length // len(piece) + 1))[:length]


def inputs(length):
    """Returns the inputs by their names, each of `length` characters."""
    request = with_check_byte(bytes.fromhex("82B7420A1B2C1303012345"))
    message = b"\xff" * 5 + request
    noise = random.Random(1).randbytes(length)
    false_starts = bytes.fromhex("FFFF82B7420A1B2C13FF")
    long_starts = bytes.fromhex("FFFF028000FF")
    return {
        "clean frames": repeated(message, length),
        "noise": noise,
        "false starts": repeated(false_starts, length),
        "count 255 after every two FF": repeated(long_starts, length),
    }


def spaced(characters):
    """Items with a space after each."""
    return "".join(f"{byte:02X} " for byte in characters).encode()


def dense(characters):
    """Plain hex, broken into lines as `xxd -p` does."""
    digits = characters.hex()
    lines = [digits[i:i + DIGITS_A_LINE] for i in range(0, len(digits), DIGITS_A_LINE)]
    return ("\n".join(lines) + "\n").encode()


def other_texts():
    """Returns further texts by their names, each with the number of its characters."""
    alone = b"FF\n" * SPACED
    piece = b"FF " * 7 + b"FF!10 "
    faulty = piece * (INPUT_LIMIT // len(piece))
    return {
        "FF alone, one item a line": (alone, SPACED),
        "a fault at every eighth item": (faulty, faulty.count(b" ")),
    }


def best_time(command, text, runs):
    best = float("inf")
    with tempfile.TemporaryFile() as file:
        file.write(text)
        for _ in range(runs):
            file.seek(0)
            start = time.perf_counter()
            subprocess.run(command, stdin=file, stdout=subprocess.DEVNULL, check=True)
            best = min(best, time.perf_counter() - start)
    return best


def greatest_memory(program, text):
    """Returns the peak memory of a run of `hart dump`, in KiB, half a second after it was given this text and while it waits for more."""
    with subprocess.Popen([program, "dump"], stdin=subprocess.PIPE, stdout=subprocess.DEVNULL) as child:
        child.stdin.write(text)
        child.stdin.flush()
        time.sleep(0.5)
        status = pathlib.Path(f"/proc/{child.pid}/status").read_text()
        child.stdin.close()
    return next(line.split()[1] for line in status.splitlines() if line.startswith("VmHWM"))


def main():
    program = sys.argv[1] if len(sys.argv) > 1 else "./hart"
    runs = int(sys.argv[2]) if len(sys.argv) > 2 else 31
    for spelling, spell, length in (("spaced", spaced, SPACED), ("dense", dense, DENSE)):
        clean = None
        for name, characters in inputs(length).items():
            text = spell(characters)
            assert len(text) <= INPUT_LIMIT
            seconds = best_time([program, "dump"], text, runs)
            other = best_time(["xxd", "-r", "-p"], text, runs)
            clean = clean or seconds
            print(f"{spelling} {name}: {length / seconds / 1e6:.1f} million characters a second, "
                  f"{seconds / other:.2f} of xxd's time, {seconds / clean:.2f} of the clean input's time; "
                  f"{counted([program, 'dump'], text)}")
    for name, (text, count) in other_texts().items():
        seconds = best_time([program, "dump"], text, runs)
        print(f"{name}: {count / seconds / 1e6:.1f} million characters a second; {counted([program, 'dump'], text)}")
    print(f"an empty input: {best_time([program, 'dump'], b'', runs) * 1e3:.2f} ms")
    message = spaced(inputs(SPACED)["clean frames"])
    print(f"greatest memory: {greatest_memory(program, message[:1023])} KiB for 1 KiB, "
          f"{greatest_memory(program, message)} KiB for {len(message)} bytes")


if __name__ == "__main__":
    main()
