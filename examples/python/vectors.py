"""Runs the rows of docs/vectors.tsv, read from standard input, on a device, and prints how many it replies to otherwise.

The device is that of the library. To run the rows on another one, put a class with the same three calls in its place.

Usage: vectors.py LIBRARY, the path of libhart.so.
"""

import sys

from hart import BenchDevice


def characters(heard):
    """What is heard, as pairs of byte and fault bits."""
    items = (item.partition("!") for item in heard.split())
    return [(int(byte, 16), int(faults or "0", 16)) for byte, _, faults in items]


def is_replied(device, heard, wanted):
    """Whether a device replies to what is heard in turn as is wanted."""
    for part, reply in zip(heard.split("; "), wanted.split("; "), strict=True):
        if part == "restart":
            device.restart()
        elif (device.hear(characters(part)).hex(" ").upper() or "-") != reply:
            return False
    return True


def main():
    """Runs all rows."""
    rows = [line.rstrip("\n").split("\t") for line in sys.stdin if not line.startswith("#")][1:]
    others = 0
    for image, heard, reply, note in rows:
        device = BenchDevice(sys.argv[1], None if image == "-" else bytes.fromhex(image))
        if not is_replied(device, heard, reply):
            others += 1
            print(f"another reply: {note}")
    print(f"{len(rows)} rows, {others} with another reply")
    return 1 if others or not rows else 0


if __name__ == "__main__":
    sys.exit(main())
