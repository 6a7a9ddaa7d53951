"""The library's device in Python as a command that answers line by line, as `hart serve` does.

Usage: tools/line_device.py LIBRARY IMAGE: the path of libhart.so, and the image with which the device begins, in hex
"""

import pathlib
import sys

sys.dont_write_bytecode = True
sys.path.insert(0, str(pathlib.Path(__file__).parents[1] / "examples" / "python"))

from hart import BenchDevice  # noqa: E402
from vectors import characters  # noqa: E402

PROTECTED = 4


def said(device, line):
    """What the device says to a line."""
    if line == "restart":
        device.restart()
        return "ok"
    if line in ("protect on", "protect off"):
        flags = device.kept.image_len - 1
        device.kept.image[flags] = device.kept.image[flags] & ~PROTECTED | PROTECTED * (line == "protect on")
        return "ok"
    return device.hear(characters(line)).hex(" ").upper() or "-"


def main():
    """Answers all lines."""
    device = BenchDevice(sys.argv[1], bytes.fromhex(sys.argv[2]))
    for line in sys.stdin:
        print(said(device, line.rstrip("\n")), flush=True)


if __name__ == "__main__":
    main()
