"""Reads bytes as they were heard on a HART line from standard input, and prints a line for each message, as `hart dump` does.

Usage: messages.py LIBRARY, the path of libhart.so.
"""

import sys

from hart import Finder


def hex_or_dash(data):
    """Bytes in hex, or a dash for none."""
    return bytes(data).hex().upper() or "-"


def address_text(frame):
    """The address of a frame."""
    if not frame.is_unique:
        return f"@{frame.polling_address}"
    if frame.expanded_type == 0 and frame.device_id == 0:
        return "all"
    return f"{frame.expanded_type:04X}{frame.device_id:06X}"


def line(frame):
    """The line of a frame."""
    return (f"{frame.start} {frame.stop} {'ACK' if frame.is_reply else 'STX'} {'P' if frame.is_primary else 'S'} {int(frame.is_burst)} "
            f"{address_text(frame)} {hex_or_dash(frame.expansion[:frame.expansion_len])} {frame.command} "
            f"{hex_or_dash(frame.payload[:frame.payload_len])}")


def main():
    """Prints the messages of standard input."""
    finder = Finder(sys.argv[1])
    while heard := sys.stdin.buffer.read1(4096):
        for frame in finder.hear(heard):
            print(line(frame), flush=True)
    for frame in finder.end():
        print(line(frame))


if __name__ == "__main__":
    main()
