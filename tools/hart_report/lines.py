"""Reads the lines of `hart explain --json` into a capture."""
import json
import struct

from .capture import Recent
from .shape import Unlike, check

LONGEST_LINE = 65536
DECODER = json.JSONDecoder()
# The exceptions that a value of a wrong type raises where it is used.
OUT_OF_PLACE = (ValueError, KeyError, TypeError, AttributeError, OverflowError, struct.error)


class BadLine(Exception):
    """A line that `hart explain --json` does not write."""

    def __init__(self, number, why):
        super().__init__(f"line {number}: {why}")


def lines_of(source):
    """Yields the number of each line, its bytes, and whether it has its end."""
    number = 0
    while line := source.readline(LONGEST_LINE):
        number += 1
        is_whole = line.endswith(b"\n")
        if len(line) == LONGEST_LINE and not is_whole:
            raise BadLine(number, f"it has more than {LONGEST_LINE:,} bytes")
        yield number, line, is_whole


def object_of(line):
    """Returns the object of a line. It raises `ValueError` for another line."""
    text = line.decode()
    one, end = DECODER.raw_decode(text)
    if text[end:] not in ("\n", "") and not text[end:].isspace():
        raise ValueError(f"more follows at column {end + 1}")
    return one


def read_into(source, capture):
    """Adds each line of a source to a capture. Returns the number of the last line if it is cut in the middle, otherwise None."""
    cut = None
    for number, line, is_whole in lines_of(source):
        try:
            one = object_of(line)
        except (ValueError, RecursionError) as error:
            if not is_whole:
                cut = number
                break
            if line.isspace():
                continue
            raise BadLine(number, f"it is not what hart explain --json writes ({first_words(error)}); "
                          "for hex text give --hex, for bytes --raw") from None
        try:
            capture.add(one, number, line)
        except OUT_OF_PLACE as error:
            checked(one, number)
            raise BadLine(number, f"a value is out of place ({first_words(error)})") from None
    capture.recent = [Recent(checked(object_of(line), number), sendings) for number, line, sendings in capture.last_lines]
    return cut


def checked(one, number):
    """Returns an object that `hart explain --json` may have written."""
    try:
        check(one)
    except Unlike as fault:
        raise BadLine(number, fault) from None
    return one


def first_words(error):
    """Returns what an error says, in one line of at most 80 characters."""
    return " ".join(str(error).split())[:80]
