"""Lines of which one has a member that is missing or has another value. Each capture gives a page, or a fault that names its line.

In half of the captures only the last two lines are shown, so the changed line is mostly one that is only counted.
"""
import copy
import io
import json
import random
import re

from hart_report import capture as captures
from hart_report.command import page
from hart_report.lines import BadLine, read_into

from .browser import Broken
from .reading import read_page

CASES = 400
FAULT = re.compile(r"line \d+: \S")
VALUES = (None, True, 0, -1, 3, 2**70, 1.5, "", [], {}, "x", "@5", "FF", "41C80000", [{}], "all", "12:00")


def mutant(chance, one):
    """Returns an object with another value, or without a member, in it or in an object inside."""
    one = part = copy.deepcopy(one)
    name = chance.choice(list(part))
    while isinstance(part[name], dict) and part[name] and chance.random() < 0.7:
        part = part[name]
        name = chance.choice(list(part))
    if chance.random() < 0.2:
        del part[name]
    else:
        part[name] = chance.choice(VALUES)
    return one


def ending(lines, most_recent):
    """Returns whether a capture gives a page that reads as one; a fault has to name its line."""
    captures.MOST_RECENT = most_recent
    capture = captures.Capture()
    try:
        read_into(io.BytesIO(lines.encode()), capture)
    except BadLine as fault:
        if not FAULT.match(str(fault)):
            raise Broken(f"a fault names no line: {fault}") from None
        return False
    capture.end()
    read_page(page(capture, "mutant"))
    return True


def try_mutants(lines):
    """Tries captures made from these lines. Returns how many gave a page, and how many a fault."""
    chance = random.Random(94)
    objects = [json.loads(line) for line in lines]
    endings = []
    for case in range(CASES):
        first = chance.randrange(len(objects) - 12)
        part = objects[first:first + chance.randint(1, 12)]
        part[chance.randrange(len(part))] = mutant(chance, chance.choice(objects))
        text = "".join(json.dumps(one) + "\n" for one in part)
        try:
            endings.append(ending(text, 2 if case % 2 else 500))
        except Exception as error:
            raise Broken(f"{type(error).__name__}: {error} for {text[:2000]}") from error
    if len(set(endings)) != 2:
        raise Broken("the captures with a changed line all end alike")
    return f"{sum(endings)} pages and {len(endings) - sum(endings)} faults of changed lines"
