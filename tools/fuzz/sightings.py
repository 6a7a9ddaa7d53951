"""What `hart explain` sees in what was heard: messages, and places at which one only seems to start, each with its date."""

import itertools
from typing import NamedTuple

from .frames import PREAMBLE, Found, frames_of
from .misses import Miss, missed


class Sighting(NamedTuple):
    """A message or a miss; its date, the last word before its place, None without such a word; and how many intact preamble bytes stand
    right before a message, None for a miss."""

    seen: Found | Miss
    date: str | None
    preambles: int | None


def sightings(heard):
    """The sightings of characters, where None means that the line fell silent, and a word dates what follows it. Each stretch is
    searched by itself, with its places counted on from the stretches before."""
    first, dates = 0, dates_of(heard)
    bare = [one for one in heard if not isinstance(one, bytes)]
    for is_silent, stretch in itertools.groupby(bare, lambda char: char is None):
        chars = [] if is_silent else list(stretch)
        for seen, preambles in seen_in(chars):
            moved = seen.moved(first)
            yield Sighting(moved, dates[moved.place if isinstance(moved, Miss) else moved.start], preambles)
        first += len(chars)


def seen_in(heard):
    """The messages and the misses of characters that no silence interrupts, in the order of their places, each with its number of preamble
    bytes."""
    begin = 0
    for found in frames_of(heard):
        yield from ((miss, None) for miss in missed(heard, begin, found.start))
        yield found, preambles_in(heard[begin:found.start])
        begin = found.stop
    yield from ((miss, None) for miss in missed(heard, begin, len(heard)))


def preambles_in(gap):
    """How many intact preamble bytes the characters before a message end with."""
    return sum(1 for _ in itertools.takewhile(lambda char: char == PREAMBLE, reversed(gap)))


def dates_of(heard):
    """The date of each character that was heard, the last word before it; None if it has none."""
    dates, last = [], None
    for one in heard:
        if isinstance(one, bytes):
            last = one.decode()
        elif one is not None:
            dates.append(last)
    return dates
