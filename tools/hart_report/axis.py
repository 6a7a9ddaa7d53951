"""Where in a capture a line stands: its place in characters, and its date in seconds if it has a date that can be read."""
import datetime
import functools
import re
from collections import Counter

DAY = 24 * 60 * 60
GREATEST_PLACE = 2**64
MOST_BINS = 80
DATE = re.compile(r"(?:(\d{4}-\d\d-\d\d)[T_])?(\d\d):(\d\d)", re.ASCII)
SECONDS = re.compile(r"\d\d(?:\.\d{1,9})?", re.ASCII)
ZONE = re.compile(r"(?:Z|[+-]\d\d:?\d\d)$", re.ASCII)


@functools.lru_cache(maxsize=16)
def minute_of(word):
    """Returns the seconds up to a minute such as 12:00 or 2026-11-27T12:00, and whether it names its day; None for another word."""
    parts = DATE.fullmatch(word)
    if not parts:
        return None
    day, hour, minute = parts.groups()
    try:
        before = datetime.date.fromisoformat(day).toordinal() * DAY if day else 0
    except ValueError:
        return None
    return (before + int(hour) * 3600 + int(minute) * 60, day is not None) if int(hour) < 24 and int(minute) < 60 else None


def seconds_of(word):
    """Returns the seconds of a date such as 12:00:01.25, and whether it names its day; None for another word. A zone is ignored."""
    head, _, tail = ZONE.sub("", word).rpartition(":")
    minute, second = minute_of(head), SECONDS.fullmatch(tail)
    if minute is None or not second:
        return minute_of(f"{head}:{tail}")
    seconds = float(tail)
    return (minute[0] + seconds, minute[1]) if seconds < 61 else None


class Axis:
    """The place and the date of the line that was read last.

    A line that starts before the line above it begins another capture, whose places go on from the end of the one before. A time of day
    that jumps back by more than half a day is one of the next day.
    """

    def __init__(self):
        self.place = self.seconds = None
        self.first_place = self.first_seconds = None
        self.first_date = self.last_date = None
        self.captures = 0
        self.is_dated = True
        self.names_days = True
        self.start = self.last_start = self.offset = self.end = self.days = 0

    def move(self, start, stop, date):
        """Moves on to the line of a message or a miss."""
        if not 0 <= start <= stop <= GREATEST_PLACE:
            raise ValueError("place")
        if not self.captures or start < self.last_start:
            self.captures += 1
            self.offset = self.end
        self.last_start = start
        self.place = self.offset + start
        self.end = max(self.end, self.offset + stop)
        if self.first_place is None:
            self.first_place = self.place
        self.seconds = self.seconds_at(date) if self.is_dated else None

    def seconds_at(self, date):
        """Returns the seconds of a date. The first line without a date that can be read ends all dates."""
        read = seconds_of(date) if date is not None else None
        if read is None:
            self.is_dated = False
            return None
        seconds, names_day = read
        self.names_days &= names_day
        if self.first_seconds is None:
            self.first_seconds, self.first_date = seconds, date
        elif not names_day and seconds + self.days < self.seconds - DAY / 2:
            self.days += DAY
        self.last_date = date
        return seconds + (0 if names_day else self.days)


class Bins:
    """Counts by reason along an axis, in bins of equal width. When they no longer suffice, two neighbours become one."""

    def __init__(self, width):
        self.width = width
        self.bins = {}

    def add(self, offset, reason):
        """Counts a reason at an offset from the beginning of the axis. An offset below 0 counts in the first bin."""
        self.widen(offset)
        index = max(0, int(offset // self.width))
        counts = self.bins.get(index)
        if counts is None:
            counts = self.bins[index] = Counter()
        counts[reason] += 1

    def widen(self, offset):
        """Joins neighbours until this offset lies in one of MOST_BINS bins."""
        while offset >= MOST_BINS * self.width:
            joined = {}
            for index, counts in self.bins.items():
                joined.setdefault(index // 2, Counter()).update(counts)
            self.bins = joined
            self.width *= 2
