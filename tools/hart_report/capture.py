"""All that is kept of a capture, whatever its length."""
from collections import Counter, deque
from typing import NamedTuple

from .axis import Axis, Bins
from .exchanges import Exchanges
from .shape import check
from .stations import FACTS, Stations
from .trends import Trends
from .writes import WRITTEN, Writes

MOST_RECENT = 500
# The commands of which the page shows values.
SHOWN = FACTS | WRITTEN.keys()
# The widths of the first bins, in characters and in seconds.
CHARACTERS, SECONDS = 64, 1.0


class Recent(NamedTuple):
    """The object of one of the last lines, and which sending of its request it is, 0 if it is no request."""

    one: dict
    sendings: int


class Along:
    """Counts of reasons along the places, and along the dates while there are dates."""

    def __init__(self):
        self.total = Counter()
        self.by_place, self.by_date = Bins(CHARACTERS), Bins(SECONDS)

    def add(self, axis, reason):
        """Counts a reason where the axis stands."""
        self.total[reason] += 1
        self.by_place.add(axis.place - axis.first_place, reason)
        if axis.seconds is not None:
            self.by_date.add(axis.seconds - axis.first_seconds, reason)


class Capture:
    """Counts, the last messages and misses, the writes and the trends."""

    def __init__(self):
        self.axis = Axis()
        self.exchanges, self.stations, self.writes, self.trends = Exchanges(), Stations(), Writes(), Trends()
        self.misses, self.faults = Along(), Along()
        self.last_lines = deque(maxlen=MOST_RECENT)
        self.recent = []
        self.messages = 0
        self.cut_line = self.fault = None

    def add(self, one, number, line):
        """Adds the object of a line. Of the last lines the bytes are kept, since they take less memory than their objects."""
        sendings = self.add_message(one) if one["type"] == "message" else self.add_miss(one)
        self.last_lines.append((number, line, sendings))

    def add_miss(self, one):
        """Adds a miss, which is no sending."""
        check(one)
        place, reason = one["start"], one["reason"]
        self.axis.move(place, place, one.get("time"))
        self.misses.add(self.axis, reason)
        self.exchanges.hear_miss(reason)
        return 0

    def add_message(self, one):
        """Adds a message. Returns which sending of a request it is, 0 for a reply."""
        if one["command"] in SHOWN:
            check(one)
        self.axis.move(one["start"], one["stop"], one.get("time"))
        self.messages += 1
        if one["kind"] == "request":
            return self.add_request(one)
        if one["kind"] != "reply":
            raise ValueError("kind")
        self.add_reply(one)
        return 0

    def add_request(self, one):
        """Adds a request. Returns which sending of it this is."""
        station = self.stations.hear_request(one)
        before = self.exchanges.pending[one["master"]]
        pending, is_repeat = self.exchanges.hear_request(one, station)
        if before is not None and pending is not before:
            self.give_up(before)
        if one["command"] in WRITTEN:
            self.writes.hear_request(one, pending, is_repeat, self.axis)
        return pending.sendings

    def give_up(self, pending):
        """Counts a request that was not answered. Its station is looked up again: its polling address may now be known as a device's."""
        if pending.is_busy:
            return
        station = self.stations.station(pending.request["address"])
        station.unanswered += 1
        if pending.write:
            self.writes.forget(pending.request["command"], station)

    def add_reply(self, one):
        """Adds a reply."""
        pending = self.exchanges.hear_reply(one)
        station = self.stations.hear_reply(one, pending)
        faults = one["communication_faults"]
        if faults is not None:
            for name in faults or ["a fault without a name"]:
                self.faults.add(self.axis, name)
        elif one["response_code"] == 0 and station is not self.stations.others:
            self.trends.hear_reply(one, station, self.axis)
        if pending and pending.write:
            self.writes.hear_reply(one, pending)

    def end(self):
        """Ends the capture: what is pending now was not answered."""
        for pending in self.exchanges.pending.values():
            if pending is not None:
                self.give_up(pending)
