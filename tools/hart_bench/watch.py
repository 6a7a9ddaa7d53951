"""Watches a master at the line: what it asks, how often it sends, and where it breaks a rule of the data link layer."""

import dataclasses
from collections import Counter

from fuzz.frames import Frame, body_of

from .faults import NONE

SILENT = "silence of the device"
REFUSED = "communication faults"


@dataclasses.dataclass
class Asked:
    """A request that a master has in hand: its frame, its sendings, when the last one ended, and what came of it."""

    frame: Frame
    ended: float
    sendings: int = 1
    fault: str = NONE
    was_replied: bool = False
    is_answered: bool = False
    broken: set = dataclasses.field(default_factory=set)


class Watch:
    """Watches the masters at a line. They may send a request again `retries` times, each after `limit` seconds without a reply."""

    def __init__(self, retries, limit, tell):
        self.most, self.limit, self.tell = 1 + retries, limit, tell
        self.in_hand = {}
        self.requests, self.sendings, self.answered, self.given_up = Counter(), Counter(), Counter(), Counter()
        self.faults, self.retries = Counter(), Counter()
        self.broken = []
        self.others = 0

    def breaks(self, asked, rule, detail):
        """Notes a broken rule, once for each request."""
        if rule not in asked.broken:
            asked.broken.add(rule)
            self.broken.append((rule, f"{self.tell()} Command {asked.frame.command}: {detail}"))

    def sent(self, frame, began, ended):
        """Notes a request of a master, which began and ended at these times, as a new one or as one that is sent again."""
        last = self.in_hand.get(frame.master)
        self.sendings[frame.command] += 1
        if last is None or last.is_answered:
            self.take(frame, ended)
            return
        if not last.was_replied and began - last.ended < self.limit:
            self.breaks(last, "too soon", f"another request {1000 * (began - last.ended):.0f} ms after a sending without a reply,"
                        f" where the limit is {1000 * self.limit:.0f} ms")
        if body_of(frame) == body_of(last.frame):
            self.again(last, ended)
        elif (frame.command, frame.address) == (last.frame.command, last.frame.address):
            first, then = (of.payload.hex().upper() for of in (last.frame, frame))
            self.breaks(last, "changed", f"sent again with other data: {first}, then {then}")
            last.frame = frame
            self.again(last, ended)
        else:
            self.drop(last)
            self.take(frame, ended)

    def take(self, frame, ended):
        """Notes a new request."""
        self.requests[frame.command] += 1
        self.in_hand[frame.master] = Asked(frame, ended)

    def again(self, asked, ended):
        """Notes that a request is sent again."""
        self.retries[asked.fault] += 1
        asked.sendings, asked.ended, asked.was_replied = asked.sendings + 1, ended, False
        if asked.sendings > self.most:
            self.breaks(asked, "too often", f"more than {self.most} sendings")

    def drop(self, asked):
        """Notes that a request is given up."""
        self.given_up[asked.frame.command] += 1
        if asked.sendings < self.most:
            self.breaks(asked, "given up", f"given up after {asked.sendings} of {self.most} sendings")

    def answer(self, master, fault, was_replied, is_good):
        """Notes what came of a sending: the fault, whether anything came back, and whether the master had to accept it."""
        asked = self.in_hand[master]
        self.faults[fault] += fault != NONE
        asked.fault = fault if fault != NONE or is_good else REFUSED if was_replied else SILENT
        asked.was_replied = was_replied
        if is_good:
            asked.is_answered = True
            self.answered[asked.frame.command] += 1

    def report(self):
        """Yields the lines of the report."""
        yield f"{'command':<12}{'requests':>9}{'sendings':>9}{'answered':>9}{'given up':>9}"
        for command in sorted(self.sendings):
            counts = (self.requests[command], self.sendings[command], self.answered[command], self.given_up[command])
            yield f"{command:<12}" + "".join(f"{count:>9}" for count in counts)
        yield f"{'fault':<24}{'times':>6}{'retries after it':>18}"
        for fault in sorted({*self.faults, *self.retries} - {NONE}):
            times = self.faults[fault] or self.retries[fault]
            yield f"{fault:<24}{times:>6}{self.retries[fault]:>18}"
        if self.others:
            yield f"messages that were no requests: {self.others}"
        yield f"replies that the master had to accept: {sum(self.answered.values())}"
        for rule, detail in self.broken:
            yield f"rule broken, {rule}: {detail}"
        yield f"{len(self.broken)} rules broken"
