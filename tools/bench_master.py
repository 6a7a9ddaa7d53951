"""A master for the test of `hart-bench master`, and wrong ones."""

import os
import select
import time
import tty

from fuzz.frames import Frame, body_of, faultless, frames_of
from hart_bench.faults import NONE
from hart_bench.requests import OWN_ADDRESS

RIGHT, ENDLESS, CHANGED, SHORT, HASTY = "right", "retries without end", "changed data on a retry", "gives up too soon", "does not wait"
SENDINGS = 4
# A wrong master that never gives up is stopped after this many sendings.
ENOUGH = 7
LIMIT = 0.3
GAP = 0.02
ASKED = ((0, b""), (19, bytes.fromhex("012345")), (16, b""), (17, bytes(range(24))), (12, b""))


class Master:
    """The primary master at a port. It counts what it does, so that a report can be compared with that."""

    def __init__(self, name, kind=RIGHT):
        self.port = os.open(name, os.O_RDWR | os.O_NOCTTY)
        tty.setraw(self.port)
        self.kind = kind
        self.sendings, self.requests, self.accepted = {}, {}, {}

    def close(self):
        """Closes the port."""
        os.close(self.port)

    def hear(self, patience):
        """Returns the bytes that come before a pause of GAP seconds, none if nothing comes within `patience` seconds."""
        heard, end = b"", time.monotonic() + patience
        while select.select([self.port], [], [], max(end - time.monotonic(), 0))[0]:
            heard += os.read(self.port, 4096)
            end = time.monotonic() + GAP
        return heard

    def is_accepted(self, request, heard):
        """Whether what is heard has the reply to a request."""
        found = frames_of(faultless(heard))
        if len(found) != 1:
            return False
        reply = found[0].frame
        return (reply.kind, reply.master, reply.address, reply.command) == ("ACK", "P", request.address, request.command) \
            and not reply.payload[0] & 0x80

    def most_sendings(self):
        """How often this master sends a request at most."""
        return {ENDLESS: ENOUGH, SHORT: 2}.get(self.kind, SENDINGS)

    def ask(self, command, data):
        """Asks until the reply is accepted or the request is given up. Returns how often it was sent."""
        self.requests[command] = self.requests.get(command, 0) + 1
        for sending in range(1, self.most_sendings() + 1):
            sent = bytes([sending]) + data[1:] if self.kind == CHANGED and data else data
            request = Frame("STX", "P", 0, OWN_ADDRESS, b"", command, sent)
            os.write(self.port, b"\xFF" * 5 + body_of(request))
            self.sendings[command] = self.sendings.get(command, 0) + 1
            if self.is_accepted(request, self.hear(LIMIT / 4 if self.kind == HASTY else LIMIT)):
                self.accepted[command] = self.accepted.get(command, 0) + 1
                return sending
        return self.most_sendings()

    def play(self, plan):
        """Asks one command after the other until all faults of a plan have happened."""
        number = 0
        left = len(plan)
        while left > 0:
            left -= self.ask(*ASKED[number % len(ASKED)])
            number += 1


def faults_in(plan):
    """How often each fault stands in a plan."""
    return {word: plan.count(word) for word in plan if word != NONE}
