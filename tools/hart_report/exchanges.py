"""Requests and their replies: how often each was sent, what answered it, and why it was sent again."""
from collections import Counter

NO_REPLY, DAMAGED, FAULTS = "no reply was heard", "a damaged message was heard", "the reply reported communication faults"
BUSY = "the device was busy"
# The response code of a device that is busy.
BUSY_CODE = 32


class Command:
    """Counts of the requests of a command. A request counts once, however often it is sent."""

    __slots__ = ("name", "requests", "sendings", "at_first", "answered", "codes", "meanings", "faults", "strays", "unread")

    def __init__(self, name):
        self.name = name
        self.requests = self.sendings = self.at_first = self.answered = self.faults = self.strays = self.unread = 0
        self.codes, self.meanings = Counter(), {}

    @property
    def unanswered(self):
        """How many requests got no reply with a response code."""
        return self.requests - self.answered


class Pending:
    """The last request of a master, until a reply with a response code other than busy answers it."""

    __slots__ = ("request", "command", "station", "sendings", "miss", "has_faults", "is_busy", "write")

    def __init__(self, request, command, station):
        self.request, self.command, self.station = request, command, station
        self.sendings = request["sending"]
        self.miss, self.has_faults, self.is_busy, self.write = None, False, False, None

    @property
    def cause(self):
        """Why the request is sent again."""
        return BUSY if self.is_busy else FAULTS if self.has_faults else DAMAGED if self.miss else NO_REPLY

    def repeat(self):
        """Counts one more sending. If the last answer was busy, that answer is no longer counted."""
        if self.is_busy:
            self.command.answered -= 1
            self.command.at_first -= self.sendings == 1
        self.sendings += 1
        self.command.sendings += 1
        self.miss, self.has_faults, self.is_busy = None, False, False

    def answer(self, code):
        """Counts an answer with a response code."""
        self.command.answered += 1
        self.command.at_first += self.sendings == 1
        self.is_busy = code == BUSY_CODE


class Exchanges:
    """The counts of all commands, and the pending request of each master."""

    def __init__(self):
        self.commands = {}
        self.pending = {"primary": None, "secondary": None}
        self.messages = {"primary": [0, 0], "secondary": [0, 0]}
        self.causes = Counter()

    def command(self, one):
        """Returns the counts of the command of a message."""
        number = one["command"]
        command = self.commands.get(number)
        if command is None:
            if number not in range(256):
                raise ValueError("command")
            command = self.commands[number] = Command(one["command_name"])
        return command

    def hear_request(self, one, station):
        """Counts a request. Returns it as pending, and whether it is a repeat."""
        self.messages[one["master"]][0] += 1
        pending = self.pending[one["master"]]
        if pending is not None and one["sending"] > 1:
            self.causes[pending.cause] += 1
            pending.repeat()
            return pending, True
        command = self.command(one)
        command.requests += 1
        command.sendings += 1
        self.pending[one["master"]] = pending = Pending(one, command, station)
        return pending, False

    def hear_reply(self, one):
        """Counts a reply. Returns the pending request that it answers, or None."""
        self.messages[one["master"]][1] += 1
        faults = one["communication_faults"]
        pending = self.pending[one["master"]] if one["answers"] is not None else None
        command = pending.command if pending else self.command(one)
        if faults is not None:
            command.faults += 1
            if pending:
                pending.has_faults = True
        else:
            code = one["response_code"]
            if code not in command.meanings:
                if code not in range(128):
                    raise ValueError("response_code")
                command.meanings[code] = one["response"]
            command.codes[code] += 1
            command.unread += one["problem"] is not None and one["problem"]["reason"] == "no_reply"
            if pending:
                pending.answer(code)
                self.pending[one["master"]] = pending if pending.is_busy else None
        command.strays += one["answers"] is None
        return pending

    def hear_miss(self, reason):
        """Notes a miss as the reason why a pending request may be sent again."""
        for pending in self.pending.values():
            if pending is not None:
                pending.miss = reason

    def total(self, name):
        """Returns the sum of a count over all commands."""
        return sum(getattr(command, name) for command in self.commands.values())
