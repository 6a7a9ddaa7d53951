"""What the messages before a message say of it."""

from .content import has_communication_faults

BUSY = 32


def is_to(reply, request):
    """Whether a message is a reply to the address and the command of a request."""
    return reply.kind == "ACK" and (reply.address, reply.command) == (request.address, request.command)


def leaves_open(reply, request):
    """Whether a message is a reply after which the request is sent again: busy, or communication faults. The latter may name any command,
    since the device may have heard another one."""
    if reply.kind != "ACK" or reply.address != request.address:
        return False
    return has_communication_faults(reply.payload[0]) or (reply.command == request.command and reply.payload[0] == BUSY)


class Masters:
    """The messages of each master and to it. Misses and silences change nothing."""

    def __init__(self):
        self.messages = {"P": [], "S": []}

    def hear(self, found):
        """Returns which sending a request is, and None; or for a reply None, and the start of the request that it answers, if any."""
        frame, earlier = found.frame, self.messages[found.frame.master]
        before = (sending(frame, earlier), None) if frame.kind == "STX" else (None, answered(frame, earlier))
        earlier.append(found)
        return before


def sending(request, earlier):
    """Which sending in a row a request is after earlier messages of its master."""
    count = 1
    for found in reversed(earlier):
        if found.frame == request:
            count += 1
        elif not leaves_open(found.frame, request):
            break
    return count


def answered(reply, earlier):
    """The start of the last earlier message, if that is a request to which a message is a reply."""
    return earlier[-1].start if earlier and earlier[-1].frame.kind == "STX" and is_to(reply, earlier[-1].frame) else None
