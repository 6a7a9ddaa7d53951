"""Makes what two masters and their devices say in turn: requests, the same requests again, replies to them and to others."""

from dataclasses import replace

from . import heard, misheard
from .frames import Frame, body_of, faultless
from .heard import reply_payload, request_data, weighted

MASTERS = "PS"


def request(rng, master):
    """A request of a master."""
    command = misheard.command_of(rng)
    expansion = rng.randbytes(weighted(rng, (12, 0), (1, 2)))
    return Frame("STX", master, int(rng.random() < 0.1), heard.random_address(rng), expansion, command, request_data(rng, command))


def nearly(rng, frame):
    """A request that, as a rule, differs from this one in one thing alone."""
    other = weighted(
        rng, (2, {"payload": request_data(rng, frame.command)}), (1, {"burst": 1 - frame.burst}),
        (1, {"command": misheard.command_of(rng)}), (1, {"address": heard.random_address(rng)}),
        (1, {"expansion": b"" if frame.expansion else b"\x55"}), (1, {"master": MASTERS.replace(frame.master, "")}))
    return replace(frame, **other)


def reply(rng, frame):
    """A reply to a request, often one after which the request is sent again."""
    payload = weighted(rng, (2, reply_payload(rng, frame.command)), (1, b"\x20\0"), (1, b"\x88\0"))
    return Frame("ACK", frame.master, int(rng.random() < 0.1), frame.address, b"", frame.command, payload)


def broken(rng, frame):
    """A message that is damaged, so that it is none."""
    body = body_of(frame)
    return rng.choice((faultless(body[:-1] + bytes([body[-1] ^ 1])), faultless(body[:-1]), heard.marked(rng, faultless(body))))


def turn(rng, held):
    """The characters of what is said next, with the request that each master holds at hand."""
    master = rng.choice(MASTERS)
    kind = weighted(rng, (3, "new"), (6, "again"), (6, "reply"), (2, "nearly"), (1, "reply to nearly"), (2, "broken"), (1, "noise"))
    if kind == "noise":
        return faultless(heard.noise(rng))
    if kind == "new":
        held[master] = request(rng, master)
    said = nearly(rng, held[master]) if "nearly" in kind else held[master]
    if "reply" in kind:
        said = reply(rng, said)
    return misheard.start(rng) + (broken(rng, said) if kind == "broken" else faultless(body_of(said)))


def dialogue(rng):
    """Some turns, one after the other."""
    held = {master: request(rng, master) for master in MASTERS}
    return tuple(char for _ in range(rng.randint(2, 14)) for char in turn(rng, held))
