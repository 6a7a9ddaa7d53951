"""The cases of docs/vectors.tsv in which more than one thing happens to a device: it is restarted, and hears something after it."""

import dataclasses
from typing import NamedTuple

from cases import DATA, NEW, PROTECTED, PUMP_LONG_TAG, PUMP_TAG, TAGS, WRITTEN, heard_text, image_word, lone, request, with_item
from fuzz import commands, texts
from fuzz.device import OWN_ADDRESS, Device
from fuzz.frames import BROADCAST, Polling, Unique
from fuzz.master import MOST_SENDINGS
from fuzz.serve import said
from hart_bench.bridge import replies
from hart_bench.vectors import RESTART
from hart_bench.vectors import SILENCE as NO_REPLY

SILENCE = ""
MASTERS = {"P": "S", "S": "P"}
NO_CODE = "00 00"
OF_RESTART = "00 20"
OF_RESTART_AND_CHANGE = "00 60"
OF_CHANGE = "00 40"
# A write, and the command that reads what it wrote.
READ_BACK = ((6, 7), (17, 12), (18, 13), (19, 16), (22, 20))
# The data with which each command is sent by default: those of its worked example, and for Command 6 also a mode.
ASKED = DATA | {6: b"\x05\x01"}


class Part(NamedTuple):
    """A part of a case: what is heard, or `restart`; and the two known status bytes of the reply, or "" for silence."""

    heard: str
    shown: str = SILENCE


class Run(NamedTuple):
    """A case of parts: the device before them, and what happens to it in turn."""

    device: Device
    parts: tuple


def asked(command, shown, master="P", **more):
    """Returns the part in which a master asks a command, with those bytes of the data that are sent."""
    data = more.pop("data", ASKED[command])
    return Part(request(command, commands.written_data(command, data), master=master, **more), shown)


def restarted(device, *parts):
    """The case of a device that is restarted first."""
    return Run(device, (Part(RESTART), *parts))


def first_replies():
    """Each command as the first one after a restart, from each master."""
    for command in DATA:
        shown = OF_RESTART_AND_CHANGE if command in commands.WRITES else OF_RESTART
        for master in MASTERS:
            yield restarted(NEW, asked(command, shown, master))
    for master in MASTERS:
        yield restarted(NEW, asked(0, OF_RESTART, master, address=Polling(0)))


def once_each():
    """The cold start bit is shown to each master once, and again after a further restart."""
    for master, other in MASTERS.items():
        own, others = (asked(7, OF_RESTART, who) for who in (master, other))
        own_again, others_again = (asked(7, NO_CODE, who) for who in (master, other))
        yield restarted(NEW, own, own_again)
        yield restarted(NEW, own, others, own_again, others_again)
        yield restarted(NEW, own, own_again, others, others_again)
        yield restarted(NEW, own, Part(RESTART), own, own_again, others, others_again)
        yield restarted(NEW, Part(RESTART), own, own_again)
        yield restarted(WRITTEN, *(asked(0, f"00 {0x28 | 0x40 * WRITTEN.changed[who]:02X}", who, address=Polling(5)) for who in MASTERS))


def refused():
    """A refusal shows the cold start bit, to the refused master alone."""
    for master, other in MASTERS.items():
        last, last_of_other = asked(7, NO_CODE, master), asked(7, OF_RESTART, other)
        yield restarted(PROTECTED, asked(19, "07 20", master), last, last_of_other)
        yield restarted(NEW, asked(38, "09 20", master, data=b"\0\1"), last, last_of_other)


def damaged():
    """A communication-fault reply neither shows the cold start bit nor clears it."""
    for master in MASTERS:
        whole = asked(19, SILENCE, master).heard
        changed = whole[:-2] + f"{int(whole[-2:], 16) ^ 1:02X}"
        marked = with_item(whole, 14, whole.split()[14] + "!40")
        for heard, shown in ((changed, "88 00"), (marked, "C0 00")):
            yield restarted(NEW, Part(heard, shown), asked(7, OF_RESTART, master), asked(7, NO_CODE, master))


def silent():
    """Silence does not clear the cold start bit: after another tag, another address, and a damaged request."""
    neighbour = Unique(OWN_ADDRESS.type, OWN_ADDRESS.id ^ 1)
    for master in MASTERS:
        then = asked(7, OF_RESTART, master), asked(7, NO_CODE, master)
        for command, tag, other in TAGS:
            for address in (BROADCAST, OWN_ADDRESS):
                yield restarted(NEW, asked(command, SILENCE, master, data=other, address=address), *then)
            yield restarted(NEW, asked(command, OF_RESTART, master, data=tag, address=BROADCAST), then[1])
        yield restarted(NEW, asked(16, SILENCE, master, address=neighbour), *then)
        yield restarted(NEW, asked(0, SILENCE, master, address=Polling(1)), *then)
        yield restarted(NEW, Part(with_item(asked(7, SILENCE, master).heard, 6, "37!40")), *then)


def kept():
    """What a device holds outlives a restart: its registers and its polling address, its counter, its changed bits, its protection."""
    for write, read in READ_BACK:
        yield Run(NEW, (asked(write, OF_CHANGE), Part(RESTART), asked(read, OF_RESTART_AND_CHANGE)))
    moved = asked(6, OF_CHANGE), Part(RESTART), asked(0, SILENCE, address=Polling(0))
    yield Run(NEW, (*moved, asked(0, OF_RESTART_AND_CHANGE, address=Polling(5))))
    written = asked(19, OF_CHANGE), Part(RESTART)
    for data, reset in ((b"\0\1", OF_RESTART), (b"\0\0", "09 60")):
        yield Run(NEW, (*written, asked(38, reset, data=data), asked(7, f"00 {int(reset[-2:], 16) ^ 0x20:02X}"),
                        asked(7, OF_RESTART_AND_CHANGE, "S")))
    yield restarted(PROTECTED, asked(15, OF_RESTART), asked(15, NO_CODE))
    renamed = dataclasses.replace(NEW, tag=PUMP_TAG, long_tag=PUMP_LONG_TAG)
    for command, tag in ((11, PUMP_TAG), (21, PUMP_LONG_TAG)):
        yield restarted(renamed, asked(command, OF_RESTART, data=tag, address=BROADCAST))


def runs():
    """All cases of more than one part, each once: the image, the parts of what is heard, and the known status bytes of each."""
    seen = set()
    for source in (first_replies, once_each, refused, damaged, silent, kept):
        for run in source():
            heard = tuple(part.heard if part.heard == RESTART else heard_text(texts.read_items(part.heard.encode())) for part in run.parts)
            image = image_word(run.device)
            if (image, heard) not in seen:
                seen.add((image, heard))
                yield image, heard, tuple(part.shown for part in run.parts)


def script_of(heard):
    """Returns the script lines by which the device of `hart sim` hears something. After them no request is in hand."""
    if heard == RESTART:
        return [RESTART]
    items, frame = heard.replace(" ", ""), lone(heard)
    if frame is None:
        return [f"noise {items}"]
    submission = f"submit {frame.master} {texts.address_text(frame.address)} {frame.command} {frame.payload.hex()}"
    return [submission, f"turn {frame.master} {items} ok", *[f"turn {frame.master} lost lost"] * (MOST_SENDINGS - 1)]


def device_at(image):
    """The device of the plain model at the start of a case."""
    return texts.device_of(texts.Given([] if image == "-" else [b"--image", image.encode()], b""))


def of_model(image, parts):
    """What the device of the plain model replies to each part."""
    device = device_at(image)
    return ["" if reply == NO_REPLY else reply for reply in replies(lambda line: said(device, line.encode()).decode().strip(), parts)]
