"""What `hart explain` says of characters: of each message what it says, and of other places why no message stands there."""

import pathlib

from .before import Masters
from .commands import COMMANDS
from .content import FAULT_NAMES, STATUS_NAMES, bit_names, code_name, content_of, data_of, has_communication_faults
from .fields import VALUES, bytes_text
from .frames import BROADCAST, Polling, faultless
from .misses import Miss
from .objects import as_objects
from .sightings import sightings
from .texts import NO_LIMIT, READ_FAULT, USAGE, done, failed, read_heard, told

EXAMPLES = (pathlib.Path(__file__).parents[2] / "docs" / "explained.txt").read_text(encoding="utf-8")

MASTERS = {"P": "the primary master", "S": "the secondary master"}
# The options; both may be given, in any order.
RAW, JSON = b"--raw", b"--json"


def device_text(address, all_devices):
    """The words for the device of an address; for broadcast, `all_devices`."""
    if isinstance(address, Polling):
        return f"the device at polling address {address.number}"
    return all_devices if address == BROADCAST else f"device {address.type:04X}{address.id:06X}"


def who_text(frame):
    """Who says a frame to whom."""
    if frame.kind == "STX":
        return f"request of {MASTERS[frame.master]} to {device_text(frame.address, 'all devices')}"
    return f"reply of {device_text(frame.address, 'one of all devices')} to {MASTERS[frame.master]}"


def command_text(command):
    """A command by its number and, if docs/COMMANDS.md lists it, its name there."""
    return f"Command {command}" + (f", {COMMANDS[command].name}" if command in COMMANDS else "")


def header_text(frame):
    """Who says a frame to whom, and its command."""
    return f"{who_text(frame)}, {command_text(frame.command)}"


def code_text(code, name):
    """A response code by its number and, if it has one, its name."""
    return f"{code}, {name}" if name else f"{code}"


def names_text(names):
    """The names of bits that are set."""
    return ", ".join(names) or "none"


def said_of_status(command, first, second):
    """What the two status bytes of a reply to a command say, each with the name of its line."""
    if has_communication_faults(first):
        yield "communication faults", names_text(bit_names(FAULT_NAMES, first))
    else:
        yield "response code", code_text(first, code_name(command, first))
        yield "device status", names_text(bit_names(STATUS_NAMES, second))


def bytes_line(name, data):
    """The line with this name and these bytes; no line if there are no bytes."""
    if data:
        yield name, bytes_text(data)


def said_of_problem(frame, problem):
    """What is said of a problem of the data of a message."""
    data, details = data_of(frame), problem.details
    if problem.reason == "too_few_data":
        yield from bytes_line("data", data)
        yield "too few data", f"{len(data)} of {details['needed']}"
    elif problem.reason == "refused":
        yield "refused", code_text(details["code"], details["name"])
    elif problem.reason == "no_reply":
        yield f"data that are no reply to Command {frame.command} of Revision 7", bytes_text(data) if data else "none"
    else:
        yield f"not read (code {details['code']})", bytes_text(data)


def said_of_data(frame):
    """What is said of the data of a message."""
    content = content_of(frame)
    yield from ((field.name, VALUES[field.kind](part)) for field, part in content.fields)
    if content.problem:
        yield from said_of_problem(frame, content.problem)
    if frame.command not in COMMANDS and not content.ignored:
        yield from bytes_line("data", data_of(frame))
    yield from bytes_line("ignored", content.ignored)


def said(frame):
    """What a message says, each part with the name of its line."""
    if frame.burst:
        yield "burst bit", "set"
    if frame.expansion:
        yield "expansion bytes", bytes_text(frame.expansion)
    if frame.kind == "ACK":
        yield from said_of_status(frame.command, *frame.payload[:2])
    yield from said_of_data(frame)


def sending_text(sending):
    """What is said of a request that is sent again."""
    return f", sending {sending}" if sending is not None and sending > 1 else ""


def message_lines(found, masters):
    """The lines of a message."""
    sending, _ = masters.hear(found)
    yield f"{found.start}-{found.stop}: {header_text(found.frame)}{sending_text(sending)}"
    yield from (f"    {name}: {value}" for name, value in said(found.frame))


def miss_lines(miss):
    """The lines of a miss."""
    yield f"{miss.place}: no message: {miss.reason.text()}"
    if miss.header is not None:
        yield f"    seems: {header_text(miss.header)}"


def explained(heard):
    """What is said of characters, silences and dates. A date stands before the first line of what is said of a place."""
    text, masters = "", Masters()
    for seen, date, _ in sightings(heard):
        lines = miss_lines(seen) if isinstance(seen, Miss) else message_lines(seen, masters)
        text += (f"{date} " if date else "") + "".join(f"{line}\n" for line in lines)
    return text.encode()


def explain(given):
    """What `hart explain` does with an input, which is raw bytes with the word `--raw`, and otherwise hex; with `--json` it writes
    objects."""
    if len(set(given.words)) < len(given.words) or not set(given.words) <= {RAW, JSON}:
        return USAGE
    write = as_objects if JSON in given.words else explained
    if RAW in given.words:
        return failed(READ_FAULT) if given.text is None else done(write(faultless(given.text)))
    return told(given, write, NO_LIMIT, read_heard)
