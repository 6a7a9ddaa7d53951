"""Checks that objects have the members and values that `hart explain --json` writes.

A check of each line would take as long as reading it. So only some lines are checked as a whole: misses, messages of commands of which
values are shown, and the last lines. In other lines a value is checked only where it is used for the first time.
"""
import re

from .axis import GREATEST_PLACE
from .words import BYTES, FLOATS, LATIN, NUMBERS, PACKED

NOTHING = type(None)
ADDRESS = re.compile(r"@[0-9]{1,2}|[0-9A-F]{10}|all")
HEX = re.compile(r"(?:[0-9A-F]{2})*")
FLOAT = re.compile(r"[0-9A-F]{8}")
# The members that each object has to have, with the types of their values.
HEADER = {"kind": (str,), "master": (str,), "address": (str,), "command": (int,), "command_name": (str, NOTHING)}
MESSAGE = {"start": (int,), "stop": (int,), **HEADER, "burst": (bool,), "expansion": (str,), "data": (str,), "fields": (dict,),
           "ignored": (str,), "problem": (dict, NOTHING)}
REQUEST = {**MESSAGE, "sending": (int,)}
REPLY = {**MESSAGE, "status": (str,), "response_code": (int, NOTHING), "response": (str, NOTHING), "device_status": (list, NOTHING),
         "communication_faults": (list, NOTHING), "answers": (int, NOTHING)}
KINDS = {"request": REQUEST, "reply": REPLY}
MISS = {"start": (int,), "reason": (str,), "seems": (dict, NOTHING)}
DETAILS = {"faulty": {"at": (int,), "faults": (str,)}, "bad_delimiter": {"byte": (str,)}, "short_reply": {"byte_count": (int,)},
           "missing": {"count": (int,)}, "bad_check": {"at": (int,), "byte": (str,), "fits": (str,)}}
PROBLEMS = {"too_few_data": {"needed": (int,)}, "refused": {"code": (int,), "name": (str, NOTHING)}, "not_read": {"code": (int,)},
            "no_reply": {}}
VARIABLE = {"code": (int,), "classification": (int,), "unit": (int,), "value": (str,), "status": (str,)}
MASTERS = ("primary", "secondary")
# The types of the fields that are neither bytes nor floats.
TYPES = {**dict.fromkeys((*PACKED, LATIN), (str,)), **dict.fromkeys(NUMBERS, (int,)), "date": (str, NOTHING)}


class Unlike(ValueError):
    """An object that is not like those of `hart explain --json`."""


def check_members(one, members):
    """Refuses an object that lacks a member or has one of another type. True and false are no numbers."""
    for name, types in members.items():
        if name not in one:
            raise Unlike(f'there is no member "{name}": an older hart explain may have written it')
        if type(one[name]) not in types:
            raise Unlike(f'the member "{name}" has a value of another type')


def check_header(one):
    """Refuses an object whose kind, master, address or command has a value that does not exist. All four members have to be there."""
    if one["kind"] not in KINDS:
        raise Unlike('the member "kind" is neither "request" nor "reply"')
    if one["master"] not in MASTERS:
        raise Unlike('the member "master" is neither "primary" nor "secondary"')
    if not ADDRESS.fullmatch(one["address"]):
        raise Unlike('the member "address" is no address')
    if not 0 <= one["command"] <= 255:
        raise Unlike('the member "command" is no command')


def check_variables(value):
    """Refuses what are no device variables."""
    if not isinstance(value, list):
        raise Unlike('the field "device_variables" is no list')
    for one in value:
        if not isinstance(one, dict):
            raise Unlike('the field "device_variables" has something that is no variable')
        check_members(one, VARIABLE)
        if not FLOAT.fullmatch(one["value"]):
            raise Unlike('the field "device_variables" has a value that is no float')


def check_value(name, value):
    """Refuses the value of a field that has another form than its name says. A name that is not known may have any simple value."""
    if name in FLOATS:
        if not (type(value) is str and FLOAT.fullmatch(value)):
            raise Unlike(f'the field "{name}" is no float')
    elif name in BYTES:
        if not (type(value) is str and HEX.fullmatch(value)):
            raise Unlike(f'the field "{name}" is not in hex')
    elif name == "device_variables":
        check_variables(value)
    elif type(value) not in TYPES.get(name, (int, str, NOTHING)):
        raise Unlike(f'the field "{name}" has a value of another type')


def check_reply(one):
    """Refuses a reply whose response code, device status and communication faults cannot stand together."""
    has_faults = one["communication_faults"] is not None
    if not all(type(name) is str for name in (one["device_status"] or one["communication_faults"] or ())):
        raise Unlike("a name of a status bit is no text")
    if (one["response_code"] is None) != has_faults or (one["device_status"] is None) != has_faults:
        raise Unlike("a reply has either a response code and a device status, or communication faults")


def check_message(one):
    """Refuses what is no message."""
    check_members(one, HEADER)
    check_header(one)
    check_members(one, KINDS[one["kind"]])
    if not 0 <= one["start"] <= one["stop"] <= GREATEST_PLACE:
        raise Unlike("a message ends before it starts")
    if not HEX.fullmatch(one["data"]):
        raise Unlike('the member "data" is not in hex')
    if one["kind"] == "reply":
        check_reply(one)
    for name, value in one["fields"].items():
        check_value(name, value)
    if one["problem"] is not None:
        check_members(one["problem"], {"reason": (str,)})
        check_members(one["problem"], PROBLEMS.get(one["problem"]["reason"], {}))


def check_miss(one):
    """Refuses what is no miss."""
    check_members(one, MISS)
    check_members(one, DETAILS.get(one["reason"], {}))
    if one["seems"] is not None:
        check_members(one["seems"], HEADER)
        check_header(one["seems"])
    if not 0 <= one["start"] <= GREATEST_PLACE:
        raise Unlike("a miss has no place")


def check(one):
    """Refuses an object that `hart explain --json` does not write."""
    if not isinstance(one, dict):
        raise Unlike("it is no object")
    if not isinstance(one.get("time", ""), str):
        raise Unlike('the member "time" has a value of another type')
    if one.get("type") == "message":
        check_message(one)
    elif one.get("type") == "miss":
        check_miss(one)
    else:
        raise Unlike('the member "type" is neither "message" nor "miss"')
