"""What a delivery leaves in a device, by the rules of docs/COMMANDS.md, and the requests that show it.

A row of docs/vectors.tsv that writes, is refused, is damaged, resets or restarts ends with these requests. They read each register, the
counter, the write protection, and the bits of both masters.
"""

import dataclasses

from cases import lone, message, request
from fuzz import commands
from fuzz.device import (CHANNEL_FLAGS, COLD_START, COMMUNICATION_FAULTS, CONFIGURATION_CHANGED, EXTENDED_STATUS, LOOP_CURRENT_FIXED,
                         OUTPUT, OWN_ADDRESS)
from fuzz.frames import Frame
from hart_bench.vectors import RESTART

RESET = 38
# Who asks which command. The secondary master asks last, for its own bits.
LOOKS = (*(("P", command) for command in (7, 12, 13, 16, 20, 0, 15)), ("S", 7))
LOOKS_NOTE = "Then all that it holds is read."


def looks():
    """The requests that read what a device holds."""
    return [request(command, master=master) for master, command in LOOKS]


def is_plain_read(heard, reply):
    """Whether a delivery was a request that was carried out and that writes and resets nothing. It may still clear a cold start bit."""
    answer = lone(reply) if reply and heard != RESTART else None
    return answer is not None and answer.payload[0] == commands.SUCCESS and answer.command not in (*commands.WRITES, RESET)


def registers_of(command, data):
    """The registers that a write sets, by their names."""
    if command == 6:
        polling, mode = commands.polling_and_mode(data)
        return {"polling": polling, "mode": mode}
    if command == 18:
        return {"tag": data[:6], "descriptor": data[6:18], "date": data[18:21]}
    name = {17: "message", 19: "assembly", 22: "long_tag"}[command]
    return {name: data[:commands.NEEDED[command]]}


def carried_out(device, command, data, master):
    """The device after a command of a master that was replied to with code 0."""
    if command == RESET:
        return dataclasses.replace(device, changed=device.changed | {master: False})
    if command not in commands.WRITES:
        return device
    counter = (device.counter + 1) % 0x10000
    return dataclasses.replace(device, **registers_of(command, data), counter=counter, changed={"P": True, "S": True})


def left(device, heard, reply):
    """Returns the device after a restart, or after what it heard and its reply, "" for silence."""
    if heard == RESTART:
        return dataclasses.replace(device, cold_start={"P": True, "S": True})
    answer = lone(reply) if reply else None
    if answer is None or answer.payload[0] & COMMUNICATION_FAULTS:
        return device
    device = dataclasses.replace(device, cold_start=device.cold_start | {answer.master: False})
    if answer.payload[0] != commands.SUCCESS:
        return device
    return carried_out(device, answer.command, lone(heard).payload, answer.master)


def status(device, master):
    """The device status that a master is shown."""
    return (CONFIGURATION_CHANGED * device.changed[master] | COLD_START * device.cold_start[master]
            | LOOP_CURRENT_FIXED * (device.mode == 0))


def held(device, command):
    """What a command reads of a device."""
    return {
        0: (bytes.fromhex("FE 3742 05 07 01 02 18 00 0A1B2C 05 04") + device.counter.to_bytes(2, "big") + EXTENDED_STATUS
            + bytes.fromhex("0037 0037 01")),
        7: bytes([device.polling, device.mode]),
        12: device.message,
        13: device.tag + device.descriptor + device.date,
        15: OUTPUT + bytes([device.protected, 250]) + CHANNEL_FLAGS,
        16: device.assembly,
        20: device.long_tag,
    }[command]


def shown(device):
    """The replies to the requests that read what a device holds."""
    for master, command in LOOKS:
        payload = bytes([commands.SUCCESS, status(device, master)]) + held(device, command)
        yield message(Frame("ACK", master, 0, OWN_ADDRESS, b"", command, payload))
        device = dataclasses.replace(device, cold_start=device.cold_start | {master: False})
