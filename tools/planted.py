"""Bugs of a device, each a change of a line of the plain model in tools/fuzz, and devices that have one of them.

The model is loaded anew for each bug, from its source with the change; all else stays as in the model.
Run as a program, this is a device with a bug, which answers line by line as `hart serve` does.

Usage: tools/planted.py BUG IMAGE; BUG is the number of a bug, 0 for none, and IMAGE the image with which the device begins, in hex.
"""

import functools
import pathlib
import sys
import types
from typing import NamedTuple

FUZZ = pathlib.Path(__file__).with_name("fuzz")
# The modules of the model that a device needs, each after those that it imports.
MODULES = ("frames", "commands", "device")


class Bug(NamedTuple):
    """A bug: its name, its module, and the text `right`, which stands once in the module, and which becomes `wrong`."""

    name: str
    module: str
    right: str
    wrong: str


COUNT = "self.counter = (self.counter + 1) % 0x10000"
CHANGE = 'self.changed = {"P": True, "S": True}'
SHOWS = "self.cold_start[frame.master] = False"
CARRY_OUT = "        if code == commands.SUCCESS:\n            self.execute("
RESET = "            self.changed[master] = False\n        if"
PROTECTION = "if command in WRITES and protected:"
ALL_SET = CHANGE + "\n\n    def status"
RESTARTS = "        self.cold_start = {"
EXECUTED = ("            self.execute(command, commands.written_data(command, data), frame.master)\n"
            "            content = self.content(command, data)\n")
PAYLOAD = "        payload = bytes([code, self.status(frame.master)])"
IDENTITY_COUNTER = 'FE 3742 05 07 01 02 18 00 0A1B2C 05 04") + self.counter.to_bytes(2, "big")'
OWN_MASTER = 'return Frame("ACK", frame.master, 0,'


def device(name, right, wrong):
    """A bug in the module of the device."""
    return Bug(name, "device", right, wrong)


def counted(name, wrong):
    """A bug in how the counter grows."""
    return device(name, COUNT, wrong)


def commanded(name, right, wrong):
    """A bug in the module of the commands."""
    return Bug(name, "commands", right, wrong)


def framed(name, right, wrong):
    """A bug in the module of the frames."""
    return Bug(name, "frames", right, wrong)


def refused(name, statement):
    """A bug in what a refused request does to the device."""
    return device(name, CARRY_OUT, f"        if code != commands.SUCCESS:\n            {statement}\n{CARRY_OUT}")


COUNTER = (
    device("the counter grows only if a value changes", '        if command == 6:\n            self.polling, self.mode = data',
           '        if data in (bytes([self.polling, self.mode]), self.message, self.tag + self.descriptor + self.date, self.assembly, '
           'self.long_tag):\n            self.changed = {"P": True, "S": True}\n            return\n'
           '        if command == 6:\n            self.polling, self.mode = data'),
    counted("the counter stays at 65535", "self.counter = min(self.counter + 1, 0xFFFF)"),
    counted("the counter has 8 bits", "self.counter = (self.counter + 1) % 0x100"),
    counted("the counter has 15 bits", "self.counter = (self.counter + 1) % 0x8000"),
    counted("the counter wraps to 1", "self.counter = self.counter % 0xFFFF + 1"),
    counted("the lower byte of the counter does not carry", "self.counter = self.counter & 0xFF00 | self.counter + 1 & 0xFF"),
    counted("the counter grows by 2", "self.counter = (self.counter + 2) % 0x10000"),
    counted("the counter grows by 2 for a tag", "self.counter = (self.counter + 1 + (command == 18)) % 0x10000"),
    counted("the counter does not count a polling address", "self.counter = (self.counter + (command != 6)) % 0x10000"),
    counted("the counter does not count writes of the secondary master",
            'self.counter = (self.counter + (master == "P")) % 0x10000'),
    device("the counter grows at Command 38", RESET, "            self.counter += 1\n" + RESET),
    device("the counter is reset by Command 38", RESET, "            self.counter = 0\n" + RESET),
    refused("the counter grows at a refused write", "self.counter += command in commands.WRITES"),
    device("a damaged request changes the counter", "            return reply_to_garbled(heard)",
           "            self.counter += reply_to_garbled(heard) is not None\n            return reply_to_garbled(heard)"),
    device("the counter is sent with its lower byte first", IDENTITY_COUNTER, IDENTITY_COUNTER.replace("big", "little")),
    device("the counter is lost at a restart", RESTARTS, "        self.counter = 0\n" + RESTARTS),
)

REFUSED = (
    refused("a refused date still writes the tag", "self.tag = data[:6] if code == 9 and command == 18 else self.tag"),
    refused("a refused mode still writes the address", "self.polling = data[0] if code == 12 else self.polling"),
    refused("a refused write sets the changed bits", CHANGE + " if command in commands.WRITES else self.changed"),
    refused("a write without a byte is carried out in part",
            "self.assembly = (data + self.assembly)[:3] if (code, command) == (5, 19) else self.assembly"),
    refused("a refused long tag is stored", "self.long_tag = data[:32] if (code, command) == (7, 22) else self.long_tag"),
    refused("a refused message is cleared", "self.message = bytes(24) if (code, command) == (5, 17) else self.message"),
    refused("a mismatch of Command 38 resets the bit", "self.changed[frame.master] &= (code, command) != (9, 38)"),
    refused("an unknown command resets the bit", "self.changed[frame.master] &= code != 64"),
    commanded("too few data come after the protection", "    if len(data) < NEEDED",
              "    if command in WRITES and protected:\n        return WRITE_PROTECTED\n    if len(data) < NEEDED"),
    commanded("the address is checked before the protection", "    if command in WRITES and",
              "    if command == 6 and data[0] > 63:\n        return INVALID_SELECTION\n    if command in WRITES and"),
    commanded("the date is checked before the protection", "    if command in WRITES and",
              "    if command == 18 and not is_date(data[18:21]):\n        return INVALID_DATE\n    if command in WRITES and"),
    commanded("the mode is checked before the address", "        if address > 63:\n",
              "        if mode > 1:\n            return INVALID_MODE\n        if address > 63:\n"),
    commanded("polling address 63 is refused", "if address > 63:", "if address > 62:"),
    commanded("polling address 64 is taken", "if address > 63:", "if address > 64:"),
    commanded("mode 2 is taken", "INVALID_MODE if mode > 1", "INVALID_MODE if mode > 2"),
    commanded("29 February 1900 is a date", "        datetime.date(1900 + year, month, day)",
              "        datetime.date(1900 + (year or 4), month, day)"),
    commanded("three zeros are no date", "return data == bytes(3)", "return False"),
    commanded("dates are not checked", "if command == 18 and not is_date(data[18:21]):", "if command == 18 and data[19] > 12:"),
    commanded("one byte of Command 38 is ignored", "or command == 38 and len(data) == 1:", "or False:"),
    commanded("the counter of Command 38 is not compared", "if command == 38 and data and counter is not None",
              "if command == 38 and data and counter is None"),
    commanded("more data than needed are refused", "    if len(data) < NEEDED[command] or",
              "    if len(data) < NEEDED[command] or command in WRITES and len(data) > max(NEEDED[command], 2) or"),
    commanded("an unknown command is refused with code 5", "        return NOT_IMPLEMENTED", "        return TOO_FEW_BYTES"),
)

PROTECTED = (
    commanded("Command 6 ignores the protection", PROTECTION, "if command in WRITES and command != 6 and protected:"),
    commanded("Command 22 ignores the protection", PROTECTION, "if command in WRITES and command != 22 and protected:"),
    commanded("Command 38 is protected", PROTECTION, "if (command in WRITES or command == 38) and protected:"),
    device("Command 15 always says unprotected", "OUTPUT + bytes([self.protected, 250])", "OUTPUT + bytes([0, 250])"),
    device("a restart ends the protection", RESTARTS, "        self.protected = False\n" + RESTARTS),
)

WRITES = (
    device("Command 22 also changes the tag", "            self.long_tag = data", "            self.long_tag, self.tag = data, data[:6]"),
    device("Command 18 also changes the long tag", "            self.tag, self.descriptor, self.date =",
           "            self.long_tag = data[:6].ljust(32)\n            self.tag, self.descriptor, self.date ="),
    device("Command 19 of the secondary master is not stored", "            self.assembly = data",
           '            self.assembly = data if master == "P" else self.assembly'),
    device("Command 22 of the secondary master is not stored", "            self.long_tag = data",
           '            self.long_tag = data if master == "P" else self.long_tag'),
    device("the date is not stored", "self.date = data[:6], data[6:18], data[18:]", "self.date = data[:6], data[6:18], self.date"),
    device("the descriptor is not stored", "self.date = data[:6], data[6:18],", "self.date = data[:6], self.descriptor,"),
    device("the last byte of the message is not stored", "            self.message = data",
           "            self.message = data[:23] + self.message[23:]"),
    device("long tags are stored in capitals", "            self.long_tag = data", "            self.long_tag = data.upper()"),
    device("long tags end at a zero byte", "            self.long_tag = data",
           '            self.long_tag = data.split(b"\\0")[0].ljust(32)'),
    device("the mode is not stored", "            self.polling, self.mode = data", "            self.polling = data[0]"),
    commanded("an address without a mode has mode 0", "else (data[0], int(data[0] == 0))", "else (data[0], 0)"),
    device("a restart clears the mode", RESTARTS, "        self.mode = 1\n" + RESTARTS),
    device("the first write after a restart is lost", "        if command not in commands.WRITES:\n            return",
           "        if command not in commands.WRITES or command == 19 and self.cold_start[master]:\n            return"),
)

BITS = (
    device("Command 38 resets both bits", RESET, '            self.changed = {"P": False, "S": False}\n        if'),
    device("Command 38 resets the other master's bit", RESET,
           '            self.changed["S" if master == "P" else "P"] = False\n        if'),
    device("Command 38 of the secondary master resets nothing", RESET, '            self.changed[master] &= master == "S"\n        if'),
    device("a write sets only the bit of its master", ALL_SET, "self.changed[master] = True\n\n    def status"),
    device("a write sets only the bit of the other master", ALL_SET,
           'self.changed["S" if master == "P" else "P"] = True\n\n    def status'),
    device("a long tag sets no bit", ALL_SET,
           'self.changed = self.changed if command == 22 else {"P": True, "S": True}\n\n    def status'),
    device("a restart clears the changed bits", RESTARTS, '        self.changed = {"P": False, "S": False}\n' + RESTARTS),
    device("the status of a write is that before it", EXECUTED + PAYLOAD, "            before = self.status(frame.master)\n" + EXECUTED
           + "        payload = bytes([code, self.status(frame.master) if code else before])"),
    device("loop current fixed is not shown", "LOOP_CURRENT_FIXED * (self.mode == 0)", "LOOP_CURRENT_FIXED * False"),
    device("loop current fixed is shown at a polling address", "LOOP_CURRENT_FIXED * (self.mode == 0)",
           "LOOP_CURRENT_FIXED * (self.polling != 0)"),
)

COLD_STARTS = (
    device("a reply to one master clears both cold start bits", SHOWS, 'self.cold_start = {"P": False, "S": False}'),
    device("a refusal does not clear the cold start bit", SHOWS, "self.cold_start[frame.master] &= code != commands.SUCCESS"),
    device("the cold start bit is never cleared", SHOWS, "pass"),
    device("only Command 0 clears the cold start bit", SHOWS, "self.cold_start[frame.master] &= command != 0"),
    device("the secondary master sees no cold start", '{"P": True, "S": True}\n\n    def hear', '{"P": True, "S": False}\n\n    def hear'),
    device("a broadcast does not clear the cold start bit", SHOWS, "self.cold_start[frame.master] &= frame.address == BROADCAST"),
    device("silence clears the cold start bit", "        if code != commands.SUCCESS and frame",
           "        self.cold_start[frame.master] &= command not in (11, 21) or code != 0 or data[:len(self.tag)] == self.tag\n"
           "        if code != commands.SUCCESS and frame"),
    device("a damaged request clears the cold start bits", "            return reply_to_garbled(heard)",
           "            reply = reply_to_garbled(heard)\n            if reply:\n                self.cold_start[reply.master] = False\n"
           "            return reply"),
)

GARBLED = (
    device("a damaged request is met with silence", "            return reply_to_garbled(heard)", "            return None"),
    device("longitudinal parity is not reported", "        faults |= LONGITUDINAL_PARITY", "        faults |= 0"),
    device("longitudinal parity is always reported", "    if parity(char.byte for char in garbled):", "    if True:"),
    device("only the first fault is reported", "    faults = reduce(or_, (char.faults for char in garbled))",
           "    faults = next((char.faults for char in garbled if char.faults), 0)"),
    device("a damaged address is answered", "any(char.faults for char in begun[:GARBLED_PREFIX])",
           "any(char.faults for char in begun[:GARBLED_PREFIX - 1])"),
    device("the reply to a damaged request goes to the primary master",
           "    master = read_address(bytes(char.byte for char in garbled[1:GARBLED_PREFIX]))[0]", '    master = "P"'),
    device("the reply to a damaged request shows the status", "    payload = bytes([COMMUNICATION_FAULTS | faults, 0])",
           "    payload = bytes([COMMUNICATION_FAULTS | faults, 0x40])"),
    device("a cut request is answered", "or len(begun) < length:", "or len(begun) < length - 1:"),
    device("a damaged request of another device is answered", "read_address(bytes(address))[2] != OWN_ADDRESS",
           "read_address(bytes(address))[2].type != OWN_ADDRESS.type"),
    framed("a byte with a fault is taken as good", "        if char.faults:\n            break\n", ""),
)

FRAMES = (
    framed("one preamble byte is enough", "if heard[place - 1] == heard[place - 2] == PREAMBLE and",
           "if heard[place - 1] == PREAMBLE and"),
    framed("three preamble bytes are needed", "    for place in range(begin + 2, len(heard)):\n        if heard[place - 1]",
           "    for place in range(begin + 3, len(heard)):\n        if heard[place - 3] == heard[place - 1]"),
    framed("the check byte is not checked", "or parity(data[:length]) or", "or"),
    framed("a message with an expansion byte is read without it", "after_expansion = after_address + (data[0] >> 5 & 3)",
           "after_expansion = after_address"),
    device("the first of two messages is carried out", "if len(found) == 1 else None", "if found else None"),
    device("a request with expansion bytes is answered", 'frame.kind != "STX" or frame.expansion or', 'frame.kind != "STX" or'),
    device("a reply of another device is taken as a request", 'if frame.kind != "STX" or frame', "if frame"),
    device("four preamble bytes are sent", "RESPONSE_PREAMBLES = 5", "RESPONSE_PREAMBLES = 4"),
    device("the reply goes to the primary master", 'return Frame("ACK", frame.master, 0,', 'return Frame("ACK", "P", 0,'),
    device("the burst bit is sent back", 'return Frame("ACK", frame.master, 0,', 'return Frame("ACK", frame.master, frame.burst,'),
)

ADDRESSES = (
    device("every polling address is answered", "return address.number == self.polling and command == 0", "return command == 0"),
    device("polling address 0 is answered too", "return address.number == self.polling and",
           "return address.number in (0, self.polling) and"),
    device("every command is answered at the polling address", "address.number == self.polling and command == 0",
           "address.number == self.polling"),
    device("every command is answered by broadcast", "address == BROADCAST and command in (11, 21)", "address == BROADCAST"),
    device("only Command 11 is answered by broadcast", "address == BROADCAST and command in (11, 21)",
           "address == BROADCAST and command == 11"),
    device("the device type of an address is ignored", "return address == OWN_ADDRESS or",
           "return address.id == OWN_ADDRESS.id or"),
    device("the device id of an address is compared in part", "return address == OWN_ADDRESS or",
           "return (address.type, address.id | 0xFF) == (OWN_ADDRESS.type, OWN_ADDRESS.id | 0xFF) or"),
    device("a broadcast with too few data is refused", "if code != commands.SUCCESS and frame.address == BROADCAST:", "if False:"),
    device("another tag is answered", "command == 11 and data[:6] != self.tag or", ""),
    device("another tag is refused", "            return None\n        content", "            code = 16\n        content"),
    device("a long tag is compared in part", "data[:32] != self.long_tag", "data[:8] != self.long_tag[:8]"),
    device("a long tag is found in any case", "data[:32] != self.long_tag", "data[:32].lower() != self.long_tag.lower()"),
    device("a tag with further bytes is not found", "data[:6] != self.tag or", "data != self.tag or"),
    device("a broadcast is replied to with the device's own address", OWN_MASTER + " frame.address,",
           OWN_MASTER + " OWN_ADDRESS if frame.address == BROADCAST else frame.address,"),
)

IMAGES = (
    device("a long tag of version 1 is blank", "or unpacked(image[27:33]).ljust(32)", "or bytes([32] * 32)"),
    device("a long tag of version 1 ends with zeros", "unpacked(image[27:33]).ljust(32)",
           'unpacked(image[27:33]).ljust(32, b"\\0")'),
    device("the bits of an image are swapped", '{"P": bool(flags & 1), "S": bool(flags & 2)}',
           '{"P": bool(flags & 2), "S": bool(flags & 1)}'),
    device("an image sets the cold start bits", 'bool(flags & 4), {"P": False, "S": False})', 'bool(flags & 4), {"P": True, "S": True})'),
    device("the protection of an image is lost", "bool(flags & 4), {", "False, {"),
)

REPLIES = (
    device("Command 1 has another unit", "            1: VARIABLE_UNIT + VARIABLE_VALUE,", '            1: b"\\x21" + VARIABLE_VALUE,'),
    device("Command 2 has its values in the other order", "            2: LOOP_CURRENT + PERCENT,",
           "            2: PERCENT + LOOP_CURRENT,"),
    device("Command 3 lacks its unit", "LOOP_CURRENT + VARIABLE_UNIT + VARIABLE_VALUE,", "LOOP_CURRENT + VARIABLE_VALUE,"),
    device("Command 9 has another variable 245", "    245: bytes([0, 39])", "    245: bytes([0, 38])"),
    device("Command 9 lacks variable 0", "    0: b\"\\x00\" + VARIABLE_UNIT + VARIABLE_VALUE + VARIABLE_STATUS,\n", ""),
    commanded("Command 9 shows four variables", "MOST_CODES = 8", "MOST_CODES = 4"),
    device("Command 9 has no time stamp", 'b"".join(groups) + TIME_STAMP', 'b"".join(groups)'),
    device("Command 13 has tag and descriptor in the other order", "        tag = self.tag + self.descriptor + self.date",
           "        tag = self.descriptor + self.tag + self.date"),
    device("Command 38 replies with no counter", "            38: self.counter.to_bytes(2, \"big\"),", '            38: b"",'),
    device("Command 48 has 24 bytes", "            48: ADDITIONAL_STATUS,", "            48: ADDITIONAL_STATUS[1:],"),
    device("Command 17 replies with what was there before", EXECUTED,
           "            before = self.message\n" + EXECUTED + "            content = before if command == 17 else content\n"),
)

BUGS = (*COUNTER, *REFUSED, *PROTECTED, *WRITES, *BITS, *COLD_STARTS, *GARBLED, *FRAMES, *ADDRESSES, *IMAGES, *REPLIES)


def source_of(name, bug):
    """The source of a module, with the change of a bug if it is in this module."""
    text = (FUZZ / f"{name}.py").read_text(encoding="utf-8")
    if bug is None or bug.module != name:
        return text
    if text.count(bug.right) != 1:
        raise ValueError(f"{bug.name}: its text stands {text.count(bug.right)} times in {name}")
    return text.replace(bug.right, bug.wrong)


@functools.cache
def compiled(name, text):
    """The code of a module."""
    return compile(text, str(FUZZ / f"{name}.py"), "exec")


def said(package, device, line):
    """What a device of a model says to a line of `hart serve`."""
    if line == "restart":
        device.restart()
    elif line in ("protect on", "protect off"):
        device.protected = line == "protect on"
    else:
        items = (item.partition("!") for item in line.split())
        reply = device.hear([package.frames.Char(int(byte, 16), int(faults or "0", 16)) for byte, _, faults in items])
        preambles = b"\xFF" * package.device.RESPONSE_PREAMBLES
        return "-" if reply is None else (preambles + package.frames.body_of(reply)).hex(" ").upper()
    return "ok"


def model(bug=None):
    """The modules of the model with a bug, by their names; without one, the model as it is."""
    package = types.ModuleType(f"planted_{id(bug)}")
    package.__path__ = []
    sys.modules[package.__name__] = package
    for name in MODULES:
        module = types.ModuleType(f"{package.__name__}.{name}")
        module.__package__, module.__file__ = package.__name__, str(FUZZ / f"{name}.py")
        sys.modules[module.__name__] = module
        setattr(package, name, module)
        exec(compiled(name, source_of(name, bug)), module.__dict__)
    return package


def serve(number, image):
    """Answers line by line as the device with a bug."""
    package = model(BUGS[number - 1] if number else None)
    device_with_bug = package.device.Device.from_image(bytes.fromhex(image))
    for line in sys.stdin:
        print(said(package, device_with_bug, line.rstrip("\n")), flush=True)


if __name__ == "__main__":
    serve(int(sys.argv[1]), sys.argv[2])
