"""Makes what devices hear: requests, and requests for another device than the bench device."""

from fuzz.frames import Frame, Unique, address_bytes, body_of, parity

OWN_ADDRESS = Unique(0x3742, 0x0A1B2C)
PREAMBLES = 5
PREAMBLE = "FF"
ADDRESS_BYTES = 5
# Each command that writes, and how many bytes it needs.
WRITES = {6: 1, 17: 24, 18: 21, 19: 3, 22: 32}
RESET = 38
COMMUNICATION_FAULTS = 0x80


def text_of(data):
    """Bytes as items."""
    return data.hex(" ").upper()


def message(frame, preambles=PREAMBLES):
    """The message of a frame, as items."""
    return text_of(b"\xFF" * preambles + body_of(frame))


def request(command, data=b"", master="P", address=OWN_ADDRESS, preambles=PREAMBLES, burst=0):
    """The request of a master, as items."""
    return message(Frame("STX", master, burst, address, b"", command, data), preambles)


def address_places(items):
    """Yields the places of the addresses in what is heard: after each delimiter with a long address that follows two preamble bytes."""
    for place in range(2, len(items) - ADDRESS_BYTES):
        is_begun = items[place - 2] == items[place - 1] == PREAMBLE and items[place] != PREAMBLE
        if is_begun and int(items[place][:2], 16) & 0x80:
            yield place + 1


def moved(line, old, new):
    """A line in which each message from or to an address has another address, and a check byte that fits as well as before."""
    items = line.split()
    for start in address_places(items):
        heard = [int(item[:2], 16) for item in items[start:start + ADDRESS_BYTES]]
        if bytes([heard[0] & 0x3F, *heard[1:]]) != address_bytes(old, "S", 0):
            continue
        wanted = address_bytes(new, "S", 0)
        bytes_of = bytes([heard[0] & 0xC0 | wanted[0], *wanted[1:]])
        for place, byte in enumerate(bytes_of, start=start):
            items[place] = f"{byte:02X}{items[place][2:]}"
        change_check(items, start, parity(heard) ^ parity(bytes_of))
    return " ".join(items)


def change_check(items, start, bits):
    """Changes bits of the check byte of the message whose address begins at a place, if it is there."""
    expansion = int(items[start - 1][:2], 16) >> 5 & 3
    count = start + ADDRESS_BYTES + expansion + 1
    check = count + 1 + int(items[count][:2], 16) if count < len(items) else len(items)
    if check < len(items):
        items[check] = f"{int(items[check][:2], 16) ^ bits:02X}{items[check][2:]}"
