"""The items of an input: which characters they are, and where bad hex stands."""

# Items as the data of a message, and the message's line in `hart dump`, which has the bytes of the items.
WHOLE = (
    ("FFFF82B7420A1B2C7D00 37", "2 11 STX P 0 37420A1B2C - 125 -\n", ""),
    ("FFFF82B7420A1B2C7D00 \t\r\n 37", "2 11 STX P 0 37420A1B2C - 125 -\n", ""),
    ("FFFF82B7420A1B2C7D028282 35", "2 13 STX P 0 37420A1B2C - 125 8282\n", ""),
    ("FFFF82B7420A1B2C7D04\tfF Ff\r\n aB0c  94", "2 15 STX P 0 37420A1B2C - 125 FFFFAB0C\n", ""),
)

# Damaged items as the data of a request, and the reply to it, which has the fault bits of all of them.
DAMAGED = (
    ("FFFF82B7420A1B2C7D01FF!40  C9", "FF FF FF FF FF 86 B7 42 0A 1B 2C 7D 02 C0 00 F1\n", ""),
    ("FFFF82B7420A1B2C7D01ff!72 C9", "FF FF FF FF FF 86 B7 42 0A 1B 2C 7D 02 F2 00 C3\n", ""),
    ("FFFF82B7420A1B2C7D0302!4080!0200 B6", "FF FF FF FF FF 86 B7 42 0A 1B 2C 7D 02 C2 00 F3\n", ""),
)

# A text that ends, its items before the bad hex, and the place of the bad hex.
BAD = (
    ("! ", "", 0),
    ("0 ", "", 0),
    ("0!40 ", "", 0),
    ("82!0 ", "", 0),
    ("82!8 ", "", 0),
    ("82!4  ", "", 0),
    ("02!08 ", "", 0),
    ("02!00 ", "", 0),
    ("FF0G ", "FF", 2),
    ("82 8 ", "82", 3),
    ("82 !40 ", "82", 3),
    ("FF FF 0G ", "FF FF", 6),
    ("FF!40!40 ", "FF!40", 5),
    ("FF\n\n!FF ", "FF", 4),
    ("FF,FF ", "FF", 2),
    ("FF\vFF ", "FF", 2),
)

# A text cut off by a failed read, its whole items, and the place of its bad hex, or None if it has none so far.
BROKEN_OFF = (
    ("", "", None),
    ("8", "", None),
    ("82", "", None),
    ("82!", "", None),
    ("82!0", "", None),
    ("82!7", "", None),
    ("82!40", "", None),
    ("82 ", "82", None),
    ("82 8", "82", None),
    ("8282", "82", None),
    ("82!40 ", "82!40", None),
    ("82!408", "82!40", None),
    ("FF!40 82!02", "FF!40", None),
    ("!", "", 0),
    ("0G", "", 0),
    ("0!", "", 0),
    ("82!8", "", 0),
    ("82!G", "", 0),
    ("02!08", "", 0),
    ("02!00", "", 0),
    ("82 !", "82", 3),
    ("FF!40!40", "FF!40", 5),
)

# A message that ends before its 15 data bytes and its check byte.
BEGUN = "FFFF82B7420A1B2C7D0F "


BEGUN_HEADER = "    seems: request of the primary master to device 37420A1B2C, Command 125\n"


def said_of(read):
    """Returns what `hart explain` says of BEGUN with the items `read` after it."""
    chars = read.split()
    for number, item in enumerate(chars):
        if "!" in item:
            return f"2: no message: the character at {10 + number} has the fault bits 0x{item[3:]}\n{BEGUN_HEADER}"
    return f"2: no message: it lacks {16 - len(chars)} characters, the last of them its check byte\n{BEGUN_HEADER}"
