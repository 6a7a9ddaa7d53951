"""`hart answer` and `hart sim` with an image, and the texts of a device: its image in hex, and its lines in what `hart sim` writes."""


def image(
    form,
    *,
    version=None,
    polling="00",
    mode="01",
    tag="820820820820",
    date="000000",
    assembly="000000",
    long_tag=None,
    counter="0000",
    flags="00",
):
    """The image, in hex, of a device that is as new but for the parts that are named. It has the form of version 1 or 2, and says so
    unless another version is named."""
    spaces = "20" * 32 if form == 2 else ""
    return "".join(
        (
            f"{form:02}" if version is None else version,
            polling,
            mode,
            "820820" * 8,
            tag,
            "820820" * 4,
            date,
            assembly,
            spaces if long_tag is None else long_tag,
            counter,
            flags,
        )
    )


def sim_text(lines, counter=0, **parts):
    """What `hart sim` writes: lines, and then those of a device, with its configuration change counter and an image with that and the
    parts that are named."""
    return f"{lines}counter {counter}\nimage {image(2, counter=f'{counter:04X}', **parts)}\n"


# The image of a device that is write protected, and as new otherwise.
PROTECTED = image(1, flags="04")

# The image of a device with the tag `PUMP-101`.
TAGGED = image(1, tag="415350B71C31")

# The image of a device whose configuration has changed once, for both masters.
CHANGED = image(1, counter="0001", flags="03")

# The image of a device whose next change makes the counter 0 again, as an option.
COUNTED_TO_THE_END = "--image=" + image(1, counter="FFFF")

# The image of a device after a write of the primary master, with a long tag.
WRITTEN = image(2, assembly="012345", counter="0001", flags="03")

# Words, an input, and what is written for it.
ROWS = (
    (
        ["answer", "--image", PROTECTED],
        "FF FF FF FF FF 82 B7 42 0A 1B 2C 13 03 01 23 45 3D",
        "FF FF FF FF FF 86 B7 42 0A 1B 2C 13 02 07 00 58\n",
    ),
    (
        ["answer", "--image", PROTECTED],
        "FF FF 82 B7 42 0A 1B 2C 12 15 41 53 50 B7 1C 31 82 08 20 82 08 20 82 08 20 82 08 20 1D 02 00 8A",
        "FF FF FF FF FF 86 B7 42 0A 1B 2C 12 02 07 00 59\n",
    ),
    (
        ["answer", "--image", TAGGED],
        "FF FF 82 80 00 00 00 00 0B 06 41 53 50 B7 1C 31 D7",
        "FF FF FF FF FF 86 80 00 00 00 00 0B 18 00 00 FE 37 42 05 07 01 02 18 00 0A 1B 2C 05 04 00 00 00 00 37 00 37 01 BA\n",
    ),
    (
        ["answer", "--image", WRITTEN],
        "FF FF 82 B7 42 0A 1B 2C 10 00 5A",
        "FF FF FF FF FF 86 B7 42 0A 1B 2C 10 05 00 40 01 23 45 7C\n",
    ),
    (
        ["sim", "--image", CHANGED],
        "submit P 37420A1B2C 38 0001\n"
        "submit S 37420A1B2C 19 0A0B0C\n"
        "turn P ok lost\n"
        "turn S ok ok\n"
        "turn P ok ok\n",
        sim_text(
            "P 20 82B7420A1B2C260200016F\n"
            "D 5 86B7420A1B2C2604000000016D\n"
            "S 20 8237420A1B2C13030A0B0CD7\n"
            "D 5 8637420A1B2C130500400A0B0C95\n"
            "P 20 82B7420A1B2C260200016F\n"
            "D 5 86B7420A1B2C2602094023\n"
            "1 answered 2 09 40 -\n"
            "2 answered 1 00 40 0A0B0C\n",
            counter=2, assembly="0A0B0C", flags="03",
        ),
    ),
    (
        ["sim", COUNTED_TO_THE_END],
        "submit P 37420A1B2C 19 012345\n"
        "turn P ok ok\n",
        sim_text(
            "P 20 82B7420A1B2C13030123453D\n"
            "D 5 86B7420A1B2C130500400123457F\n"
            "1 answered 1 00 40 012345\n",
            assembly="012345", flags="03",
        ),
    ),
    (
        ["sim", "--image", TAGGED],
        "",
        sim_text("", tag="415350B71C31", long_tag="50554D502D313031202020202020202020202020202020202020202020202020"),
    ),
    (
        ["answer", "--image", PROTECTED],
        "FF FF FF FF FF 82 B7 42 0A 1B 2C 16 20 20 20 20 20 20 20 20 20 20 20 20 20 20 20 20 20 20 20 20 20 20 20 20 20 20 20 20 "
        "20 20 20 20 20 7C",
        "FF FF FF FF FF 86 B7 42 0A 1B 2C 16 02 07 00 5D\n",
    ),
    (
        ["answer", "--image", PROTECTED],
        "FF FF FF FF FF 82 B7 42 0A 1B 2C 14 00 5E",
        "FF FF FF FF FF 86 B7 42 0A 1B 2C 14 22 00 00 20 20 20 20 20 20 20 20 20 20 20 20 20 20 20 20 20 20 20 20 20 20 20 20 20 "
        "20 20 20 20 20 20 20 78\n",
    ),
    (
        ["sim", "--image", WRITTEN],
        "submit P 37420A1B2C 16\n"
        "turn P ok ok\n",
        sim_text(
            "P 20 82B7420A1B2C10005A\n"
            "D 5 86B7420A1B2C100500400123457C\n"
            "1 answered 1 00 40 012345\n",
            counter=1, assembly="012345", flags="03",
        ),
    ),
)

# A word that is no image, and the line of its fault.
BAD_IMAGES = (
    ("", "bad image: length\n"),
    ("00", "bad image: version\n"),
    ("03", "bad image: version\n"),
    (image(1, version="00"), "bad image: version\n"),
    ("01", "bad image: length\n"),
    ("02", "bad image: length\n"),
    # A byte short, and a byte too many.
    (image(1, flags=""), "bad image: length\n"),
    (image(1, flags="0000"), "bad image: length\n"),
    # The length of an image of the other version.
    (image(1, version="02"), "bad image: length\n"),
    (image(2, version="01"), "bad image: length\n"),
    # A polling address of 64, a mode of 2, 29 February 1900, and flags of 8, in both versions.
    (image(1, polling="40"), "bad image: field\n"),
    (image(1, mode="02"), "bad image: field\n"),
    (image(1, date="1D0200"), "bad image: field\n"),
    (image(1, flags="08"), "bad image: field\n"),
    (image(2, polling="40"), "bad image: field\n"),
    (image(2, mode="02"), "bad image: field\n"),
    (image(2, date="1D0200"), "bad image: field\n"),
    (image(2, flags="08"), "bad image: field\n"),
    ("0", "bad hex at 1\n"),
    ("0G", "bad hex at 1\n"),
    ("0G0", "bad hex at 3\n"),
    ("03 0", "bad hex at 2\n"),
    ("\xe9", "bad hex at 0\n"),
    ("0\xe9", "bad hex at 3\n"),
)
