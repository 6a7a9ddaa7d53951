"""`hart encode`: words, and their message."""

IDENTIFY = "FF FF FF FF FF 02 80 00 00 82\n"
WITH_7 = "FF FF FF FF FF FF FF 02 80 00 00 82\n"

# The longest message: to all devices, with 20 preamble bytes and 255 zeros as data.
LONGEST_MESSAGE = "FF " * 20 + "82 80 00 00 00 00 00 FF " + "00 " * 255 + "FD\n"

# A command line, its message, and the line of its fault, if it has one.
ROWS = (
    (["encode", "P", "@0", "0"], IDENTIFY, ""),
    (["encode", "P", "@0", "0", ""], IDENTIFY, ""),
    (["encode", "P", "@0", "0", "--preambles", "5"], IDENTIFY, ""),
    (["encode", "P", "@0", "0", "--preambles=7"], WITH_7, ""),
    (["encode", "P", "@0", "0", "--preambles", "+07"], WITH_7, ""),
    (["encode", "--preambles", "7", "P", "@0", "0"], WITH_7, ""),
    (["encode", "P", "--preambles", "7", "@0", "0"], WITH_7, ""),
    (
        ["encode", "S", "all", "11", "415350B71C31", "--preambles", "20"],
        "FF FF FF FF FF FF FF FF FF FF FF FF FF FF FF FF FF FF FF FF 82 00 00 00 00 00 0B 06 41 53 50 B7 1C 31 57\n",
        "",
    ),
    (["encode", "p", "@64", "0"], "", "bad word 1\n"),
    (["encode", "P", "@64", "0"], "", "bad word 2\n"),
    (["encode", "P", "@0", "256"], "", "bad word 3\n"),
    (["encode", "P", "@0", "0", "0"], "", "bad word 4\n"),
    (["encode", "P", "4000000000", "0", "00" * 255, "--preambles", "20"], LONGEST_MESSAGE, ""),
    (["encode", "P", "all", "0", "7F" * 256], "", "bad word 4\n"),
)

# The four words of each request, and the line that `encode` writes for them with 5 preamble bytes.
REQUESTS = (
    (["P", "@0", "0", ""], "FF FF FF FF FF 02 80 00 00 82\n"),
    (["S", "@07", "000", ""], "FF FF FF FF FF 02 07 00 00 05\n"),
    (["P", "@7", "0", ""], "FF FF FF FF FF 02 87 00 00 85\n"),
    (["S", "@63", "255", ""], "FF FF FF FF FF 02 3F FF 00 C2\n"),
    (["P", "37420A1B2C", "19", "012345"], "FF FF FF FF FF 82 B7 42 0A 1B 2C 13 03 01 23 45 3D\n"),
    (["S", "37420a1b2c", "019", "0a0B0c"], "FF FF FF FF FF 82 37 42 0A 1B 2C 13 03 0A 0B 0C D7\n"),
    (["S", "F7420A1B2C", "6", "0501"], "FF FF FF FF FF 82 37 42 0A 1B 2C 06 02 05 01 CA\n"),
    (["P", "37420A1B2C", "38", "0001"], "FF FF FF FF FF 82 B7 42 0A 1B 2C 26 02 00 01 6F\n"),
    (["S", "3FFFFFFFFF", "1", ""], "FF FF FF FF FF 82 3F FF FF FF FF 01 00 BC\n"),
    (["P", "all", "11", "415350B71C31"], "FF FF FF FF FF 82 80 00 00 00 00 0B 06 41 53 50 B7 1C 31 D7\n"),
)

# Four words, and the number of the first bad one.
BAD_WORDS = (
    (["p", "@0", "0", ""], 1),
    (["", "@0", "0", ""], 1),
    (["PS", "@0", "0", ""], 1),
    (["D", "@0", "0", ""], 1),
    (["P", "@64", "0", ""], 2),
    (["P", "@", "0", ""], 2),
    (["P", "@007", "0", ""], 2),
    (["P", "@+7", "0", ""], 2),
    (["P", "@-1", "0", ""], 2),
    (["P", "@7 ", "0", ""], 2),
    (["P", "@ 7", "0", ""], 2),
    (["P", "@0x1", "0", ""], 2),
    (["P", "@\u0663", "0", ""], 2),
    (["P", "7", "0", ""], 2),
    (["P", "", "0", ""], 2),
    (["P", "37420A1B2", "0", ""], 2),
    (["P", "37420A1B2C0", "0", ""], 2),
    (["P", "37420A1B2C00", "0", ""], 2),
    (["P", "3742 A1B2C", "0", ""], 2),
    (["P", "37420A1B2G", "0", ""], 2),
    (["P", "ALL", "0", ""], 2),
    (["P", "all ", "0", ""], 2),
    (["S", "all", "256", ""], 3),
    (["S", "all", "", ""], 3),
    (["S", "all", "0000", ""], 3),
    (["S", "all", "-0", ""], 3),
    (["S", "all", "+1", ""], 3),
    (["S", "all", "1a", ""], 3),
    (["S", "all", "0", "0"], 4),
    (["S", "all", "0", "012"], 4),
    (["S", "all", "0", "0G"], 4),
    (["S", "all", "0", "01 2"], 4),
    (["S", "all", "0", " "], 4),
    (["S", "all", "0", "-"], 4),
    (["", "@64", "256", "0"], 1),
    (["@0", "P", "0", ""], 1),
    (["P", "", "256", "0"], 2),
    (["P", "0", "@0", ""], 2),
    (["S", "all", "", "0"], 3),
)
