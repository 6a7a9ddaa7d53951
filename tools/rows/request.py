"""`hart request`: words, and their message or the fault of a bad one."""

# Words after `request`, and the message with its line feed.
REQUESTS = (
    (["P", "@0", "0"], "FF FF FF FF FF 02 80 00 00 82\n"),
    (["S", "@0", "0", "--preambles", "7"], "FF FF FF FF FF FF FF 02 00 00 00 02\n"),
    (
        ["P", "37420A1B2C", "18", "tag=FT-1204", "descriptor=FEED PUMP", "date=2026-11-27"],
        "FF FF FF FF FF 82 B7 42 0A 1B 2C 12 15 19 4B 71 CB 0D 20 18 51 44 81 05 4D 42 08 20 82 08 20 1B 0B 7E E2\n",
    ),
    (
        ["S", "37420A1B2C", "18", "date=not set", "tag=A=B", "descriptor="],
        "FF FF FF FF FF 82 37 42 0A 1B 2C 12 15 07 D0 A0 82 08 20 82 08 20 82 08 20 82 08 20 82 08 20 00 00 00 10\n",
    ),
    (
        ["P", "37420A1B2C", "18", "descriptor=^_[]\\ !?", "date=2155-12-31", "tag=@ABCDEFG"],
        "FF FF FF FF FF 82 B7 42 0A 1B 2C 12 15 00 10 83 10 51 87 79 F6 DD 72 08 7F 82 08 20 82 08 20 1F 0C FF A3\n",
    ),
    (
        ["P", "37420A1B2C", "22", "long_tag=Feed pump, building 3"],
        "FF FF FF FF FF 82 B7 42 0A 1B 2C 16 20 "
        "46 65 65 64 20 70 75 6D 70 2C 20 62 75 69 6C 64 69 6E 67 20 33 20 20 20 20 20 20 20 20 20 20 20 4F\n",
    ),
    (
        ["P", "all", "21", "long_tag=Prüfstand ÿ"],
        "FF FF FF FF FF 82 80 00 00 00 00 15 20 "
        "50 72 FC 66 73 74 61 6E 64 20 FF 20 20 20 20 20 20 20 20 20 20 20 20 20 20 20 20 20 20 20 20 20 1C\n",
    ),
    (
        ["P", "37420A1B2C", "22", "long_tag=0x4a4a4a4a4a4a4a4a4a4a4a4a4a4a4a4a4a4a4a4a4a4a4a4a4a4a4a4a4a4a4a4a"],
        "FF FF FF FF FF 82 B7 42 0A 1B 2C 16 20 "
        "4A 4A 4A 4A 4A 4A 4A 4A 4A 4A 4A 4A 4A 4A 4A 4A 4A 4A 4A 4A 4A 4A 4A 4A 4A 4A 4A 4A 4A 4A 4A 4A 7C\n",
    ),
    (
        ["P", "37420A1B2C", "22", "long_tag="],
        "FF FF FF FF FF 82 B7 42 0A 1B 2C 16 20 "
        "20 20 20 20 20 20 20 20 20 20 20 20 20 20 20 20 20 20 20 20 20 20 20 20 20 20 20 20 20 20 20 20 7C\n",
    ),
    (
        ["P", "37420A1B2C", "17", "message=32 CHARACTERS ARE IN A MESSAGE."],
        "FF FF FF FF FF 82 B7 42 0A 1B 2C 11 18 CF 28 03 20 14 81 0D 41 52 4E 00 52 16 02 4E 80 18 0D 15 34 C1 1C 5B A0 D8\n",
    ),
    (["P", "37420A1B2C", "19", "final_assembly_number=0x012345"], "FF FF FF FF FF 82 B7 42 0A 1B 2C 13 03 01 23 45 3D\n"),
    (["P", "37420A1B2C", "6", "loop_current_mode=+1", "polling_address=007"], "FF FF FF FF FF 82 B7 42 0A 1B 2C 06 02 07 01 48\n"),
    (["P", "37420A1B2C", "9", "device_variable_codes=0x00F4"], "FF FF FF FF FF 82 B7 42 0A 1B 2C 09 02 00 F4 B5\n"),
    (
        ["S", "all", "11", "tag=FT-1204", "--preambles", "20"],
        "FF FF FF FF FF FF FF FF FF FF FF FF FF FF FF FF FF FF FF FF 82 00 00 00 00 00 0B 06 19 4B 71 CB 0D 20 4A\n",
    ),
    (["P", "37420A1B2C", "38", "configuration_change_counter=65535"], "FF FF FF FF FF 82 B7 42 0A 1B 2C 26 02 FF FF 6E\n"),
    (["P", "37420A1B2C", "38", "configuration_change_counter=258"], "FF FF FF FF FF 82 B7 42 0A 1B 2C 26 02 01 02 6D\n"),
)

# Words after `request`, and the number and the reason of the first bad one.
BAD_WORDS = (
    (["p", "@0", "0"], "1"),
    (["P", "@64", "0"], "2"),
    (["P", "@0", "256"], "3"),
    (["P", "@0", "4", "x"], "3: unknown command"),
    (["P", "37420A1B2C", "18", "tag"], "4: no NAME=VALUE"),
    (["P", "37420A1B2C", "18", "Tag=X"], "4: unknown field"),
    (["P", "37420A1B2C", "18", "=X"], "4: unknown field"),
    (["P", "37420A1B2C", "0", "tag=X"], "4: unknown field"),
    (["P", "37420A1B2C", "19", "final assembly number=0x012345"], "4: unknown field"),
    (["P", "37420A1B2C", "18", "tag=x", "tag=Y"], "5: given twice"),
    (["P", "37420A1B2C", "18", "date=x", "tag=x", "no"], "6: no NAME=VALUE"),
    (["P", "37420A1B2C", "18", "tag=X", "date=2026-11-27"], "6: missing field descriptor"),
    (["P", "37420A1B2C", "18", "date=x"], "5: missing field tag"),
    (["P", "37420A1B2C", "19"], "4: missing field final assembly number"),
    (["P", "37420A1B2C", "18", "tag=FT-123456", "descriptor=Y", "date=2026-11-27"], "4: too long: at most 8 characters"),
    (["P", "37420A1B2C", "18", "date=x", "descriptor=12345678901234567", "tag=X"], "5: too long: at most 16 characters"),
    (["P", "37420A1B2C", "18", "tag=ft", "descriptor=Y", "date=2026-11-27"], "4: bad character at 0"),
    (["P", "37420A1B2C", "18", "tag=FTü", "descriptor=Y", "date=2026-11-27"], "4: bad character at 2"),
    (["P", "37420A1B2C", "18", "tag=12345678ü", "descriptor=Y", "date=2026-11-27"], "4: too long: at most 8 characters"),
    (["P", "37420A1B2C", "18", "tag=X", "descriptor=Y", "date=2026-02-30"], "6: no date"),
    (["P", "37420A1B2C", "18", "tag=X", "descriptor=Y", "date=1899-12-31"], "6: no date"),
    (["P", "37420A1B2C", "18", "tag=X", "descriptor=Y", "date=2156-01-01"], "6: no date"),
    (["P", "37420A1B2C", "18", "tag=X", "descriptor=Y", "date="], "6: no date"),
    (["P", "37420A1B2C", "18", "tag=X", "descriptor=Y", "date=Not set"], "6: no date"),
    (["P", "37420A1B2C", "18", "tag=X", "descriptor=Y", "date=2026-11-27T10:00"], "6: no date"),
    (["P", "37420A1B2C", "18", "tag=X", "descriptor=Y", "date=2026-11-27T10:00+01:00"], "6: no date"),
    (["P", "37420A1B2C", "18", "tag=X", "descriptor=Y", "date=2026-11-27[u-ca=iso8601]"], "6: no date"),
    (["P", "37420A1B2C", "18", "tag=X", "descriptor=Y", "date=20261127"], "6: no date"),
    (["P", "37420A1B2C", "18", "tag=X", "descriptor=Y", "date=+002026-11-27"], "6: no date"),
    (["P", "37420A1B2C", "6", "polling_address=256", "loop_current_mode=1"], "4: no number from 0 to 255"),
    (["P", "37420A1B2C", "6", "polling_address=0x1", "loop_current_mode=1"], "4: no number from 0 to 255"),
    (["P", "37420A1B2C", "6", "polling_address=", "loop_current_mode=1"], "4: no number from 0 to 255"),
    (["P", "37420A1B2C", "6", "polling_address=64", "loop_current_mode=1"], "3: refused with code 2"),
    (["P", "37420A1B2C", "38", "configuration_change_counter=65536"], "4: no number from 0 to 65535"),
    (["P", "37420A1B2C", "9", "device_variable_codes=0x"], "4: not 0x and 1 to 8 bytes in hex"),
    (["P", "37420A1B2C", "9", "device_variable_codes=0x000000000000000000"], "4: not 0x and 1 to 8 bytes in hex"),
    (["P", "37420A1B2C", "9", "device_variable_codes=00"], "4: not 0x and 1 to 8 bytes in hex"),
    (["P", "37420A1B2C", "19", "final_assembly_number=0x0123"], "4: not 0x and 3 bytes in hex"),
    (["P", "37420A1B2C", "19", "final_assembly_number=0x01234"], "4: not 0x and 3 bytes in hex"),
    (["P", "37420A1B2C", "22", "long_tag=xxxxxxxxxxxxxxxxxxxxxxxxxxxxxxxxx"], "4: too long: at most 32 characters"),
    (["P", "37420A1B2C", "22", "long_tag=a\t"], "4: bad character at 1"),
    (["P", "37420A1B2C", "22", "long_tag=€"], "4: bad character at 0"),
    (["P", "37420A1B2C", "22", "long_tag=0x12"], "4: not 0x and 32 bytes in hex"),
    (["P", "37420A1B2C", "22", "long_tag=0x" + 255 * "4a"], "4: not 0x and 32 bytes in hex"),
    (["P", "37420A1B2C", "22", "long_tag=0x" + 256 * "4a"], "4: not 0x and 32 bytes in hex"),
    (["P", "37420A1B2C", "22", "long_tag=0x414"], "4: not 0x and 32 bytes in hex"),
    (["P", "37420A1B2C", "22", "long_tag=0x hex"], "4: not 0x and 32 bytes in hex"),
)
