"""`hart serve`: lines, and what a device says to each."""

from .answer import REPLY_TO_PRIMARY
from .images import image

# Lines, and the answers to them.
LINES = "counter\nrestart\n\nimage\n"
SAID = f"counter 0\nok\n-\nimage {image(2)}\n"

# An input, what is written, and the line of its fault, if it has one.
ROWS = (
    ("", "", ""),
    ("\n", "-\n", ""),
    ("FF FF 02 80 00 00 82", REPLY_TO_PRIMARY, ""),
    ("FF FF 02 80 00 00 82\r\nFF FF 02 80\r\n00 00 82\r\n", REPLY_TO_PRIMARY + "-\n-\n", ""),
    ("FF FF 02 80 00 00 83\n", "-\n", ""),
    # A restart is shown once.
    (
        "restart\n"
        "FF FF 82 B7 42 0A 1B 2C 10 00 5A\n"
        "FF FF 82 B7 42 0A 1B 2C 10 00 5A\n",
        "ok\n"
        "FF FF FF FF FF 86 B7 42 0A 1B 2C 10 05 00 20 00 00 00 7B\n"
        "FF FF FF FF FF 86 B7 42 0A 1B 2C 10 05 00 00 00 00 00 5B\n",
        "",
    ),
    # A write changes the device, unless the device is protected.
    (
        "FF FF 82 B7 42 0A 1B 2C 13 03 01 23 45 3D\n"
        "protect on\n"
        "FF FF 82 B7 42 0A 1B 2C 13 03 00 00 01 5B\n"
        "protect off\n"
        "FF FF 82 B7 42 0A 1B 2C 10 00 5A\n"
        "counter\n"
        "image\n",
        "FF FF FF FF FF 86 B7 42 0A 1B 2C 13 05 00 40 01 23 45 7F\n"
        "ok\n"
        "FF FF FF FF FF 86 B7 42 0A 1B 2C 13 02 07 40 18\n"
        "ok\n"
        "FF FF FF FF FF 86 B7 42 0A 1B 2C 10 05 00 40 01 23 45 7C\n"
        "counter 1\n"
        f"image {image(2, assembly='012345', counter='0001', flags='03')}\n",
        "",
    ),
    # A bad line changes nothing, and serving goes on.
    (
        "FF FF 82 B7 42 0A 1B 2C 13 03 01 23 45 3D !\n"
        "Restart\n"
        " counter\n"
        "protect\n"
        "0\n"
        "FF!4\n"
        "counter\n",
        "bad line: bad hex at 42\n"
        "bad line: bad hex at 0\n"
        "bad line: bad hex at 1\n"
        "bad line: bad hex at 0\n"
        "bad line: bad hex at 0\n"
        "bad line: bad hex at 0\n"
        "counter 0\n",
        "",
    ),
)

# An input before a read that fails, and what is written: only whole lines are answered.
FAILED_READS = (
    ("", "", "read fault\n"),
    ("counter", "", "read fault\n"),
    ("counter\r", "", "read fault\n"),
    ("counter\nrestart", "counter 0\n", "read fault\n"),
)
