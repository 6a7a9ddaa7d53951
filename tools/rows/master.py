"""`hart master`: lines, and what a master says to each."""

MESSAGE = "FF " * 20 + "02 80 00 00 82"
REPLY = "FF FF 06 80 00 18 00 40 FE 37 42 05 07 01 02 18 00 0A 1B 2C 05 04 00 01 00 00 37 00 37 01 70"
PAYLOAD = "0040FE37420507010218000A1B2C05040001000037003701"

# Lines, and the answers to them.
LINES = "tick 1\nsubmit @0 0\nsend\n"
SAID = f"-\nok\nsend {MESSAGE}\n"

# An input, what is written, and the line of its fault, if it has one.
ROWS = (
    ("", "", ""),
    ("\n", "bad line: bad word 1\n", ""),
    ("send", "-\n", ""),
    ("submit @0 0\r\nsend\r\n", f"ok\nsend {MESSAGE}\n", ""),
    # A request is sent four times, and given up after the fourth wait.
    (
        "submit @0 0\n" + "send\ntick 33\n" * 5,
        "ok\n" + f"send {MESSAGE}\nretry\n" * 3 + f"send {MESSAGE}\nnoreply 4\n-\n-\n",
        "",
    ),
    # A reply is accepted once, and only after a sending.
    (
        f"ask @0 0\nheard {REPLY}\nsend\nheard {REPLY}\nheard {REPLY}\nsend\n",
        f"ok\n-\nsend {MESSAGE}\nanswered 1 {PAYLOAD}\n-\n-\n",
        "",
    ),
    # A bad line changes nothing, and the session goes on.
    (
        "submit @0 0\nsend it\ntick x\nask @0 0 x\nheard 8\nSEND\nsend\n",
        "ok\nbad line: bad word 2\nbad line: bad word 2\nbad line: bad word 4: no NAME=VALUE\nbad line: bad hex at 6\n"
        f"bad line: bad word 1\nsend {MESSAGE}\n",
        "",
    ),
)

# An input before a read that fails, and what is written: only whole lines are answered.
FAILED_READS = (
    ("", "", "read fault\n"),
    ("send", "", "read fault\n"),
    ("send\ntick 1", "-\n", "read fault\n"),
)
