"""Calls that several checks make: what each reads, what it writes, and how it ends."""

from rows import answer, dump, encode, explain, master, objects, serve, sim

DONE, FAULT, NO_CALL = 0, 1, 2

# A request for the identity, as it is heard.
IDENTIFY = "FF FF 02 80 00 00 82"

# The words of each call, an input, and what the call writes for it.
CALLS = (
    (["answer"], IDENTIFY, answer.REPLY_TO_PRIMARY),
    (["dump"], dump.TWO_MESSAGES, dump.TWO_LINES),
    (["explain"], IDENTIFY, explain.IDENTIFY),
    (["explain", "--raw"], bytes.fromhex(IDENTIFY), explain.IDENTIFY),
    (["explain", "--json"], IDENTIFY, objects.IDENTIFY),
    (["explain", "--json", "--raw"], bytes.fromhex(IDENTIFY), objects.IDENTIFY),
    (["serve"], serve.LINES, serve.SAID),
    (["master"], master.LINES, master.SAID),
    (["sim"], "turn P ok ok", sim.AS_IT_WAS),
    (["encode", "P", "@0", "0"], "", encode.IDENTIFY),
)

# A word with which the program refuses the input `!`, and the status.
REFUSALS = (("answer", FAULT), ("dump", FAULT), ("explain", FAULT), ("sim", FAULT), ("frob", NO_CALL))

# A subcommand, what it reads before endless spaces, and what it writes.
WITHOUT_END = (
    ("answer", "", ""),
    ("answer", IDENTIFY + " ", ""),
    ("dump", "", ""),
    ("dump", IDENTIFY + " ", dump.FIRST_LINE),
    ("sim", "", ""),
    ("sim", "turn P ok ok\n", ""),
)
