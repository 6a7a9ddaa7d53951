"""The rows of the runs of the program: what it is given, and what it writes."""

from typing import NamedTuple


class FailedWrite(NamedTuple):
    """An input, the number of the write that fails, and the most bytes of a read and of a write; then the number of reads, all of which
    came before that write, and what was written before it. None is no limit.
    """

    text: str | bytes
    write: int
    reads: int
    most_read: int | None = 1
    most_written: int | None = None
    written: str = ""


class Read(NamedTuple):
    """An input, what comes after it, and the most bytes of a read; then the line of the fault, the numbers of reads and writes, and
    what is written. None is no limit.
    """

    text: str
    reads: int
    writes: int
    after: str = "end"
    most_read: int | None = 1
    fault: str = ""
    written: str = ""
