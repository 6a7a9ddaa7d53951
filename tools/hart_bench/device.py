"""`hart-bench device`: tries a device of the user's own."""

import random
import sys
import time

from .bridge import GAP, DeviceAtPort, Gone, Port
from .compare import IDENTITY_BYTES, Yardstick
from .tested import Reference, Tested
from .trial import Trial
from .vectors import NEW, program_of, rows_of, serve_of, vectors_of
from .words import difference_text, summary, write_junit

DELIVERIES = 20000
PORT_DELIVERIES = 500
# How long to wait for a reply from a port, in seconds: longer than any device may wait before it replies.
PATIENCE = 0.5


def add_words(parser):
    """Adds the words of the command line."""
    parser.add_argument("--port", metavar="PORT", help="the device is at this serial port, such as /dev/ttyUSB0, at 1200 baud")
    parser.add_argument("--restart", metavar="COMMAND", help="what switches the device at the port off and on")
    parser.add_argument("--gap", metavar="MS", type=float, default=GAP * 1000, help="so long a silence ends a reply; 50 if absent")
    parser.add_argument("--patience", metavar="MS", type=float, default=PATIENCE * 1000,
                        help="how long a reply from the port is waited for; 500 if absent")
    parser.add_argument("--image", metavar="HEX", default=NEW, help="the image with which the device begins; that of a new one if absent")
    parser.add_argument("--identity", metavar="HEX", help="the 22 bytes of its reply to Command 0, if it is another than the bench device")
    parser.add_argument("--other-values", action="store_true", help="its process values are its own, and are not compared")
    parser.add_argument("--without", metavar="COMMANDS", default="", help="leave out these commands, such as 33,40-47: those that the "
                        "device has and the bench device has not, or the other way round")
    parser.add_argument("--no-vectors", action="store_true", help="leave out the vectors")
    parser.add_argument("--vectors", metavar="FILE", help="the vectors; those beside this program if absent")
    parser.add_argument("--deliveries", metavar="N", type=int,
                        help=f"how many random deliveries; {DELIVERIES} if absent, {PORT_DELIVERIES} at a port")
    parser.add_argument("--seed", metavar="N", type=int, help="the number of the random sessions; another one each time if absent")
    parser.add_argument("--no-shrink", action="store_true", help="show the first difference as it was found")
    parser.add_argument("--junit", metavar="FILE", help="write what came of each case as JUnit XML")
    parser.add_argument("--hart", metavar="PROGRAM", help="the program hart; the one beside this program if absent")
    parser.add_argument("command", nargs="*", metavar="COMMAND", help="after --: a command that answers line by line, as hart serve does;"
                        " in its words {image} stands for the image with which it has to begin")


def progress_line():
    """Returns what shows the progress: on a terminal a line that is written over, and otherwise nothing."""
    if not sys.stderr.isatty():
        return lambda text: None
    last = [0.0]

    def show(text):
        if time.monotonic() - last[0] > 0.1:
            last[0] = time.monotonic()
            sys.stderr.write(f"\r\033[K{text}")
            sys.stderr.flush()
    return show


def identity_of(given):
    """Returns the bytes of an identity, None if none is given; ends the run if it is not one."""
    try:
        identity = None if given is None else bytes.fromhex(given)
    except ValueError:
        identity = b""
    if identity is not None and len(identity) != IDENTITY_BYTES:
        sys.exit(f"hart-bench: --identity takes {IDENTITY_BYTES} bytes in hex")
    return identity


def numbers_of(text):
    """The numbers in a list of numbers and ranges, such as 33,40-47; ends the run if it is none."""
    numbers = set()
    for word in filter(None, text.split(",")):
        first, _, last = word.partition("-")
        if not first.isdecimal() or last and not last.isdecimal():
            sys.exit(f"hart-bench: --without takes numbers and ranges, such as 33,40-47, and not {word}")
        numbers.update(range(int(first), int(last or first) + 1))
    return frozenset(numbers)


def tested_of(given, yardstick):
    """What is under test."""
    port = None
    if given.port:
        port = DeviceAtPort(Port.opened(given.port, given.gap / 1000), given.patience / 1000, given.restart)
    return Tested(given.command, port, given.image, yardstick, numbers_of(given.without))


def carried_out(trial, given, seed):
    """Tries the device by vectors and random sessions. Returns the first difference."""
    found = None
    if not given.no_vectors:
        rows = list(rows_of(vectors_of(given.vectors).read_text(encoding="utf-8")))
        found = trial.vectors(rows)
        if not found:
            print(f"vectors: {len(rows) - trial.left_out} of {len(rows)} rows, {trial.left_out} left out", flush=True)
    count = given.deliveries
    if count is None:
        count = PORT_DELIVERIES if given.port else DELIVERIES
    return found or trial.sessions(seed, count)


def told(trial, given, seed, found):
    """Tells what came of it, and returns the status."""
    program = trial.reference.program
    shortened = ""
    if found and not given.no_shrink:
        count, found = len(found.lines), trial.shrunk(found)
        shortened = f", of whose {count} lines {len(found.lines)} are left"
    print(*summary(trial), sep="\n")
    if trial.tested.yardstick.left_out:
        print(f"{trial.tested.yardstick.left_out} replies were compared without what is the device's own")
    if given.junit:
        write_junit(given.junit, trial.cases, lambda case: difference_text(program, case, ""))
    if found:
        print(difference_text(program, found, shortened))
    else:
        print(f"no difference in {trial.count} deliveries; seed {seed}")
    return 1 if found else 0


def run(parser, given):
    """Carries out the call, and returns the status."""
    if bool(given.command) == bool(given.port):
        parser.error("give either --port or a command after --")
    seed = random.SystemRandom().randrange(1 << 32) if given.seed is None else given.seed
    yardstick, program = Yardstick(identity_of(given.identity), given.other_values), program_of(given.hart)
    serve_of(program, given.image)
    try:
        trial = Trial(tested_of(given, yardstick), Reference(program, yardstick), progress_line())
        status = told(trial, given, seed, carried_out(trial, given, seed))
    except Gone as gone:
        sys.exit(f"hart-bench: {gone}")
    if sys.stderr.isatty():
        sys.stderr.write("\r\033[K")
    return status
