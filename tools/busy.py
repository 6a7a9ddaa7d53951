"""Checks that measure time, on a machine that may be busy."""

import sys
import threading
import time

STEP = 0.009
# How many seconds late a sleep may end on an idle machine.
ON_TIME = 0.002
TRIES = 5


class Failed(Exception):
    """Why a check failed."""


class Busy(threading.Thread):
    """Sleeps again and again while a `with` block runs. `late` is how late these sleeps ended in all, in seconds: 0 on an idle machine.
    A program that waits as often in this time is expected to be as late."""

    def __init__(self):
        super().__init__(daemon=True)
        self.late, self.ends = 0.0, False

    def run(self):
        while not self.ends:
            start = time.monotonic()
            time.sleep(STEP)
            self.late += max(0.0, time.monotonic() - start - STEP - ON_TIME)

    def __enter__(self):
        self.start()
        return self

    def __exit__(self, *_):
        self.ends = True
        self.join()


def patiently(script, check, *given):
    """Makes a check, and ends the script if it fails each time. On a busy machine a program may stall, and a pseudo-terminal may hand on
    late what is written to it, even if no sleep is late. So what a program hears may have a silence in it. A fault of the program comes
    again."""
    for number in range(1, TRIES + 1):
        try:
            with Busy() as busy:
                return check(*given)
        except Failed as failed:
            if number == TRIES:
                sys.exit(f"{script}: {failed}")
            print(f"{script}: try {number}, on a machine that is {busy.late:.2f} s late: {failed}", flush=True)
    return None
