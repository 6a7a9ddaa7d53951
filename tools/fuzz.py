#!/usr/bin/env python3
"""Holds the built program against a plain model of it, on random frames, noise, damage, scripts, images and words.

Each case is the words and the input of one call. Its status, its output and its fault have to be those of the model in tools/fuzz.
If the words make no call, or the image is bad, the input must not be read. For speed, several inputs of `hart dump` without a fault are
heard together in one call. First of all, the model and the program are tried on worked messages. A difference is printed with the
smallest words and input that were found to show one. The cases of a seed are always the same. The last line is
`N passed, M failed`, and the status is 1 after any difference.

Usage: tools/fuzz.py [PROGRAM] [--cases N] [--seed S] [--only CALL]; PROGRAM is ./hart, N 10000, and S
another one in each run.
"""

import argparse
import fcntl
import itertools
import os
import random
import signal
import sys
import termios
from typing import NamedTuple

sys.dont_write_bytecode = True

from fuzz import calls, explain, request, scripts, serve, session, texts, worked  # noqa: E402
from fuzz.texts import Given  # noqa: E402

LONGEST_RUN = 60
HEARD_TOGETHER = 25
LONGEST_TOGETHER = 10_000
BETWEEN = b" 00!40 "
MOST_SHRUNK = 10
MOST_TRIES = 2000
MOST_SHOWN = 2000
# A pipe of packets with 1 MiB has room for 256 packets.
PIPE_BYTES = 1 << 20
MOST_ODD, LATER_PORTION, LONGEST_PORTIONED = 200, 512, 20_000


class Call(NamedTuple):
    """A call of the program: its name, its share of twenty cases, the maker of its words and input, and its model."""

    name: str
    share: int
    make: object
    model: object


CALLS = (
    Call("dump", 3, calls.dump_given, texts.dump),
    Call("explain", 6, calls.explain_given, explain.explain),
    Call("answer", 2, calls.answer_given, texts.answer),
    Call("serve", 2, calls.serve_given, serve.serve),
    Call("master", 2, session.master_given, session.master),
    Call("sim", 3, calls.sim_given, scripts.sim),
    Call("encode", 1, calls.encode_given, texts.encode),
    Call("request", 1, request.request_given, request.request),
)
BY_NAME = {call.name: call for call in CALLS}


class Shrinker:
    """Drops parts of what a call is given and keeps what is left wherever it still fails."""

    def __init__(self, fails):
        self.fails = fails
        self.tries = MOST_TRIES

    def still_fails(self, smaller):
        """Whether a smaller input fails too."""
        self.tries -= 1
        return self.fails(smaller)

    def dropped(self, parts, whole):
        """Drops runs of parts without which it still fails, long runs first, as long as tries are left. `whole` makes an input of parts."""
        size = len(parts)
        while size and self.tries:
            place = 0
            while place < len(parts) and self.tries:
                smaller = parts[:place] + parts[place + size:]
                if self.still_fails(whole(smaller)):
                    parts = smaller
                else:
                    place += size
            size //= 2
        return parts

    def given(self, given):
        """The smallest words and text that were found, without portions if they are not needed."""
        whole = given._replace(portions=())
        if given.portions and self.still_fails(whole):
            given = whole
        given = given._replace(words=self.words(given))
        return given if given.text is None else given._replace(text=self.text(given))

    def text(self, given):
        """The smallest text that was found: first lines are dropped, then bytes."""
        def with_parts(parts):
            return given._replace(text=b"".join(parts))
        lines = self.dropped(given.text.splitlines(keepends=True), with_parts)
        letters = [bytes([byte]) for byte in b"".join(lines)]
        return b"".join(self.dropped(letters, with_parts))

    def words(self, given):
        """The smallest list of words that was found: first words are dropped, then bytes of each."""
        words = self.dropped(list(given.words), lambda left: given._replace(words=left))
        for number, word in enumerate(words):
            def with_word(letters, number=number):
                return given._replace(words=words[:number] + [b"".join(letters)] + words[number + 1:])
            letters = self.dropped([bytes([byte]) for byte in word], with_word)
            words = with_word(letters).words
        return words


def input_stream(given):
    """Returns a stream of what is given; for no text, a folder, whose reads fail."""
    if given.text is None:
        return os.open(os.sep, os.O_RDONLY)
    if is_portioned(given):
        return portioned_stream(given)
    stream = os.memfd_create("input")
    os.write(stream, given.text)
    os.lseek(stream, 0, os.SEEK_SET)
    return stream


def is_portioned(given):
    """Whether a text comes in portions; a long one does not."""
    return given.portions and given.text is not None and len(given.text) <= LONGEST_PORTIONED


def portioned_stream(given):
    """Returns a pipe of packets, which gives one portion a read."""
    stream, end = os.pipe2(os.O_DIRECT | os.O_CLOEXEC)
    fcntl.fcntl(end, fcntl.F_SETPIPE_SZ, PIPE_BYTES)
    place = 0
    for number in itertools.count():
        if place >= len(given.text):
            break
        size = given.portions[number % len(given.portions)] if number < MOST_ODD else LATER_PORTION
        place += os.write(end, given.text[place:place + size])
    os.close(end)
    return stream


def is_unread(stream, given):
    """Whether nothing was read from a stream of what is given."""
    if is_portioned(given):
        return int.from_bytes(fcntl.ioctl(stream, termios.FIONREAD, bytes(4)), sys.byteorder) == len(given.text)
    return os.lseek(stream, 0, os.SEEK_CUR) == 0


def run(program, call, given):
    """What the program does: the words follow the call's name, and the text is its standard input."""
    streams = [input_stream(given), os.memfd_create("output"), os.memfd_create("errors")]
    places = [(os.POSIX_SPAWN_DUP2, stream, number) for number, stream in enumerate(streams)]
    status = status_of(os.posix_spawn(program, [program, call.name, *given.words], {}, file_actions=places))
    written, errors = (os.pread(stream, os.fstat(stream).st_size, 0) for stream in streams[1:])
    unread = is_unread(streams[0], given)
    for stream in streams:
        os.close(stream)
    return texts.Result(status, written, errors, unread)


def status_of(process):
    """Returns the status with which a process ends. A process that does not end is stopped, and has a status below 0."""
    signal.signal(signal.SIGALRM, lambda *_: os.kill(process, signal.SIGKILL))
    signal.alarm(LONGEST_RUN)
    status = os.waitstatus_to_exitcode(os.waitpid(process, 0)[1])
    signal.alarm(0)
    return status


def agree(shown, wanted):
    """Whether the program ended as the model says. A text of usage or help may be any text but the empty one."""
    if wanted.unread and not shown.unread or (shown.status, shown.written) != (wanted.status, wanted.written):
        return False
    return shown.fault != b"" if wanted.fault is None else shown.fault == wanted.fault


def worked_cases():
    """Each worked call with what it is given and how it ends."""
    for call in worked.CALLS:
        if not call.goes_on:
            ends = texts.failed(call.fault, call.written.encode()) if call.fault else texts.done(call.written.encode())
            yield call.words[0], given_of(call.words[1:], call.text), ends
    for name, cases in (("dump", worked.DUMPED), ("explain", worked.EXPLAINED)):
        for text, lines, fault in cases:
            yield name, given_of([], text), texts.failed(fault, lines.encode()) if fault else texts.done(lines.encode())
    for text, reply in worked.ANSWERED:
        yield "answer", given_of([], text), texts.done(message_line(reply))
    for image, text, reply in worked.ANSWERED_FROM:
        yield "answer", given_of(["--image", image], text), texts.done(message_line(reply))
    for text, played in worked.PLAYED:
        yield "sim", given_of([], text), texts.done(played.encode())
    for image, text, played in worked.PLAYED_FROM:
        yield "sim", given_of(["--image", image], text), texts.done(played.encode())
    for text, fault in worked.NOT_PLAYED:
        yield "sim", given_of([], text), texts.failed(fault)
    for image, text, said in worked.SERVED:
        yield "serve", given_of(["--image", image] if image else [], text), texts.done(said.encode())
    for words, message, fault in worked.ENCODED:
        ends = texts.USAGE if fault is None else texts.failed(fault) if fault else texts.done(message_line(message))
        yield "encode", given_of(words.split(), ""), ends
    yield from worked_refusals()


def worked_refusals():
    """Each word that is no image, for each call that takes an image, with an input that is bad too."""
    for image, fault in worked.NO_IMAGES:
        for name, text in itertools.product(("answer", "serve", "sim"), ("turn X ok ok", None)):
            yield name, given_of(["--image", image], text), texts.failed(fault, unread=True)


def given_of(words, text):
    """What a worked call is given."""
    return Given([word.encode() for word in words], text if text is None else text.encode())


def message_line(digits):
    """A message as the program writes it, or nothing."""
    return bytes.fromhex(digits).hex(" ").upper().encode() + b"\n" if digits else b""


def cut(value):
    """A value as it is printed, without its middle if it is long."""
    shown = repr(value)
    return shown if len(shown) <= MOST_SHOWN else f"{shown[:MOST_SHOWN // 2]} .. {shown[-MOST_SHOWN // 2:]}"


def print_difference(call, given, shown, wanted):
    """Prints a difference."""
    print(f"  words after {call.name}: {cut(given.words)}")
    print(f"  input:   {cut(given.text)}" + (f", in portions of {given.portions} bytes" if is_portioned(given) else ""))
    print(f"  program: {cut(tuple(shown))}")
    print(f"  model:   {cut(tuple(wanted))}", flush=True)


class Fuzz:
    """The cases of one seed, held against one program, with the counts of those that passed and failed."""

    def __init__(self, program, seed):
        self.program = program
        self.seed = seed
        self.passed = 0
        self.failed = 0
        self.waiting = []

    def count(self, good):
        """Counts a case."""
        self.passed += good
        self.failed += not good

    def differs(self, call, given):
        """Whether program and model differ on an input."""
        return not agree(run(self.program, call, given), call.model(given))

    def try_worked(self):
        """Holds the model, and the program, against the worked calls."""
        for name, given, wanted in worked_cases():
            call = BY_NAME[name]
            for who, shown in (("model", call.model(given)), ("program", run(self.program, call, given))):
                good = agree(shown, wanted)
                self.count(good)
                if not good:
                    print(f"the {who} differs from a worked call")
                    print_difference(call, given, shown, wanted)

    def try_case(self, number, only):
        """Tries the case with this number, or keeps it to be tried together with others."""
        rng = random.Random(f"{self.seed} {number}")
        call = BY_NAME[only] if only else rng.choices(CALLS, [call.share for call in CALLS])[0]
        given = call.make(rng)
        if call.name == "dump" and len(given.text) < LONGEST_TOGETHER and call.model(given).fault == b"":
            self.waiting.append((number, given))
        else:
            self.count_case(call, number, given)
        if len(self.waiting) == HEARD_TOGETHER:
            self.try_waiting()

    def try_waiting(self):
        """Tries the waiting inputs as one, with a damaged character between them. If that differs, tries each alone."""
        call, waiting, failed = BY_NAME["dump"], self.waiting, self.failed
        self.waiting = []
        together = Given([], BETWEEN.join(given.text for _, given in waiting))
        if not self.differs(call, together):
            self.passed += len(waiting)
            return
        for number, given in waiting:
            self.count_case(call, number, given)
        if self.failed == failed:
            self.count_case(call, waiting[-1][0], together)

    def count_case(self, call, number, given):
        """Counts the case of an input, and prints a difference."""
        differs = self.differs(call, given)
        self.count(not differs)
        if differs:
            print(f"seed {self.seed}, case {number}")
            self.print_smallest(call, given)

    def print_smallest(self, call, given):
        """Prints a difference. Among the first failures, its words and input are made smaller first."""
        if self.failed <= MOST_SHRUNK:
            given = Shrinker(lambda smaller: self.differs(call, smaller)).given(given)
        print_difference(call, given, run(self.program, call, given), call.model(given))


def main():
    """Reads the words of the command line, tries the cases, and returns the status."""
    parser = argparse.ArgumentParser(description=__doc__.split("\n", maxsplit=1)[0])
    parser.add_argument("program", nargs="?", default="./hart", help="the built program")
    parser.add_argument("--cases", type=int, default=10000, help="how many cases")
    parser.add_argument("--seed", type=int, default=random.SystemRandom().randrange(1 << 32), help="the number of the cases")
    parser.add_argument("--only", choices=BY_NAME, help="try this call alone")
    chosen = parser.parse_args()
    if not os.access(chosen.program, os.X_OK):
        parser.error(f"there is no program {chosen.program}; make builds ./hart")
    fuzz = Fuzz(chosen.program, chosen.seed)
    print(f"seed {chosen.seed}", flush=True)
    fuzz.try_worked()
    for number in range(chosen.cases):
        fuzz.try_case(number, chosen.only)
    fuzz.try_waiting()
    print(f"seed {chosen.seed}")
    print(f"{fuzz.passed} passed, {fuzz.failed} failed")
    return 1 if fuzz.failed else 0


if __name__ == "__main__":
    sys.exit(main())
