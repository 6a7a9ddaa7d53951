#!/usr/bin/env python3
"""Makes docs/vectors.tsv: what a device hears, and what it replies, a case a row.

The cases come from docs/COMMANDS.md, docs/WIRE.md, docs/FORMATS.md, docs/explained.txt, docs/worked.txt, and the worked messages
in tools/fuzz/worked.py. After them come cases that rules make: each refusal in the tables of the commands, each communication fault,
each kind of address, both tags, restarts, and what each write, refusal, damage and reset leaves behind. The reply is the program's.
It has to be the reply on the page, if the page shows one, or to fit what the rule says, and it has to be that of the plain model in
tools/fuzz.

A row has the image of the device, or - for a new bench device; what it hears; its reply, or - for silence; and a note of what
`hart explain` says of both. Where a device hears several things in turn, the row has parts, with "; " between. So does each row that
may leave something in the device: its last parts read all that the device holds.

Usage: tools/vectors.py PROGRAM [--check]; with --check nothing is written, and the file has to be what would be.
"""

import argparse
import functools
import os
import pathlib
import re
import subprocess
import sys

sys.dont_write_bytecode = True

from afterwards import LOOKS_NOTE, is_plain_read, left, looks, shown  # noqa: E402
from cases import cases, lone  # noqa: E402
from fuzz import texts  # noqa: E402
from hart_bench.vectors import BETWEEN, NEW, RESTART, SILENCE  # noqa: E402
from restarts import device_at, of_model, runs, script_of  # noqa: E402
from turns import turns  # noqa: E402

TOP = pathlib.Path(__file__).parents[1]
FILE = TOP / "docs" / "vectors.tsv"
HEADER = (
    "# What the bench device hears and replies: a case a row, with tabs between its columns. docs/GUIDE.md says how the rows are run.",
    "# image: the device before the case; - for the bench device as it is new.",
    "# heard: what it hears at once, in hex, a damaged byte with its fault bits, as 23!40.",
    "# reply: its reply, in hex; - for silence.",
    "# note: what is said of both in words.",
    "# Where more happens to the device in turn, heard and reply have as many parts, with ; between them. The word restart among what is",
    "# heard says that the device was without power and is on again; the reply has - there. A row that may leave something in the device",
    "# ends with requests that read all that it holds.",
    "image\theard\treply\tnote",
)
REPLY_LINE = re.compile(r"^D (\d+) ([0-9A-F]+)$", re.MULTILINE)
STATUS_LINE = re.compile(r" +(response code|device status|communication faults): ")


@functools.cache
def call(program, words, text):
    """Returns what the program writes for an input; it has to end with 0."""
    ended = subprocess.run([program, *words], input=text, capture_output=True, text=True, check=False)
    if ended.returncode or ended.stderr:
        sys.exit(f"vectors: {' '.join(words)} ended with {ended.returncode} and {ended.stderr!r} at {text}")
    return ended.stdout.strip("\n")


def is_known(case, reply):
    """Whether a reply agrees with what is known of it beforehand."""
    if case.first is not None:
        return reply != "" and lone(reply).payload[0] == case.first
    return case.reply is None or reply == bytes.fromhex(case.reply).hex(" ").upper()


def status_bytes(reply):
    """The two status bytes of a reply, "" for silence."""
    return texts.hex_text(lone(reply).payload[:2]) if reply else ""


def device_note(image):
    """What is said of a device before a case."""
    return "" if image == "-" else "Write protected. " if int(image[-1], 16) & 4 else "With this image. "


def note(program, heard, reply):
    """What is said of a part of a case: of each message or miss that is heard, and of the reply."""
    if heard == RESTART:
        return "Restart."
    lines = [line for line in call(program, ("explain",), heard).splitlines() if not line.startswith(" ")]
    said = BETWEEN.join(lines) or "No message seems to start"
    status = [line.strip() for line in call(program, ("explain",), reply).splitlines()[1:] if STATUS_LINE.match(line)]
    return f"{said}. {BETWEEN.join(status).capitalize() or 'Silence'}."


def image_words(image):
    """Returns the words of a call that give its device an image."""
    return () if image == NEW else ("--image", image)


def replies_of(program, image, parts):
    """What the device of `hart serve` replies to each part of a case."""
    said = call(program, ("serve", *image_words(image)), "".join(f"{heard}\n" for heard in parts)).split("\n")
    return ["" if line in ("ok", SILENCE) else line for line in said]


def played(program, image, parts):
    """The replies of the device of `hart sim` to the parts of a case, without the silences."""
    script = "".join(f"{line}\n" for heard in parts for line in script_of(heard))
    spoken = REPLY_LINE.findall(call(program, ("sim", *image_words(image)), script))
    return [texts.hex_text(b"\xFF" * int(preambles) + bytes.fromhex(body)) for preambles, body in spoken]


def hold(replies, wanted, what):
    """Ends the run if replies are not the wanted ones."""
    if list(replies) != list(wanted):
        sys.exit(f"vectors: {what}: {replies}, but {wanted} is wanted")


def looked_at(image, parts, replies):
    """Returns the requests that read all that a case leaves in the device, and the replies that they must get; none if it only reads."""
    if all(map(is_plain_read, parts, replies)):
        return [], []
    device = device_at(image)
    for heard, reply in zip(parts, replies, strict=True):
        device = left(device, heard, reply)
    return looks(), list(shown(device))


def row(program, image, parts, is_right):
    """The row of a case. Replies that are not the model's, or not what is known of them beforehand, end the run."""
    parts = list(parts)
    first = replies_of(program, image, parts)
    more, wanted = looked_at(image, parts, first)
    replies = replies_of(program, image, parts + more)
    hold(replies, of_model(image, parts + more), f"to {parts + more} of image {image} the program replies otherwise than the model")
    hold(replies, first + wanted, f"{parts} of image {image} leave something else in the device than they have to")
    if not is_right(first):
        sys.exit(f"vectors: {first} to {parts} of image {image} is not what is known of it")
    said = [note(program, heard, reply) for heard, reply in zip(parts, first, strict=True)] + [LOOKS_NOTE] * bool(more)
    told = BETWEEN.join(reply or SILENCE for reply in replies)
    return "\t".join((image, BETWEEN.join(parts + more), told, device_note(image) + " ".join(said)))


def rows(program):
    """The lines of the file."""
    yield from HEADER
    for image, heard, case in cases():
        answer = call(program, ("answer", *image_words(image)), heard)
        yield row(program, image, [heard], lambda first, case=case, answer=answer: first == [answer] and is_known(case, answer))
    for image, parts, known in runs():
        spoken = played(program, image, parts)
        yield row(program, image, parts, lambda first, known=known, spoken=spoken: (
            tuple(map(status_bytes, first)) == known and list(filter(None, first)) == spoken))
    for image, parts, known in turns():
        yield row(program, image, parts, lambda first, known=known: tuple(map(status_bytes, first)) == known)


def main():
    """Makes the file, or holds it against the program."""
    parser = argparse.ArgumentParser(description=__doc__.split("\n", maxsplit=1)[0])
    parser.add_argument("program", help="the built program")
    parser.add_argument("--check", action="store_true", help="write nothing; the file has to be what would be written")
    chosen = parser.parse_args()
    made = list(rows(os.path.realpath(chosen.program)))
    if not chosen.check:
        FILE.write_text("\n".join(made) + "\n", encoding="utf-8")
        print(f"{len(made) - len(HEADER)} cases in {FILE.relative_to(TOP)}")
        return 0
    there = FILE.read_text(encoding="utf-8").splitlines() if FILE.exists() else []
    if made == there:
        print(f"vectors: the program replies to {len(made) - len(HEADER)} cases as {FILE.relative_to(TOP)} says")
        return 0
    number = next((place for place, pair in enumerate(zip(made, there)) if pair[0] != pair[1]), min(len(made), len(there)))
    print(f"docs/vectors.tsv differs at line {number + 1}: `make vectors` makes it", file=sys.stderr)
    for name, lines in (("there", there), ("made", made)):
        print(f"{name}: {lines[number] if number < len(lines) else 'nothing'}", file=sys.stderr)
    return 1


if __name__ == "__main__":
    sys.exit(main())
