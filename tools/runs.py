#!/usr/bin/env python3
"""Runs the built program on the rows in tools/rows, on the calls of docs/worked.txt, and on the worked messages of docs/COMMANDS.md.

Each run is the program itself, on streams that tools/cut_streams.c cuts short or lets fail as the check says. A run is held to its
status, its output and its errors, and to the number of its reads or writes where the check counts them. hart_tests_cli and
hart_tests_station test the calls directly, which shows the numbers of faults; only the program shows `main` and real streams.

Usage: tools/runs.py PROGRAM FOLDER; FOLDER has cut_streams.so, and takes the input of a run and its counts.
"""

import itertools
import pathlib
import struct
import subprocess
import sys
from typing import NamedTuple

sys.dont_write_bytecode = True

from fuzz import worked  # noqa: E402
from rows import answer, dump, encode, explain, images, items, master, objects, request, serve, sim, words  # noqa: E402
from rows.calls import CALLS, DONE, FAULT, IDENTIFY, NO_CALL, REFUSALS, WITHOUT_END  # noqa: E402

INPUT_LIMIT = 1_048_576

# The most bytes that a read returns. The numbers 4 to 8 each end the first read of `FF FF!40` after a different byte of its second item.
PORTIONS = (1, 2, 3, 4, 5, 6, 7, 8, 100)

# Sizes of inputs. The last is the largest that is accepted.
SIZES = (255, 256, 1000, 1001, 4095, 4096, 4097, 65_536, INPUT_LIMIT)

# A character with fault bits and a message, which follow an input that may go on.
LATER = "00!40 FF FF 02 80 00 00 82 "

# How often a master writes, each time in a turn of its own.
WRITES = (1, 32, 33, 64, 65, 128, 129, 255, 256, 257, 300)


class Run(NamedTuple):
    """How a run ended, what it wrote, and how often it read, and wrote to standard output and to standard error."""

    status: int
    output: bytes
    errors: bytes
    reads: int
    writes: int
    error_writes: int

    def gave(self, status, output, errors):
        """Whether the run had this status, this output and these errors."""
        return (self.status, self.output, self.errors) == (status, output.encode(), errors.encode())


def bytes_of(text):
    """Returns the bytes of an input, which is a text or bytes already."""
    return text if isinstance(text, bytes) else text.encode()


class Runner:
    """Runs the program, and holds what comes of it to what is wanted."""

    def __init__(self, program, folder):
        self.program = program
        self.library = folder / "cut_streams.so"
        self.input = folder / "input"
        self.counts = folder / "counts"
        self.runs = 0

    def run(self, call, text, **limits):
        """Runs the program on these words and this input, under limits that tools/cut_streams.c names; None is no limit."""
        self.runs += 1
        self.input.write_bytes(bytes_of(text))
        self.counts.write_bytes(bytes(24))
        named = {name.upper(): str(limit) for name, limit in limits.items() if limit is not None}
        cut = {"LD_PRELOAD": str(self.library), "COUNTS": str(self.counts)}
        with self.input.open("rb") as given:
            words_given = [self.program, *(word.encode() for word in call)]
            ended = subprocess.run(words_given, stdin=given, capture_output=True, env={**cut, **named}, check=False, timeout=60)
        return Run(ended.returncode, ended.stdout, ended.stderr, *struct.unpack("3q", self.counts.read_bytes()))

    def hold(self, condition, call, note):
        """Ends the script if a run was not as wanted."""
        if not condition:
            sys.exit(f"runs: {' '.join(call)}: not as it has to be, {note}")

    def check_row(self, call, row, after, portion):
        """Runs a call on the input of a row, behind which comes `after`: an end, or a read that fails. If the fault is another one, the
        number of reads is not checked."""
        text, wanted, fault = row
        run = self.run(call, text, most_read=portion, after=after, most_written=1)
        size = len(bytes_of(text))
        is_read = fault not in ("", "read fault\n") or run.reads == -(-size // portion) + 1
        self.hold(run.gave(FAULT if fault else DONE, wanted, fault) and is_read, call, f"on {text!r}, {portion} a read: {run}")

    def check_rows(self, call, rows, after="end"):
        """Runs a call on the input of each row, read in portions of each size."""
        for row in rows:
            for portion in PORTIONS:
                self.check_row(call, row, after, portion)

    def serves(self, call, text, wanted):
        """Runs a call without limits: it has to succeed and to write the wanted text. Returns the run."""
        run = self.run(call, text)
        self.hold(run.gave(DONE, wanted, ""), call, f"on {text[:80]!r}: {str(run)[:400]}")
        return run


def deliveries_are_answered(runner):
    runner.check_rows(["answer"], answer.ROWS)


def every_command_is_answered_where_it_comes_alone(runner):
    requests = [answer.REQUEST + asked + "\n" for asked, _ in answer.OWN_ROWS]
    for request, (_, replied) in zip(requests, answer.OWN_ROWS):
        runner.check_row(["answer"], (request, answer.REPLY + replied + "\n", ""), "end", 1)
    runner.check_row(["answer"], ("".join(requests), "", ""), "end", 1)


def frames_in_noise_have_a_line_each(runner):
    runner.check_rows(["dump"], dump.ROWS)


def what_was_heard_is_said_in_words(runner):
    runner.check_rows(["explain"], explain.ROWS)
    runner.check_rows(["explain"], explain.FAILED_READS, "failure")


def raw_bytes_are_said_in_words(runner):
    runner.check_rows(["explain", "--raw"], explain.RAW_ROWS)
    runner.check_rows(["explain", "--raw"], explain.RAW_FAILED_READS, "failure")


def what_was_heard_is_written_as_objects(runner):
    runner.check_rows(["explain", "--json"], objects.ROWS)
    runner.check_rows(["explain", "--json"], objects.FAILED_READS, "failure")
    for call in (["explain", "--raw", "--json"], ["explain", "--json", "--raw"]):
        runner.check_rows(call, objects.RAW_ROWS)


def scripts_are_carried_out(runner):
    runner.check_rows(["sim"], sim.ROWS)


def lines_are_served_in_turn(runner):
    runner.check_rows(["serve"], serve.ROWS)
    runner.check_rows(["serve"], serve.FAILED_READS, "failure")


def a_master_answers_lines_in_turn(runner):
    runner.check_rows(["master"], master.ROWS)
    runner.check_rows(["master"], master.FAILED_READS, "failure")


def a_line_is_served_before_more_is_read(runner):
    # Each read gives a byte, and the second write fails: only two lines had been read by then.
    for word, lines, said in ("serve", "counter\n\n", "counter 0\n"), ("master", "submit @0 0\nsend\n", "ok\n"):
        run = runner.run([word], lines + "restart\n", most_read=1, failed_output=1)
        is_named = run.gave(FAULT, said, "write fault\n") and (run.reads, run.writes) == (len(lines), 2)
        runner.hold(is_named, [word], run)


def lines_up_to_the_longest_are_served(runner):
    longest = "00" * (INPUT_LIMIT // 2 - len(IDENTIFY)) + " " * len(IDENTIFY) + IDENTIFY
    runner.hold(len(longest) == INPUT_LIMIT, [], "the longest line")
    for line, said in (
        (longest, answer.REPLY_TO_PRIMARY),
        (longest + "\r", answer.REPLY_TO_PRIMARY),
        (" " + longest, "bad line: too long\n"),
        (longest + "\r\r", "bad line: too long\n"),
        (longest * 3, "bad line: too long\n"),
    ):
        runner.serves(["serve"], f"protect on\n{line}\ncounter\n", f"ok\n{said}counter 0\n")


def deliveries_up_to_the_longest_are_heard(runner):
    room = INPUT_LIMIT - len("heard ") - len(master.REPLY)
    longest = "heard " + "00" * (room // 2) + " " * (room % 2) + master.REPLY
    answered = f"answered 1 {master.PAYLOAD}\n"
    runner.hold(len(longest) == INPUT_LIMIT, [], "the longest line")
    for line, said in (longest, answered), (longest + "\r", answered), (longest + " ", "bad line: too long\n"):
        runner.serves(["master"], f"submit @0 0\nsend\n{line}\nsend\n", f"ok\nsend {master.MESSAGE}\n{said}-\n")


def long_scripts_have_long_texts(runner):
    spoken = "P 20 82B7420A1B2C13030123453D\nD 5 86B7420A1B2C130500400123457F\n"
    for writes in WRITES:
        script = "submit P 37420A1B2C 19 012345\nturn P ok ok\n" * writes
        answered = "".join(f"{number} answered 1 00 40 012345\n" for number in range(1, writes + 1))
        wanted = sim.sim_text(spoken * writes + answered, counter=writes, assembly="012345", flags="03")
        runner.serves(["sim"], script, wanted)


def inputs_up_to_the_largest_are_taken(runner):
    for size in SIZES:
        room = size - len(IDENTIFY)
        heard = "00" * (room // 2) + " " * (room % 2) + IDENTIFY
        noise = "noise " + "0" * ((size - 7) // 2 * 2) + " " * (2 - size % 2)
        start = room // 2 + 2
        runner.hold(len(heard) == len(noise) == size, [], f"an input of {size} bytes")
        runner.serves(["answer"], heard, answer.REPLY_TO_PRIMARY)
        runner.serves(["dump"], heard, f"{start} {start + 5} STX P 0 @0 - 0 -\n")
        runner.serves(["sim"], noise, sim.AS_IT_WAS)


def an_explanation_has_no_such_limit(runner):
    text = " " * (2 * INPUT_LIMIT) + IDENTIFY
    runner.serves(["explain"], text, explain.IDENTIFY)
    runner.serves(["explain", "--json"], text, objects.IDENTIFY)


def words_give_a_message_or_the_first_bad_one(runner):
    rows = [*encode.ROWS]
    rows += [(["encode", "--", *four], line, "") for four, line in encode.REQUESTS]
    rows += [(["encode", "--", *four], "", f"bad word {number}\n") for four, number in encode.BAD_WORDS]
    rows += [(["request", *given], line, "") for given, line in request.REQUESTS]
    rows += [(["request", *given], "", f"bad word {fault}\n") for given, fault in request.BAD_WORDS]
    for call, wanted, fault in rows:
        run = runner.run(call, IDENTIFY, most_written=1)
        runner.hold(run.gave(FAULT if fault else DONE, wanted, fault) and run.reads == 0, call, run)


def a_device_goes_on_from_its_image(runner):
    for call, text, wanted in images.ROWS:
        runner.check_row(call, (text, wanted, ""), "end", 1)


def a_bad_image_is_named_before_anything_is_read(runner):
    for bad, fault in images.BAD_IMAGES:
        for word in ("answer", "serve", "sim"):
            call = [word, "--image", bad]
            # The input is bad too.
            run = runner.run(call, "!")
            runner.hold(run.gave(FAULT, "", fault) and run.reads == 0, call, run)


def items_are_read_up_to_what_is_open_or_bad(runner):
    runner.check_rows(["dump"], items.WHOLE)
    runner.check_rows(["answer"], items.DAMAGED)
    for after, rows in (("end", items.BAD), ("failure", items.BROKEN_OFF)):
        for text, read, place in rows:
            for call, begun, wanted in ((["dump"], "", ""), (["explain"], items.BEGUN, items.said_of(read))):
                fault = "read fault\n" if place is None else f"bad hex at {len(begun) + place}\n"
                runner.check_rows(call, [(begun + text, wanted, fault)], after)


def each_failed_read_is_named(runner):
    for word, interrupted in itertools.product(("answer", "dump", "explain", "sim"), (None, 1)):
        for read in range(len(IDENTIFY) + 1):
            run = runner.run([word], IDENTIFY[:read], most_read=1, after="failure", interrupted=interrupted)
            is_named = (run.status, run.errors, run.reads) == (FAULT, b"read fault\n", read + 1)
            # The rows of `explain` hold what it says of the bytes before the failed read.
            runner.hold(is_named and (run.output == b"" or word == "explain"), [word], f"at read {read}: {run}")


def each_failed_write_is_named(runner):
    for (call, text, wanted), interrupted in itertools.product(CALLS, (None, 1)):
        for room in range(len(wanted)):
            run = runner.run(call, text, most_read=1, most_written=1, failed_output=room, interrupted=interrupted)
            is_named = run.gave(FAULT, wanted[:room], "write fault\n") and run.writes == room + 1
            runner.hold(is_named, call, f"at write {room}: {run}")


def a_write_that_takes_no_byte_is_a_failure(runner):
    for call, text, wanted in CALLS:
        whole = runner.serves(call, text, wanted)
        run = runner.run(call, text, room=25)
        # The last write is cut short, and the rest of it is tried once.
        is_named = run.gave(FAULT, wanted[:25], "write fault\n") and run.writes == whole.writes + 1
        runner.hold(is_named, call, run)


def an_input_without_end_is_too_long(runner):
    for word, text, wanted in WITHOUT_END:
        run = runner.run([word], text, most_read=64, after="spaces")
        # The last read gives the first byte after the longest input.
        is_named = run.gave(FAULT, wanted, "input too long\n") and run.reads == 16_385
        runner.hold(is_named, [word], f"on {text!r}: {run}")


def words_that_make_no_call_touch_no_stream(runner):
    for call in words.NO_CALLS:
        run = runner.run(call, IDENTIFY)
        is_refused = run.status == NO_CALL and run.reads == run.writes == 0 and run.errors != b""
        runner.hold(is_refused, call, run)


def words_of_any_length_are_read(runner):
    for before, after, status, start in words.LONG_CALLS:
        call = [*before, "0" * 100_000, *after]
        run = runner.run(call, IDENTIFY)
        said = run.errors if status == FAULT else run.errors[: len(start)]
        is_named = run.status == status and said == start.encode()
        runner.hold(is_named and run.reads == run.writes == 0, before, f"but {start!r} is wanted")


def a_failed_write_of_errors_leaves_the_status(runner):
    for (word, status), interrupted in itertools.product(REFUSALS, (None, 1)):
        whole = runner.run([word], "!").errors.decode()
        runner.hold(whole != "", [word], "it says nothing")
        for room in range(len(whole)):
            run = runner.run([word], "!", most_written=1, failed_error=room, interrupted=interrupted)
            stays = run.gave(status, "", whole[:room]) and (run.writes, run.error_writes) == (0, room + 1)
            runner.hold(stays, [word], f"with room for {room}: {run}")


def lines_are_written_before_more_is_read(runner):
    calls = (
        (["dump"], dump.FAILED_WRITES),
        (["explain"], explain.FAILED_WRITES),
        (["explain", "--json"], objects.FAILED_WRITES),
        (["explain", "--raw"], explain.RAW_FAILED_WRITES),
        (["explain", "--raw", "--json"], objects.RAW_FAILED_WRITES),
    )
    for call, rows in calls:
        for row in rows:
            run = runner.run(call, row.text, most_read=row.most_read, most_written=row.most_written, failed_output=row.write)
            is_named = run.gave(FAULT, row.written, "write fault\n") and (run.reads, run.writes) == (row.reads, row.write + 1)
            runner.hold(is_named, call, f"at write {row.write} on {row.text}: {run}")


def worked_calls_end_as_shown(runner):
    for call in (call for call in worked.CALLS if not call.goes_on):
        fault = f"{call.fault}\n" if call.fault else ""
        run = runner.run(call.words, call.text, most_written=1)
        runner.hold(run.gave(FAULT if fault else DONE, call.written, fault), call.words, f"on {call.text!r}: {run}")


def worked_messages_are_as_shown(runner):
    for text, said, fault in worked.EXPLAINED:
        run = runner.run(["explain"], text)
        runner.hold(run.gave(FAULT if fault else DONE, said, f"{fault}\n" if fault else ""), ["explain"], f"on {text!r}: {run}")
    for image, text, said in worked.SERVED:
        call = ["serve", *(["--image", image] if image else [])]
        run = runner.run(call, text)
        runner.hold(run.gave(DONE, said, ""), call, f"on {text!r}: {run}")


def worked_calls_write_before_they_read_on(runner):
    for call in (call for call in worked.CALLS if call.goes_on):
        # The first read returns just the worked input. The text after it leads to one more line.
        size = len(call.text)
        text = call.text + LATER + " " * size
        first, second = (runner.run(call.words, text, most_read=size, failed_output=write) for write in (0, 1))
        ended = second.gave(FAULT, call.written, f"{call.fault}\n") and second.reads == 1
        read_on = second.reads > 1 and call.written == (second.output.decode() if first.reads == 1 else "")
        runner.hold(ended if call.fault else read_on, call.words, f"after {call.text!r}: {first}, {second}")


def nothing_is_read_after_the_end(runner):
    for call, rows in ((["dump"], dump.READS), (["explain"], explain.READS), (["explain", "--json"], objects.READS)):
        for row in rows:
            run = runner.run(call, row.text, most_read=row.most_read, after=row.after)
            gave = run.gave(FAULT if row.fault else DONE, row.written, row.fault)
            is_no_more = gave and (run.reads, run.writes) == (row.reads, row.writes)
            runner.hold(is_no_more, call, f"on {row.text}, {row.most_read} a read: {run}")


def inputs_are_read_up_to_the_limit(runner):
    for end, after, fault, wanted in dump.LONGEST_INPUTS:
        run = runner.run(["dump"], " " * (INPUT_LIMIT - len(end)) + end, after=after)
        runner.hold(run.gave(FAULT if fault else DONE, wanted, fault), ["dump"], f"on {end}: {run}")


def lines_go_out_together(runner):
    count = 1170
    lines = "".join(f"{7 * number + 2} {7 * number + 7} STX P 0 @0 - 0 -\n" for number in range(count))
    run = runner.run(["dump"], "FFFF0280000082" * count + " ")
    # The lines of a portion are kept until all of it is scanned.
    is_one = run.gave(DONE, lines, "") and run.writes == 1 and len(lines) == 31_274
    runner.hold(is_one, ["dump"], f"on {count} messages: {run.writes} writes")


CHECKS = (
    deliveries_are_answered,
    every_command_is_answered_where_it_comes_alone,
    frames_in_noise_have_a_line_each,
    what_was_heard_is_said_in_words,
    raw_bytes_are_said_in_words,
    what_was_heard_is_written_as_objects,
    scripts_are_carried_out,
    lines_are_served_in_turn,
    a_master_answers_lines_in_turn,
    a_line_is_served_before_more_is_read,
    lines_up_to_the_longest_are_served,
    deliveries_up_to_the_longest_are_heard,
    long_scripts_have_long_texts,
    inputs_up_to_the_largest_are_taken,
    an_explanation_has_no_such_limit,
    words_give_a_message_or_the_first_bad_one,
    a_device_goes_on_from_its_image,
    a_bad_image_is_named_before_anything_is_read,
    items_are_read_up_to_what_is_open_or_bad,
    each_failed_read_is_named,
    each_failed_write_is_named,
    a_write_that_takes_no_byte_is_a_failure,
    an_input_without_end_is_too_long,
    words_that_make_no_call_touch_no_stream,
    words_of_any_length_are_read,
    a_failed_write_of_errors_leaves_the_status,
    lines_are_written_before_more_is_read,
    worked_calls_end_as_shown,
    worked_messages_are_as_shown,
    worked_calls_write_before_they_read_on,
    nothing_is_read_after_the_end,
    inputs_are_read_up_to_the_limit,
    lines_go_out_together,
)


def main():
    program, folder = sys.argv[1:]
    runner = Runner(program, pathlib.Path(folder))
    for check in CHECKS:
        before = runner.runs
        check(runner)
        print(f"{check.__name__.replace('_', ' ')}: {runner.runs - before} runs")


if __name__ == "__main__":
    main()
