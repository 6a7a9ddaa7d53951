#!/usr/bin/env python3
"""Tries hart-bench, as `make install` puts it below an empty folder, on devices and masters that are right and on wrong ones.

`hart-bench device` has to find no difference in `hart serve`, in the plain device in Python and in a device at a pseudo-terminal, and to
name the difference of a device with a bug. `hart-bench master` gives a master every kind of fault by a plan, and its report has to be
what the plan says and what the master counted. Each wrong master has to be named by the rule it breaks. With --library only the
library's device is tried, in C and in Python.

Usage: tools/bench.py PROGRAM [--library FOLDER] [--deliveries N]
"""

import argparse
import itertools
import os
import pathlib
import random
import re
import subprocess
import sys
import tempfile
import time
import xml.etree.ElementTree as tree

sys.dont_write_bytecode = True

import bench_master  # noqa: E402
from bench_master import ASKED, CHANGED, ENDLESS, HASTY, LIMIT, SHORT, Master, faults_in  # noqa: E402
from hart_bench.faults import NONE, WORDS  # noqa: E402

TOP = pathlib.Path(__file__).parents[1]
TOOLS = TOP / "tools"
TIMES = 20
MOST_RUNS = 5
# The number of a bug in tools/planted.py that an early row finds, by what a write leaves behind.
BUG = "8"
GAP_MS, DELAY_MS = "15", "40"
DELIVERIES = 20000
AT_PORT = 60
# Faults after which a master still has its reply.
HARMLESS = (NONE, "noise-request", "noise-reply", "busy", "delay")
RULES = {ENDLESS: "too often", CHANGED: "changed", SHORT: "given up", HASTY: "too soon"}
NO_DIFFERENCE = re.compile(r"^no difference in (\d+) deliveries; seed \d+$", re.MULTILINE)
# The identity of the other device that tools/line_device.c can be.
OTHER_IDENTITY = "FE 2A55 05 07 03 02 18 00 0F0F0F 06 04 0000 00 0099 0037 01".replace(" ", "")


def fails(what):
    """Ends the run."""
    sys.exit(f"bench: {what}")


def installed(program, folder):
    """Installs hart-bench and the program below a folder, and returns the path of hart-bench."""
    words = ["make", "-s", "install-bench", f"PREFIX={folder}", f"HART={program}"]
    subprocess.run(words, cwd=TOP, check=True)
    return folder / "bin" / "hart-bench"


def called(bench, *words):
    """Calls hart-bench from an empty folder, without the tools of the repository."""
    with tempfile.TemporaryDirectory() as empty:
        return subprocess.run([bench, *words], cwd=empty, capture_output=True, text=True, check=False, env={"PATH": os.environ["PATH"]})


def try_manual(bench):
    """The man page names the options of each call, and no others."""
    sections = (TOP / "docs" / "hart-bench.1").read_text(encoding="utf-8").replace("\\-", "-").split(".SH OPTIONS OF ")[1:]
    for section in sections:
        call = section.split()[0].lower()
        shown, named = (set(re.findall(r"--[a-z][a-z-]*", text)) for text in (called(bench, call, "--help").stdout, section))
        if shown - {"--help"} != named:
            fails(f"docs/hart-bench.1 names {sorted(named)} for {call}, and its help {sorted(shown)}")
    print(f"bench: docs/hart-bench.1 names the options of {len(sections)} calls")


def try_right(bench, name, words, least):
    """Tries a right device, which may show no difference."""
    ended = called(bench, "device", *words)
    found = NO_DIFFERENCE.search(ended.stdout)
    if ended.returncode or not found or int(found[1]) < least:
        fails(f"{name}: status {ended.returncode}\n{ended.stdout[-3000:]}{ended.stderr[-1000:]}")
    print(f"bench: {name}: {found[0]}", flush=True)


def line_device(*words):
    """A command of the device in Python that answers line by line."""
    return [sys.executable, "-S", str(TOOLS / "planted.py"), *words]


def try_wrong(bench, folder):
    """Tries a device with a bug: the difference has to be named, and stand in the JUnit file."""
    report = folder / "junit.xml"
    ended = called(bench, "device", "--seed", "7", "--junit", str(report), "--", *line_device(BUG, "{image}"))
    shown = ended.stdout
    wanted = ("difference at ", "heard    ", "expected ", "came     ", "are left")
    if ended.returncode != 1 or not all(part in shown for part in wanted):
        fails(f"a device with a bug: status {ended.returncode}\n{shown[-3000:]}{ended.stderr[-1000:]}")
    suites = tree.parse(report).getroot()
    failures = suites.findall("./testsuite/testcase/failure")
    if len(failures) != 1 or "expected " not in failures[0].text:
        fails(f"{len(failures)} failures in the JUnit file")
    print(f"bench: a device with a bug: {shown[shown.index('difference at'):].splitlines()[0]}")


def try_devices(bench, folder, chosen):
    """Tries all devices."""
    count = ["--deliveries", str(chosen.deliveries)]
    serve = [str(folder / "bin" / "hart"), "serve", "--image", "{image}"]
    try_right(bench, "hart serve", [*count, "--", *serve], chosen.deliveries)
    try_right(bench, "hart serve without images", ["--deliveries", "1000", "--no-vectors", "--", *serve[:2]], 1000)
    try_right(bench, "the plain device in Python", ["--no-vectors", *count, "--", *line_device("0", "{image}")], chosen.deliveries)
    try_wrong(bench, folder)
    patiently(try_port, bench)


def try_library(bench, folder, chosen):
    """Tries the library's device, in C and in Python, and in C with another identity and other process values."""
    library, built = pathlib.Path(chosen.library).resolve(), folder / "line_device"
    subprocess.run([os.environ.get("CC", "cc"), "-std=c11", "-O2", "-Wall", "-Wextra", "-Werror", f"-I{TOP / 'include'}",
                    str(TOOLS / "line_device.c"), str(library / "libhart.a"), "-o", str(built)], check=True)
    count = ["--deliveries", str(chosen.deliveries)]
    try_right(bench, "the library's device in C", [*count, "--", str(built), "{image}"], chosen.deliveries)
    other = ["--identity", OTHER_IDENTITY, "--other-values", "--deliveries", "2000"]
    try_right(bench, "a device with another identity", [*other, "--", str(built), "{image}", "other"], 2000)
    python = [sys.executable, str(TOOLS / "line_device.py"), str(library / "libhart.so"), "{image}"]
    try_right(bench, "the library's device in Python", ["--no-vectors", *count, "--", *python], chosen.deliveries)


def try_port(bench):
    """A device at a pseudo-terminal, `hart serve` behind the bridge, which is hart-bench master without faults, shows no difference."""
    with started(bench, "--gap", "5", "--limit", "0") as (process, name):
        words = ["--port", name, "--gap", "30", "--patience", "500", "--no-vectors", "--deliveries", str(AT_PORT)]
        try_right(bench, "a device at a pseudo-terminal", words, AT_PORT)
        process.terminate()


class started:
    """A running `hart-bench master`, with the name of its pseudo-terminal."""

    def __init__(self, bench, *words):
        self.process = subprocess.Popen([bench, "master", *words], stdout=subprocess.DEVNULL, stderr=subprocess.PIPE, text=True)

    def __enter__(self):
        line = self.process.stderr.readline()
        if not line.startswith("the device is at "):
            fails(f"hart-bench master says {line}{self.process.stderr.read()}")
        return self.process, line.split()[-1]

    def __exit__(self, *_):
        self.process.kill()
        self.process.wait()
        self.process.stderr.close()


def patiently(test, *words):
    """Runs a test that needs a clock, at most MOST_RUNS times until it passes, since the machine may have been too slow."""
    for _ in range(MOST_RUNS - 1):
        try:
            return test(*words)
        except SystemExit as failed:
            print(str(failed).partition("\n")[0] + ": once more", flush=True)
    return test(*words)


def watched(bench, kind, plan, *words):
    """Lets a master ask under a plan of faults. If there are words for faults by chance, the plan only says how many sendings there are.
    Returns the master, the status of the bench and its report.
    """
    words = words or ("--plan", ",".join(plan))
    times = ["--gap", GAP_MS, "--limit", str(1000 * LIMIT / 2), "--delay", DELAY_MS]
    with started(bench, *words, *times, "--seed", "1") as (process, name):
        master = Master(name, kind)
        master.play(plan)
        master.close()
        report = process.stderr.read()
        return master, process.wait(timeout=10), report


def table(report, begin):
    """Returns the numbers of a table in a report, by the words before them. The head of the table begins with the word `begin`."""
    lines = report[report.index(f"{begin} "):].splitlines()[1:]
    rows = (re.fullmatch(r"(\S.*?)((?:\s+\d+){2,})", line) for line in lines)
    return {row[1]: [int(number) for number in row[2].split()] for row in itertools.takewhile(bool, rows)}


def try_report(bench):
    """Each kind of fault happens to a right master, and the report is held against the plan and against what the master counted."""
    rng = random.Random(5)
    plan = [word for word in WORDS for _ in range(TIMES)]
    rng.shuffle(plan)
    master, status, report = watched(bench, bench_master.RIGHT, plan)
    if status:
        fails(f"a right master is said to break rules:\n{report}")
    commands = table(report, "command")
    counted = {str(command): [master.requests[command], master.sendings[command], master.accepted.get(command, 0)] for command, _ in ASKED}
    if {command: counts[:3] for command, counts in commands.items()} != counted:
        fails(f"the report has {commands}, and the master counted {counted}\n{report}")
    faults = table(report, "fault")
    if {fault: counts[0] for fault, counts in faults.items() if fault in WORDS} != faults_in(plan):
        fails(f"the report has the faults {faults}\n{report}")
    retries = sum(counts[1] for counts in faults.values())
    if retries != sum(master.sendings.values()) - sum(master.requests.values()) or any(faults[word][1] for word in HARMLESS[1:]):
        fails(f"the report has {retries} retries\n{report}")
    accepted = re.search(r"^replies that the master had to accept: (\d+)$", report, re.MULTILINE)
    if int(accepted[1]) != sum(master.accepted.values()):
        fails(f"the report has {accepted[1]} replies to accept\n{report}")
    print(f"bench: {len(WORDS) - 1} kinds of fault, each {TIMES} times; the report fits the plan and the master, with {retries} retries")


def try_chances(bench):
    """With a seed the same faults happen by chance in each run, on the messages that are named, and a right master breaks no rule."""
    words = ("--lose", "20", "--flip", "10", "--late", "20", "--on", "reply")
    reports = [watched(bench, bench_master.RIGHT, [NONE] * 60, *words)[2] for _ in range(2)]
    faults = [{fault: counts[0] for fault, counts in table(report, "fault").items() if fault in WORDS} for report in reports]
    if faults[0] != faults[1] or set(faults[0]) != {"lose-reply", "flip-reply", "delay"} or "\n0 rules broken" not in reports[0]:
        fails(f"by chance came {faults}\n{reports[0]}")
    print(f"bench: faults by chance, the same in two runs: {faults[0]}")


def try_wrong_master(bench, kind, rule):
    """A wrong master is named by the rule that it breaks, and by no other."""
    plan = ([NONE] + ["lose-request", "lose-reply", "flip-reply", "lose-reply"] * 2) * 3
    _, status, report = watched(bench, kind, plan)
    broken = set(re.findall(r"^rule broken, ([a-z ]+):", report, re.MULTILINE))
    if status != 1 or broken != {rule}:
        fails(f"the master that {kind} is said to break {broken or 'no rule'}, and not {rule}\n{report}")
    print(f"bench: a wrong master, {kind}: named by the rule \"{rule}\"", flush=True)


def main():
    """Tries devices and masters."""
    parser = argparse.ArgumentParser(description=__doc__.split("\n", maxsplit=1)[0])
    parser.add_argument("program", help="the built program")
    parser.add_argument("--library", metavar="FOLDER", help="where libhart.a and libhart.so are, whose devices alone are then tried")
    parser.add_argument("--deliveries", type=int, default=DELIVERIES, help="how many random deliveries each device hears")
    chosen = parser.parse_args()
    begun = time.monotonic()
    with tempfile.TemporaryDirectory() as work:
        bench = installed(os.path.realpath(chosen.program), pathlib.Path(work))
        if chosen.library:
            try_library(bench, pathlib.Path(work), chosen)
        else:
            try_manual(bench)
            try_devices(bench, pathlib.Path(work), chosen)
            patiently(try_report, bench)
            patiently(try_chances, bench)
            for kind, rule in RULES.items():
                patiently(try_wrong_master, bench, kind, rule)
    print(f"bench: as wanted, in {time.monotonic() - begun:.0f} s")


if __name__ == "__main__":
    main()
