#!/usr/bin/env python3
"""Proves and builds crates side by side, each as soon as those below it are done.

Usage: tools/build.py [--jobs N] [--whole | CRATE ..]

Proves the named crates, or the program hart, and all below them. `--whole` proves every crate with its tests, checks the layout of
`rt fmt`, and counts what passed and failed in its last line. `--jobs` is the number of processors to use.

Runs each program, and compares what it writes with its file `stdout`; `--whole` does so for each of two compilers. A crate that has not
changed since it was built here is left as it is. Two runs of `rt` in one tree wait for each other, so each crate is built in a copy of the
tree, and what `rt` keeps of it in `out` then moves to the tree. What `rt` prints goes to build/logs/CRATE.log.
"""

import argparse
import contextlib
import filecmp
import hashlib
import math
import os
import re
import shutil
import subprocess
import sys
import tempfile
import time
from collections import Counter
from concurrent.futures import FIRST_COMPLETED, ThreadPoolExecutor, wait

from kit import ROOT, copy_crates, crates_in, text_of, version

BUILD = f"{ROOT}/build"
LOGS, SUMS = f"{BUILD}/logs", f"{BUILD}/sums"
SOURCES = ("src", "specs", "proofs")
# A check of the largest crate takes 4 GB of memory.
MEMORY = 4_000_000
# Each further job of a check costs about a fifth more processor time, and saves less time than the one before.
MOST_JOBS = 3
# Words of the prover's last line by which a verdict fails, as `rt help` says: contracts that may say nothing, calls that may not return,
# code that nothing proves. `main` names handles. Tests may end the process, and then have other words.
NO_VERDICT = re.compile(r"^logic=.*? ((?:hides|bugs|foreign|main|may-\w+)=\S*)", re.M)
NO_TESTS = re.compile(r"^(tests=0)$|^logic=.*? ((?:bugs|foreign|may-wait|may-serve)=\S*)", re.M)
# How many seconds a program may run, with the check of its proof.
LIMIT = 3600


def processors():
    """How many checks can run side by side, by the processors and the free memory."""
    with open("/proc/meminfo", encoding="utf-8") as it:
        free = int(re.search(r"MemAvailable:\s+(\d+)", it.read())[1])
    return max(1, min(len(os.sched_getaffinity(0)), free // MEMORY))


def folder_of(name):
    return f"{ROOT}/crates/{name}"


def files_of(name):
    """The source files of a crate, and those that say on what a program runs and what it writes, in order."""
    inside = [f"{at}/{file}" for part in SOURCES for at, _, files in os.walk(f"{folder_of(name)}/{part}") for file in files]
    return sorted([*inside, *(it.path for it in os.scandir(folder_of(name)) if it.is_file())])


def sums_of(every):
    """Returns by crate a checksum of the toolchain's version, and of the source files and the lines of crates.txt of the crate and of those
    below it."""
    kit, own, found = version(), {}, {}
    for name, crate in every.items():
        digest = hashlib.sha256(crate.line.encode())
        for file in files_of(name):
            with open(file, "rb") as it:
                digest.update(f"{os.path.relpath(file, folder_of(name))}\n".encode() + it.read())
        own[name] = digest.hexdigest()
        found[name] = hashlib.sha256(" ".join([kit, *(own[it] for it in (*crate.below, name))]).encode()).hexdigest()
    return found


def is_built(name, sums, is_whole):
    """Whether this crate was built here of these sources, and with `is_whole` also held to all that `--whole` asks."""
    with contextlib.suppress(OSError):
        said = text_of(f"{SUMS}/{name}").split()
        return said[:1] == [sums[name]] and (not is_whole or said[1:] == ["whole"]) and os.path.isdir(f"{folder_of(name)}/out")
    return False


def note_built(name, sums, is_whole):
    with open(f"{SUMS}/{name}", "w", encoding="utf-8") as it:
        it.write(f"{sums[name]}{' whole' * is_whole}")


def has_tests(name):
    return any("#[test]" in text_of(it) for it in files_of(name) if it.endswith(".rt"))


def calls_of(name, jobs, is_whole):
    """The calls of `rt` that prove and build a crate. The last one builds what stays."""
    if os.path.isfile(f"{folder_of(name)}/src/main.rt"):
        words = text_of(f"{folder_of(name)}/args").splitlines()
        backends = ["rattle", "llvm"] if is_whole else ["llvm"]
        return [["rt", "run", "--jobs", str(jobs), "--backend", it, "--", *words] for it in backends]
    return [["rt", "test" if has_tests(name) else "lib", "--jobs", str(jobs)]]


def call(words, made, log):
    """Runs a call of `rt` in a crate, and returns whether it ended well, and a program wrote what its file `stdout` has."""
    how = {"cwd": made, "stderr": log, "check": False}
    if words[1] != "run":
        return subprocess.run(words, stdin=subprocess.DEVNULL, stdout=log, **how).returncode == 0
    with open(f"{made}/stdin", "rb") as given, open(f"{made}/stdout", "rb") as wanted:
        ran = subprocess.run(["timeout", str(LIMIT), *words], stdin=given, stdout=subprocess.PIPE, **how)
        if ran.returncode == 0 and ran.stdout == wanted.read():
            return True
    log.write(b"error: the program ended with status %d, and wrote\n%s" % (ran.returncode, ran.stdout))
    return False


def is_laid_out(name, made, log):
    """Runs `rt fmt` in the copy of a crate, and returns whether it changed nothing."""
    ran = subprocess.run(["rt", "fmt"], cwd=made, stdin=subprocess.DEVNULL, stdout=log, stderr=log, check=False)
    files = [os.path.relpath(it, folder_of(name)) for it in files_of(name) if it.endswith((".rt", ".antt"))]
    changed = [it for it in files if not filecmp.cmp(f"{made}/{it}", f"{folder_of(name)}/{it}", shallow=False)]
    log.write("".join(f"error: {it} is not in the layout: run rt fmt\n" for it in changed).encode())
    return ran.returncode == 0 and not changed


def is_verdict(name):
    """Whether what the prover says of a crate has no word by which a verdict fails."""
    found = (NO_TESTS if has_tests(name) else NO_VERDICT).findall(text_of(f"{LOGS}/{name}.log"))
    with open(f"{LOGS}/{name}.log", "a", encoding="utf-8") as log:
        log.writelines(f"error: this is no verdict: {''.join(it)}\n" for it in found)
    return not found


def build(name, jobs, is_whole):
    """Builds one crate, and returns whether it is proved, and all that was asked holds."""
    to = f"{folder_of(name)}/out"
    with contextlib.suppress(FileNotFoundError):
        os.remove(f"{SUMS}/{name}")
    with tempfile.TemporaryDirectory(prefix="room-", dir=BUILD) as room, open(f"{LOGS}/{name}.log", "wb", buffering=0) as log:
        copy_crates([name], ROOT, room)
        made = f"{room}/crates/{name}"
        is_well = not is_whole or is_laid_out(name, made, log)
        is_well = is_well and all(call(it, made, log) for it in calls_of(name, jobs, is_whole))
        if os.path.isdir(f"{made}/out"):
            shutil.rmtree(to, ignore_errors=True)
            os.rename(f"{made}/out", to)
    return is_well and is_verdict(name)


def refused(name):
    """The lines that say what was not proved, or the last ones."""
    with open(f"{LOGS}/{name}.log", encoding="utf-8", errors="replace") as it:
        lines = it.read().splitlines()
    return [it for it in lines if re.search(r"\berror\b|not proved|FAILED", it)][:20] or lines[-5:]


class Progress:
    """Tells how far a run is, a line for each crate."""

    def __init__(self, count):
        self.count, self.done, self.start = count, 0, time.monotonic()

    def tell(self, name, seconds, jobs, is_well):
        self.done += 1
        said = "NOT PROVED" if not is_well else "proved, and its tests passed" if has_tests(name) else "proved and built"
        took = f"{seconds:.0f} s, {jobs} job{'s' * (jobs > 1)}; {time.monotonic() - self.start:.0f} s in all"
        print(f"[{self.done}/{self.count}] {name}: {said} in {took}", flush=True)
        if not is_well:
            print(*refused(name), f"build: {name} failed; see {os.path.relpath(LOGS)}/{name}.log", sep="\n", flush=True)


def next_tasks(every, left, running, done, lanes):
    """Returns the crates that can begin now, each with its number of jobs. The idle processors are shared out evenly, at most MOST_JOBS
    to each, and the remainder goes to the first ones. Those below the most other crates come first. Crates with none above them run one at
    a time, with one job, until no other crate is left."""
    above = Counter(lower for it in every.values() for lower in it.below)
    now = [name for name, _, _ in running.values()]
    ready = sorted((it for it in left if set(every[it].below) <= done), key=lambda it: -above[it])
    tops = [it for it in (*now, *ready) if not above[it]]
    is_last = all(not above[it] for it in (*left, *now))
    if not is_last:
        ready = [it for it in ready if it not in tops[1:]]
    idle, found = lanes - sum(jobs for _, _, jobs in running.values()), []
    for at, name in enumerate(ready):
        if idle:
            jobs = min(MOST_JOBS if is_last or name not in tops else 1, math.ceil(idle / (len(ready) - at)))
            found.append((name, jobs))
            idle -= jobs
    return found


def build_all(every, names, sums, done, words):
    """Builds these crates side by side, over those in `done`, which grows by them. What stands above one that fails is not tried."""
    left, running, progress, lanes = list(names), {}, Progress(len(names)), words.jobs or processors()
    with ThreadPoolExecutor(lanes) as pool:
        while left or running:
            for name, jobs in next_tasks(every, left, running, done, lanes):
                left.remove(name)
                running[pool.submit(build, name, jobs, words.whole)] = (name, time.monotonic(), jobs)
            for it in wait(running, return_when=FIRST_COMPLETED).done:
                name, start, jobs = running.pop(it)
                progress.tell(name, time.monotonic() - start, jobs, it.result())
                if it.result():
                    note_built(name, sums, words.whole)
                    done.add(name)
                left = [above for above in left if it.result() or name not in every[above].below]


def main():
    parser = argparse.ArgumentParser(description="Proves and builds crates side by side.")
    parser.add_argument("--jobs", type=int, metavar="N", help="how many processors to use")
    parser.add_argument("--whole", action="store_true", help="prove every crate with its tests")
    parser.add_argument("names", nargs="*", default=["hart"], metavar="CRATE")
    words = parser.parse_args()
    every = crates_in(text_of(f"{ROOT}/crates.txt"))
    for name in words.names:
        if name not in every:
            sys.exit(f"build: crates.txt has no crate {name}")
    for folder in (LOGS, SUMS):
        os.makedirs(folder, exist_ok=True)
    sums = sums_of(every)
    needed = {it for name in (every if words.whole else words.names) for it in (*every[name].below, name)}
    done = {it for it in needed if is_built(it, sums, words.whole)}
    names = [it for it in every if it in needed - done]
    if names:
        print(f"Proving {len(names)} crates; what the prover says goes to {os.path.relpath(LOGS)}/", flush=True)
    build_all(every, names, sums, done, words)
    if words.whole:
        print(f"{len(done)} passed, {len(every) - len(done)} failed")
    sys.exit(done != needed)


if __name__ == "__main__":
    main()
