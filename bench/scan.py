#!/usr/bin/env python3
"""Measures the scanner in memory, that of this tree against that of another commit. It asserts no time.

Prints for each input the ratio of this tree's time to the other commit's, and the nanoseconds a byte of both; then the same for the
floor, a fold of the bytes by exclusive or, which is equal code in both: its ratio says how far apart equal programs are measured.
Each time is the best of several runs of the whole program. The runs of the two programs alternate. A run scans 1 MiB 200 times, or
folds it a thousand times.

It builds bench/scan over hart_values and hart_frame, those of this tree and those of the commit, in a folder of its own; it proves
them first, from nothing, which takes some minutes. It fails if the two programs print different sums of the places where frames
start.

Figures that led to the code of the search and the check byte:

- For 5, 20, 267 and 1,000 bytes `check_byte`, which folds 32 bytes at a time, takes 53, 82, 134 and 246 instructions. The private folds of
  encoding, decoding and the search, 16 bytes at a time and then four, take 30, 51, 104 and 243.
- Noise takes 2.6 instructions a byte, and 3.0 without `memchr`.
- Running sums over all bytes, in place of the parity of each possible body, take almost twice as long for false starts.
- For a short frame `lone_frame` takes a third of the instructions of two calls of `first_frame`.

Usage: bench/scan.py [COMMIT [RUNS]]; COMMIT is HEAD~1, RUNS 11. It needs `git` and `tar`.
"""

import pathlib
import shutil
import subprocess
import sys
import tempfile
import time

sys.dont_write_bytecode = True

from dump import inputs  # noqa: E402

ROOT = pathlib.Path(__file__).resolve().parent.parent
CRATES = ("hart_values", "hart_frame")
COPIED = ["HANDLES", "crates.txt"] + [f"crates/{name}/{part}" for name in CRATES for part in ("src", "specs", "proofs")]
PLACES = {"main.txt": "src/main.rt", "invariants.txt": "proofs/scan/Invariants.antt"}
LENGTH = 1 << 20
SCANS = 200
# How many folds bench/scan makes for the word 0.
FOLDS = 1000


def copy_tree(copy):
    """Copies the files of COPIED from this tree, with changes that are not committed."""
    for name in COPIED:
        place = copy / name
        place.parent.mkdir(parents=True, exist_ok=True)
        if (ROOT / name).is_dir():
            shutil.copytree(ROOT / name, place)
        else:
            shutil.copy(ROOT / name, place)


def copy_commit(copy, commit):
    """Copies the files of COPIED from a commit."""
    copy.mkdir()
    archive = subprocess.run(["git", "-C", ROOT, "archive", commit, *COPIED], stdout=subprocess.PIPE, check=True).stdout
    subprocess.run(["tar", "-x", "-C", copy], input=archive, check=True)


def built(copy):
    """Proves and builds the program bench_scan over the crates in this folder, and returns its path."""
    graph = copy / "crates.txt"
    lines = [line for line in graph.read_text().splitlines() if line.partition(":")[0] in CRATES]
    graph.write_text("\n".join([*lines, "bench_scan: hart_values hart_frame", ""]))
    crate = copy / "crates" / "bench_scan"
    for text, name in PLACES.items():
        place = crate / name
        place.parent.mkdir(parents=True)
        shutil.copy(ROOT / "bench" / "scan" / text, place)
    subprocess.run(["rt", "run", "--", "1"], cwd=crate, stdin=subprocess.DEVNULL, stdout=subprocess.DEVNULL, check=True)
    return crate / "out" / "bench_scan"


def best_times(programs, word, characters, runs):
    """Returns the best time of each program, in seconds. `word` says how often it scans. Ends the script if their outputs differ."""
    best = [float("inf")] * len(programs)
    with tempfile.TemporaryFile() as file:
        file.write(characters)
        for _ in range(runs):
            sums = []
            for place, program in enumerate(programs):
                file.seek(0)
                start = time.perf_counter()
                sums.append(subprocess.run([program, word], stdin=file, stdout=subprocess.PIPE, check=True).stdout)
                best[place] = min(best[place], time.perf_counter() - start)
            if len(set(sums)) > 1:
                sys.exit(f"{sys.argv[0]}: the sums differ: " + ", ".join(text.decode().strip() for text in sums))
    return best


def main():
    commit = sys.argv[1] if len(sys.argv) > 1 else "HEAD~1"
    runs = int(sys.argv[2]) if len(sys.argv) > 2 else 11
    kinds = inputs(LENGTH)
    calls = [(name, SCANS, str(SCANS), characters) for name, characters in kinds.items()]
    calls.append(("the floor, a fold of the clean frames", FOLDS, "0", kinds["clean frames"]))
    with tempfile.TemporaryDirectory() as folder:
        copies = [pathlib.Path(folder) / name for name in ("this", "other")]
        copy_tree(copies[0])
        copy_commit(copies[1], commit)
        programs = [built(copy) for copy in copies]
        for name, times, word, characters in calls:
            this, other = best_times(programs, word, characters, runs)
            here, there = (seconds * 1e9 / (times * len(characters)) for seconds in (this, other))
            print(f"{name}: {this / other:.3f} of the time of {commit}, {here:.3f} against {there:.3f} ns a byte", flush=True)


if __name__ == "__main__":
    main()
