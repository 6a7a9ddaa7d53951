#!/usr/bin/env python3
"""Measures the scan by the library for C against the same scan from Rattle, in memory. It asserts no time.

Prints for each input the ratio of the time of the scan from C, with room for 64 frames a call, to that of bench/scan, and the nanoseconds
a byte of both; then, if valgrind is installed, the same of the instructions. Each time is the best of several runs of the whole program.
The runs of the two programs alternate. A run scans 1 MiB 40 times.

It proves and builds both, over the crates of this tree, in folders of its own; that takes some minutes. It fails if the two programs print
different sums of the places where frames start.

Usage: bench/library.py [RUNS]; RUNS is 41. It needs a C compiler and the `binutils`.
"""

import os
import pathlib
import subprocess
import sys
import tempfile

sys.dont_write_bytecode = True

from dump import inputs  # noqa: E402
from instructions import instructions  # noqa: E402
from scan import LENGTH, ROOT, best_times, built, copy_tree  # noqa: E402

SCANS = 40


def linked(folder):
    """The scan in C, with the library of this tree."""
    program = folder / "scan_c"
    subprocess.run(["sh", ROOT / "tools" / "library.sh", folder], check=True)
    subprocess.run([os.environ.get("CC", "cc"), "-std=c11", "-O2", f"-I{ROOT / 'include'}", ROOT / "bench" / "library" / "scan.c",
                    folder / "libhart.a", "-o", program], check=True)
    return program


def instructions_a_byte(program, characters):
    """Returns the instructions of a scan for each byte: what two further scans add, halved; None without valgrind."""
    few, more = (instructions([program, word], characters) for word in ("1", "3"))
    return (more - few) / (2 * len(characters)) if few else None


def main():
    runs = int(sys.argv[1]) if len(sys.argv) > 1 else 41
    with tempfile.TemporaryDirectory() as name:
        folder = pathlib.Path(name)
        copy_tree(folder / "rattle")
        programs = [linked(folder), built(folder / "rattle")]
        for kind, characters in inputs(LENGTH).items():
            times = best_times(programs, str(SCANS), characters, runs)
            from_c, from_rattle = (seconds * 1e9 / (SCANS * len(characters)) for seconds in times)
            counts = [instructions_a_byte(program, characters) for program in programs]
            said = f"; {counts[0] / counts[1]:.2f} of the instructions, {counts[0]:.2f} against {counts[1]:.2f} a byte" if counts[0] else ""
            print(f"{kind}: {from_c / from_rattle:.2f} of the time, {from_c:.2f} against {from_rattle:.2f} ns a byte{said}", flush=True)


if __name__ == "__main__":
    main()
