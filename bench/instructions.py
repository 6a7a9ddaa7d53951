"""Counts the instructions that a run takes, by `valgrind --tool=callgrind` where it is there: the same from run to run."""

import os
import pathlib
import re
import shutil
import subprocess
import tempfile

# The size of the part to which a whole text is compared.
PART = 65_536
# For long blocks the C library uses `rep stosb` and `rep movsb`. A processor counts one instruction for a block, but valgrind counts each
# step, up to two for each byte. With these limits the C library moves and fills all blocks by loops over vectors instead.
LOOPS = "glibc.cpu.x86_rep_movsb_threshold=1000000000:glibc.cpu.x86_rep_stosb_threshold=1000000000"


def instructions(command, text):
    """The instructions of one run over a text, or None without valgrind."""
    if shutil.which("valgrind") is None:
        return None
    with tempfile.TemporaryDirectory() as folder, tempfile.TemporaryFile() as file:
        file.write(text)
        file.seek(0)
        counting = ["valgrind", "--tool=callgrind", f"--callgrind-out-file={pathlib.Path(folder) / 'counts'}"]
        how = {"stdout": subprocess.DEVNULL, "stderr": subprocess.PIPE, "env": {**os.environ, "GLIBC_TUNABLES": LOOPS}}
        run = subprocess.run(counting + command, stdin=file, text=True, check=True, **how)
    return int(re.search(r"Collected\s*:\s*(\d+)", run.stderr)[1])


def first_part(text):
    """Returns the first whole lines of a text, at most PART bytes; if the first line is longer, its first whole items."""
    stop = text.rfind(b"\n", 0, PART)
    if stop < 0:
        stop = text.rfind(b" ", 0, PART)
    return text[:stop + 1]


def counted(command, text):
    """Returns in words the instructions for each byte of a text, without those of an empty run, and how they grow from its first part."""
    start = instructions(command, b"")
    if start is None:
        return "no valgrind"
    part = first_part(text)
    whole_each = (instructions(command, text) - start) / len(text)
    part_each = (instructions(command, part) - start) / len(part)
    return f"{whole_each:.1f} instructions a byte, {whole_each / part_each:.2f} times those of the first {PART // 1024} KiB"
