"""Finds the program hart and the vectors: where they were installed, or in the repository. Reads the rows of the vectors. Judges images by
the program."""

import pathlib
import shutil
import subprocess
import sys
from typing import NamedTuple

BETWEEN = "; "
RESTART = "restart"
SILENCE = "-"
NEW = "-"
# The folder above the package: tools in the repository, share/hart where it was installed.
HERE = pathlib.Path(__file__).parents[1]
PROGRAMS = (HERE.parents[1] / "bin" / "hart", HERE.parent / "hart")
VECTORS = (HERE / "vectors.tsv", HERE.parent / "docs" / "vectors.tsv")


class Part(NamedTuple):
    """A part of a row: what is heard, or `restart`; and the reply, or `-` for silence."""

    heard: str
    reply: str


class Row(NamedTuple):
    """A row: the number of its line, the image before it or `-` for the new bench device, its parts, and its note."""

    line: int
    image: str
    parts: tuple
    note: str


def rows_of(text):
    """Yields the rows in the text of a file."""
    for number, line in enumerate(text.splitlines(), start=1):
        if line.startswith(("#", "image\t")):
            continue
        image, heard, reply, note = line.split("\t")
        pairs = zip(heard.split(BETWEEN), reply.split(BETWEEN), strict=True)
        yield Row(number, image, tuple(Part(*pair) for pair in pairs), note)


def program_of(given):
    """The path of the program hart; ends the run if it is not found."""
    found = shutil.which(given) if given else next((str(path) for path in PROGRAMS if path.exists()), shutil.which("hart"))
    if found is None:
        sys.exit(f"hart-bench: no program {given or 'hart'} was found")
    return str(pathlib.Path(found).absolute())


def vectors_of(given):
    """The path of the vectors; ends the run if they are not found."""
    found = pathlib.Path(given) if given else next((path for path in VECTORS if path.exists()), None)
    if found is None or not found.exists():
        sys.exit(f"hart-bench: no vectors {given or 'vectors.tsv'} were found")
    return found


def serve_of(program, image):
    """The command of `hart serve` with an image; ends the run if the program does not take the image."""
    command = [program, "serve", *([] if image == NEW else ["--image", image])]
    ended = subprocess.run(command, input="", capture_output=True, text=True, check=False)
    if ended.returncode:
        sys.exit(f"hart-bench: --image: {ended.stderr.strip()}")
    return command
