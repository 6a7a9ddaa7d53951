"""Checks changed copies of the repository's crates by the toolchain's command `rt`. It never changes the tree."""

import contextlib
import functools
import os
import queue
import shutil
import subprocess
import tempfile
import threading
from concurrent.futures import ThreadPoolExecutor
from typing import NamedTuple

ROOT = os.path.realpath(f"{os.path.dirname(__file__)}/..")
# Held while crates are copied, and while libraries are built in a copy that is copied again.
COPYING = threading.Lock()


def text_of(path):
    """The text of a file."""
    with open(path, encoding="utf-8") as it:
        return it.read()


class Crate(NamedTuple):
    """A crate by its line of crates.txt, and the crates of the repository below it, lowest first."""

    name: str
    line: str
    below: tuple


def crates_in(text):
    """The crates that a text like crates.txt lists, by name, lowest first."""
    lines, found = {}, {}
    for line in text.split("\n"):
        head, colon, rest = line.partition("#")[0].partition(":")
        if colon:
            lines[head.split()[0]] = (line, rest.split())

    def add(name):
        if name in lines and name not in found:
            line, uses = lines[name]
            for it in uses:
                add(it)
            below = [lower for it in uses if it in found for lower in (*found[it].below, it)]
            found[name] = Crate(name, line, tuple(dict.fromkeys(below)))

    for name in lines:
        add(name)
    return found


def commit():
    """The name of the commit, by which a run chooses; another one each time if it has none."""
    ran = subprocess.run(["git", "-C", ROOT, "rev-parse", "HEAD"], capture_output=True, text=True, check=False)
    return ran.stdout.strip() or os.urandom(8).hex()


@functools.cache
def version():
    """The kit of the toolchain, in one word."""
    said = subprocess.run(["rt", "version"], capture_output=True, text=True, check=True).stdout
    return "/".join(it for it in said.split() if it != "logic")


def side_by_side(tasks):
    """Yields what these calls yield, as it comes. As many run at once as there are processors, or as `RT_JOBS` says."""
    found = queue.SimpleQueue()

    def work(task):
        try:
            for it in task():
                found.put(it)
        finally:
            found.put(None)

    with ThreadPoolExecutor(max_workers=int(os.environ.get("RT_JOBS") or os.cpu_count())) as pool:
        running = [pool.submit(work, it) for it in tasks]
        for _ in running:
            yield from iter(found.get, None)
        for it in running:
            it.result()


def linked(source, to):
    """Links a file, or copies it where no link can be. `rt` replaces the files that it keeps, and never writes into one."""
    try:
        os.link(source, to)
    except OSError:
        shutil.copy2(source, to)


class Room:
    """A copy of crates, in which files can be changed and functions be checked."""

    def __init__(self, folder, source):
        self.folder, self.source, self.changed = folder, source, {}

    def put(self, crate, texts):
        """Restores what the last call changed, and writes these texts to files of a crate, by their paths in it. None removes a file."""
        for path in self.changed:
            shutil.copy2(f"{self.source}/{path}", f"{self.folder}/{path}")
        self.changed = {f"crates/{crate}/{file}": text for file, text in texts.items()}
        for path, text in self.changed.items():
            os.remove(f"{self.folder}/{path}")
            if text is not None:
                with open(f"{self.folder}/{path}", "w", encoding="utf-8") as it:
                    it.write(text)

    def check(self, crate, functions, texts=None, of=""):
        """Gives files of the crate, or of a named one below it, these texts. Checks these functions, with what they call, and returns what
        the prover printed. It builds what is missing below."""
        self.put(of or crate, texts or {})
        words = ["rt", "check", "--jobs", "1", *(word for it in functions for word in ("--only", it))]
        how = {"stdin": subprocess.DEVNULL, "stdout": subprocess.PIPE, "stderr": subprocess.STDOUT, "errors": "replace"}
        return subprocess.run(words, cwd=f"{self.folder}/crates/{crate}", check=False, **how).stdout


def copy_crates(names, source, folder):
    """Copies crates, those below them, what `rt` keeps of them in `out`, and their lines of crates.txt. Wrong bodies are not copied."""
    every = crates_in(text_of(f"{source}/crates.txt"))
    needed = dict.fromkeys(it for name in names for it in (*every[name].below, name))
    with open(f"{folder}/crates.txt", "w", encoding="utf-8") as it:
        it.write("".join(f"{every[name].line}\n" for name in needed))
    with contextlib.suppress(FileNotFoundError):
        shutil.copy2(f"{source}/HANDLES", folder)
    for name in needed:
        of, to = f"{source}/crates/{name}", f"{folder}/crates/{name}"
        shutil.copytree(of, to, ignore=shutil.ignore_patterns("out", "mistakes", "must-fail"))
        if os.path.isdir(f"{of}/out"):
            shutil.copytree(f"{of}/out", f"{to}/out", copy_function=linked)


@contextlib.contextmanager
def copied(names, source=ROOT):
    """A room with these crates and all below them as they stand in a folder."""
    with tempfile.TemporaryDirectory(prefix="mistakes-", ignore_cleanup_errors=True) as folder:
        with COPYING:
            copy_crates(names, source, folder)
        yield Room(folder, source)
