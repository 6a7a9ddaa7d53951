"""The command line of `hart-report`, and the page: its head, its sections in order, and its foot."""
import argparse
import os
import pathlib
import shutil
import subprocess
import sys

from . import conversation, devices, faults, requests, summary, trends, writes
from .capture import Capture
from .html import Html, element
from .lines import BadLine, read_into

ABOUT = "Makes one page of a capture, to be looked at in a browser: who is on the line, faults, requests, writes and trends."
SECTIONS = (("summary", "Summary", summary), ("line", "Devices", devices), ("requests", "Requests", requests), ("faults", "Faults", faults),
            ("conversation", "Conversation", conversation), ("writes", "Writes", writes), ("trends", "Trends", trends))
# No text of a capture may run as a script or load anything from the network, even if it were not escaped.
POLICY = "default-src 'none'; style-src 'unsafe-inline'"


def style():
    """Returns the style sheet."""
    return Html(pathlib.Path(__file__).with_name("style.css").read_text(encoding="utf-8"))


def head(title):
    """Returns the head of the page."""
    return element(
        "head", element("meta", charset="utf-8"), element("meta", http_equiv="Content-Security-Policy", content=POLICY),
        element("meta", name="viewport", content="width=device-width, initial-scale=1"),
        element("meta", name="color-scheme", content="light dark"), element("title", title), element("style", style()))


def page(capture, title):
    """Returns the page of a capture."""
    links = [element("a", words, href=f"#{name}") for name, words, _ in SECTIONS]
    body = element(
        "body", element("header", element("h1", title), element("nav", *links, aria_label="Sections")),
        element("main", *[module.section_of(capture) for _, _, module in SECTIONS]),
        element("footer", "Made by hart-report from the lines of hart explain --json. The page needs no network and runs no script."))
    return Html("<!DOCTYPE html>\n") + element("html", head(title), "\n", body, lang="en") + "\n"


def arguments():
    """Returns what the command line gives."""
    parser = argparse.ArgumentParser(
        prog="hart-report", description=ABOUT,
        epilog="hart-listen PORT | tee log | hart explain shows a line while it is heard; then hart-report --hex log > report.html.")
    parser.add_argument("file", nargs="?", metavar="FILE", help="lines of hart explain --json; standard input if absent")
    kind = parser.add_mutually_exclusive_group()
    kind.add_argument("--hex", action="store_true", help="FILE is hex text for hart explain, as hart-listen writes it")
    kind.add_argument("--raw", action="store_true", help="FILE is the bytes themselves, for hart explain --raw")
    parser.add_argument("--hart", metavar="PROGRAM", help="the program for --hex and --raw; the hart beside hart-report if absent")
    parser.add_argument("--title", metavar="TEXT", help="the title of the page; the name of FILE if absent")
    return parser.parse_args()


def explainer(given, here):
    """Returns the words of the call of hart explain."""
    beside = pathlib.Path(here) / "hart"
    program = given.hart or (str(beside) if beside.is_file() else shutil.which("hart"))
    if not program:
        sys.exit("hart-report: no program hart was found; name it with --hart")
    return [program, "explain", "--json", *["--raw"] * given.raw]


def read_explained(capture, words, source):
    """Adds what hart explain writes of a source. A fault of hart explain is kept; what came before it counts."""
    with subprocess.Popen(words, stdin=source, stdout=subprocess.PIPE, stderr=subprocess.PIPE) as explain:
        try:
            capture.cut_line = read_into(explain.stdout, capture)
        except BaseException:
            explain.kill()
            raise
        said = explain.stderr.read().decode(errors="replace").strip()
    if explain.returncode:
        capture.fault = said.splitlines()[0] if said else f"it ended with status {explain.returncode}"


def read_capture(given, here):
    """Returns the capture that the command line names."""
    capture = Capture()
    with open(given.file, "rb") if given.file else open(sys.stdin.fileno(), "rb", closefd=False) as source:
        if given.hex or given.raw:
            read_explained(capture, explainer(given, here), source)
        else:
            capture.cut_line = read_into(source, capture)
    capture.end()
    return capture


def title_of(given):
    """Returns the title of the page."""
    return given.title or (os.path.basename(given.file) if given.file else "HART capture")


def main(here):
    """Writes the page, and ends with status 1 for a fault."""
    given = arguments()
    try:
        capture = read_capture(given, here)
        text = page(capture, title_of(given))
        sys.stdout.buffer.write(text.encode(errors="replace"))
        sys.stdout.buffer.flush()
    except BadLine as fault:
        sys.exit(f"hart-report: {fault}")
    except BrokenPipeError:
        os.dup2(os.open(os.devnull, os.O_WRONLY), sys.stdout.fileno())
        sys.exit("hart-report: the output was closed")
    except OSError as fault:
        sys.exit(f"hart-report: {fault.filename or 'the page'}: {fault.strerror}")
    except KeyboardInterrupt:
        sys.exit(130)
    if capture.cut_line:
        print(f"hart-report: line {capture.cut_line}: it is cut in the middle, and is not counted", file=sys.stderr)
    if capture.fault:
        sys.exit(f"hart-report: hart explain: {capture.fault}")
