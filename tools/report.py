#!/usr/bin/env python3
"""Tries `hart-report`: as it is installed, on an example capture whose lines are counted once more, and on captures at the edge.

Where Chromium and tidy are installed, they look at the page of the example, too.

Usage: tools/report.py PROGRAM              PROGRAM is hart, or ./hart-unproved
       tools/report.py PROGRAM --can-fail   plants faults into copies of hart-report; each has to be found
       tools/report.py PROGRAM --measure N  measures time and memory for N messages, beside a reader that only reads JSON
       tools/report.py PROGRAM --picture    writes docs/report.png, with Chromium
"""
import argparse
import pathlib
import re
import shutil
import subprocess
import sys
import tempfile

from report import browser, checks, edges, long, mutants
from report.browser import Broken
from report.example import PREAMBLE, PRIMARY, REPLY, body, example, items, single
from report.reading import read_page, shape_of

TOP = pathlib.Path(__file__).resolve().parent.parent
HOSTILE = "<img src=x onerror=alert(1)>\"'&\0</style></script><script>alert(1)</script>"
# Faults that are planted into a copy of hart-report, each of which the test has to find: the file, a piece of its code, and the wrong code.
PLANTS = (
    ("html.py", 'return html.escape(CONTROLS.sub("\\ufffd", str(part)))', "return str(part)"),
    ("html.py", 'CONTROLS.sub("\\ufffd", str(part))', "str(part)"),
    ("exchanges.py", "at_first += self.sendings == 1", "at_first += self.sendings <= 2"),
    ("exchanges.py", "self.command.answered -= 1", "pass"),
    ("exchanges.py", "pending if pending.is_busy else None", "None"),
    ("words.py", ', sending {one["sending"]}', "again"),
    ("exchanges.py", "pending.miss = reason", "pass"),
    ("stations.py", "max(self.cold_starts.values(), default=0)", "sum(self.cold_starts.values())"),
    ("stations.py", "& 0x3FFF", "& 0xFFFF"),
    ("writes.py", "station.facts.get(name, UNKNOWN)", "UNKNOWN"),
    ("writes.py", "pending.write.sendings += 1", "pass"),
    ("axis.py", "joined.setdefault(index // 2, Counter()).update(counts)", "joined[index // 2] = counts"),
    ("trends.py", "            lows[-1] = value", "            pass"),
    ("trends.py", "highs[1::2]", "highs[::2]"),
    ("trends.py", "(high - value) / (high - low)", "(value - low) / (high - low)"),
    ("words.py", 'struct.unpack(">f"', 'struct.unpack("<f"'),
    ("capture.py", "MOST_RECENT = 500", "MOST_RECENT = 100"),
    ("capture.py", "        check(one)\n        place", "        place"),
    ("words.py", '"too_few_data":', '"too_few":'),
    ("words.py", '"{value}"', "{value}"),
    ("words.py", '32: "degrees Celsius"', '32: "degrees Fahrenheit"'),
    ("conversation.py", "MOST_SHOWN = 200", "MOST_SHOWN = 199"),
    ("conversation.py", '"device" if seems["kind"] == "reply" else seems["master"]', '"device"'),
    ("lines.py", "            if not is_whole:", "            if True:"),
    ("shape.py", 'if name not in one:', "if False:"),
    ("axis.py", "self.days += DAY", "pass"),
)
# Faults that only the memory use shows.
MEMORY = (("capture.py", "deque(maxlen=MOST_RECENT)", "deque()"),)
# Faults that only the browser, or only tidy, can see.
SEEN = (
    ("style.css", "h1 { margin: 0;", "h1 { margin: 0; width: 1400px;"),
    ("style.css", "--muted: #566172", "--muted: #b6c1d2"),
    ("style.css", "--muted: #9fabba", "--muted: #3f4b5a"),
    ("charts.py", 'parts = (0, 0.5, 1)', "parts = [index / 9 for index in range(10)]"),
    ("command.py", 'element("footer", ', 'element("script", "throw 1"), element("footer", '),
)
TIDY = (("html.py", 'VOID = ("meta", "br")', 'VOID = ("meta", "br", "p")'), ("command.py", 'element("title", title), ', ""))


class Tool:
    """hart-report at a place, and the program hart for what it hears."""

    def __init__(self, script, program):
        self.script, self.program = script, program

    def report(self, heard, words=()):
        """Returns how a run ends: its status, the page and what standard error says."""
        data = heard.encode() if isinstance(heard, str) else heard
        needs_program = ["--hart", self.program] if {"--hex", "--raw"} & set(words) else []
        done = subprocess.run([sys.executable, self.script, *words, *needs_program], input=data, capture_output=True, check=False)
        return done.returncode, done.stdout.decode(), done.stderr.decode()

    def page(self, heard, words=()):
        """Returns the page of a capture that has no fault."""
        status, page, said = self.report(heard, words)
        checks.need(status == 0 and not said, f"it ends with {status} and says {said[-300:]}")
        return page

    def explain(self, heard, *words):
        """Returns what hart explain says."""
        done = subprocess.run([self.program, "explain", *words], input=heard, capture_output=True, text=True, check=True)
        return done.stdout


def install(folder, program):
    """Installs hart-report below an empty folder, and returns it as a tool."""
    subprocess.run(["make", "-s", "install-report", f"PREFIX={folder}"], cwd=TOP, check=True, stdout=subprocess.DEVNULL)
    shutil.copy(program, folder / "bin" / "hart")
    tool = Tool(str(folder / "bin" / "hart-report"), program)
    manual = (folder / "share" / "man" / "man1" / "hart-report.1").read_text(encoding="utf-8").replace("\\-", "-")
    options = manual.split(".SH OPTIONS")[1].split(".SH")[0]
    named, offered = (set(re.findall(r"--[a-z]+", text)) - {"--json"} for text in (options, tool.report("", ("-h",))[1]))
    checks.need(named == offered, f"the man page names {sorted(named)}, and --help {sorted(offered)}")
    return tool


def try_words(tool):
    """Compares the words of the page with those of hart explain, for all units and for the examples of docs/explained.txt."""
    units = [items(PREAMBLE + body(REPLY, PRIMARY, b"\x37\x42\x0a\x1b\x2c", 1, bytes([0, 0, code]) + single(-1.5e-9 * code)))
             for code in range(256)]
    heard = [" ".join(text) for text in units] + long.explained_examples(TOP)
    for first in range(0, len(heard), 100):
        text = "\n/\n".join(heard[first:first + 100])
        lines = tool.explain(text, "--json").splitlines()
        root = read_page(tool.page("\n".join(lines) + "\n"))
        checks.try_conversation(root, [long.loads(line) for line in lines], tool.explain(text))


def try_hostile(tool, lines):
    """Replaces each text of the lines by one that would be HTML. The page has to keep its shape."""
    plain = shape_of(read_page(tool.page(long.with_texts(lines, "plain"))))
    page = tool.page(long.with_texts(lines, HOSTILE))
    hostile = shape_of(read_page(page))
    checks.need(plain == hostile, f"a text became {list((hostile - plain) + (plain - hostile))[:2]}")
    checks.need("\0" not in page, "a character that no page may have stands in it")
    checks.need(not any(name in ("script", "img", "link", "iframe") for name, *_ in hostile), "the page has more than text")


def try_edges(tool):
    """Tries each capture at the edge."""
    for edge in edges.EDGES:
        status, page, said = tool.report(edge.heard, edge.words)
        checks.need(status == edge.status, f"{edge.name}: it ends with {status}, and {edge.status} is wanted: {said[-200:]}")
        checks.need(edge.said in said and "Traceback" not in said and (edge.said or not said), f"{edge.name}: it says {said[-300:]}")
        checks.need(bool(page) == (edge.shown is not None), f"{edge.name}: there is {'a' if page else 'no'} page")
        checks.need(edge.shown is None or edge.shown in page, f"{edge.name}: the page does not say {edge.shown}")
    return len(edges.EDGES)


def try_tool(tool):
    """Tries all that needs no browser. Returns the page of the example and what was tried."""
    heard = example()
    lines, explained = tool.explain(heard, "--json").splitlines(), tool.explain(heard)
    page = tool.page("\n".join(lines) + "\n")
    figures = checks.try_example(read_page(page), lines, explained)
    from_hex = tool.page(heard, ("--hex",))
    checks.need(from_hex == page, "with --hex the page is another one")
    try_hostile(tool, lines)
    long.try_long(tool)
    try_words(tool)
    return page, figures, try_edges(tool)


def look(page):
    """Lets Chromium and tidy look at a page, where they are installed. Returns who did."""
    by = []
    with tempfile.TemporaryDirectory() as folder:
        path = pathlib.Path(folder) / "report.html"
        path.write_text(page, encoding="utf-8")
        if shutil.which("tidy"):
            browser.try_tidy(path)
            by.append("tidy")
        if browser.browser():
            shown = browser.shown_page(path)
            checks.need(checks.figures_of(read_page(page)) == browser.figures_shown(shown), "the browser shows other figures")
            browser.try_layout(path)
            by.append(browser.browser())
    return by


def try_all(program):
    """Tries hart-report as it is installed, and says what was tried."""
    with tempfile.TemporaryDirectory() as folder:
        tool = install(pathlib.Path(folder), program)
        page, figures, captures = try_tool(tool)
        memory = long.try_memory(tool)
        changed = mutants.try_mutants(tool.explain(example(), "--json").splitlines())
    by = look(page)
    print(f"report: {figures} figures as counted, {captures} captures at the edge, {changed}, {memory}")
    for name in ("chromium", "tidy"):
        if not any(name in one or one in browser.CHROMIUM and name == "chromium" for one in by):
            print(f"report: {name} is not installed, so it did not look at the page")
    print("report: as wanted" + (f", also by {' and '.join(by)}" if by else ""))


def planted(folder, plant):
    """Returns a copy of hart-report with a fault."""
    name, old, new = plant
    shutil.copytree(TOP / "tools" / "hart_report", folder / "hart_report", ignore=shutil.ignore_patterns("__pycache__"))
    shutil.copy(TOP / "tools" / "hart-report", folder)
    path = folder / "hart_report" / name
    text = path.read_text(encoding="utf-8")
    checks.need(text.count(old) == 1, f"{name} has {text.count(old)} times {old}")
    path.write_text(text.replace(old, new), encoding="utf-8")
    return str(folder / "hart-report")


def finds(program, plant, tries):
    """Returns what a test says of a planted fault, or None if it finds nothing."""
    with tempfile.TemporaryDirectory() as folder:
        tool = Tool(planted(pathlib.Path(folder), plant), program)
        try:
            tries(tool)
        except (Broken, ValueError, StopIteration) as found:
            return str(found) or type(found).__name__
    return None


def can_fail(program):
    """Plants each fault, and ends with status 1 if one is not found."""
    def by_looking(tool):
        look(tool.page(tool.explain(example(), "--json")))

    groups = [(PLANTS, try_tool), (MEMORY, long.try_memory)]
    groups += [(SEEN, by_looking)] if browser.browser() else []
    groups += [(TIDY, by_looking)] if shutil.which("tidy") else []
    missed = count = 0
    for group, tries in groups:
        for plant in group:
            found = finds(program, plant, tries)
            count += 1
            missed += found is None
            print(f"report: {plant[0]}: {plant[1][:50]!r}: {'NOT FOUND' if found is None else found[:110]}")
    print(f"report: {count - missed} of {count} planted faults found")
    sys.exit(1 if missed else 0)


def main():
    parser = argparse.ArgumentParser()
    parser.add_argument("program")
    what = parser.add_mutually_exclusive_group()
    what.add_argument("--can-fail", action="store_true")
    what.add_argument("--measure", type=int, metavar="N")
    what.add_argument("--picture", action="store_true")
    given = parser.parse_args()
    program = str(pathlib.Path(given.program).resolve())
    tool = Tool(str(TOP / "tools" / "hart-report"), program)
    try:
        if given.can_fail:
            can_fail(program)
        elif given.measure:
            long.measure(tool, given.measure)
        elif given.picture:
            page = tool.page(tool.explain(example(), "--json"), ("--title", "Loop 7, boiler house"))
            browser.take_picture(page, TOP / "docs" / "report.png")
        else:
            try_all(program)
    except Broken as broken:
        sys.exit(f"report: {broken}")


if __name__ == "__main__":
    main()
