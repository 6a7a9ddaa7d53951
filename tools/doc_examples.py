#!/usr/bin/env python3
"""Checks the form of examples, of which other tests check the content.

Each example in a doc comment is a test: its lines have to stand together in src/examples.rt of a crate of tests. Each worked message of
docs/COMMANDS.md is one that tools/fuzz reads, and the bytes of each of its fields stand together. The table of a command there refuses
fewer bytes than its fields need, and writes just its fields. What docs/ARCHITECTURE.md quotes of a source stands in one. Each name of a
function, a clause or a file, such as `run_logged`, that the pages about the code use is one of a source.

Usage: tools/doc_examples.py
"""
import pathlib
import re
import sys

sys.dont_write_bytecode = True

from fuzz import commands, fields, frames, worked  # noqa: E402

TOP = pathlib.Path(__file__).parents[1]
TESTS = sorted(TOP.glob("crates/hart_tests_*/src/examples.rt"))
INDENT = "    "
CODE_PAGES = [TOP / "docs" / name for name in ("ARCHITECTURE.md", "PROOFS.md", "TESTS.md")]
SOURCES = ("crates/*/*/**/*.rt", "crates/*/*/**/*.antt", "crates/*/must-fail/*", "crates/*/mistakes/**/*", "tools/**/*.*", "include/*")
NAME = re.compile(r"`(?:\w+::|[\w./]*/)*([A-Za-z]\w*_\w*)(?:\.\w+)?`")
QUOTATION = re.compile(r"^```(rt|antt)\n(.*?)^```$", re.MULTILINE | re.DOTALL)
COMMENT = re.compile(r"^\s*//[/!] ?")


def examples_of(source):
    """Returns each example of a source file: the number of its first line, and its lines."""
    found, lines = [], None
    for number, line in enumerate(source.read_text(encoding="utf-8").splitlines(), start=1):
        text = COMMENT.sub("", line) if COMMENT.match(line) else ""
        if lines is None and text == "```rust":
            lines = []
            found.append((number + 1, lines))
        elif text == "```":
            lines = None
        elif lines is not None:
            lines.append(text)
    return found


def by_fields(digits):
    """Returns a message with a space after each of its parts, which are those of the body and the fields of its data."""
    data = bytes.fromhex(digits)
    body = data.lstrip(b"\xFF")
    command = 1 + (5 if body[0] & 0x80 else 1)
    payload = command + 2
    parts = [data[:-len(body)], body[:1], body[1:command], body[command:command + 1], body[command + 1:payload]]
    kind = frames.KINDS[body[0] & 7]
    if kind == "ACK":
        parts.append(body[payload:payload + 2])
        payload += 2
    rest = body[payload:-1]
    for field, part in fields.fields_of(kind, body[command], rest):
        parts += fields.variables_of(part) if field.kind == "variables" else [part]
        rest = rest[len(part):]
    return " ".join(part.hex().upper() for part in (*parts, rest, body[-1:]) if part)


def check_messages():
    """Returns how many worked messages the page of the commands has, and what is wrong with them."""
    page = commands.PAGE.read_text(encoding="utf-8")
    blocks, shown = page.count("\n```\n\n"), worked.SHOWN.findall(page)
    messages = [digits.strip() for _, request, reply, _ in shown for digits in (request, reply) if digits]
    wrong = [f"docs/COMMANDS.md: {digits}: its fields are {by_fields(digits)}" for digits in messages if digits != by_fields(digits)]
    if len(shown) != blocks:
        wrong.append(f"docs/COMMANDS.md: of {blocks} blocks, {len(shown)} are worked messages")
    return len(messages), wrong


def check_tables():
    """Returns how many commands docs/COMMANDS.md has, and what in their tables does not follow from their fields."""
    wrong = []
    for number, _, section in commands.SECTION.findall(commands.PAGE.read_text(encoding="utf-8")):
        parts, row = commands.parts_of(section), commands.COMMANDS[int(number)]
        refused, writes = (parts.get(name, [[""]])[0][0] for name in ("refused", "writes"))
        fewest = re.findall(r"fewer than (\d+) bytes", refused)
        if any(int(count) != commands.NEEDED[int(number)] for count in fewest):
            wrong.append(f"docs/COMMANDS.md: Command {number} is refused below {commands.NEEDED[int(number)]} bytes")
        if writes and writes != ", ".join(field.name for field in row.request):
            wrong.append(f"docs/COMMANDS.md: Command {number} writes other registers than its fields")
    return len(commands.COMMANDS), wrong


def check_quotations():
    """Returns how many quotations of sources the page of the architecture has, and those that stand in no source."""
    page = (TOP / "docs" / "ARCHITECTURE.md").read_text(encoding="utf-8")
    quotations = QUOTATION.findall(page)
    sources = {ending: [file.read_text(encoding="utf-8") for file in TOP.glob(f"crates/*/*/**/*.{ending}")] for ending, _ in quotations}
    wrong = [f"docs/ARCHITECTURE.md: no source has {text.splitlines()[0]}" for ending, text in quotations
             if not any(text in source for source in sources[ending])]
    return len(quotations), wrong


def check_names():
    """Returns how many names the pages about the code use, and those that are in no source."""
    files = [file for folder in SOURCES for file in TOP.glob(folder) if file.is_file() and file.suffix != ".pyc"]
    known = {name for file in files for name in re.findall(r"\w+", f"{file.relative_to(TOP)} {file.read_text(encoding='utf-8')}")}
    used = [(page, name) for page in CODE_PAGES for name in sorted(set(NAME.findall(page.read_text(encoding="utf-8"))))]
    return len(used), [f"docs/{page.name}: no source has {name}" for page, name in used if name not in known]


def main():
    tests = "".join(file.read_text(encoding="utf-8") for file in TESTS)
    count, missing = 0, []
    for source in sorted(TOP.glob("crates/*/src/**/*.rt")):
        for number, lines in examples_of(source):
            count += 1
            wanted = "\n".join(INDENT + line if line else "" for line in lines) + "\n"
            if wanted not in tests:
                missing.append(f"{source.relative_to(TOP)}:{number}: this example is no test")
    checked = check_messages(), check_tables(), check_quotations(), check_names()
    (messages, tables, quotations, names), wrong = zip(*checked, strict=True)
    faults = missing + sum(wrong, [])
    print(*faults, sep="\n", end="\n" * bool(faults))
    print(f"{count} examples in doc comments, {messages} worked messages, {tables} tables of commands, {quotations} quotations and "
          f"{names} names of sources: {len(faults)} faults")
    sys.exit(1 if faults or not all((count, messages, tables, quotations, names)) else 0)


if __name__ == "__main__":
    main()
