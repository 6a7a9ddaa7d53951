#!/usr/bin/env python3
"""Checks the lines of `hart explain --json` against docs/explain.schema.json, by the library jsonschema (Debian: python3-jsonschema).

The lines are those that the program writes for the examples of docs/explained.txt, docs/worked.txt and docs/COMMANDS.md, and then for
random inputs of the fuzzing model, until N lines were checked. All reasons and all fields of the schema have to appear in them. At last it
changes lines, each of which has to be refused then: a member is left out, renamed or has another type. Without the library it says so in
one line, and checks nothing.

Usage: tools/schema.py [PROGRAM] [--lines N] [--seed S]; PROGRAM is ./hart, N 10000, and S 1.
"""
import argparse
import collections
import json
import pathlib
import random
import subprocess
import sys

sys.dont_write_bytecode = True

try:
    import jsonschema
except ImportError:
    print("schema: python3-jsonschema is not installed, so the lines of hart explain --json were not checked")
    sys.exit(0)

from fuzz import calls, worked  # noqa: E402
from fuzz.explain import JSON, RAW  # noqa: E402

SCHEMA = pathlib.Path(__file__).parents[1] / "docs" / "explain.schema.json"
# A value of a type that no member has.
OTHER_TYPE = [[]]


def fails(line, what):
    """Says which line is wrong, and ends."""
    sys.exit(f"schema: {what}: {line}")


class Checked:
    """The lines that were checked: how many, what they hold, and the first line of each kind."""

    def __init__(self, schema):
        jsonschema.Draft202012Validator.check_schema(schema)
        self.validator = jsonschema.Draft202012Validator(schema)
        self.lines = 0
        self.seen = collections.Counter()
        self.first = {}

    def check(self, line):
        """Checks one line."""
        one = json.loads(line)
        for error in self.validator.iter_errors(one):
            best = jsonschema.exceptions.best_match([error])
            fails(line, f"{'/'.join(map(str, best.absolute_path))}: {best.message}")
        kind = one.get("reason") or one["kind"]
        self.seen.update([kind, *one.get("fields", ())])
        if one.get("problem"):
            self.seen.update([one["problem"]["reason"]])
        self.first.setdefault(kind, one)
        self.lines += 1

    def has_to_refuse(self, one, what):
        """Fails if a changed line is as the schema says."""
        if self.validator.is_valid(one):
            fails(json.dumps(one), what)


def written(program, given):
    """Returns the lines that the program writes for what a call of explain is given."""
    words = [word for word in given.words if word == RAW]
    return subprocess.run([program, "explain", *words, JSON], input=given.text or b"", capture_output=True, check=False).stdout.splitlines()


def examples():
    """Yields what is given in the worked examples of the pages."""
    for text, _, _ in worked.EXPLAINED:
        yield calls.Given([], text.encode())
    for call in worked.CALLS:
        if call.words[0] == "explain" and not call.goes_on:
            yield calls.Given(call.words[1:], call.text.encode())


def random_inputs(seed):
    """Yields what the fuzzing model gives."""
    rng = random.Random(seed)
    while True:
        yield calls.explain_given(rng)


def wanted(schema):
    """Returns the names of all kinds, reasons, problems and fields of the schema."""
    parts = schema["$defs"]
    misses = [miss["properties"]["reason"]["const"] for miss in parts["miss"]["oneOf"]]
    problems = [problem["properties"]["reason"]["const"] for problem in parts["problem"]["oneOf"] if "properties" in problem]
    return {"request", "reply", *misses, *problems, *parts["fields"]["properties"]}


def try_changes(checked):
    """Changes the first line of each kind, member by member. Returns how many changes were refused."""
    changes = 0
    for one in checked.first.values():
        for name in one:
            without = {other: value for other, value in one.items() if other != name}
            for changed, what in (({**without, name + "_": one[name]}, "a member was renamed"), ({**one, name: OTHER_TYPE}, "another type")):
                checked.has_to_refuse(changed, what)
                changes += 1
            if name != "time":
                checked.has_to_refuse(without, "a member was left out")
                changes += 1
    return changes


def main():
    parser = argparse.ArgumentParser(description=__doc__.split("\n", maxsplit=1)[0])
    parser.add_argument("program", nargs="?", default="./hart", help="the built program")
    parser.add_argument("--lines", type=int, default=10000, help="how many lines")
    parser.add_argument("--seed", type=int, default=1, help="the number of the random inputs")
    chosen = parser.parse_args()
    schema = json.loads(SCHEMA.read_text(encoding="utf-8"))
    checked = Checked(schema)
    for given in examples():
        for line in written(chosen.program, given):
            checked.check(line)
    shown = checked.lines
    for given in random_inputs(chosen.seed):
        if checked.lines >= shown + chosen.lines:
            break
        for line in written(chosen.program, given):
            checked.check(line)
    missing = wanted(schema) - set(checked.seen)
    if missing:
        sys.exit(f"schema: no line has {', '.join(sorted(missing))}")
    changes = try_changes(checked)
    print(f"schema: {shown} lines of examples and {checked.lines - shown} of random inputs are as docs/explain.schema.json says; "
          f"{changes} changed lines are not")


if __name__ == "__main__":
    main()
