"""Says in words, or as JUnit XML, what was heard, expected and given, and sums up a trial."""

import subprocess
import xml.etree.ElementTree as tree

from .vectors import NEW, SILENCE

MOST_LINES = 20


def explained(program, line):
    """What `hart explain` says of a line, indented."""
    if line == SILENCE or line[:1].islower():
        return []
    ended = subprocess.run([program, "explain"], input=line, capture_output=True, text=True, check=False)
    return [f"    {said}" for said in ended.stdout.splitlines()]


def difference_text(program, found, shortened):
    """What is said of a difference: all lines that lead to it, and the last one in full."""
    begins = "as new" if found.image == NEW else f"with the image {found.image}"
    said = [f"difference at {found.where}{shortened}", f"the device begins {begins}"]
    for line, answer in list(zip(found.lines, found.expected))[:-1][-MOST_LINES:]:
        said += [f"heard    {line or 'nothing'}", f"replied  {answer}"]
    wanted, shown = (explained(program, answer) for answer in (found.expected[-1], found.came[-1]))
    said += [f"heard    {found.lines[-1] or 'nothing'}", *explained(program, found.lines[-1])]
    said += [f"expected {found.expected[-1]}", *wanted, f"came     {found.came[-1]}", *shown]
    if wanted and shown:
        said += [f"only expected: {line.strip()}" for line in wanted if line not in shown]
        said += [f"only in what came: {line.strip()}" for line in shown if line not in wanted]
    return "\n".join(said)


def order(name):
    """Commands in the order of their numbers, and then the other names."""
    return (not name.isdigit(), int(name) if name.isdigit() else name)


def summary(trial):
    """A line for each command: deliveries, replies, and how often each response code or communication fault came."""
    yield f"{'command':<12}{'deliveries':>10}{'replies':>9}  codes"
    for name in sorted(trial.deliveries, key=order):
        codes = sorted((code, count) for (command, code), count in trial.codes.items() if command == name)
        shown = ", ".join(f"{f'0x{code:02X}' if code & 0x80 else code}: {count}" for code, count in codes)
        yield f"{name:<12}{trial.deliveries[name]:>10}{trial.replies[name]:>9}  {shown}".rstrip()


def write_junit(path, cases, text_of):
    """Writes what came of cases to a file, as JUnit XML; `text_of` says a difference in words."""
    suites = tree.Element("testsuites", name="hart-bench")
    groups = {}
    for case in cases:
        groups.setdefault(case.group, []).append(case)
    for name, members in groups.items():
        failures, skipped = sum(bool(case.difference) for case in members), sum(bool(case.left_out) for case in members)
        suite = tree.SubElement(suites, "testsuite", name=name, tests=str(len(members)), failures=str(failures), errors="0",
                                skipped=str(skipped))
        for case in members:
            shown = tree.SubElement(suite, "testcase", classname=f"hart-bench.{name}", name=case.name)
            if case.difference:
                tree.SubElement(shown, "failure", message="another answer than expected").text = text_of(case.difference)
            elif case.left_out:
                tree.SubElement(shown, "skipped", message=case.left_out)
    tree.ElementTree(suites).write(path, encoding="utf-8", xml_declaration=True)
