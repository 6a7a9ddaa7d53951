"""Long captures, and captures made from lines: how the page stays small, and how much time and memory a run takes."""
import json
import re
import subprocess
import sys
import tempfile

from . import checks
from .edges import REPLY, REQUEST
from .example import single
from .reading import figures_of, read_page, section_of

loads = json.loads
HEARD = re.compile(r"^heard +(.*(?:\n {9,}\S.*)*)", re.MULTILINE)
DEVICE = "37420A1B2C"
MOST_GROWTH = 8_000_000
STARTER = """import resource, subprocess, sys, time
start = time.monotonic()
subprocess.run(sys.argv[1:], check=True, stdout=subprocess.DEVNULL)
used = resource.getrusage(resource.RUSAGE_CHILDREN)
print(time.monotonic() - start, used.ru_utime + used.ru_stime, used.ru_maxrss)
"""
PLAIN_READER = "import json, sys\nfor line in sys.stdin.buffer:\n    json.loads(line)\n"
# Members whose values are not texts of a capture, but names by which the lines are read.
NAMES = ("type", "kind", "master", "address", "reason", "data", "expansion", "status", "ignored")
HEX = re.compile(r"(?:[0-9A-F]{2})+|\d{4}-\d\d-\d\d")


def explained_examples(top):
    """Returns what is heard in the examples of docs/explained.txt that have no fault and no date."""
    text = (top / "docs" / "explained.txt").read_text(encoding="utf-8")
    heard = [" ".join(match.split()) for match in HEARD.findall(text)]
    return [one for one in heard if re.fullmatch(r"(?:[0-9A-Fa-f]{2}(?:![0-9A-Fa-f]{2})?[ /]*)+", one)]


def with_texts(lines, text):
    """Returns the lines with `text` in place of each string, except hex, dates and the members in NAMES."""
    def other(value, name=""):
        """Returns a value with other texts."""
        if isinstance(value, dict):
            return {key: value[key] if key in NAMES else other(value[key], key) for key in value}
        if isinstance(value, list):
            return [other(one) for one in value]
        return text if isinstance(value, str) and not HEX.fullmatch(value) else value

    return "".join(json.dumps(other(json.loads(line))) + "\n" for line in lines)


def exchange(number, command=1, **fields):
    """Returns the lines of a request and its reply, the one of this number."""
    place = 40 * number
    second = number % 86400
    shared = {"time": f"{second // 3600:02}:{second // 60 % 60:02}:{second % 60:02}.00", "address": DEVICE, "command": command,
              "command_name": "read primary variable"}
    reply = {**REPLY, **shared, "start": place + 16, "stop": place + 30, "answers": place + 2, "fields": fields}
    request = {**REQUEST, **shared, "start": place + 2, "stop": place + 11}
    return json.dumps(request, separators=(",", ":")) + "\n" + json.dumps(reply, separators=(",", ":")) + "\n"


def value_of(number):
    """Returns the value of an exchange: a slow wave with a spike now and then."""
    return (number * 37 % 1000) / 10 + (400 if number % 977 == 0 else 0)


def exchanges(count):
    """Yields exchanges with values."""
    for number in range(count):
        yield exchange(number, primary_variable_unit=32, primary_variable=single(value_of(number)).hex().upper())


def try_long(tool):
    """Tries trends with more values than points, more writes than are listed, more devices than are listed, and many misses."""
    for count in (1999, 2000, 2001, 9001):
        text = "".join(exchanges(count))
        root = read_page(tool.page(text))
        checks.try_trends(root, [json.loads(line) for line in text.splitlines()])
    try_writes(tool)
    try_devices(tool)
    try_misses(tool)


def write(number):
    """Returns the lines of a write of the final assembly number, and of its reply."""
    field = f'"final_assembly_number":"{number:06X}"'
    return exchange(number, 19, final_assembly_number=f"{number:06X}").replace('"fields":{}', f'"fields":{{{field}}}')


def try_writes(tool):
    """The last 1,000 writes are listed, the older of them folded, with the value before each."""
    root = read_page(tool.page("".join(map(write, range(1200)))))
    section = section_of(root, "writes")
    rows = [[cell.text() for cell in row.all("td")] for row in section.all("tr")]
    rows = [(row[4], row[5]) for row in rows if row]
    wanted = [(f"0x{number - 1:06X}", f"0x{number:06X}") for number in range(200, 1200)]
    checks.need(rows == wanted, f"{len(rows)} writes are listed, from {rows[:1]} to {rows[-1:]}")
    checks.need("The last 1,000 of 1,200 writes." in section.text(), "the bound of the writes is not named")


def try_devices(tool):
    """The first 256 devices have cards, and the messages of the others are counted."""
    text = "".join(exchange(number).replace(DEVICE, f"2606{number:06X}") for number in range(300))
    root = read_page(tool.page(text))
    checks.need(figures_of(root)["devices"] == "256", "there are not 256 devices")
    checks.need("88 messages went to or came from addresses after the first 256" in root.text(), "the other devices are not counted")


def try_misses(tool):
    """The bars of 100,000 places and of 10 hours add up."""
    misses = [{"type": "miss", "time": f"{number // 400 % 24:02}:{number * 9 // 60 % 60:02}:{number * 9 % 60:02}", "start": 26 * number,
               "reason": "faulty" if number % 3 else "bad_check", "at": 1, "faults": "40", "byte": "00", "fits": "01", "seems": None}
              for number in range(4000)]
    for objects in (misses, [{name: value for name, value in one.items() if name != "time"} for one in misses]):
        root = read_page(tool.page("".join(json.dumps(one) + "\n" for one in objects)))
        checks.try_charts(root, objects)


def used(words, path):
    """Returns how long a run takes that reads a file, how much of it on a processor, and its most bytes of memory."""
    with open(path, "rb") as source:
        done = subprocess.run([sys.executable, "-c", STARTER, *words], stdin=source, capture_output=True, text=True, check=True)
    seconds, busy, kilobytes = done.stdout.split()
    return float(seconds), float(busy), int(kilobytes) * 1024


def try_memory(tool):
    """Compares the memory for a capture with that for one of ten times its length."""
    sizes = []
    for count in (4000, 40000):
        with tempfile.NamedTemporaryFile("w", suffix=".jsonl") as file:
            file.writelines(exchanges(count))
            file.flush()
            sizes.append(used([sys.executable, tool.script], file.name)[2])
    growth = sizes[1] - sizes[0]
    checks.need(growth < MOST_GROWTH, f"80,000 messages take {growth:,} bytes more than 8,000")
    return f"{sizes[1] / 1e6:.0f} MB for 80,000 messages"


def measure(tool, count):
    """Says the time and memory for messages like those of the example, beside those of a reader that only reads JSON."""
    from .example import example
    lines = tool.explain(example(), "--json")
    messages = lines.count('"type":"message"')
    with tempfile.NamedTemporaryFile("w", suffix=".jsonl") as file:
        for _ in range(-(-count // messages)):
            file.write(lines)
        file.flush()
        said = f"{-(-count // messages) * messages:,} messages"
        for name, words in (("json alone", [sys.executable, "-c", PLAIN_READER]), ("hart-report", [sys.executable, tool.script])):
            seconds, busy, memory = used(words, file.name)
            print(f"{said}: {name}: {seconds:.1f} s, {busy:.1f} s of processor time, {memory / 1e6:.0f} MB")
