"""What the page of the example has to say, section by section."""
import collections
import json
import re

from . import count
from .browser import Broken
from .reading import figures_of, section_of

# In the words of the page, the number of a float follows its bytes.
NUMBER = re.compile(r"(0x[0-9A-F]{8}) = (?:not a number|(?:minus )?infinite|-?[\d.,e+-]+)( [A-Za-z][A-Za-z0-9 ]*?)?(?=,|;|$)", re.MULTILINE)
FINDINGS = (
    "Device 37420A1B2C (TT-101) was restarted 3 times.",
    "Device 11820003A7 (PT-7) reported a device malfunction in 30 replies.",
    "Device 3742FFEE01 (<B>&\"') has a fixed loop current, says its last reply.",
    "2 configuration writes were refused.",
    "1 configuration write got no response code, so it is not known whether it was carried out.",
    "The configuration was to be written 7 times: 5 by the primary master and 2 by the secondary master.",
    "Nobody answered at polling addresses 3 and 5.",
    "1 reply answers no request that was heard right before.")
CARDS = (
    ("TT-101", "37420A1B2C, polling address 0", "Kessel 3, Rücklauf", "HART revision7", "15 to 105 degrees Celsius", "Device type0xB742"),
    ("FT-1205", "2606123456, polling address 1", "Feed pump, building 4", "DescriptorBUILDING 4", "3 to 21 cubic meters per hour"),
    ("PT-7", "11820003A7, polling address 2", "HART revision5", "Manufacturer17", "no device status bit set", "Date2026-11-27"),
    ("<B>&\"'", "3742FFEE01, polling address 4", "<script>alert(1)</script>", "loop current fixed"))
# The field, the old value and the new value of some writes.
WRITES = (
    ("tag", '"FT-1204"', '"FT-1205"'), ("descriptor", '"BUILDING 3"', '"BUILDING 4"'), ("date", "2026-11-27", "2026-11-27"),
    ("long tag", '"Feed pump, building 3"', '"Feed pump, building 4"'), ("final assembly number", "not known", "0x012345"),
    ("polling address", "4", "64"), ("message", "not known", '"CHECKED IN NOVEMBER"'))
LANES = {"primary": "12%", "secondary": "88%", "reply": "50%", None: "3%"}
SHOWN = 200
REASONS = {
    "faulty": "damaged characters", "burst": "burst message, not read", "bad_delimiter": "no delimiter of this profile",
    "ends_before_byte_count": "cut before the byte count", "short_reply": "reply without status bytes",
    "missing": "cut before the check byte", "bad_check": "wrong check byte", "one_preamble": "only one preamble byte"}


def need(is_so, words):
    """Refuses the page if something is not so."""
    if not is_so:
        raise Broken(words)


def try_figures(root, lines):
    """Compares each figure with the count by queries."""
    shown, wanted = figures_of(root), count.figures_of(lines)
    shown.pop("span")
    other = sorted(name for name in shown.keys() | wanted.keys() if shown.get(name) != wanted.get(name))
    need(not other, f"{len(other)} figures differ, as {other[:1]}: {[shown.get(name) for name in other[:1]]} is shown, "
         f"{[wanted.get(name) for name in other[:1]]} is counted")
    return len(shown)


def try_sentences(root, objects):
    """Looks for the sentences and the span that the example has to have."""
    texts = [item.text() for item in next(root.all("ul", class_="findings")).all("li")]
    texts += [item.text() for more in root.all("details", class_="more") for item in more.all("li")]
    for sentence in FINDINGS:
        need(any(text.endswith(sentence) for text in texts), f"no sentence says: {sentence}")
    first, last = ([int(part) for part in re.findall(r"\d\d", one["time"])[:3]] for one in (objects[0], objects[-1]))
    seconds = sum((end - begin) * size for begin, end, size in zip(first, last, (3600, 60, 1)))
    shown = figures_of(root)["span"]
    need(shown == f"{seconds // 60} min {seconds % 60} s", f"the span is shown as {shown}, and is {seconds} s")


def try_cards(root):
    """Looks for what the cards of the devices have to say."""
    cards = [card.text() for card in section_of(root, "line").all("article")]
    need(len(cards) == len(CARDS), f"there are {len(cards)} cards of devices")
    for card, parts in zip(cards, CARDS):
        for part in parts:
            need(part in card, f"the card {card[:40]} does not say {part}")


def try_writes(root):
    """Looks for the old and new values of the writes."""
    rows = [[cell.text() for cell in row.all("td")] for row in section_of(root, "writes").all("tr")]
    rows = [tuple(row[3:6]) for row in rows if row]
    for row in WRITES:
        need(row in rows, f"no write is shown as {row}")


def try_charts(root, objects):
    """Adds up the bars of the charts."""
    wanted = collections.Counter(REASONS[one["reason"]] for one in objects if one["type"] == "miss")
    for one in objects:
        wanted.update(one.get("communication_faults") or ())
    shown = collections.Counter()
    for shape in section_of(root, "faults").all("svg", class_="shapes"):
        for title in shape.all("title"):
            words, _, number = title.text().rpartition(": ")
            shown[words] += int(number.replace(",", ""))
    need(shown == wanted, f"the bars add up to {dict(shown - wanted)} and not to {dict(wanted - shown)}")


def places_of(text):
    """Returns the places in the points of a line."""
    return [tuple(map(float, pair.split(","))) for pair in text.split()]


def try_curve(card, values):
    """Compares the points of a chart with the values, and refuses more points than there may be."""
    ticks = [float(text.text().replace(",", "")) for text in card.all("text") if text.attributes.get("text-anchor") == "end"
             and text.attributes["x"] == "-8"]
    points = [places_of(line.attributes["points"]) for line in card.all("polyline")]
    if len(values) == 1:
        return
    low, high = ticks[0], ticks[-1]
    shown = [high - y / 150 * (high - low) for _, y in points[0]]
    need(len(shown) == min(len(shown), 2000), f"a curve has {len(shown)} points")
    step = -(-len(values) // len(shown))
    size = 1 << max(step - 1, 0).bit_length()
    wanted = [values[min(index + size, len(values)) - 1] for index in range(0, len(values), size)]
    need(len(shown) == len(wanted), f"a curve of {len(values)} values has {len(shown)} points")
    need(all(abs(one - other) <= (high - low) / 1000 for one, other in zip(shown, wanted)), "a curve does not go through its values")
    if size > 1:
        try_band(card, values, size, (low, high))


def try_band(card, values, size, axis):
    """Compares the band of a chart with the lowest and highest values in each point."""
    low, high = axis
    edge = [high - y / 150 * (high - low) for _, y in places_of(next(card.all("polygon")).attributes["points"])]
    parts = [values[index:index + size] for index in range(0, len(values), size)]
    wanted = [*map(max, parts), *reversed([*map(min, parts)])]
    need(len(edge) == len(wanted) and all(abs(one - other) <= (high - low) / 1000 for one, other in zip(edge, wanted)),
         "a band does not reach its lowest and highest values")


def try_trends(root, objects):
    """Compares each chart of the trends with the values of the lines."""
    cards = list(section_of(root, "trends").all("article"))
    for (address, quantity, unit), values in count.values_of(objects).items():
        name = f'values-{address}-{quantity.replace(" ", "-")}-{unit}'
        card = next(card for card in cards if any(True for one in card.all("span") if one.attributes.get("data-figure") == name))
        try_curve(card, values)


def rows_wanted(objects):
    """Returns the last messages, with the misses between them."""
    messages = [index for index, one in enumerate(objects) if one["type"] == "message"]
    return objects[messages[-SHOWN] if len(messages) >= SHOWN else 0:]


def lane_of(one):
    """Returns where the mark of a miss has to stand."""
    seems = one["seems"]
    return LANES[None if seems is None else "reply" if seems["kind"] == "reply" else seems["master"]]


def try_conversation(root, objects, explained):
    """Compares the rows of the conversation with the words of hart explain."""
    rows = list(section_of(root, "conversation").all("details"))
    wanted = rows_wanted(objects)
    need(len(rows) == len(wanted), f"the conversation has {len(rows)} rows, and {len(wanted)} are wanted")
    paragraphs = re.findall(r"^\S.*\n(?: .*\n)*", explained, re.MULTILINE)[-len(wanted):]
    for row, one, paragraph in zip(rows, wanted, paragraphs):
        words, hover = next(row.all("pre")).text(), next(row.all("title")).text()
        need(words == hover, f"a row says {words[:60]}, and {hover[:60]} on hover")
        need(NUMBER.sub(r"\1", words) == paragraph.rstrip("\n"), f"a row says {words!r}, and hart explain says {paragraph!r}")
        if one["type"] == "miss":
            style = next(row.all("path", class_="at")).attributes["style"]
            need(f"translate({lane_of(one)}," in style, f"the mark of {words[:60]} stands at {style}")
        elif one["kind"] == "request":
            arrow = next(row.all("g", class_="arrow"))
            need(("again" in arrow.attributes["class"]) >= (one["sending"] > 1), f"no mark of a repeat is at {words[:60]}")


def try_example(root, lines, explained):
    """Tries all of the page of the example. Returns how many figures were compared."""
    objects = [json.loads(line) for line in lines]
    figures = try_figures(root, lines)
    try_sentences(root, objects)
    try_cards(root)
    try_writes(root)
    try_charts(root, objects)
    try_trends(root, objects)
    try_conversation(root, objects, explained)
    return figures
