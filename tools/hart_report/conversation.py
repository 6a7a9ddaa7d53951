"""The last messages as a sequence chart. Each row unfolds to the words of `hart explain`."""
from .html import counted, element, section
from .names import short_reason, tag_of
from .words import lines_of

MOST_SHOWN = 200
ROW = 30
# Where the lanes stand, in percent of the width.
LANES = {"primary": 12, "device": 50, "secondary": 88}
NOBODY = 3
ARROW = {"right": "M0,0L-8,-4L-8,4z", "left": "M0,0L8,-4L8,4z"}
CROSS = "M-5,-5L5,5M-5,5L5,-5"


def percent(value):
    """Returns a position in the chart, given in percent, as a length of SVG."""
    return f"{value:g}%"


def lanes():
    """Returns the lines of the lanes through a row."""
    return [element("line", x1=percent(x), x2=percent(x), y1="0", y2=str(ROW), class_="lane") for x in LANES.values()]


def at(x, y, shape):
    """Returns a shape whose origin is a place of the chart."""
    return element("path", d=shape, class_="at", style=f"transform:translate({percent(x)},{y}px)")


def look_of(recent):
    """Returns the classes of a message, and the words beside the device's lane."""
    one = recent.one
    if one["kind"] == "request":
        return ("request again", f"sending {recent.sendings}") if recent.sendings > 1 else ("request", "")
    if one["communication_faults"] is not None:
        return "reply faulty", "faults"
    if one["response_code"]:
        return "reply refused", f'code {one["response_code"]}'
    return "reply", ""


def arrow(recent, names):
    """Returns the arrow of a message with its words."""
    one = recent.one
    master, device = LANES[one["master"]], LANES["device"]
    begin, end = (master, device) if one["kind"] == "request" else (device, master)
    looks, words = look_of(recent)
    side = 1 if one["master"] == "primary" else -1
    name = names.get(one["address"], one["address"])
    beside = [name, ", ", element("tspan", words, class_=looks.split()[-1])] if words else [name]
    return element(
        "g", element("line", x1=percent(begin), x2=percent(end), y1="21", y2="21"),
        at(end, 21, ARROW["right" if end > begin else "left"]),
        element("text", f'{one["command"]} · {counted(len(one["data"]) // 2, "byte")}', x=percent((begin + end) / 2), y="15",
                text_anchor="middle", class_="what"),
        element("text", *beside, x=percent(device + 2.5 * side), y="25", text_anchor="start" if side > 0 else "end"),
        class_=f"arrow {looks}")


def mark(one):
    """Returns the mark of a miss in the lane that seems to have spoken, or at the side if none does."""
    seems = one["seems"]
    x = NOBODY if seems is None else LANES["device" if seems["kind"] == "reply" else seems["master"]]
    side = -1 if x > LANES["device"] else 1
    words = element("text", short_reason(one["reason"]), x=percent(x + 4 * side), y="19", text_anchor="start" if side > 0 else "end")
    return element("g", at(x, 15, CROSS), words, class_="miss")


def time_of(one):
    """Returns the time of day of a line, or its place."""
    if "time" not in one:
        return f'{one["start"]:,}'
    return one["time"].rpartition("T")[2][-12:]


def row(recent, names):
    """Returns a row of the chart, which unfolds to words."""
    one = recent.one
    words = "\n".join(lines_of(one))
    drawn = mark(one) if one["type"] == "miss" else arrow(recent, names)
    return element(
        "details", element("summary", element("span", time_of(one), class_="time"),
                           element("svg", element("title", words), *lanes(), drawn, width="100%", height=str(ROW), role="img")),
        element("pre", words))


def heads():
    """Returns the names of the lanes."""
    texts = [element("text", name, x=percent(x), y="18", text_anchor="middle") for name, x in LANES.items()]
    return element("div", element("span", "Time", class_="time"), element("svg", *texts, width="100%", height="28"), class_="lanes")


def shown(capture):
    """Returns the last messages, with the misses between them."""
    rows, messages = [], 0
    for recent in reversed(capture.recent):
        messages += recent.one["type"] == "message"
        if messages > MOST_SHOWN:
            break
        rows.append(recent)
    return rows[::-1]


def section_of(capture):
    """Returns the section."""
    rows = shown(capture)
    if not rows:
        return section("conversation", "Conversation", element("p", "Nothing was heard."))
    names = {}
    for station in capture.stations.by_address.values():
        name = tag_of(station) or station.address
        names |= {station.address: name, **({station.polling: name} if station.polling else {})}
    messages = sum(recent.one["type"] == "message" for recent in rows)
    note = (f"The last {counted(messages, 'message')} and {counted(len(rows) - messages, 'miss', 'misses')} between them. "
            "An arrow has the number of its command and its bytes of data; a dashed one repeats a request, a red one reports "
            "communication faults. A cross is a miss, in the lane that seems to have spoken, or at the left edge. "
            "Select a row for the words of hart explain.")
    return section("conversation", "Conversation", element("p", note, class_="note"),
                   element("p", "On paper the last 60 rows are shown.", class_="note paper"),
                   element("div", heads(), *[row(recent, names) for recent in rows], class_="talk", tabindex="0", role="region",
                           aria_label="Conversation"))
