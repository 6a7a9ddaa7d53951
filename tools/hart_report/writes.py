"""Configuration writes: what each was to change, what was there before if a reply told, and how it ended. Shows them in
a table."""
from collections import deque

from .html import element, section, table
from .names import address_words, tag_of
from .words import code_words, value_text

MOST_WRITES = 1000
# The fields that each command writes.
WRITTEN = {6: ("polling_address", "loop_current_mode"), 17: ("message",), 18: ("tag", "descriptor", "date"), 19: ("final_assembly_number",),
           22: ("long_tag",)}
UNKNOWN = object()
AT_ONCE = 50
HEADS = ("Time", "Master", "Device", "Field", "Old value", "New value", "Answered")


class Write:
    """One write request, which may have been sent several times."""

    __slots__ = ("date", "place", "one", "station", "old", "sendings", "reply", "is_refused")

    def __init__(self, one, station, axis):
        self.date, self.place = one.get("time"), axis.place
        self.one, self.station = one, station
        self.old = {name: station.facts.get(name, UNKNOWN) for name in WRITTEN[one["command"]]}
        self.sendings = 1
        self.reply, self.is_refused = None, False


class Writes:
    """The last MOST_WRITES writes, and how many there were by master and by how they ended."""

    def __init__(self):
        self.kept = deque(maxlen=MOST_WRITES)
        self.count = self.done = self.refused = 0
        self.by_master = {"primary": 0, "secondary": 0}

    def hear_request(self, one, pending, is_repeat, axis):
        """Notes a request of a command that writes."""
        if is_repeat:
            if pending.write:
                pending.write.sendings += 1
                self.refused -= pending.write.is_refused
                pending.write.is_refused = False
            return
        pending.write = Write(one, pending.station, axis)
        self.kept.append(pending.write)
        self.count += 1
        self.by_master[one["master"]] += 1

    def hear_reply(self, one, pending):
        """Notes how a write ended."""
        write = pending.write
        write.reply = one
        if one["communication_faults"] is None:
            write.is_refused = one["response_code"] != 0
            self.done += one["response_code"] == 0
            self.refused += write.is_refused

    @staticmethod
    def forget(command, station):
        """Forgets what a device had in the fields of a write that ended without a response code: it may have been carried out."""
        for name in WRITTEN[command]:
            station.facts.pop(name, None)


def ending(write):
    """Returns how a write ended, as a chip."""
    again = f", sent {write.sendings} times" if write.sendings > 1 else ""
    if write.reply is None:
        return element("span", f"no{again}", class_="chip bad")
    if write.reply["communication_faults"] is not None:
        return element("span", f"communication faults{again}", class_="chip bad")
    code = write.reply["response_code"]
    return element("span", f"yes{again}" if code == 0 else f'refused: {code_words(code, write.reply["response"])}{again}',
                   class_=f'chip {"warn" if code else "good"}')


def words_of(name, value):
    """Returns the value of a field without the spaces at its end."""
    text = value_text(name, value, {})
    return element("span", f'{text[:-1].rstrip()}"' if text.startswith('"') else text, class_="text")


def rows_of(write, stations):
    """Yields a row for each field of a write."""
    one = write.one
    fields = one["fields"] or {"data": one["data"]}
    station = stations.station(write.station.address)
    tag = tag_of(station)
    for name, value in fields.items():
        old = write.old.get(name, UNKNOWN)
        new = words_of(name, value) if one["fields"] else element("code", f"0x{value}" if value else "none")
        yield [
            element("td", write.date or f"{write.place:,}", class_="nowrap"), element("td", one["master"]),
            element("td", element("span", address_words(station.address), class_="code"), element("div", tag) if tag else "",
                    class_="nowrap"),
            element("td", name.replace("_", " "), class_="nowrap"),
            element("td", element("span", "not known", class_="muted") if old is UNKNOWN else words_of(name, old), class_="value"),
            element("td", new, class_="value"), element("td", ending(write), data_figure=f'write-{one["start"]}-{name}')]


def section_of(capture):
    """Returns the section: the last writes, and the earlier ones folded."""
    writes = list(capture.writes.kept)
    if not writes:
        return section("writes", "Configuration writes", element("p", "None was heard."))

    def shown(part):
        """Returns the table of some writes."""
        return table("Configuration writes", HEADS, [row for write in part for row in rows_of(write, capture.stations)])

    earlier, last = writes[:-AT_ONCE], writes[-AT_ONCE:]
    notes = []
    if capture.writes.count > MOST_WRITES:
        notes.append(element("p", f"The last {MOST_WRITES:,} of {capture.writes.count:,} writes.", class_="note"))
    if earlier:
        notes.append(element("details", element("summary", f"{len(earlier):,} earlier writes"), shown(earlier), class_="more"))
    return section("writes", "Configuration writes", *notes, shown(last),
                   element("p", "Commands 6, 17, 18, 19 and 22 write the configuration. Commands that hart does not know may write, too.",
                           class_="note"))
