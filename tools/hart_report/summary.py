"""The summary: large figures, what stands out, and why messages could not be read."""
from typing import NamedTuple

from .exchanges import BUSY, DAMAGED, FAULTS, NO_REPLY
from .html import bars, counted, element, figure, section, share
from .names import address_words, colour_of, reason_words, station_name, tag_of
from .stations import MOST_STATIONS
from .trends import MOST_TRENDS
from .writes import MOST_WRITES

CHARACTER = 11 / 1200
AT_ONCE = 14
MUCH = 0.05
MOST_NAMED = 8
CAUSES = {NO_REPLY: "no reply was heard", DAMAGED: "a message was damaged", FAULTS: "the device had heard it damaged",
          BUSY: "the device was busy"}


class Finding(NamedTuple):
    """A sentence, and how much it matters: bad, warn, info or good."""

    level: str
    text: str


LEVELS = {"bad": "Fault", "warn": "Notice", "info": "Note", "good": "Good"}


def listed(parts):
    """Returns parts with commas, and with `and` before the last."""
    words = [str(part) for part in parts]
    return " and ".join([", ".join(words[:-1]), words[-1]] if len(words) > 1 else words)


def of_station(station):
    """Yields the findings about a device."""
    name = station_name(station)
    if station.restarts:
        yield Finding("warn", f"{name} was restarted {counted(station.restarts, 'time')}.")
    if count := station.states["device malfunction"]:
        yield Finding("bad", f"{name} reported a device malfunction in {counted(count, 'reply', 'replies')}.")
    if count := station.states["primary variable out of limits"]:
        yield Finding("warn", f"{name} reported its primary variable out of limits in {counted(count, 'reply', 'replies')}.")
    if count := station.states["loop current saturated"]:
        yield Finding("warn", f"{name} reported a saturated loop current in {counted(count, 'reply', 'replies')}.")
    if "loop current fixed" in (station.last_status or ()):
        yield Finding("warn", f"{name} has a fixed loop current, says its last reply.")


def each_of(stations, count):
    """Returns the names of at most MOST_NAMED stations with the highest counts, each with its count; "" if all counts are 0."""
    counts = [(count(station), tag_of(station) or address_words(station.address)) for station in stations]
    found = sorted((pair for pair in counts if pair[0]), key=lambda pair: (-pair[0], pair[1]))
    names = [f"{name} ({number:,})" for number, name in found[:MOST_NAMED]]
    return ", ".join(names + ["and others"] * (len(found) > MOST_NAMED))


def of_stations(stations):
    """Yields the findings about all devices together."""
    if names := each_of(stations, lambda station: station.unanswered):
        total = sum(station.unanswered for station in stations)
        yield Finding("bad", f"Devices left {counted(total, 'request')} unanswered: {names}.")
    if names := each_of(stations, lambda station: station.faults.total()):
        total = sum(station.faults.total() for station in stations)
        yield Finding("warn", f"Devices reported {counted(total, 'communication fault')} in what they heard: {names}.")


def of_addresses(capture):
    """Yields the findings about addresses at which nobody, or more than one device, answered."""
    stations = capture.stations
    lone = [station for station in stations.by_address.values() if not station.answered and station.requests]
    pollings = sorted(int(station.address[1:]) for station in lone if station.address.startswith("@"))
    if pollings:
        addresses = "address" if len(pollings) == 1 else "addresses"
        yield Finding("info", f"Nobody answered at polling {addresses} {listed(pollings)}.")
    for station in lone:
        if not station.address.startswith("@"):
            yield Finding("bad", f"{station_name(station)} never answered.")
    for polling, owners in sorted(stations.shared.items()):
        yield Finding("bad", f"{counted(len(owners), 'device')} answered at polling address {polling[1:]}: {', '.join(sorted(owners))}.")
    if stations.unlisted:
        yield Finding("info", f"{counted(stations.unlisted, 'message')} went to or came from addresses after the first {MOST_STATIONS}, "
                      "which are not listed.")


def of_requests(capture):
    """Yields the findings about requests and replies."""
    exchanges = capture.exchanges
    requests, sendings = exchanges.total("requests"), exchanges.total("sendings")
    repeats = sendings - requests
    if repeats:
        cause, _ = exchanges.causes.most_common(1)[0]
        level = "bad" if repeats > MUCH * requests else "warn"
        yield Finding(level, f"{counted(repeats, 'sending')} of {sendings:,} repeated a request, mostly because {CAUSES[cause]}.")
    if strays := exchanges.total("strays"):
        yield Finding("info", f"{counted(strays, 'reply answers', 'replies answer')} no request that was heard right before.")
    if unread := exchanges.total("unread"):
        yield Finding("info", f"{counted(unread, 'reply has', 'replies have')} data that are no reply to the command; "
                      "an identity before revision 7 is one.")
    yield from of_writes(capture.writes)


def of_writes(writes):
    """Yields the findings about configuration writes."""
    if writes.count:
        masters = " and ".join(f"{count:,} by the {name} master" for name, count in writes.by_master.items() if count)
        yield Finding("info", f"The configuration was to be written {counted(writes.count, 'time')}: {masters}.")
    if writes.refused:
        yield Finding("warn", f"{counted(writes.refused, 'configuration write was', 'configuration writes were')} refused.")
    if left := writes.count - writes.done - writes.refused:
        yield Finding("warn", f"{counted(left, 'configuration write')} got no response code, so it is not known whether "
                      f"{'it was' if left == 1 else 'they were'} carried out.")
    if writes.count > MOST_WRITES:
        yield Finding("info", f"Only the last {MOST_WRITES:,} configuration writes are listed.")


def of_misses(capture):
    """Yields the findings about misses, and about values without a trend."""
    total = capture.misses.total.total()
    if burst := capture.misses.total["burst"]:
        yield Finding("info", f"{counted(burst, 'burst message was', 'burst messages were')} heard, which hart does not read.")
    whole = total + capture.messages
    if total - burst > MUCH * whole:
        yield Finding("bad", f"At {counted(total, 'place')} a message seemed to begin but could not be read, {share(total, whole)} of all.")
    if capture.trends.not_numbers:
        yield Finding("info", f"{counted(capture.trends.not_numbers, 'value was', 'values were')} no finite number and "
                      "left out of the trends.")
    if capture.trends.unlisted:
        yield Finding("info", f"Only the first {MOST_TRENDS} trends are drawn.")


def of_input(capture):
    """Yields the findings about the input: faults, a cut line, no messages, several captures."""
    if capture.fault:
        yield Finding("bad", f"The input of hart explain ended with a fault: {capture.fault}.")
    if capture.cut_line:
        yield Finding("warn", f"Line {capture.cut_line:,} is cut in the middle and is not counted.")
    if not capture.messages:
        seen = "only noise" if capture.misses.total else "nothing"
        yield Finding("bad", f"The capture has no message; {seen} was heard.")
    if capture.axis.captures > 1:
        yield Finding("info", f"The places begin anew {counted(capture.axis.captures - 1, 'time')}; "
                      f"the {capture.axis.captures} captures are shown one after the other.")


def findings(capture):
    """Returns all findings, what matters most first."""
    found = [*of_input(capture), *of_requests(capture), *of_misses(capture), *of_addresses(capture)]
    devices = [station for station in capture.stations.by_address.values() if station.answered and station.address != "all"]
    found += of_stations(devices)
    for station in devices:
        found += of_station(station)
    order = list(LEVELS)
    found.sort(key=lambda finding: order.index(finding.level))
    return found or [Finding("good", "Nothing stands out: every request was answered at once, and no device reported anything unusual.")]


def duration(seconds):
    """Returns a length of time in its two largest units."""
    whole = int(seconds)
    parts = [(whole // 86400, "d"), (whole // 3600 % 24, "h"), (whole // 60 % 60, "min"), (whole % 60, "s")]
    while len(parts) > 1 and not parts[0][0]:
        parts.pop(0)
    return " ".join(f"{count} {unit}" for count, unit in parts[:2])


def span(axis):
    """Returns the length of the capture, and what it goes from and to."""
    if axis.first_place is None:
        return "–", "no line was read"
    characters = axis.end - axis.first_place
    if axis.is_dated and axis.seconds is not None:
        return duration(axis.seconds - axis.first_seconds), f"{axis.first_date} to {axis.last_date}"
    return f"{characters:,}", f"characters, at least {duration(characters * CHARACTER)} at 1,200 bit/s"


def large(name, title, value, small):
    """Returns one large figure."""
    return element("li", element("span", title, class_="small"), figure(name, value, class_="large"),
                   element("span", small, class_="small"))


def figures(capture):
    """Returns the large figures."""
    exchanges = capture.exchanges
    length, ends = span(capture.axis)
    masters = [name for name, counts in exchanges.messages.items() if any(counts)]
    devices = sum(bool(station.answered) for station in capture.stations.by_address.values() if station.address != "all")
    requests, at_first = exchanges.total("requests"), exchanges.total("at_first")
    sent, replies = (sum(counts[index] for counts in exchanges.messages.values()) for index in (0, 1))
    return element(
        "ul", large("span", "Span", length, ends),
        large("messages", "Messages", capture.messages, f"{counted(sent, 'request')}, {counted(replies, 'reply', 'replies')}"),
        large("masters", "Masters", len(masters), " and ".join(masters) or "none heard"),
        large("devices", "Devices", devices, "that answered a request"),
        large("at-first", "Answered at the first sending", share(at_first, requests), f"{at_first:,} of {counted(requests, 'request')}"),
        large("misses", "Misses", capture.misses.total.total(), "places where a message seemed to begin"), class_="figures")


def finding_list(found):
    """Returns what stands out, the first AT_ONCE sentences unfolded."""
    items = [element("li", element("span", LEVELS[one.level], class_=f"level {one.level}"), element("span", one.text)) for one in found]
    shown = element("ul", *items[:AT_ONCE], class_="findings")
    if len(items) <= AT_ONCE + 1:
        return [element("ul", *items, class_="findings")]
    more = element("summary", f"{len(items) - AT_ONCE} more")
    return [shown, element("details", more, element("ul", *items[AT_ONCE:], class_="findings"), class_="more")]


def section_of(capture):
    """Returns the section."""
    misses = capture.misses.total
    reasons = [element("h3", "Misses by reason"), bars("miss", misses, reason_words, colour_of)] if misses else []
    return section("summary", "Summary", figures(capture), *finding_list(findings(capture)), *reasons)
