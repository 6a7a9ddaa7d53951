"""Who is on the line: a card for each device, who speaks to whom, and messages of no known pair."""
from .html import counted, element, figure, section, table
from .names import STATES, address_words, rank_of_station, tag_of
from .stations import MASTERS
from .words import date_text, number_of, number_text, unit_name

# The facts that stand below their names, since they may be long.
LONG = ("Long tag", "Descriptor", "Range")
CODES = ("manufacturer", "device_revision", "software_revision")


def status_chips(station):
    """Returns the device status of the last reply."""
    if station.last_status is None:
        return element("div", element("span", "device status not heard", class_="chip info"), class_="chips")
    names = station.last_status or ["no device status bit set"]
    return element("div", *[element("span", name, class_=f'chip {STATES.get(name, "info") if station.last_status else "good"}')
                            for name in names], class_="chips")


def text_of(value):
    """Returns a text of a device without the spaces at its end."""
    return element("span", value.rstrip(), class_="text")


def facts_of(station):
    """Yields what is known of a device: a name and its value."""
    facts = station.facts
    if long_tag := (facts.get("long_tag") or "").strip():
        yield "Long tag", text_of(long_tag if len(facts["long_tag"]) == 32 else f"0x{long_tag}")
    if descriptor := (facts.get("descriptor") or "").strip():
        yield "Descriptor", text_of(descriptor)
    if facts.keys() >= {"upper_range_value", "lower_range_value", "unit"}:
        low, high = (number_text(number_of(facts[name])) for name in ("lower_range_value", "upper_range_value"))
        yield "Range", f'{low} to {high} {unit_name(facts["unit"])}'
    if facts.get("date"):
        yield "Date", date_text(facts["date"])
    if "expanded_device_type" in facts:
        yield "Device type", element("code", f'0x{facts["expanded_device_type"]}')
    if "protocol_revision" in facts:
        yield "HART revision", facts["protocol_revision"]
    yield from ((name.replace("_", " ").capitalize(), facts[name]) for name in CODES if name in facts)
    if facts.get("write_protect_code") == 1:
        yield "Write protection", "on"


def counts_of(station):
    """Yields the counts of a device: a name and its value."""
    name = station.address
    yield "Requests sent to it", figure(f"requests-{name}", station.requests.total())
    yield "Replies", figure(f"replies-{name}", station.replies.total())
    yield "Unanswered requests", figure(f"unanswered-{name}", station.unanswered)
    yield "Restarts", figure(f"restarts-{name}", station.restarts)
    yield "Communication faults", figure(f"faults-{name}", station.faults.total())


def sub_of(station):
    """Returns the addresses of a device in words."""
    if station.address.startswith("@"):
        return "Its unique address was not heard"
    polling = f", polling address {station.polling[1:]}" if station.polling else ""
    return [element("span", station.address, class_="code"), polling]


def card(station):
    """Returns the card of a device."""
    facts, counts = ([(element("dt", name), element("dd", value, class_="full" if name in LONG else None)) for name, value in values]
                     for values in (facts_of(station), counts_of(station)))
    title = tag_of(station) or (station.facts.get("long_tag") or "").strip() or f"Device {address_words(station.address)}"
    return element("article", element("h3", title), element("p", sub_of(station), class_="sub"), status_chips(station),
                   element("dl", *facts) if facts else None, element("dl", *counts), class_="card")


def pairs(capture):
    """Returns a table of who speaks to whom."""
    rows = []
    for master in MASTERS:
        for station in capture.stations.by_address.values():
            if station.answered[master]:
                name = tag_of(station)
                rows.append([
                    element("td", f"{master} master"), element("td", address_words(station.address), f" ({name})" if name else ""),
                    figure(f"pair-requests-{master}-{station.address}", station.requests[master], "td", class_="number"),
                    figure(f"pair-replies-{master}-{station.address}", station.replies[master], "td", class_="number")])
    return table("Who speaks to whom", ("Master", "Device", "#Requests", "#Replies"), rows) if rows else element("p", "None.")


def no_pair(capture):
    """Returns what is said of messages of a master and an address of which no reply answered a request."""
    counts = capture.stations.of_no_pair()
    parts = ", ".join(f"{address_words(address)} ({count:,})" for address, count in sorted(counts.items()))
    return element("p", "Messages of no known pair: ", figure("no-pair", counts.total(), "strong"), f". {parts}." if parts else ".",
                   " A pair is known once a reply of the device answers a request of the master.", class_="note")


def section_of(capture):
    """Returns the section."""
    stations = [one for one in capture.stations.by_address.values() if one.answered and one.address != "all"]
    stations.sort(key=rank_of_station)
    cards = element("div", *map(card, stations), class_="cards devices") if stations else element("p", "No device answered a request.")
    heard = [f"{name} master: {counted(counts[0], 'request')}, {counted(counts[1], 'reply', 'replies')}"
             for name, counts in capture.exchanges.messages.items() if any(counts)]
    return section("line", "Who is on the line", cards, element("h3", "Who speaks to whom"),
                   element("p", "; ".join(heard).capitalize() + "." if heard else "No master was heard.", class_="note"),
                   pairs(capture), no_pair(capture))
