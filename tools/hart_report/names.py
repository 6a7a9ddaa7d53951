"""Names of stations and of reasons, as the page shows them."""

REASONS = {
    "faulty": ("damaged characters", "damaged bytes"), "burst": ("burst message, not read", "burst message"),
    "bad_delimiter": ("no delimiter of this profile", "no delimiter"), "ends_before_byte_count": ("cut before the byte count", "cut early"),
    "short_reply": ("reply without status bytes", "short reply"), "missing": ("cut before the check byte", "cut short"),
    "bad_check": ("wrong check byte", "wrong check"), "one_preamble": ("only one preamble byte", "one preamble")}
# The colour of each reason in all charts.
COLOURS = {"faulty": "c2", "burst": "c8", "bad_delimiter": "c4", "ends_before_byte_count": "c6", "short_reply": "c7", "missing": "c1",
           "bad_check": "c5", "one_preamble": "c3",
           "vertical parity": "c2", "overrun": "c4", "framing": "c6", "longitudinal parity": "c5", "buffer overflow": "c7"}
STATES = {"device malfunction": "bad", "cold start": "warn", "loop current fixed": "warn", "loop current saturated": "warn",
          "primary variable out of limits": "warn", "non-primary variable out of limits": "warn"}


def reason_words(reason):
    """Returns a reason of a miss in words."""
    return REASONS.get(reason, (reason.replace("_", " "),))[0]


def short_reason(reason):
    """Returns a reason of a miss in a word or two."""
    return REASONS.get(reason, (reason.replace("_", " "),))[-1]


def colour_of(reason):
    """Returns the class of the colour of a reason or a fault."""
    return COLOURS.get(reason, "c8")


def tag_of(station):
    """Returns the tag of a station's device without the spaces at its ends, "" if it is not known."""
    tag = station.facts.get("tag")
    return tag.strip() if isinstance(tag, str) else ""


def rank_of_station(station):
    """Returns what puts stations in order: first those whose polling address is known."""
    return station.polling is None, int((station.polling or "@0")[1:]), station.address


def address_words(address):
    """Returns an address in words."""
    if address.startswith("@"):
        return f"polling address {address[1:]}"
    return {"all": "all devices", "others": "further addresses"}.get(address, address)


def station_name(station):
    """Returns the name of a station at the beginning of a sentence."""
    if station.address.startswith("@"):
        return f"The device at polling address {station.address[1:]}"
    if station.address in ("all", "others"):
        return "The broadcast address" if station.address == "all" else "Further addresses"
    tag = tag_of(station)
    return f"Device {station.address}" + (f" ({tag})" if tag else "")
