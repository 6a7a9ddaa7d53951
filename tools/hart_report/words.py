"""The words of `hart explain` for an object of `hart explain --json`, with the number that each float stands for."""
import math
import struct

# The names of the unit codes that mean the same for every class of variables (HCF_SPEC-183, table 2).
UNITS = {
    1: "inches of water at 68 degrees Fahrenheit", 2: "inches of mercury at 0 degrees Celsius",
    3: "feet of water at 68 degrees Fahrenheit", 4: "millimeters of water at 68 degrees Fahrenheit",
    5: "millimeters of mercury at 0 degrees Celsius", 6: "pounds per square inch", 7: "bars", 8: "millibars",
    9: "grams per square centimeter", 10: "kilograms per square centimeter", 11: "pascals", 12: "kilopascals", 13: "torr",
    14: "atmospheres", 15: "cubic feet per minute", 16: "US gallons per minute", 17: "liters per minute",
    18: "imperial gallons per minute", 19: "cubic meters per hour", 20: "feet per second", 21: "meters per second",
    22: "US gallons per second", 23: "million US gallons per day", 24: "liters per second", 25: "million liters per day",
    26: "cubic feet per second", 27: "cubic feet per day", 28: "cubic meters per second", 29: "cubic meters per day",
    30: "imperial gallons per hour", 31: "imperial gallons per day", 32: "degrees Celsius", 33: "degrees Fahrenheit",
    34: "degrees Rankine", 35: "kelvins", 36: "millivolts", 37: "ohms", 38: "hertz", 39: "milliamperes", 40: "US gallons", 41: "liters",
    42: "imperial gallons", 43: "cubic meters", 44: "feet", 45: "meters", 46: "barrels", 47: "inches", 48: "centimeters",
    49: "millimeters", 50: "minutes", 51: "seconds", 52: "hours", 53: "days", 54: "centistokes", 55: "centipoises", 56: "microsiemens",
    57: "percent", 58: "volts", 59: "pH", 60: "grams", 61: "kilograms", 62: "metric tons", 63: "pounds", 64: "short tons",
    65: "long tons", 66: "millisiemens per centimeter", 67: "microsiemens per centimeter", 68: "newtons", 69: "newton meters",
    70: "grams per second", 71: "grams per minute", 72: "grams per hour", 73: "kilograms per second", 74: "kilograms per minute",
    75: "kilograms per hour", 76: "kilograms per day", 77: "metric tons per minute", 78: "metric tons per hour",
    79: "metric tons per day", 80: "pounds per second", 81: "pounds per minute", 82: "pounds per hour", 83: "pounds per day",
    84: "short tons per minute", 85: "short tons per hour", 86: "short tons per day", 87: "long tons per hour", 88: "long tons per day",
    89: "dekatherms", 90: "specific gravity units", 91: "grams per cubic centimeter", 92: "kilograms per cubic meter",
    93: "pounds per US gallon", 94: "pounds per cubic foot", 95: "grams per milliliter", 96: "kilograms per liter", 97: "grams per liter",
    98: "pounds per cubic inch", 99: "short tons per cubic yard", 100: "degrees Twaddell", 101: "degrees Brix",
    102: "degrees Baume heavy", 103: "degrees Baume light", 104: "degrees API", 105: "percent solids per weight",
    106: "percent solids per volume", 107: "degrees Balling", 108: "proof per volume", 109: "proof per mass", 110: "bushels",
    111: "cubic yards", 112: "cubic feet", 113: "cubic inches", 114: "inches per second", 115: "inches per minute",
    116: "feet per minute", 117: "degrees per second", 118: "revolutions per second", 119: "revolutions per minute",
    120: "meters per hour", 121: "normal cubic meters per hour", 122: "normal liters per hour", 123: "standard cubic feet per minute",
    124: "liquid barrels", 125: "ounces", 126: "foot pounds force", 127: "kilowatts", 128: "kilowatt hours", 129: "horsepower",
    130: "cubic feet per hour", 131: "cubic meters per minute", 132: "barrels per second", 133: "barrels per minute",
    134: "barrels per hour", 135: "barrels per day", 136: "US gallons per hour", 137: "imperial gallons per second",
    138: "liters per hour", 139: "parts per million", 140: "megacalories per hour", 141: "megajoules per hour",
    142: "British thermal units per hour", 143: "degrees", 144: "radians", 145: "inches of water at 60 degrees Fahrenheit",
    146: "micrograms per liter", 147: "micrograms per cubic meter", 148: "percent consistency", 149: "volume percent",
    150: "percent steam quality", 151: "feet in sixteenths", 152: "cubic feet per pound", 153: "picofarads", 154: "milliliters per liter",
    155: "microliters per liter", 160: "percent Plato", 161: "percent lower explosion level", 162: "megacalories", 163: "kilohms",
    164: "megajoules", 165: "British thermal units", 166: "normal cubic meters", 167: "normal liters", 168: "standard cubic feet",
    169: "parts per billion", 235: "US gallons per day", 236: "hectoliters", 237: "megapascals",
    238: "inches of water at 4 degrees Celsius", 239: "millimeters of water at 4 degrees Celsius", 250: "not used", 251: "none",
    252: "unknown", 253: "special",
}

PACKED, LATIN = ("tag", "descriptor", "message"), "long_tag"
LATIN_BYTES = 32
BYTES = ("expanded_device_type", "hardware_revision_and_signalling_code", "flags", "device_id", "extended_device_status",
         "device_variable_codes", "time_stamp", "serial_number", "channel_flags", "final_assembly_number", "additional_status")
UNITS_OF = ("primary_variable_unit", "secondary_variable_unit", "tertiary_variable_unit", "quaternary_variable_unit", "unit")
NUMBERS = (
    *UNITS_OF, "first_byte", "preamble_bytes_of_a_request", "protocol_revision", "device_revision", "software_revision",
    "preamble_bytes_of_a_response", "greatest_number_of_device_variables", "configuration_change_counter", "manufacturer",
    "private_label_distributor", "device_profile", "polling_address", "loop_current_mode", "primary_variable_classification",
    "secondary_variable_classification", "tertiary_variable_classification", "quaternary_variable_classification", "alarm_code",
    "transfer_function", "write_protect_code", "reserved_byte")
# For each float, the name of the field with its unit code. Floats whose unit never changes are in `FIXED_UNITS`.
UNIT_FIELDS = {"primary_variable": "primary_variable_unit", "secondary_variable": "secondary_variable_unit",
               "tertiary_variable": "tertiary_variable_unit", "quaternary_variable": "quaternary_variable_unit", "upper_limit": "unit",
               "lower_limit": "unit", "minimum_span": "unit", "upper_range_value": "unit", "lower_range_value": "unit"}
FLOATS = {**UNIT_FIELDS, "loop_current": None, "percent_of_range": None, "damping": None}
FIXED_UNITS = {"loop_current": "milliamperes", "percent_of_range": "percent", "damping": "seconds"}
ONLY_CHECK_BYTE = "it lacks 1 character, its check byte"
MISSES = {
    "faulty": "the character at {at} has the fault bits 0x{faults}", "burst": "it is a burst message, which is not read",
    "bad_delimiter": "0x{byte} is no delimiter of this profile", "ends_before_byte_count": "it ends before its byte count",
    "short_reply": "it is a reply, and its byte count {byte_count} is below 2",
    "missing": "it lacks {count} characters, the last of them its check byte",
    "bad_check": "the check byte is 0x{byte} at {at}, and 0x{fits} would fit",
    "one_preamble": "only one intact preamble byte stands directly before it"}


def number_of(digits):
    """Returns the number that four bytes in hex stand for."""
    return struct.unpack(">f", bytes.fromhex(digits))[0]


def unit_name(code):
    """Returns the name of a unit, or words with its code."""
    return UNITS.get(code, f"unit {code}")


def number_text(value):
    """Returns a number with at most six digits that count."""
    if not math.isfinite(value):
        return "not a number" if math.isnan(value) else "infinite" if value > 0 else "minus infinite"
    return f"{value:,.6g}" if 1e-4 <= abs(value) < 1e15 or value == 0 else f"{value:.6g}"


def float_text(digits, unit):
    """Returns a float by its bytes and by its number with its unit."""
    return f"0x{digits} = {number_text(number_of(digits))} {unit}".rstrip()


def unit_text(code):
    """Returns a unit by its code and its name, if it has one."""
    return f"{code} ({UNITS[code]})" if code in UNITS else str(code)


def variable_text(one):
    """Returns a device variable by its parts."""
    value = float_text(one["value"], unit_name(one["unit"]))
    return (f'code {one["code"]}, classification {one["classification"]}, unit {unit_text(one["unit"])}, value {value}, '
            f'status 0x{one["status"]}')


def date_text(value):
    """Returns a date as hart explain writes it."""
    if value is None:
        return "not set"
    return value if "-" in value else f"0x{value}, no date"


def value_text(name, value, fields):
    """Returns the value of a field in words."""
    if name in FLOATS:
        unit = FIXED_UNITS.get(name) or unit_name(fields.get(UNIT_FIELDS[name]))
        return float_text(value, unit)
    if name == "date":
        return date_text(value)
    if isinstance(value, list):
        return "; ".join(map(variable_text, value))
    if name in BYTES or name == LATIN and len(value) != LATIN_BYTES:
        return f"0x{value}"
    if isinstance(value, int):
        return unit_text(value) if name in UNITS_OF else str(value)
    return "none" if value is None else f'"{value}"'


def device_words(address, all_devices="all devices"):
    """Returns the words for the device of an address."""
    if address.startswith("@"):
        return f"the device at polling address {address[1:]}"
    return all_devices if address == "all" else f"device {address}"


def command_words(number, name):
    """Returns a command by its number and its name."""
    return f"Command {number}" + (f", {name}" if name else "")


def header_words(one):
    """Returns who speaks to whom, and the command."""
    command = command_words(one["command"], one["command_name"])
    if one["kind"] == "request":
        return f'request of the {one["master"]} master to {device_words(one["address"])}, {command}'
    return f'reply of {device_words(one["address"], "one of all devices")} to the {one["master"]} master, {command}'


def code_words(code, name):
    """Returns a response code by its number and its meaning."""
    return f"{code}, {name}" if name else str(code)


def status_lines(one):
    """Yields the lines of the status bytes of a reply."""
    if one["communication_faults"] is not None:
        yield f'communication faults: {", ".join(one["communication_faults"]) or "none"}'
    else:
        yield f'response code: {code_words(one["response_code"], one["response"])}'
        yield f'device status: {", ".join(one["device_status"] or ()) or "none"}'


def problem_lines(one):
    """Yields the lines of what is wrong with the data of a message."""
    problem, data = one["problem"], one["data"]
    if problem["reason"] == "too_few_data":
        if data:
            yield f"data: 0x{data}"
        yield f'too few data: {len(data) // 2} of {problem["needed"]}'
    elif problem["reason"] == "refused":
        yield f'refused: {code_words(problem["code"], problem["name"])}'
    elif problem["reason"] == "no_reply":
        yield f'data that are no reply to Command {one["command"]} of Revision 7: ' + (f"0x{data}" if data else "none")
    elif problem["reason"] == "not_read":
        yield f'not read (code {problem["code"]}): 0x{data}'


def data_lines(one):
    """Yields the lines of the data of a message."""
    fields = one["fields"]
    for name, value in fields.items():
        yield f'{name.replace("_", " ")}: {value_text(name, value, fields)}'
    if one["problem"]:
        yield from problem_lines(one)
    if one["command_name"] is None and one["data"] and not one["ignored"]:
        yield f'data: 0x{one["data"]}'
    if one["ignored"]:
        yield f'ignored: 0x{one["ignored"]}'


def miss_words(one):
    """Returns why no message stands at a place."""
    if one["reason"] == "missing" and one["count"] == 1:
        return ONLY_CHECK_BYTE
    words = MISSES.get(one["reason"])
    return words.format_map(one) if words else one["reason"].replace("_", " ")


def lines_of(one):
    """Yields the lines of a message or a miss."""
    date = f'{one["time"]} ' if "time" in one else ""
    if one["type"] == "miss":
        yield f'{date}{one["start"]}: no message: {miss_words(one)}'
        if one["seems"]:
            yield f'    seems: {header_words(one["seems"])}'
        return
    again = f', sending {one["sending"]}' if one["kind"] == "request" and one["sending"] > 1 else ""
    yield f'{date}{one["start"]}-{one["stop"]}: {header_words(one)}{again}'
    if one["burst"]:
        yield "    burst bit: set"
    if one["expansion"]:
        yield f'    expansion bytes: 0x{one["expansion"]}'
    if one["kind"] == "reply":
        yield from (f"    {line}" for line in status_lines(one))
    yield from (f"    {line}" for line in data_lines(one))
