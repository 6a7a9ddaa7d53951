"""The quantities whose values are followed, in a bounded number of points: the primary variable, the loop current and the percent of range
of each device. Shows them as line charts."""
import math
from array import array
from typing import NamedTuple

from .charts import HEIGHT, WIDTH, axis_note, axis_words, chart, extent, nice_ticks
from .html import counted, element, figure, section
from .names import address_words, rank_of_station, tag_of
from .words import number_of, number_text, unit_name

MOST_TRENDS, MOST_POINTS = 192, 2000
MILLIAMPERES, PERCENT = 39, 57
# The codes of device variables that name these quantities in every device.
VARIABLES = {244: "percent of range", 245: "loop current", 246: "primary variable"}
WITH_VALUES = (1, 2, 3, 9)
# The order of the charts of a device.
QUANTITIES = ("primary variable", "percent of range", "loop current")


class Point(NamedTuple):
    """One value, or the last, the lowest and the highest of several in a row, with the place and the date of the last."""

    place: int
    seconds: float
    value: float
    lowest: float
    highest: float


class Trend:
    """Values in the order in which they were heard. When there are too many points, each two neighbours become one."""

    def __init__(self):
        self.columns = tuple(array("d") for _ in Point._fields)
        self.count = 0
        self.step = self.in_last = 1

    def add(self, place, seconds, value):
        """Appends a finite value."""
        self.count += 1
        if self.in_last == self.step:
            self.begin(place, seconds or 0.0, value)
            return
        places, dates, values, lows, highs = self.columns
        places[-1], dates[-1], values[-1] = place, seconds or 0.0, value
        if value < lows[-1]:
            lows[-1] = value
        elif value > highs[-1]:
            highs[-1] = value
        self.in_last += 1

    def begin(self, place, seconds, value):
        """Begins another point."""
        if len(self.columns[0]) == MOST_POINTS:
            self.halve()
        places, dates, values, lows, highs = self.columns
        places.append(place)
        dates.append(seconds)
        values.append(value)
        lows.append(value)
        highs.append(value)
        self.in_last = 1

    def halve(self):
        """Joins each two neighbours."""
        places, dates, values, lows, highs = self.columns
        self.columns = (
            places[1::2], dates[1::2], values[1::2],
            array("d", map(min, lows[::2], lows[1::2])), array("d", map(max, highs[::2], highs[1::2])))
        self.step *= 2

    @property
    def extremes(self):
        """The lowest and the highest value."""
        return min(self.columns[3]), max(self.columns[4])

    @property
    def last(self):
        """The last value."""
        return self.columns[2][-1]

    def points(self):
        """Returns the points in order."""
        return [Point(*numbers) for numbers in zip(*self.columns)]


class Trends:
    """The trends by device, quantity and unit, at most MOST_TRENDS of them."""

    def __init__(self):
        self.by_key = {}
        self.not_numbers = self.unlisted = 0

    def hear_reply(self, one, station, axis):
        """Adds the values of a reply with response code 0."""
        if one["command"] not in WITH_VALUES:
            return
        fields = one["fields"]
        if "primary_variable" in fields and "primary_variable_unit" in fields:
            self.add(station, "primary variable", fields["primary_variable_unit"], fields["primary_variable"], axis)
        if "loop_current" in fields:
            self.add(station, "loop current", MILLIAMPERES, fields["loop_current"], axis)
        if "percent_of_range" in fields:
            self.add(station, "percent of range", PERCENT, fields["percent_of_range"], axis)
        for variable in fields.get("device_variables", ()):
            if variable["code"] in VARIABLES:
                self.add(station, VARIABLES[variable["code"]], variable["unit"], variable["value"], axis)

    def add(self, station, quantity, unit, digits, axis):
        """Adds a value to its trend; bytes that are no finite number are only counted."""
        value = number_of(digits)
        if not math.isfinite(value):
            self.not_numbers += 1
            return
        key = station.address, quantity, unit
        trend = self.by_key.get(key)
        if trend is None:
            if len(self.by_key) >= MOST_TRENDS:
                self.unlisted += 1
                return
            if unit not in range(256):
                raise ValueError("unit")
            trend = self.by_key[key] = Trend()
        trend.add(axis.place, axis.seconds, value)


def curve(points, axis, ticks):
    """Returns the line of the values, and the band between the lowest and the highest ones."""
    first, length = extent(axis)
    low, high = ticks[0], ticks[-1]
    is_dated = axis.is_dated and axis.seconds is not None

    def x(point):
        """Returns where a point stands."""
        return f"{WIDTH * ((point.seconds if is_dated else point.place) - first) / length:.1f}"

    def y(value):
        """Returns where a value stands."""
        return f"{HEIGHT * (high - value) / (high - low):.1f}"

    shapes = []
    if any(point.lowest != point.highest for point in points):
        edge = [f"{x(point)},{y(point.highest)}" for point in points] + [f"{x(point)},{y(point.lowest)}" for point in reversed(points)]
        shapes.append(element("polygon", points=" ".join(edge), class_="band"))
    if len(points) == 1:
        place = {"x1": x(points[0]), "x2": x(points[0]), "y1": y(points[0].value), "y2": y(points[0].value)}
        return [element("line", **place, class_="dot")]
    return [*shapes, element("polyline", points=" ".join(f"{x(point)},{y(point.value)}" for point in points), class_="line")]


def card(capture, key, trend):
    """Returns the chart of a trend with its figures."""
    address, quantity, unit = key
    tag = tag_of(capture.stations.station(address))
    name = "-".join((address, quantity.replace(" ", "-"), str(unit)))
    lowest, highest = trend.extremes
    ticks = nice_ticks(lowest, highest)
    extremes = [(element("dt", words), element("dd", figure(f"{words}-{name}", number_text(value)))) for words, value in (
        ("lowest", lowest), ("highest", highest), ("last", trend.last))]
    return element(
        "article", element("h3", f"{tag or address_words(address)}: {quantity}"),
        element("p", unit_name(unit), ", ", figure(f"values-{name}", trend.count), f" value{'s' * (trend.count != 1)}", class_="sub"),
        chart(f"{quantity} of {address}", ticks, axis_words(capture.axis), *curve(trend.points(), capture.axis, ticks)),
        element("dl", *extremes), class_="card")


def rank_of(capture, address, quantity, unit):
    """Returns what puts trends in order: devices by polling address, then quantities."""
    return rank_of_station(capture.stations.station(address)), QUANTITIES.index(quantity), unit


def section_of(capture):
    """Returns the section."""
    trends = capture.trends.by_key
    if not trends:
        return section("trends", "Trends", element("p", "No value was heard."))
    joined = max(trend.step for trend in trends.values())
    note = axis_note(capture.axis)
    if joined > 1:
        note += (f" A chart has at most {MOST_POINTS:,} points; the band goes from the lowest to the highest of up to "
                 f"{counted(joined, 'value')} in a point.")
    cards = [card(capture, key, trends[key]) for key in sorted(trends, key=lambda key: rank_of(capture, *key))]
    return section("trends", "Trends", element("div", *cards, class_="cards"),
                   element("p", note, class_="note"))
