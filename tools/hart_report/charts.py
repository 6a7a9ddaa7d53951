"""Parts of charts. Shapes stretch with the width of the page; texts keep their size, since they stand at percentages of it."""
import datetime
import math

from .axis import DAY
from .html import element

WIDTH, HEIGHT = 1000, 150
TICKS = 3


def nice_step(size, factors):
    """Returns the least of these factors times a power of ten that is not below a size."""
    power = 10 ** math.floor(math.log10(size))
    return next(factor * power for factor in (*factors, 10, 20) if factor * power >= size * (1 - 1e-9))


def nice_ticks(low, high, factors=(1, 2, 2.5, 5)):
    """Returns at most five round numbers, the first not above `low`, the last not below `high`."""
    if high - low <= abs(high) * 1e-6:
        low, high = low - max(abs(low) * 0.01, 0.5), high + max(abs(high) * 0.01, 0.5)
    step = nice_step((high - low) / TICKS, factors)
    first, last = math.floor(low / step + 1e-9), math.ceil(high / step - 1e-9)
    return [number * step for number in range(first, last + 1)]


def tick_text(value, step):
    """Returns the number at a tick, with the decimals that its step has."""
    if abs(value) >= 1e7 or 0 < step < 1e-4:
        return f"{value:.3g}"
    decimals = max(0, -math.floor(math.log10(step) + 1e-9)) + (step / 10 ** math.floor(math.log10(step) + 1e-9) == 2.5)
    return f"{value:,.{decimals}f}"


def y_axis(ticks):
    """Returns lines and numbers of an axis that stands left of the shapes."""
    step = ticks[1] - ticks[0]
    parts = []
    for value in ticks:
        y = f"{HEIGHT - HEIGHT * (value - ticks[0]) / (ticks[-1] - ticks[0]):.1f}"
        parts.append(element("line", x1="0", x2="100%", y1=y, y2=y, class_="grid"))
        parts.append(element("text", tick_text(value, step), x="-8", y=f"{float(y) + 4:.1f}", text_anchor="end"))
    return parts


def x_axis(words):
    """Returns words below the shapes, the first at the left, the last at the right, all in equal steps."""
    last = len(words) - 1
    anchors = ["start", *["middle"] * (last - 1), "end"]
    return [element("text", text, x=f"{100 * index / max(last, 1):.4g}%", y=str(HEIGHT + 18), text_anchor=anchor)
            for index, (text, anchor) in enumerate(zip(words, anchors))]


def chart(label, ticks, words, *shapes):
    """Returns a chart with its axes around shapes of WIDTH by HEIGHT."""
    return element(
        "div", element("svg", *y_axis(ticks), *x_axis(words), width="100%", height=str(HEIGHT + 26), role="img", aria_label=label),
        element("svg", *shapes, class_="shapes", width="100%", height=str(HEIGHT), viewBox=f"0 0 {WIDTH} {HEIGHT}",
                preserveAspectRatio="none", aria_hidden="true"), class_="chart")


def clock_text(seconds, span, names_days):
    """Returns a time of day, with its day if the axis is longer than a day."""
    second = int(seconds % DAY)
    text = f"{second // 3600:02}:{second // 60 % 60:02}" + (f":{second % 60:02}" if span < 6 * 3600 else "")
    if span < DAY:
        return text
    day = int(seconds // DAY)
    if names_days:
        return f"{datetime.date.fromordinal(day):%d %b} {text}"
    return f"day {day + 1}, {text}"


def axis_words(axis):
    """Returns the words below a chart that spans the capture: at its beginning, its middle and its end."""
    parts = (0, 0.5, 1)
    if axis.is_dated and axis.seconds is not None:
        last = max(axis.seconds, axis.first_seconds)
        span = last - axis.first_seconds
        return [clock_text(axis.first_seconds + span * part, span, axis.names_days) for part in parts]
    first, last = axis.first_place or 0, axis.end
    return [f"{first + (last - first) * part:,.0f}" for part in parts]


def axis_note(axis):
    """Returns what the words below a chart are."""
    if axis.is_dated and axis.seconds is not None:
        return "By the dates of the capture."
    return "By place in the capture, in characters, because not every line has a date that reads as a time."


def extent(axis):
    """Returns the first value of the axis and its length, by date or by place."""
    if axis.is_dated and axis.seconds is not None:
        return axis.first_seconds, max(axis.seconds - axis.first_seconds, 1e-9)
    return axis.first_place or 0, max(axis.end - (axis.first_place or 0), 1)
