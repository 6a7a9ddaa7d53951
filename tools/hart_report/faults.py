"""Misses and communication faults over time, as stacked bars."""
from .charts import HEIGHT, WIDTH, axis_note, axis_words, chart, extent, nice_ticks
from .html import bars, element, section, swatch
from .names import colour_of, reason_words


def stack(left, width, counts, order, scale, words):
    """Returns the rectangles of one bin, from the bottom on."""
    shapes, low = [], 0
    for reason in order:
        if count := counts[reason]:
            top = HEIGHT * (1 - (low + count) / scale)
            shapes.append(element("rect", element("title", f"{words(reason)}: {count:,}"), x=f"{left:.2f}", width=f"{width:.2f}",
                                  y=f"{top:.2f}", height=f"{HEIGHT * count / scale:.2f}", class_=colour_of(reason)))
            low += count
    return shapes


def along_axis(axis, along, words, label):
    """Returns the chart of these counts."""
    bins = along.by_date if axis.is_dated and axis.seconds is not None else along.by_place
    _, length = extent(axis)
    bins.widen(length)
    order = [reason for reason, _ in along.total.most_common()]
    ticks = nice_ticks(0, max(max(counts.total() for counts in bins.bins.values()), 3), (1, 2, 5))
    slot = WIDTH * bins.width / max(length, bins.width)
    shapes = [stack(index * slot + slot * 0.08, min(slot, WIDTH - index * slot) * 0.84, counts, order, ticks[-1], words)
              for index, counts in sorted(bins.bins.items())]
    legend = [element("li", swatch(colour_of(reason)), words(reason)) for reason in order]
    return [element("ul", *legend, class_="legend"), chart(label, ticks, axis_words(axis), *shapes)]


def section_of(capture):
    """Returns the section."""
    parts = []
    charts = ("Misses", capture.misses, reason_words), ("Communication faults that devices reported", capture.faults, str)
    for title, along, words in charts:
        parts.append(element("h3", title))
        if along.total:
            parts.append(along_axis(capture.axis, along, words, title))
        else:
            parts.append(element("p", "None."))
    if capture.faults.total:
        parts.append(bars("fault", capture.faults.total, str, colour_of))
    return section("faults", "Faults over time", *parts, element("p", axis_note(capture.axis), class_="note"))
