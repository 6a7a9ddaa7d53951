"""Elements of the page. Every text is escaped unless it is an element itself."""
import html
import re

VOID = ("meta", "br")
# Characters that no page may have.
CONTROLS = re.compile("[\x00-\x08\x0b-\x1f\x7f-\x9f\ud800-\udfff\ufffe\uffff]")


class Html(str):
    """Text that is part of a page as it stands."""


def escaped(part):
    """Returns a part of a page: an element as it is, a list part by part, anything else escaped."""
    if isinstance(part, Html):
        return part
    if part is None:
        return ""
    if isinstance(part, (list, tuple)):
        return "".join(map(escaped, part))
    return html.escape(CONTROLS.sub("\ufffd", str(part)))


def element(name, /, *parts, **attributes):
    """Returns an element. In the name of an attribute _ stands for -, and one at the end is dropped; None leaves an attribute out."""
    words = "".join(f' {key.rstrip("_").replace("_", "-")}="{escaped(value)}"' for key, value in attributes.items() if value is not None)
    return Html(f"<{name}{words}>" if name in VOID else f"<{name}{words}>{escaped(parts)}</{name}>")


def figure(name, value, element_name="span", **attributes):
    """Returns a number that carries its name, by which a test or a script finds it."""
    return element(element_name, f"{value:,}" if isinstance(value, int) else value, data_figure=name, **attributes)


def section(name, title, *parts):
    """Returns a section of the page with its heading."""
    return element("section", element("h2", title), *parts, id=name)


def scroller(label, *parts, **attributes):
    """Returns a box whose content scrolls sideways on a narrow screen."""
    return element("div", *parts, class_="scroller", role="region", aria_label=label, tabindex="0", **attributes)


def table(label, heads, rows):
    """Returns a table that scrolls on a narrow screen. A head that begins with # is one of numbers."""
    names = [element("th", head.lstrip("#"), scope="col", class_="number" if head.startswith("#") else None) for head in heads]
    body = [element("tr", *cells) for cells in rows]
    return scroller(label, element("table", element("thead", element("tr", *names)), element("tbody", *body)))


def bar(parts, whole):
    """Returns a bar of parts, which are pairs of a class and a count. A count of `whole` takes the full width."""
    pieces, left = [], 0.0
    for name, count in parts:
        width = 100 * count / whole
        if count:
            pieces.append(element("rect", x=f"{left:.2f}%", width=f"{width:.2f}%", height="100%", class_=name))
        left += width
    return element("svg", *pieces, class_="bar", width="100%", height="10", aria_hidden="true")


def swatch(name):
    """Returns a small square of a colour."""
    return element("svg", element("rect", width="100%", height="100%", class_=name), class_="swatch", width="11", height="11",
                   aria_hidden="true")


def bars(prefix, counts, words, class_of):
    """Returns a list of bars, the longest first. Each count carries `prefix` and its key as its name."""
    most = max(counts.values(), default=1)
    rows = [element("li", element("span", words(key), class_="label"), bar([(class_of(key), count)], most),
                    figure(f"{prefix}-{key}", count, class_="count"))
            for key, count in sorted(counts.items(), key=lambda item: (-item[1], str(item[0])))]
    return element("ul", *rows, class_="bars")


def counted(number, one, many=None):
    """Returns a number with its noun."""
    return f"{number:,} {one if number == 1 else many or one + 's'}"


def share(part, whole):
    """Returns a share in percent, never rounded to all or nothing."""
    if not whole:
        return "–"
    percent = 100 * part / whole
    if 0 < part < whole:
        percent = min(max(percent, 0.1), 99.9)
    return f"{percent:.1f}".removesuffix(".0") + " %"
