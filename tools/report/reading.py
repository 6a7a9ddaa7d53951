"""Reads a page: its figures by their names, the texts of each section, and its elements."""
import collections
import html.parser

VOID = ("meta", "br")


class Element:
    """An element of a page, with the texts below it."""

    def __init__(self, name, attributes):
        self.name, self.attributes, self.parts = name, dict(attributes), []

    def text(self):
        """Returns all texts below the element."""
        return "".join(part if isinstance(part, str) else part.text() for part in self.parts)

    def all(self, name=None, **attributes):
        """Yields the elements below this one with a name and attributes; class_ needs one of its words."""
        wanted = {key.rstrip("_").replace("_", "-"): value for key, value in attributes.items()}
        for part in self.parts:
            if isinstance(part, Element):
                if name in (None, part.name) and all(value in (part.attributes.get(key) or "").split() for key, value in wanted.items()):
                    yield part
                yield from part.all(name, **attributes)


class Reader(html.parser.HTMLParser):
    """Builds the elements of a page, and refuses one that is not closed in order."""

    def __init__(self):
        super().__init__(convert_charrefs=True)
        self.root = Element("", ())
        self.open = [self.root]

    def handle_starttag(self, name, attributes):
        one = Element(name, attributes)
        self.open[-1].parts.append(one)
        if name not in VOID:
            self.open.append(one)

    def handle_endtag(self, name):
        if self.open[-1].name != name:
            raise ValueError(f"</{name}> closes <{self.open[-1].name}> at {self.getpos()}")
        self.open.pop()

    def handle_data(self, data):
        self.open[-1].parts.append(data)


def read_page(text):
    """Returns the root of a page."""
    reader = Reader()
    reader.feed(text)
    reader.close()
    if len(reader.open) != 1:
        raise ValueError(f"<{reader.open[-1].name}> is not closed")
    return reader.root


def figures_of(root):
    """Returns the text of each figure by its name; a name that stands twice is a fault."""
    figures = {}
    for one in root.all():
        name = one.attributes.get("data-figure")
        if name is not None:
            if name in figures:
                raise ValueError(f"the figure {name} stands twice")
            figures[name] = one.text()
    return figures


def section_of(root, name):
    """Returns a section by its id."""
    return next(root.all("section", id=name))


def shape_of(root):
    """Returns how many elements there are of each name, and the attributes that each has."""
    return collections.Counter((one.name, *sorted(one.attributes)) for one in root.all())
