"""The requests by command: how many, how often sent, what was replied."""
from .exchanges import BUSY, DAMAGED, FAULTS, NO_REPLY
from .html import bar, bars, element, figure, section, swatch, table
from .words import code_words

CAUSES = {NO_REPLY: "warn", DAMAGED: "bad", FAULTS: "c5", BUSY: "c3"}
HEADS = ("Command", "#Requests", "Sendings", "#Sent", "#Answered at first", "#Unanswered", "Response codes")


def code_chips(number, command):
    """Returns the response codes of a command, each with its count."""
    chips = [
        element("span", f"{code_words(code, command.meanings[code])}: ", figure(f"code-{number}-{code}", count),
                class_=f'chip {"warn" if code else "good"}') for code, count in sorted(command.codes.items())]
    if command.faults:
        chips.append(element("span", "communication faults: ", figure(f"command-faults-{number}", command.faults), class_="chip bad"))
    return element("div", *chips, class_="chips")


def row(number, command, most):
    """Returns the row of a command."""
    def cell(name, value):
        """Returns a cell with a count."""
        return figure(f"{name}-{number}", value, "td", class_="number")

    repeats = command.sendings - command.requests
    return [
        element("td", element("strong", number), " ", command.name or element("span", "not known to hart", class_="muted"), class_="wide"),
        cell("command-requests", command.requests),
        element("td", bar([("accent", command.requests), ("c2", repeats)], most)),
        cell("command-sendings", command.sendings), cell("command-at-first", command.at_first),
        cell("command-unanswered", command.unanswered), element("td", code_chips(number, command), class_="wide")]


def section_of(capture):
    """Returns the section."""
    commands = sorted(capture.exchanges.commands.items())
    if not commands:
        return section("requests", "Requests", element("p", "No request was heard."))
    most = max(1, *(command.sendings for _, command in commands))
    legend = element("ul", element("li", swatch("accent"), "first sendings"), element("li", swatch("c2"), "repeats"), class_="legend")
    causes = capture.exchanges.causes
    why = [element("h3", "Why requests were sent again"), bars("cause", causes, str, CAUSES.get)] if causes else []
    return section(
        "requests", "Requests", legend,
        table("Requests by command", HEADS, [row(number, command, most) for number, command in commands]), *why)
