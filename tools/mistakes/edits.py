"""Reads wrong bodies, and applies them to the texts of a crate.

`crates/NAME/mistakes/scan/buffer.edits` has those of `src/scan/buffer.rt`, sorted by name: lines `name:`, `old:` and `new:`. Those that the
contracts were written to refuse stand in `must-fail/NAME.edit`, each in a file of its own, which begins with a line `file:`."""

import glob
import os
import re
from typing import NamedTuple

from kit import ROOT, text_of
from mistakes.code import functions_in


class BadEdit(Exception):
    """Why a wrong body cannot be tried."""


class Change(NamedTuple):
    """One place of an edit: the text `old`, which stands once in a file, or once as a whole line, becomes `new`."""

    file: str
    old: str
    new: str


class Edit(NamedTuple):
    """The edit that makes a wrong body: its own name, its crate, the function in its line `refused-at:`, if any, and its changes."""

    own: str
    crate: str
    refused_at: str = ""
    changes: tuple = ()

    def name(self):
        """The crate, the source file and the own name of the wrong body."""
        file = self.changes[0].file if self.changes else ""
        return f"{self.crate}/{file.removeprefix('src/').removesuffix('.rt')}/{self.own}"


class WrongBody(NamedTuple):
    """A wrong body, the functions that have to refuse it, and the lines that it changes outside of functions, each with its file."""

    edit: Edit
    functions: tuple
    outside: tuple

    def paths(self):
        return {it.path for it in self.functions}

    def is_alone(self):
        return bool(self.outside or self.edit.refused_at)


def stanzas(text):
    """Returns the lines of a text that have a colon, as pairs of the words before and after it, in lists: one list for the lines before the
    first line `name:`, and one for each such line and the lines after it."""
    found = [[]]
    for word, rest in re.findall(r"^([^:\n]*): ?(.*)$", text, re.M):
        if word == "name":
            found.append([])
        found[-1].append((word, rest))
    return found


def edit_of(lines, crate, file="", own=""):
    """Returns the edit of a stanza. A line `file:` names the file of the changes after it. A line `refused-at:` names the function that
    refuses the edit, in place of the functions whose bodies it changes."""
    words, old, changes = {"name": own, "refused-at": "", **dict(lines)}, "", []
    for word, rest in lines:
        if word == "file":
            file = rest.strip()
        elif word == "old":
            old = rest
        elif word == "new":
            changes.append(Change(file, old, rest))
    return Edit(words["name"].strip(), crate, words["refused-at"].strip(), tuple(changes))


def edits_of(crate):
    """The edits of a crate by their files."""
    folder, found = f"{ROOT}/crates/{crate}", {}
    for path in sorted(glob.glob(f"{folder}/m*/**/*.edit*", recursive=True)):
        kind, _, inside = os.path.relpath(path, folder).partition("/")
        stem, end = os.path.splitext(inside)
        if (kind, end) not in (("mistakes", ".edits"), ("must-fail", ".edit")):
            raise SystemExit(f"mistakes: {path}: edits of mistakes/ stand in SOURCE.edits, those of must-fail/ in NAME.edit")
        first, *named = stanzas(text_of(path))
        found[path] = [edit_of(it, crate, f"src/{stem}.rt") for it in named] if end == ".edits" else [edit_of(first, crate, "", stem)]
        names = [it.own for it in found[path]]
        if names != sorted({*names}):
            raise SystemExit(f"mistakes: {path}: its edits do not stand in the order of their names")
    return found


def every_edit(tree):
    """The edits of all crates by their names."""
    return {it.name(): it for crate in tree.crates for found in edits_of(crate).values() for it in found}


def replaced(text, change):
    """Returns a text with a change made in it, and the line on which the change begins, counted from 0."""
    exact = re.escape(change.old)
    for form in (exact, f"^{exact}$") if change.old else ():
        places = [it.start() for it in re.finditer(form, text, re.M)]
        if len(places) == 1:
            before, after = text[: places[0]], text[places[0] + len(change.old) :]
            return before + change.new + after, before.count("\n")
    raise BadEdit(f"an `old` text stands {text.count(change.old) if change.old else 0} times in {change.file}, and not once")


def apply(edit, crate, texts):
    """Applies all changes of an edit to `texts`, or none. Returns for each its file, its line, and the text of the file before it."""
    changed, places = dict(texts), []
    if all(it.old == it.new for it in edit.changes):
        raise BadEdit("it changes nothing")
    for change in edit.changes:
        # An edit with a line `refused-at:` may also change a definition. A law then refuses the definition and the code together.
        if change.file not in (crate.raw if edit.refused_at else crate.by_file):
            raise BadEdit(f"there is no file {change.file} of code")
        text = changed.get(change.file, crate.raw[change.file])
        changed[change.file], line = replaced(text, change)
        places.append((change.file, line, text))
    texts.update(changed)
    return places


def wrong_body(edit, crate):
    """Finds the functions that have to refuse an edit: those whose bodies it changes, or the one that its line `refused-at:` names."""
    found, outside = {}, []
    for file, line, text in apply(edit, crate, {}):
        functions, changed = functions_in(file, text, crate.types) if file in crate.by_file else [], text.split("\n")[line]
        if any(it.contract <= line < it.body for it in functions) or re.match(r" *ghost\b", changed):
            raise BadEdit(f"it changes a contract, in line {line + 1} of {file}")
        inside = [it for it in functions if it.body <= line < it.last]
        outside += [] if inside else [(file, changed.strip())]
        found.update({it.path: it for it in inside[-1:]})
    if edit.refused_at:
        found = {it: crate.functions.get(it) for it in [edit.refused_at]}
    if not all(found.values()) or not found:
        raise BadEdit("it changes no body of a function, and has no line `refused-at:` that names a function whose goal fails")
    return WrongBody(edit, tuple(found.values()), tuple(outside))
