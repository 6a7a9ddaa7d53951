"""The ledger of the repository, mistakes.lock: where each wrong body and each wrong definition was refused, and a digest of all on which
that rests. What has another digest, or no line, is tried; the gate also tries some of the others, so that a wrong line is found."""

import functools
import os
import re
from typing import NamedTuple

from kit import ROOT, commit, text_of, version
from mistakes.edits import BadEdit, Edit, wrong_body
from mistakes.rests import Rests, rules, sum_of

LEDGER = f"{ROOT}/mistakes.lock"
HEAD = (
    "# Where each wrong body was refused, written by `make mistakes`: "
    "its name, a digest of all on which that rests, the kit, the place: by what.\n"
)
LINE = re.compile(r"^([^#\s]\S*) ([0-9a-f]{20}) (\S+) (.*?)(?:: (.*))?$", re.M)


class Entry(NamedTuple):
    """A line of the ledger: the digest, the kit, the functions or lemmas that refused it, and the goals there."""

    digest: str
    kit: str
    where: str
    refused_by: str


def entries():
    """The lines of the ledger by name; none if there is no ledger."""
    text = text_of(LEDGER) if os.path.isfile(LEDGER) else ""
    return {name: Entry(*rest) for name, *rest in LINE.findall(text)}


class Ledger:
    """The ledger, and the digests of a tree, in which there are wrong bodies and wrong definitions of these names."""

    def __init__(self, tree, every=()):
        self.tree, self.every, self.said, self.kit = tree, every, entries(), version()

    @functools.cache
    def rests(self, crate):
        return Rests(self.tree, crate)

    def digest(self, thing, where=""):
        """Returns the digest of a wrong body, or of a wrong definition refused at the first place of `where`; "" if one of them is gone."""
        place = where.partition(", ")[0]
        crate, _, inside = place.partition("::")
        is_above = crate in self.tree.crates
        rests = self.rests(crate if is_above else thing.crate)
        try:
            if isinstance(thing, Edit):
                body = wrong_body(thing, rests.own)
                return rests.digest((*thing, sorted(body.paths())), rests.starts(body))
            starts, (module, own) = rests.starts_at(inside if is_above else place), thing.place
            block = rests.modules[module][own].whole
        except (BadEdit, KeyError):
            return ""
        return rests.digest((rules("places"), thing.crate, own, thing.old, thing.new, place), [*starts, (block, rests.own, "")])

    def put(self, name, digest, where, refused_by):
        """Writes the line of a wrong body, or takes it away if there is no digest, and takes away the lines of those that are gone."""
        found = {**entries(), name: Entry(digest, self.kit, where, refused_by)}
        kept = {name: it for name, it in sorted(found.items()) if it.digest and name in self.every}
        with open(f"{LEDGER}.new", "w", encoding="utf-8") as it:
            it.write(HEAD + "".join(f"{name} {' '.join(at[:3])}{': ' * bool(at.refused_by)}{at.refused_by}\n" for name, at in kept.items()))
        os.replace(it.name, LEDGER)

    def sampled(self, names):
        """Some of these names, chosen by the commit: one in twenty, or one in ten if the ledger was written with another kit."""
        others = {self.said[it].kit for it in names} - {self.kit}
        if others:
            print(f"mistakes: mistakes.lock was written by {', '.join(sorted(others))}, and this is {self.kit}: one in ten is tried again")
        return sample(names, 10 if others else 20, commit())


def sample(names, each, seed):
    """Returns one in `each` of the names, chosen by a seed, from as few crates as possible, since the prover has to read each crate."""
    order = sorted(names, key=lambda it: (sum_of(seed, it.partition("/")[0]), sum_of(seed, it)))
    return set(order[: -(-len(order) // each)])
