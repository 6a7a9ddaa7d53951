"""Tries a wrong variant of each definition that a reader believes: a proof has to fail by it.

A variant changes a definition of `specs/` alone: a number is one off, a case is dropped, two parts are exchanged. Several are planted at
once in a copy of their crate, each with places, which are functions or lemmas, that rest on it and on no other variant that is planted:
the one that mistakes.lock names, then others. One that these do not refuse is tried alone, with its whole crate and with crates above."""

import functools
import os
import re
from collections import Counter
from typing import NamedTuple

from kit import copied, side_by_side, text_of
from mistakes.ledger import entries
from mistakes.places import places_of, why_unread
from mistakes.rests import Rests, Walk
from mistakes.verdicts import Verdict

ROWS = f"{os.path.dirname(__file__)}/definitions.txt"
HEAD = re.compile(r"^(?:(?:abbrev|unfoldable|opaque) )*pub (?:record |data )?(?!mod\b|use\b)([^\s:]+)", re.M)
# A type that says nothing of a value has no wrong variant that is read: what uses it names all its fields and cases.
SHAPE = re.compile(r"(?:pub data \w+|pub record \w+(?: \(\w+ : Type \d\))*|abbrev pub \w+) : Type \d")
# What a file says of definitions that no public contract names. In its first line it speaks of all its definitions.
PRIVATE = re.compile(r"^--.*\bOnly private calls use (these definitions|the definitions from here on|the next definition)\b", re.M)
# For each stage, at how many places a variant is tried in one check, and in all. Then at how many places of a crate above it is tried.
STAGES, MANY = ((2, 4), (8, 40)), 12
PROVED = "its crate is still proved"


class Variant(NamedTuple):
    """A variant: its name; the crate, file, (module, name) and text of the definition; the text that it replaces there, and the new one."""

    name: str
    crate: str
    file: str
    place: tuple
    block: str
    old: str = ""
    new: str = ""

    def planted(self, texts):
        """These texts of files without comments, with the variant in its file."""
        return {**texts, self.file: texts[self.file].replace(self.block, self.block.replace(self.old, self.new), 1)}


def private_in(text):
    """The names of the definitions of a file that only private calls use, as it says."""
    _, *parts = PRIVATE.split(text)
    most = {"the next definition": 1}
    return {name for scope, part in zip(parts[::2], parts[1::2]) for name in HEAD.findall(part)[: most.get(scope)]}


def definitions_of(crate):
    """Returns the definitions of a crate, except shapes and those in a folder private/, each with whether a reader believes it. The key is
    FILE.NAME, or FOLDER/FILE.NAME if two would have the same."""
    found = []
    for module, file in sorted(crate.files.items()):
        if not file.startswith("specs/") or "/private/" in file:
            continue
        text = crate.raw[file]
        if text.count("private calls") != len(PRIVATE.findall(text)):
            raise SystemExit(f"definitions: {crate.name}/{file} speaks of private calls in other words than tools/mistakes/definitions.py")
        private = private_in(text)
        for own, it in crate.modules[module].items():
            if HEAD.match(it.whole) and not SHAPE.match(it.whole):
                found.append((Variant("", crate.name, file, (module, own), it.whole.strip("\n")), own not in private))
    keys = [f"{os.path.basename(it.file)[:-5]}.{it.place[1]}" for it, _ in found]
    named = {f"{it[0].file.split('/')[-2]}/{key}" if keys.count(key) > 1 else key: it for key, it in zip(keys, found)}
    if len(named) < len(found):
        raise SystemExit(f"definitions: {crate.name}/specs has two definitions of one name in folders of one name")
    return named


def rows():
    """The lines of the table of variants, by crate and key: the text that is replaced and its replacement; None if there can be none."""
    found = {}
    for crate, part in re.findall(r"^(\w+)\n((?:[^:#\n]+: .*\n)+)", text_of(ROWS), re.M):
        for key, rest in re.findall(r"^([^:]+): (.*)$", part, re.M):
            old, arrow, new = rest.partition(" =>")
            found[crate, key] = (old, new.removeprefix(" ")) if arrow else None
    return found


def variants(tree, table):
    """The variants by name, and what is wrong with the table."""
    found, wrong = {}, []
    for crate in dict.fromkeys(it for it, _ in table):
        definitions = definitions_of(tree.crate(crate))
        wrong += [f"{crate}/{key}: there is no such definition" for at, key in table if at == crate and key not in definitions]
        for key, (it, is_believed) in definitions.items():
            old, new = table.get((crate, key)) or ("", "")
            if old and (it.block.count(old) != 1 or old == new):
                wrong.append(f"{crate}/{key}: what it replaces does not stand there once, or nothing changes")
            elif old:
                found[f"{crate}/specs/{key}"] = it._replace(name=f"{crate}/specs/{key}", old=old, new=new)
            elif is_believed and (crate, key) not in table:
                wrong.append(f"{crate}/{key}: it has no variant")
    return found, wrong


class Trial:
    """The variants that are left, and the places of the crate `name`, theirs or one above, that can refuse them: functions and lemmas.
    `cones` has the variants on which each rests, `checked` the function to check: itself, or for a lemma one whose proof reads its file.
    `known` has the place that refused a variant the last time."""

    def __init__(self, tree, base, name, variants):
        self.tree, self.base, self.crate, self.left, self.tried = tree, base, tree.crate(name), dict(variants), Counter()
        self.known = {it: entry.where.partition(", ")[0] for it, entry in entries().items()}
        by_key, rests = {it.place: it.name for it in variants.values()}, Rests(tree, name)
        self.cones, self.checked, read = {}, {}, {it: self.crate.modules_read_with(it) for it in self.crate.functions.values()}
        for function in sorted(read, key=lambda it: (it.file == "src/laws.rt", len(read[it]))):
            lemmas = [f"{lemma} of {self.crate.files[at]}" for at in sorted(read[function]) for lemma in self.crate.modules[at]]
            for place in [it for it in (function.path, *lemmas) if it not in self.checked]:
                self.checked[place] = function.path
                self.cones[place] = {by_key[it[:2]] for it in Walk(rests, rests.starts_at(place), True).reached if it[:2] in by_key}

    def resting_on(self, name):
        """The places that rest on a variant: the known one, and then those first that rest on the fewest that are left."""
        fit = (it for it, cone in self.cones.items() if name in cone)
        return sorted(fit, key=lambda it: (it != self.known.get(name), len(self.cones[it] & self.left.keys())))

    def chosen(self, names, few):
        """Those of these variants that can be planted at once, each with untried places of its own: the known one, or a few others."""
        often, found, blocked = Counter(name for cone in self.cones.values() for name in cone), {}, set()
        for name in sorted(names, key=lambda it: often[it]):
            fit = [] if name in blocked else [it for it in self.resting_on(name) if not self.tried[name, it]]
            place = next((it for it in fit if not self.cones[it] & found.keys()), "")
            if place:
                found[name] = fit
                blocked |= self.cones[place]
        alone = {name: [it for it in fit if self.cones[it] & found.keys() == {name}] for name, fit in found.items()}
        return {name: fit[: 1 if fit[0] == self.known.get(name) else few] for name, fit in alone.items()}

    def planned(self, few, most):
        """Returns groups of variants to plant together, largest first. Variants tried at fewer than `most` places get up to `few` more."""
        names, found = {it for it in self.left if self.tried[it] < most}, []
        while chosen := self.chosen(names, few):
            found.append(chosen)
            names -= chosen.keys()
        return sorted(found, key=len, reverse=True)

    def judged(self, chosen):
        """Plants variants together, and checks their places, or the whole crate if there are none. Yields the name of each variant that is
        decided, the places that refuse it and rest on no other planted one, and why there are none. It is then no longer left."""
        names, functions = list(chosen), sorted({self.checked[it] for fit in chosen.values() for it in fit})
        plain = self.tree.crate(self.left[names[0]].crate).plain
        texts = {self.left[it].file: plain[self.left[it].file] for it in names}
        for it in names:
            texts = self.left[it].planted(texts)
        with copied([self.crate.name], self.base.folder) as room:
            said = room.check(self.crate.name, functions, texts, self.left[names[0]].crate)
        why, found = why_unread(said), {}
        if why and len(names) > 1:
            for half in (names[::2], names[1::2]):
                yield from self.judged({it: chosen[it] for it in half})
            return
        for place in places_of(said, self.crate):
            hit = self.cones.get(place, set()) & chosen.keys() if len(names) > 1 else chosen
            for name in hit if len(hit) == 1 else ():
                found.setdefault(name, []).append(place)
        why = why or ("" if functions or found or "logic=proved" in said else "no place that is known refuses it")
        for name, fit in chosen.items():
            self.tried.update([name] * len(fit) + [(name, it) for it in fit])
            if why or name in found:
                del self.left[name]
                yield name, found.get(name, []), why

    def tried_above(self, name, crates):
        """Yields the name of a variant with the place of one of these crates that refuses it, and why none does."""
        trials = (Trial(self.tree, self.base, it, {name: self.left[name]}) for it in crates)
        rounds = ((it, chosen) for it in trials for chosen in it.planned(MANY, 1))
        found = (f"{it.crate.name}::{place}" for it, chosen in rounds for _, places, _ in it.judged(chosen) for place in places)
        place = next(found, "")
        yield name, [place] if place else [], "" if place else PROVED


def decided(trials, above):
    """Yields the name of each variant of these trials with the places that refuse it, of a crate above if none of its own does, and why
    none does. They are planted together with others as often as they can be, and then alone, with the whole crate."""
    for few, most in STAGES:
        while tasks := [functools.partial(it.judged, chosen) for it in trials for chosen in it.planned(few, most)]:
            yield from side_by_side(tasks)
    yield from side_by_side([functools.partial(it.judged, {name: []}) for it in trials for name in it.left])
    yield from side_by_side([functools.partial(it.tried_above, name, above[it.crate.name]) for it in trials for name in it.left])


def tried(tree, variants):
    """Yields the name of each variant, the places that refuse it and a verdict, as they are decided. The longest crates come first."""
    of_crates = {crate: {it.name: it for it in variants if it.crate == crate} for crate in dict.fromkeys(it.crate for it in variants)}
    above = {name: [it.name for it in tree.crates.values() if name in it.below] for name in of_crates}
    order = sorted(of_crates.items(), key=lambda it: -len(it[1]))
    with copied(tree.crates) as base:
        for name, where, why in decided([Trial(tree, base, *it) for it in order], above):
            yield name, ", ".join(where[:3]), Verdict(("",) if where else (), why)
