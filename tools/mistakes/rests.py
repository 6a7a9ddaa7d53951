"""Says on what the refusal of a wrong body or a wrong definition rests, and sums it up in a digest.

The prover judges a function by its own text, by its written proof, and by what these can name: the statements of other functions and
never their bodies, types, traits, constants, definitions, and the statements of lemmas and never their proofs. No tactic reads a lemma
that is not named to it. So a walk along the names finds all that a refusal rests on. It finds too much rather than too little: a name of
code stands for every item of that name in the crate and in the crates below it. Comments and the order of items do not count."""

import functools
import hashlib
import os
import re
from collections import defaultdict
from typing import NamedTuple

from mistakes.code import packed
from mistakes.tree import module_at

WORD = re.compile(r"[\w'][\w'-]*")


class Reached(NamedTuple):
    """A declaration of specs/ or proofs/ as others see it. Without a text it is a name of the toolchain, or a path in a `use` of code."""

    module: str
    name: str
    text: str = ""

    def key(self):
        return repr((self.module.split(".")[1] if self.text else self.module, self.name, self.text))


class Rests:
    """Finds what refusals in one crate rest on. A text is given with its crate and its file, which say what its words name."""

    def __init__(self, tree, name):
        self.own, names = tree.crate(name), [*tree.crates[name].below, name]
        self.crates, self.below = {it: tree.crate(it) for it in names}, {it: {*tree.crates[it].below, it} for it in names}
        self.lines = [tree.crates[it].line for it in names]
        self.modules = {module: it for crate in self.crates.values() for module, it in crate.modules.items()}
        self.files = {module: (crate, file) for crate in self.crates.values() for module, file in crate.files.items()}
        self.items, self.impls = {}, {}
        every = [it for crate in self.crates.values() for it in crate.items]
        self.types = {it.name for it in every if not it.of}
        for it in every:
            (self.items.setdefault(it.name, []) if it.name else self.impls.setdefault(it.of, [])).append(it)
            if it.trait and it.of not in self.types:
                self.impls.setdefault(it.trait, []).append(it)

    @functools.cache
    def scope(self, crate, file, is_outside=False):
        """Returns the declarations that a file can name, by its names for them; with `is_outside` only those that it shows to others. Under
        "*" are the modules that it imports as a whole and that are not of the repository."""
        found = defaultdict(set)
        for is_public, other, names in crate.uses.get(file, ()):
            if is_outside and not is_public:
                continue
            shown = self.scope(*self.files[other], True) if other in self.files else {}
            if isinstance(names, str):
                found[names].add((other, ""))
                names = {it: it for it in shown or ("*",)}
            for here, there in names.items():
                found[here] |= shown.get(there, {(other, there)})
        module = module_at(crate.name, file)
        return {**found, **{it: {(module, it)} for it in self.modules.get(module, ())}}

    @functools.cache
    def words_of(self, text, crate, file):
        """Returns the words in a text, and each operator of its scope of which some part stands in the text, or `>>=` in a `do` block."""
        said = f"{text} >>=" if re.search(r"= do$", text, re.M) else text
        operators = [it for it in self.scope(crate, file) if "◌" in it and any(part and part in said for part in it.split("◌"))]
        return {*WORD.findall(text), *operators}

    def starts_of(self, function):
        """A function's own texts: the attributes of its crate and file, its statement and body, its block as others see it, and its
        written proof."""
        lines = self.own.lines[function.file]
        head = next((it for it in reversed(lines[: function.first + 1]) if re.match(r"[^ }]", it)), lines[0])
        blocks = [it.text for it in self.own.items if it.file == function.file and head in it.text.split("\n")] or [head]
        found = [
            (self.own.inner_attributes(function.file), self.own, function.file),
            (packed([*self.own.attributes_of(function), *lines[function.first : function.last + 1]]), self.own, function.file),
            ("" if head == lines[function.first] else packed(blocks), self.own, function.file),
        ]
        for file in sorted(self.own.files.values()):
            if os.path.dirname(file) == function.proofs():
                said = packed(it for it in self.own.lines[file] if not re.match(r"(?:unfoldable )?(?:pub )?use ", it))
                found.append((said, self.own, file))
        return found

    def starts(self, body):
        """The texts from which a walk for a wrong body begins: its functions, what it changes outside them, and the new texts."""
        found = [it for function in body.functions for it in self.starts_of(function)]
        for file, line in body.outside:
            found += [(it.text, self.own, file) for it in self.own.items if it.file == file and line in it.text]
        return [*found, *((it.new, self.own, it.file) for it in body.edit.changes)]

    def starts_at(self, place):
        """The texts of a place that refuses a wrong definition: a function, or `LEMMA of FILE`."""
        name, _, file = place.partition(" of ")
        if not file:
            return self.starts_of(self.own.functions[place])
        return [(self.own.modules[module_at(self.own.name, file)][name].whole, self.own, file)]

    def digest(self, said, starts):
        """Returns a digest of all on which a refusal rests: what is tried (`said`), the texts `starts`, and all that they reach."""
        return sum_of(rules(), self.lines, said, [it[0] for it in starts], sorted({it.key() for it in Walk(self, starts).reached}))


class Walk:
    """A walk from texts along their words to all that these can reach: declarations, and items and paths of code. A close one (`is_close`)
    follows a word of an antt file to code only if the file imports it, and goes to no item of crates above the crate of the text."""

    def __init__(self, rests, starts, is_close=False):
        self.rests, self.is_close, self.texts, self.reached, self.words, self.waiting = rests, is_close, list(starts), set(), set(), {}
        while self.texts:
            self.read(*self.texts.pop())

    def reach(self, it, crate, file):
        if it not in self.reached:
            self.reached.add(it)
            self.texts.append((it.text, crate, file))

    def read(self, text, crate, file):
        scope, paths = self.rests.scope(crate, file), crate.paths.get(file, {})
        self.reached.update(Reached(*it) for it in scope.get("*", ()))
        for word in self.rests.words_of(text, crate, file):
            if not self.is_close or file.endswith(".rt"):
                self.say(word, crate)
            for path in paths.get(word, ()):
                self.reached.add(Reached("use", path))
                for it in WORD.findall(path.rpartition("::")[2]):
                    self.say(it, crate)
            for target in scope.get(word, ()):
                self.declare(*target, crate)

    def say(self, word, crate):
        """Reaches the items of code that a word may name. A method is not reached until its type is named, too."""
        at = self.rests.below[crate.name] if self.is_close else self.rests.crates.keys()
        found = [] if word in self.words else [*self.waiting.pop(word, ()), *self.rests.impls.get(word, ())]
        self.words.add(word)
        for it in [it for it in self.rests.items.get(word, ()) if it.crate in at and it not in self.reached]:
            is_named = not it.of or it.of in self.words or it.of not in self.rests.types
            (found if is_named else self.waiting.setdefault(it.of, [])).append(it)
        for it in found:
            self.reach(it, self.rests.crates[it.crate], it.file)

    def declare(self, module, name, crate):
        """Reaches a declaration that a crate names. For a module that the prover made, it reaches the items of code that the path names."""
        declared = self.rests.modules.get(module, {})
        if name in declared:
            self.reach(Reached(module, name, declared[name].seen), *self.rests.files[module])
        elif "." in module and module.split(".")[1] in self.rests.crates:
            # The prover made this module. Its path names a type or a function.
            for it in [*module.split(".")[-3:], name]:
                self.say(it, crate)
        else:
            self.reached.add(Reached(module, name))


def sum_of(*parts):
    return hashlib.sha256(repr(parts).encode()).hexdigest()[:20]


@functools.cache
def rules(name="verdicts"):
    """Returns a checksum of all text of verdicts.py or places.py. Digests contain it, so a change has what they judge tried again."""
    with open(f"{os.path.dirname(__file__)}/{name}.py", "rb") as it:
        return sum_of(it.read())
