"""Reads the crates of a repository: their files, with and without comments, their items of code, and the declarations of antt files."""

import glob
import itertools
import os
import re
from typing import NamedTuple

from kit import ROOT, crates_in, text_of
from mistakes.code import DECLARED, functions_in, items_in, module_of, packed, without_comments

NOTE = re.compile(r"^\s*--(?![\w◌]).*\n?", re.M)
USE = re.compile(r"^ *(?:unfoldable )?(pub )?(?:ghost )?use (Rattle\.[^\s{;]+?)(?:\.\{([^}]*)\}| as (\w+))?;?$", re.M)
NO_DECLARATION = re.compile(r"(?:unfoldable )?(?:pub )?(?:use|mod) |infix")
# A declaration begins with such a word, or with its name, which may be an operator, and a colon.
HEAD = re.compile(r"((?:(?:pub|abbrev|unfoldable|opaque|record|data|ruleset) )+(?=\S)|(?=\S+ :))([^\s:]+)(?: |$)")
INNER = re.compile(r"^((?:mutual|module\b(?:.|\n    )*? where)\n)((?:  .*\n?)+)", re.M)
# The lemmas and definitions that an attribute of code gives to the tactics, as paths of code.
GIVEN = re.compile(r"\b(?:using|unfolding)\(([^()]*)\)")
CODE_USE = re.compile(r"(?m)^ *(?:pub(?:\([^)]*\))? )?use ((?!Rattle\.)[^;]*);")


class Declared(NamedTuple):
    """A declaration of specs/ or proofs/: its text as others see it, and its whole text. Of a lemma others see only the statement."""

    seen: str
    whole: str


def module_at(crate, file):
    """The name of the module that a file of declarations is."""
    return f"Rattle.{crate}.{file.removesuffix('.antt').replace('/', '.')}"


def uses_of(text):
    """Returns a triple for each `use` of a text: whether it is public, its module, and the names in that module by their names here. If the
    module is used as a whole, the third part is its name here, as a string."""
    found = []
    for is_public, module, names, here in USE.findall(text):
        pairs = [it.partition(" as ") for it in names.split(", ")]
        taken = {own or there: there for there, _, own in pairs} if names else here or module.rpartition(".")[2]
        found.append((bool(is_public), module, taken))
    return found


def given_by(text, crate):
    """Returns the names that the attributes in a text of code give to the tactics, in the form of `uses_of`."""
    paths = [it.strip().split("::") for given in GIVEN.findall(text) for it in given.split(",") if it.strip()]
    return [(False, ".".join(["Rattle", crate if at == "crate" else at, *inside]), {name: name}) for at, *inside, name in paths]


def paths_of(text):
    """Returns the paths in the `use` items of a text of code, by their last names; with `as`, by both names."""
    found = {}
    for path in CODE_USE.findall(text):
        parts = [it.strip() for it in re.split(r"[{},]", path)]
        before = "".join(it for it in parts if it.endswith("::"))
        for part in parts:
            for word in re.findall(r"\w+", part.rpartition("::")[2]):
                found.setdefault(word, set()).add(before + part)
    return found


def declarations_of(text, is_spec):
    """Returns the declarations of an antt text by name. Others see a definition, or whatever can be unfolded, as a whole."""
    found = {}
    for opening, inner in INNER.findall(text):
        for own, it in declarations_of(re.sub("^  ", "", inner, flags=re.M), is_spec).items():
            found[own] = Declared(opening + it.seen, opening + it.whole)
    lines = [it for it in INNER.sub("", text).split("\n") if not NO_DECLARATION.match(it)]
    heads = {at: it for at, line in enumerate(lines) if (it := HEAD.match(line))}
    for (first, head), end in zip(heads.items(), [*heads, len(lines)][1:]):
        behind = next((at for at in range(first + 1, end) if not lines[at].startswith(" ")), end)
        statement = "\n".join(lines[first:behind])
        whole = "\n".join([statement, "\n".join(lines[behind:end])])
        is_open = is_spec or (head[1] or "").replace("pub ", "") or re.search(r"[→:] Type \d$", statement, re.M)
        found[head[2]] = Declared(whole if is_open else statement, whole)
    return found


class CrateTexts:
    """A crate's files as they are, and without comments; its functions, its items, and its modules of declarations."""

    def __init__(self, name, raw):
        self.name, self.raw, self.types = name, raw, {}
        for file in sorted(it for it in raw if it.endswith(".rt")):
            for it in DECLARED.findall(raw[file]):
                self.types.setdefault(it, []).append(module_of(file))
        plain = {it: without_comments(text) if it.endswith(".rt") else NOTE.sub("", f"{text}\n") for it, text in sorted(raw.items())}
        self.lines = {file: text.split("\n") for file, text in plain.items()}
        self.by_file = {file: functions_in(file, text, self.types) for file, text in plain.items() if file.endswith(".rt")}
        self.functions = {it.path: it for found in self.by_file.values() for it in found}
        self.items = [it for file, found in self.by_file.items() for it in items_in(name, file, plain[file], found)]
        self.uses, self.paths = {it: uses_of(text) for it, text in plain.items()}, {it: paths_of(plain[it]) for it in self.by_file}
        for file in self.by_file:
            self.uses[file] += given_by(f"{self.inner_attributes(file)}\n{plain[file]}", name)
        self.plain = {it: packed(lines) for it, lines in self.lines.items() if it not in self.by_file}
        self.files = {module_at(name, it): it for it in self.plain}
        self.modules = {at: declarations_of(self.plain[it], it.startswith("specs/")) for at, it in self.files.items()}

    def inner_attributes(self, file):
        """Returns the inner attributes (`#!`) of the crate, of the modules around a file of code, and of the file itself."""
        folders = file.split("/")[:-1]
        files = ["src/lib.rt", "src/main.rt", *(f"{'/'.join(folders[:it])}.rt" for it in range(2, len(folders) + 1)), file]
        return packed(sorted(it for at in files for it in self.lines.get(at, ()) if it.startswith("#!")))

    def attributes_of(self, function):
        """The attributes on a function."""
        above = reversed(self.lines[function.file][: function.first])
        return list(itertools.takewhile(lambda it: it.strip().startswith("#["), above))[::-1]

    def modules_read_with(self, function):
        """Returns the modules of lemmas that are checked with a function: its written proof, its attributes or such a module use them."""
        given = given_by("\n".join([self.inner_attributes(function.file), *self.attributes_of(function)]), self.name)
        found = [at for _, at, _ in given if at in self.files]
        found += [at for at, it in self.files.items() if os.path.dirname(it) == function.proofs()]
        for at in found:
            found += {it for _, it, _ in self.uses[self.files[at]] if it in self.files} - {*found}
        return {at for at in found if re.match(r"proofs/(?:lemmas/|[^/]*$)", self.files[at])}


class Tree:
    """The crates of a repository, from the texts of its files by path."""

    def __init__(self, texts):
        self.texts, self.crates, self.read = texts, crates_in(texts["crates.txt"]), {}

    def crate(self, name):
        if name not in self.read:
            start = f"crates/{name}/"
            self.read[name] = CrateTexts(name, {it.removeprefix(start): text for it, text in self.texts.items() if it.startswith(start)})
        return self.read[name]

    def with_texts(self, texts):
        """This tree with other texts of some files."""
        found, changed = Tree({**self.texts, **texts}), {path.split("/")[1] for path in texts if "/" in path}
        found.read = {name: it for name, it in self.read.items() if name not in changed}
        return found


def tree_at():
    """The crates of the repository as they stand."""
    parts = ("src/**/*.rt", "specs/**/*.antt", "proofs/**/*.antt")
    paths = ["crates.txt", *(it for part in parts for it in glob.glob(f"crates/*/{part}", root_dir=ROOT, recursive=True))]
    return Tree({it: text_of(f"{ROOT}/{it}") for it in paths})
