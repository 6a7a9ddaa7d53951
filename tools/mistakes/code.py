"""Reads the code of a crate by the layout that `rt fmt` gives it: its functions, and its items as callers see them."""

import re
from typing import NamedTuple

PUB = r"(?:pub(?:\([^)]*\))? )?"
FN = rf"{PUB}(?:const )?(?:unsafe )?(?:extern \"C\" )?fn (\w+)"
FUNCTION = re.compile(rf"( *){FN}")
BLOCK = re.compile(rf"{PUB}(impl|trait)\b(.*) \{{$")
DECLARED = re.compile(rf"^{PUB}(?:struct|enum) (\w+)", re.M)
NAMED = re.compile(rf"{PUB}(?:struct|enum|union|trait|type|const|static|macro_rules!) ?(?:mut )?(\w+)")
START = re.compile(rf"{FN}|{NAMED.pattern}|{PUB}(?:impl|mod|use|ghost)\b|#!?\[")
# The first line of an item behind its attributes.
HEAD = re.compile(r"^ *(?!#\[)(\S.*)", re.M)
COMMENT = re.compile(r'//[^\n]*|/\*.*?\*/|("(?:\\.|[^"\\])*"|b?\'(?:\\.|[^\'\\\n])\')', re.S)


class Function(NamedTuple):
    """A function with a body: its path below the crate, its file, and the lines, counted from 0, of its start, contract, body and end."""

    path: str
    file: str
    first: int
    contract: int
    body: int
    last: int

    def proofs(self):
        """The folder in which its written proofs stand, below the crate's."""
        return f"proofs/{self.path.replace('::', '/')}"


class Item(NamedTuple):
    """An item of code as callers see it. An impl has no name. `of` is the type of a method or an impl, and `trait` the trait of an impl."""

    crate: str
    file: str
    name: str
    text: str
    of: str = ""
    trait: str = ""

    def key(self):
        return repr((self.crate, self.of, self.trait, self.text))


def module_of(file):
    """Returns the path of the module of a file below src/, "" for the crate's root."""
    inside = file.removeprefix("src/").removesuffix(".rt")
    return "" if inside in ("lib", "main") else inside.replace("/", "::")


def joined(*parts):
    return "::".join(it for it in parts if it)


def bare(type_text):
    """Returns the name of a type without `&`, its path and its type arguments."""
    return re.sub(r"<.*", "", type_text.strip().lstrip("&")).rsplit("::", 1)[-1].strip()


def parts_of_impl(head):
    """Returns the parameters, the trait ("" if there is none) and the type of an impl. `head` is what follows the word `impl`."""
    parameters, rest = re.fullmatch(r"\s*(?:<((?:[^<>]|<[^<>]*>)*)>)?(.*)", head).groups("")
    trait, _, of = rest.partition(" where ")[0].strip(" {}").rpartition(" for ")
    return re.findall(r"\w+", parameters), trait, of


def with_given(text, free):
    """Returns the name of a type or a trait, followed by the names of its type arguments, except the parameters in `free`."""
    given = re.findall(r"(?<!')\b[A-Z]\w*", text.partition("<")[2])
    return "".join([bare(text), *(it for it in given if it not in free)])


def owner_of(block, module, types):
    """Returns the path under which the prover names the functions of an `impl` or a trait: of a type, the module that declares it and the
    type; of a trait of a type, the type and the trait, each followed by its type arguments that are no parameters of the block."""
    kind, head = block.groups()
    if kind == "trait":
        return joined(module, re.match(r" (\w+)", head)[1])
    free, trait, of = parts_of_impl(head)
    if trait:
        return joined(module, with_given(of, free) + with_given(trait, free))
    declared = types.get(bare(of), [module])
    return joined(module if module in declared else declared[0], bare(of))


def parts_of(lines, first, indent):
    """Returns the first lines of contract and body, and the last line, of the function that starts on line `first`, counted from 0; None if
    it has no body on lines of its own. After a contract the body begins with a line `{`, and the contract is indented further."""
    contract = None
    for number, line in enumerate(lines[first:], first):
        if not contract and re.match(r" *(requires|ensures|ghost)\b", line):
            contract = number
        if line == f"{indent}{{}}":
            return contract or number, number, number
        if line == f"{indent}{{" or not contract and line.endswith(" {"):
            last = next((at for at in range(number + 1, len(lines)) if lines[at] == f"{indent}}}"), None)
            return last and (contract or number + 1, number + 1, last)
        if line.strip() and not line.startswith(f"{indent} ") if contract else line.endswith((";", "}")):
            return None
    return None


def functions_in(file, text, types):
    """Returns the functions of a file, except those on one line. `types` has the modules that declare a type, by its name."""
    lines, module, found = text.split("\n"), module_of(file), []
    owner = module
    for number, line in enumerate(lines):
        block, head = BLOCK.match(line), FUNCTION.match(line)
        if block or line == "}":
            owner = owner_of(block, module, types) if block else module
        parts = head and parts_of(lines, number, head[1])
        if parts:
            found.append(Function(joined(owner, head[2]), file, number, *parts))
    return found


def without_comments(text):
    """The text of a file of code with each comment taken away, on the same lines."""
    return COMMENT.sub(lambda it: it[1] or "\n" * it[0].count("\n"), text)


def packed(lines):
    return "\n".join(it.rstrip() for it in lines if it.strip())


def blocks_of(text, indent=""):
    """Returns the items at this indent, each with the attributes above it. A block that begins no item is joined to the one before it."""
    found = []
    for block in re.findall(rf"((?:.*\n)*?(?:#!.*|{indent}(?![ #]).*(?:=\n(?:.*\n)*?.*;|[;}}])|.+\Z))(?:\n|$)", text):
        is_item = START.match(HEAD.search(block)[1])
        found.append(block if is_item or not found else f"{found.pop()}\n{block}")
    return found


def items_of_impl(crate, file, block):
    """Returns the items of an impl: one for an impl of a trait; for an impl of a type, one for each function and one for the rest."""
    opening, brace, inside = block.partition("{\n")
    head = " ".join(it.strip() for it in opening.split("\n") if not it.startswith("#"))
    _, trait, of = parts_of_impl(head.removeprefix("impl"))
    if trait:
        return [Item(crate, file, "", block, bare(of), bare(trait))]
    members = [(re.match(FN, HEAD.search(it)[1]), it) for it in blocks_of(inside.rpartition("\n")[0], "    ")]
    shell = "\n".join([f"{opening}{brace}".rstrip(), *(it for function, it in members if not function)])
    return [Item(crate, file, "", shell, bare(of)), *(Item(crate, file, it[1], text, bare(of)) for it, text in members if it)]


def items_in(crate, file, text, functions):
    """Returns the items of a text without comments as callers see them: functions without their bodies. An impl has no name."""
    lines, found = text.split("\n"), []
    for it in functions:
        lines[it.body : it.last] = [""] * (it.last - it.body)
    for block in blocks_of(packed(lines)):
        head = HEAD.search(block)[1]
        named = re.match(FN, head) or NAMED.match(head)
        if re.match(r"impl\b", head):
            found += items_of_impl(crate, file, block)
        elif named and named[1] != "_":
            found.append(Item(crate, file, named[1], block))
    return found
