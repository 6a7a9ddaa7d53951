"""Compares include/hart.h with the source of hart_c: both have to have the same structs, fields, constants and calls."""

import pathlib
import re
import sys

TOP = pathlib.Path(__file__).parents[1]
SOURCES = sorted((TOP / "crates" / "hart_c" / "src").glob("**/*.rt"))
HEADER = TOP / "include" / "hart.h"

NUMBERS = {"u8": "uint8_t", "u16": "uint16_t", "u32": "uint32_t", "u64": "uint64_t", "usize": "hart_size", "bool": "bool"}
STRUCT = re.compile(r"^#\[repr\(C\)\]\n(?:#\[[^\n]*\]\n)*pub struct (\w+) \{\n(.*?)^\}$", re.MULTILINE | re.DOTALL)
FIELD = re.compile(r"^    pub (\w+): (.+),$", re.MULTILINE)
ARRAY = re.compile(r"\[(\w+); (\d+)\]")
CONSTANT = re.compile(r"^pub const (HART_\w+): u(?:8|32) = (\w+);$", re.MULTILINE)
CALL = re.compile(r'^pub extern "C" fn (\w+)\((.*?)\)(?: -> (\w+))?$', re.MULTILINE | re.DOTALL)
COMMENT = re.compile(r"/\*.*?\*/", re.DOTALL)
DECLARED_STRUCT = re.compile(r"typedef struct (\w+) \{(.*?)\} \1;", re.DOTALL)
DECLARED_CONSTANT = re.compile(r"(?:#define |\b)(HART_[A-Z_]+) (?:= )?(0x[0-9A-F]+|\d+)")
DECLARED_CALL = re.compile(r"^([\w ]+?) ?(hart_\w+)\(([^)]*)\);", re.MULTILINE)


def c_name(name):
    """Returns the C name of a struct or a number type of the source."""
    return NUMBERS.get(name) or re.sub(r"(?<=[a-z])(?=[A-Z])", "_", name).lower()


def c_field(name, kind):
    """A field in C."""
    array = ARRAY.fullmatch(kind)
    return f"{c_name(array[1])} {name}[{array[2]}]" if array else f"{c_name(kind)} {name}"


def c_parameters(name, kind):
    """Returns the C parameters for a parameter of the source: a slice becomes a pointer and a length."""
    if not kind.startswith("&"):
        return [f"{c_name(kind)} {name}"]
    changes = kind.startswith("&mut ")
    target = kind.removeprefix("&").removeprefix("mut ")
    pointer = f"{'' if changes else 'const '}{c_name(target.strip('[]'))} *{name}"
    return [pointer, f"hart_size {name}_len"] if target.startswith("[") else [pointer]


def parameters_of(text):
    """The names and types of the parameters of a call."""
    return [part.strip().split(": ") for part in text.replace("\n", " ").split(",") if part.strip()]


def of_source():
    """What the source exports: structs, constants, and calls."""
    text = "\n".join(source.read_text(encoding="utf-8") for source in SOURCES)
    structs = {c_name(name): [c_field(*field) for field in FIELD.findall(body)] for name, body in STRUCT.findall(text)}
    calls = {
        name: (c_name(result) if result else "void",
               [given for name, kind in parameters_of(parameters) for given in c_parameters(name, kind)])
        for name, parameters, result in CALL.findall(text)}
    return structs, dict(CONSTANT.findall(text)), calls


def words(text):
    """A declaration with one space between its words."""
    return " ".join(text.split())


def of_header():
    """What the header declares, in the same form."""
    text = COMMENT.sub("", HEADER.read_text(encoding="utf-8"))
    structs = {name: [words(field) for field in body.split(";") if field.strip()] for name, body in DECLARED_STRUCT.findall(text)}
    calls = {name: (words(result), [words(parameter) for parameter in parameters.split(",") if parameter != "void"])
             for result, name, parameters in DECLARED_CALL.findall(text)}
    return structs, dict(DECLARED_CONSTANT.findall(text)), calls


def main():
    """Compares the two, and tells what differs."""
    differences = []
    for what, made, declared in zip(("struct", "constant", "call"), of_source(), of_header()):
        if not made and what != "constant":
            differences.append(f"no {what} in the source")
        differences += [f"{what} {name}: {made.get(name)} in the source, {declared.get(name)} in the header"
                        for name in sorted(made.keys() | declared.keys()) if made.get(name) != declared.get(name)]
    for difference in differences:
        print(difference)
    sys.exit(1 if differences else 0)


if __name__ == "__main__":
    main()
