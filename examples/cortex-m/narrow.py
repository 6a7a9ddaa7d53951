#!/usr/bin/env python3
"""Turns the module of libhart for x86-64, in LLVM's text form, into one for a 32-bit ARM processor. Nothing of this is proved.

Numbers stay as they were proved: a length has 64 bits. Only addresses become narrower: a pointer has 4 bytes in a slot of 8, so that all
offsets stay as they were. The script refuses a module in which something is left that it does not change.

Usage: narrow.py IN.ll OUT.ll TRIPLE; TRIPLE is the processor as clang names it
"""

import re
import sys

# ARM's own layout. i64:64 puts the second part of a pair of a pointer and a length at offset 8.
LAYOUT = "e-m:e-p:32:32-Fi8-i64:64-v128:64:128-a:0:32-n32-S64"
FOREIGN_ATTRIBUTE = re.compile(r' "(?:probe-stack|stack-probe-size|target-cpu|target-features|tune-cpu|frame-pointer)"="[^"]*"')
COPY = r"@llvm\.mem(?:set|move|cpy)\.[a-z0-9.]*?"
CONSTANT = re.compile(r"^(@[^\n]*<\{)([^\n]*?)(\}> <\{)([^\n]*)$", re.MULTILINE)
POINTER = re.compile(r"\bptr (?:getelementptr [a-z ]*\(i8, ptr @[\w.]+, i64 \d+\)|@[\w.]+|null)")
PAIR = re.compile(r"^ *(%[\w.]+) = load \{ (i\d+|ptr), ptr \}, ptr (%[\w.]+), align \d+$", re.MULTILINE)
EXPORT = re.compile(r"^define (?:noundef )?(\S+|\{[^}]*\}) @(hart_\w+)\((.*?)^\}$", re.MULTILINE | re.DOTALL)
RESULT = re.compile(r"^( *)(%[\w.]+) = (load ([^\n]*), ptr %[\w.]+, align (\d+))\n *ret \4 \2$", re.MULTILINE)
# The bits of a result that ARM returns in a register. What is larger goes through memory.
REGISTER = 32
LEFT = {
    "a copy with a length of 64 bits": rf"{COPY}\.i64\(",
    "an address as a number": r"\bptrtoaddr\b",
    "a slot that is too small for a pointer": r"= alloca ptr\b",
    "a pair with a pointer behind": r"\bload \{[^}\n]*, ptr \}",
    "a pair with a pointer that is stored at once": r"\bstore \{[^}\n]*\bptr\b",
    "an array of pointers": r"\bx ptr\]",
    "an instruction of another processor": r"@llvm\.x86\.",
}


def set_target(text, triple):
    """Names the processor, and drops attributes of the other one."""
    text = re.sub(r"^target datalayout = .*$", f'target datalayout = "{LAYOUT}"', text, flags=re.MULTILINE)
    text = re.sub(r"^target triple = .*$", f'target triple = "{triple}"', text, flags=re.MULTILINE)
    return FOREIGN_ATTRIBUTE.sub("", text)


def widen_slots(text):
    """Keeps 8 bytes for each pointer in memory, since whole slots are copied."""
    text = re.sub(r"= alloca ptr, align 8", "= alloca [8 x i8], align 8", text)
    text = re.sub(r"\bptrtoaddr (ptr %[\w.]+ to i64)", r"ptrtoint \1", text)
    return PAIR.sub(r"""  \1.first = load \2, ptr \3, align 1
  \1.place = getelementptr i8, ptr \3, i64 8
  \1.second = load ptr, ptr \1.place, align 1
  \1.half = insertvalue { \2, ptr } poison, \2 \1.first, 0
  \1 = insertvalue { \2, ptr } \1.half, ptr \1.second, 1""", text)


def widen_constant(found):
    """Puts 4 bytes behind each pointer in a constant, so that all offsets in it stay as they were."""
    head, types, between, values = found.groups()
    types, in_types = re.subn(r"\bptr\b", "ptr, [4 x i8]", types)
    values, in_values = POINTER.subn(lambda it: f"{it[0]}, [4 x i8] zeroinitializer", values)
    if in_types != in_values:
        sys.exit(f"narrow: {in_types} pointers in the type of a constant, and {in_values} in its value")
    return f"{head}{types}{between}{values}"


def shorten_copies(text):
    """Gives copies a length of 32 bits."""
    text = re.sub(rf"({COPY})\.i64(\(.*?, )i64 (\d+), i1", r"\1.i32\2i32 \3, i1", text)
    text = re.sub(rf"^(declare void {COPY})\.i64(\(.*?), i64, i1", r"\1.i32\2, i32, i1", text, flags=re.MULTILINE)
    count = 0

    def cut(found):
        nonlocal count
        count += 1
        indent, call, name, before, length = found.groups()
        return f"{indent}%length.{count} = trunc i64 {length} to i32\n{indent}{call}{name}.i32{before}i32 %length.{count}, i1"

    return re.sub(rf"^( *)(.*call void )({COPY})\.i64(\(.*?, )i64 (%[\w.]+), i1", cut, text, flags=re.MULTILINE)


def lower_export(found):
    """Returns the result of a call as ARM does: a byte is extended to 32 bits, and a struct of more than 4 bytes goes to memory."""
    kind, name, rest = found.groups()
    size = sum(map(int, re.findall(r"\bi(\d+)\b", kind)))
    if kind == "i8":
        return found[0].replace(f"define noundef i8 @{name}", f"define noundef zeroext i8 @{name}", 1)
    if size <= REGISTER:
        return found[0]
    rest, returns = RESULT.subn(r"\1\2 = \3\n\1store \4 \2, ptr %result, align \5\n\1ret void", rest)
    if returns != 1 or "ret " + kind in rest:
        sys.exit(f"narrow: {name} has not one result of {kind}")
    return f"define void @{name}(ptr noalias sret([{size // 8} x i8]) %result{', ' * (rest[0] != ')')}{rest}}}"


def narrowed(text, triple):
    """Returns the module for the other processor; ends the run if something is left that belongs to the first."""
    text = shorten_copies(CONSTANT.sub(widen_constant, widen_slots(set_target(text, triple))))
    text = EXPORT.sub(lower_export, text)
    for what, pattern in LEFT.items():
        left = re.search(rf"^.*{pattern}.*$", text, re.MULTILINE)
        if left:
            sys.exit(f"narrow: {what} is left: {left[0]}")
    return text


def main():
    """Reads and writes the module."""
    source, target, triple = sys.argv[1:]
    with open(source, encoding="utf-8") as it:
        text = it.read()
    with open(target, "w", encoding="utf-8") as it:
        it.write(narrowed(text, triple))


if __name__ == "__main__":
    main()
