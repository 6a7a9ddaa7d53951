#!/usr/bin/env python3
"""Makes a program of the examples in C of docs/LIBRARY.md, in their order, which checks that each does what it is there for.

Usage: tools/library_page.py; writes the program, which includes tools/library_page.h, to standard output.
"""
import pathlib
import re

TOP = pathlib.Path(__file__).parents[1]
BLOCK = re.compile(r"^```c\n(.*?)^```$", re.MULTILINE | re.DOTALL)

# For each example, the code before it, and the check after it.
AROUND = [
    ("", 'check(counts.told == 1, "finding frames");'),
    ("uint8_t bytes[1024] = {0xFF, 0xFF, 0xFF, 0x00, 0x82, 0xFF}; size_t held = 6; hart_char heard[1024];",
     'check(held == 1 && read_in.len == 2 && heard[1].faults == 0x40, "marks");'),
    ("hart_frame frame; hart_decode(delivered + 2, sizeof delivered - 2, &frame);",
     'check(explained.len > 21 && memcmp(text, "0-16: reply of device", 21) == 0, "explaining messages");'),
    ("hart_frame frame; hart_decode(delivered + 2, sizeof delivered - 2, &frame);", 'check(counts.shown == 1, "fields");'),
    ("hart_frame frame = {.command = 18, .payload = {9, 0x60}};", 'check(counts.lines == 3, "names");'),
    ("hart_field fields[16];", 'check(write.payload_len == 24 && write.payload[0] == 0x38, "filling fields");'),
    ("", 'check(at.is_given && counts.sent == 3 && last.sendings == 3, "a master");'),
    ("hart_char heard[1025]; size_t heard_len;", 'check(counts.stored == 2 && counts.sent == 5, "a device");'),
    ("hart_identity identity; hart_process process; hart_registers registers; hart_device device; uint8_t reply[287];"
     " hart_bench_identity(&identity); hart_bench_process(&process); hart_bench_registers(&registers);"
     " hart_new_device(&registers, &device); hart_char heard[1025]; size_t heard_len = hear_command(128, heard, 1025);",
     'check(said.is_own && reply_len == 17 && reply[15] == 128, "commands of your own");'),
]


def main():
    blocks = BLOCK.findall((TOP / "docs" / "LIBRARY.md").read_text(encoding="utf-8"))
    if len(blocks) != len(AROUND):
        raise SystemExit(f"docs/LIBRARY.md has {len(blocks)} examples in C, and tools/library_page.py {len(AROUND)}")
    print('#include "library_page.h"')
    for number, (block, (before, after)) in enumerate(zip(blocks, AROUND)):
        print(f"static void example_{number}(void)\n{{\n{before}\n{block}{after}\n}}")
    print("int main(void)\n{\n" + "".join(f"example_{number}();\n" for number in range(len(blocks))) + "return 0;\n}")


if __name__ == "__main__":
    main()
