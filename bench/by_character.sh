#!/bin/sh
# Measures `hart dump` as bench/dump.py does, but on a program that hands each character to the scanner by itself, not in chunks.
# It builds that program in a folder of its own, from a copy of this tree in which a chunk has no room for an item. It proves again what
# this change affects, which takes some minutes, or the whole tree if the tree was never built.
#
# Usage: bench/by_character.sh [RUNS]
set -eu
root=$(cd "$(dirname "$0")/.." && pwd)
copy=$(mktemp -d)
trap 'rm -rf "$copy"' EXIT
cp -a "$root/Makefile" "$root/HANDLES" "$root/crates.txt" "$root/crates" "$root/tools" "$copy"
chunk=$copy/crates/hart_text/src/chunk.rt
sed -i 's/^    if chunk\.len() > CHUNK_LEN - ITEMS_AT_ONCE {$/    if true || chunk.len() > CHUNK_LEN - ITEMS_AT_ONCE {/' "$chunk"
if ! grep -q 'if true ||' "$chunk"; then
    echo "$0: the line of chunk.rt that lets a chunk take items is not the one that was expected" >&2
    exit 1
fi
make -C "$copy" hart >&2
python3 "$root/bench/dump.py" "$copy/hart" "${1:-31}"
