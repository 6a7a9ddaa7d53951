#!/bin/sh
# Makes libhart.a and libhart.so from the proved static library of hart_c. They offer the calls of include/hart.h and no other symbol.
# From the C library they need memcpy, memmove and memset; any other undefined symbol makes the build fail. libhart.so is a link to
# libhart.so.0, whose number grows when a program that was built with an earlier one would not run with it.
#
# Usage: tools/library.sh [--target TARGET] FOLDER; both libraries are put into FOLDER. TARGET is aarch64-linux-gnu, or absent for
# x86-64; its tools are TARGET-gcc (or $CC), TARGET-objcopy, TARGET-nm and TARGET-ar. `rt lib` proves hart_c for the target and
# builds it, with as many jobs as RT_JOBS says. It reuses the results of earlier checks; without them it takes some minutes.
set -eu
target=
if [ "$1" = --target ]; then
    target=$2
    shift 2
fi
folder=$(realpath "$1")
cd "$(dirname "$0")/.."
work=$(mktemp -d)
trap 'rm -rf "$work"' EXIT
cc=${CC:-${target:+$target-g}cc}
tool=${target:+$target-}
# The target as rattle names it.
case $target in
"") proved_for= ;;
aarch64-linux-gnu) proved_for=aarch64-unknown-linux-gnu ;;
*)
    echo "tools/library.sh: the toolchain proves no library for $target" >&2
    exit 2
    ;;
esac

made=crates/hart_c/out/libhart_c.a
if ! (cd crates/hart_c && rt lib ${proved_for:+--target "$proved_for"} ${RT_JOBS:+--jobs "$RT_JOBS"}) >"$work/said" 2>&1; then
    cat "$work/said" >&2
    exit 1
fi

"$cc" -r -nostdlib -o "$work/hart.o" -Wl,--whole-archive "$made" -Wl,--no-whole-archive
needed=$("${tool}nm" --undefined-only -P "$work/hart.o" | cut -d ' ' -f 1 | sort | xargs)
if [ "$needed" != "memcpy memmove memset" ]; then
    echo "libhart.a needs other calls than memcpy, memmove and memset: $needed" >&2
    exit 1
fi
"${tool}objcopy" -w --keep-global-symbol='hart_*' "$work/hart.o"
rm -f "$work/libhart.a"
"${tool}ar" rcs "$work/libhart.a" "$work/hart.o"

printf '{ global: hart_*; local: *; };\n' >"$work/hart.map"
"$cc" -shared -Wl,-z,text -Wl,--no-undefined -Wl,-soname,libhart.so.0 "-Wl,--version-script=$work/hart.map" -o "$work/libhart.so.0" \
    -Wl,--whole-archive "$work/libhart.a" -Wl,--no-whole-archive
cp "$work/libhart.a" "$work/libhart.so.0" "$folder"
ln -sf libhart.so.0 "$folder/libhart.so"
