#!/bin/sh
# Translates libhart for a Cortex-M4, and tries it in qemu-system-arm: each call does what tools/library_calls.c says, and
# tools/library_random.c gives the same as on x86-64. The translation is tested and not proved: README.md says what it changes.
#
# `rt lib` proves hart_c, builds it for x86-64, and hands the compiler a file of LLVM bitcode in a folder below TMPDIR. That file is kept
# here. If a package is missing, or the toolchain hands over no such file, a line says so, and the status is 0.
#
# Usage: examples/cortex-m/run.sh [FOLDER]; libhart.a for the Cortex-M4 is put into FOLDER, if one is named.
set -eu
[ -z "${1:-}" ] || mkdir -p "$1"
folder=${1:+$(realpath "$1")}
cd "$(dirname "$0")/../.."
here=examples/cortex-m
work=$(mktemp -d)
trap 'rm -rf "$work"' EXIT
mkdir "$work/try"
rounds=10000

missing() {
    echo "cortex-m: $1, so nothing was translated"
    exit 0
}
for tool in arm-none-eabi-gcc qemu-system-arm; do
    command -v "$tool" >"$work/said" || missing "no $tool"
done
clang=$(dirname "$(rt doc)")/toolchain/bin/clang
[ -x "$clang" ] || missing "the toolchain has no toolchain/bin/clang"

# Whether a file is LLVM bitcode, which begins with these bytes.
is_bitcode() {
    [ "$(head -c 4 "$1" 2>/dev/null | od -An -tx1 | tr -d ' ')" = 4243c0de ]
}
(cd crates/hart_c && TMPDIR=$work/try rt lib ${RT_JOBS:+--jobs "$RT_JOBS"} >"$work/proved" 2>&1) &
proving=$!
while kill -0 "$proving" 2>/dev/null; do
    for found in $(find "$work/try" -type f 2>/dev/null); do
        # A hard link also keeps a file that is still being written.
        ! is_bitcode "$found" || ln -f "$found" "$work/module" 2>/dev/null || true
    done
    sleep 0.1
done
wait "$proving" || {
    cat "$work/proved" >&2
    exit 1
}
[ -e "$work/module" ] || missing "\`rt lib\` of this toolchain left no bitcode below TMPDIR"
cp crates/hart_c/out/libhart_c.a "$work/libhart_x86_64.a"

"$clang" --no-default-config -x ir "$work/module" -S -emit-llvm -O0 -Xclang -disable-llvm-passes -o "$work/x86-64.ll"
triple=thumbv7em-unknown-none-eabi
python3 "$here/narrow.py" "$work/x86-64.ll" "$work/arm.ll" "$triple"
cpu='-mcpu=cortex-m4 -mfloat-abi=soft'
"$clang" --no-default-config --target="$triple" $cpu -Os -ffunction-sections -fdata-sections -c -x ir "$work/arm.ll" -o "$work/hart.o"
arm-none-eabi-objcopy -w --keep-global-symbol='hart_*' "$work/hart.o"
arm-none-eabi-ar rcs "$work/libhart.a" "$work/hart.o"

# Builds a program of tools for the board, and runs it there with arguments. This newlib knows neither %zu nor PRIx64.
run() {
    sed 's/%zu/%u/g' "tools/$1.c" >"$work/$1.c"
    arm-none-eabi-gcc -std=c11 -mthumb $cpu -O2 -Wall -Wextra -Werror -DPRIx64='"llx"' -Itools -I"$here" -Iinclude "$work/$1.c" \
        "$here/start.c" "$work/libhart.a" -specs=rdimon.specs -T "$here/mps2.ld" -Wl,--gc-sections,-z,noexecstack -o "$work/$1.elf"
    words=$(printf ',arg=%s' "$@")
    timeout 600 qemu-system-arm -M mps2-an386 -nographic -semihosting-config "enable=on,target=native$words" -kernel "$work/$1.elf"
}
run library_calls
cc -std=c11 -O2 -Iinclude tools/library_random.c "$work/libhart_x86_64.a" -o "$work/library_random"
wanted=$("$work/library_random" "$rounds" 2>"$work/said")
hash=$(run library_random "$rounds" 2>"$work/said")
if [ "$hash" != "$wanted" ]; then
    echo "cortex-m: $rounds rounds of random calls give $hash, and $wanted on x86-64" >&2
    exit 1
fi
echo "cortex-m: each call did what tools/library_calls.c says, and $rounds rounds of random calls gave the same as on x86-64"
# The limits of that program are those of x86-64.
run library_stack 2>"$work/said" | sed 's/^/cortex-m: /'
arm-none-eabi-size "$work/hart.o" |
    awk 'NR == 2 { print "cortex-m: " $1 " bytes of code and constants, " $2 + $3 " bytes of static memory" }'
[ -z "$folder" ] || cp "$work/libhart.a" "$folder"
