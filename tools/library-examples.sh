#!/bin/sh
# Compares include/hart.h with the source, builds the library, and makes each call of the header from C; the results must be those in the
# rows of tools/library_calls.c. Measures the stack of calls, and makes random calls, whose results must be the same on each target. Then
# it builds the examples without a warning, and runs them. On captures they must print exactly what the program prints, whether a capture
# comes at once or byte by byte. The example of fields must print what is written below, and the device examples must reply exactly as the
# program does, also to hart-bench. The gateway must read the devices at a bad line.
#
# A C compiler and Python are needed. C++ and Rust are tried where they are found, and so are the sanitizers of the C compiler.
#
# Usage: tools/library-examples.sh [--target TARGET] [PROGRAM [LIBRARY]]; PROGRAM is the ./hart of the repository if absent. LIBRARY is a
# folder with libhart.a and libhart.so.0; if absent, both are built. With a target, the programs in C and C++ are built for it and run
# under qemu. Without qemu or the target's compiler a line says so, and nothing is done.
set -eu
target=
if [ "${1:-}" = --target ]; then
    target=$2
    shift 2
fi
program=$(realpath "${1:-$(dirname "$0")/../hart}")
library=${2:+$(realpath "$2")}
cd "$(dirname "$0")/.."
work=$(mktemp -d)
trap 'rm -rf "$work"' EXIT
cc=${CC:-${target:+$target-g}cc}
cxx=${CXX:-$([ -n "$target" ] && echo "$target-g++" || echo c++)}
qemu=${target:+qemu-${target%%-*}}
if [ -n "$target" ] && ! { command -v "$qemu" && command -v "$cc"; } >"$work/said"; then
    echo "no $qemu or no $cc: the library was neither built nor tried for $target"
    exit 0
fi
[ -z "$target" ] || export QEMU_LD_PREFIX="/usr/$target"
strict='-O2 -Wall -Wextra -Wpedantic -Werror'
sanitized='-fsanitize=address,undefined -fno-sanitize-recover=all'
# The address sanitizer does not work under qemu.
[ -z "$target" ] || sanitized='-fsanitize=undefined -fno-sanitize-recover=all'

python3 tools/header.py
if [ -z "$library" ]; then
    library=$work
    sh tools/library.sh ${target:+--target "$target"} "$library"
fi

# The calls that a file in C names.
calls_in() {
    grep -oE '\bhart_[a-z_]+\(' "$1" | tr -d '(' | sort -u
}
# What the header defines in C, as static functions, and what it only declares.
defined=$(grep -E '^static inline' include/hart.h | grep -oE '\bhart_[a-z_]+\(' | tr -d '(' | sort -u)
named=$(calls_in include/hart.h)
declared=$(printf '%s\n' "$named" | grep -vxF "$defined")
offered=$("${target:+$target-}nm" -D --defined-only "$library/libhart.so" | awk '{ print $3 }' | sort)
if [ "$offered" != "$declared" ]; then
    echo "libhart.so offers other calls than include/hart.h declares:" >&2
    printf '%s\n' "$offered" >&2
    exit 1
fi
made=$(calls_in tools/library_calls.c)
if [ "$made" != "$named" ]; then
    echo "tools/library_calls.c makes other calls than include/hart.h names:" >&2
    printf '%s\n' "$made" >&2
    exit 1
fi

# Lets qemu run a program that was built for a target.
emulate() {
    [ -n "$target" ] || return 0
    mv "$work/$1" "$work/$1.$target"
    printf '#!/bin/sh\nexec %s "$0.%s" "$@"\n' "$qemu" "$target" >"$work/$1"
    chmod +x "$work/$1"
}
# Builds a program in C with some flags.
build() {
    source=$1
    shift
    $cc -std=c11 $strict "$@" -Iinclude "$source" "$library/libhart.a" -o "$work/$(basename "$source" .c)" &&
        emulate "$(basename "$source" .c)"
}
# Builds a program on the shared library; its name ends with _shared.
build_shared() {
    $cc -std=c11 $strict -Iinclude "$1" -L"$library" -lhart -o "$work/$(basename "$1" .c)_shared" && emulate "$(basename "$1" .c)_shared"
}

build tools/library_calls.c
"$work/library_calls"
build_shared tools/library_calls.c
LD_LIBRARY_PATH="$library" "$work/library_calls_shared"
echo "each call of the library did what tools/library_calls.c says"

# The examples in C of docs/LIBRARY.md, in one program, which checks what each does.
python3 tools/library_page.py >"$work/page.c"
build "$work/page.c" -Itools
"$work/page"
echo "the examples of docs/LIBRARY.md did what the page says"

# No call may take more stack than tools/library_stack.c allows.
if [ -z "$target" ]; then
    build tools/library_stack.c
    "$work/library_stack"
fi

# A hash of the results of 100,000 rounds of calls with pseudo-random arguments. It is the same for each target. It changes only with
# tools/library_random.c, or if the result of a call changes.
random_hash=e5cb01c1126006c1
build tools/library_random.c
hash=$("$work/library_random" 100000 2>"$work/said")
if [ "$hash" != "$random_hash" ]; then
    echo "tools/library_random.c has another hash than $random_hash: $hash" >&2
    exit 1
fi
echo "100,000 rounds of random calls gave the same as on other targets"

# Frames in noise, a false start that holds back a frame, damage, and a message that ends too early.
cat >"$work/heard.txt" <<'HEARD'
00 13 FF FF 82 B7 42 0A 1B 2C 13 03 01 23 45 3D FF FF FF FF FF 86 B7 42 0A 1B 2C 13 05 00 40 01 23 45 7F
FF FF 02 80 00 08 FF FF 02 80 00 00 82 00 00 00 FF FF E2 80 00 00 00 00 AA BB CC 0B 01 FF 4A
FF FF 02 80 00 00 83 FF FF 22 BF 55 00 00 C8 FF FF 86 77 42 0A 1B 2C 13 05 00 40 01 23 45 BF
FF FF 82 B7 42 0A 1B 2C 13 FF FF FF FF FF FF 02 80 00 00 82
HEARD
"$program" dump <"$work/heard.txt" >"$work/wanted"
xxd -r -p "$work/heard.txt" "$work/heard"
[ "$(wc -l <"$work/wanted")" -eq 7 ] || {
    echo "the program finds other frames in the capture" >&2
    exit 1
}

ran=0
# Runs an example on the capture from a file, and byte by byte.
hold() {
    "$@" <"$work/heard" >"$work/found"
    cmp "$work/wanted" "$work/found"
    (while dd bs=1 count=1 2>"$work/said" && grep -q '^1+0 records in' "$work/said"; do :; done) <"$work/heard" | "$@" >"$work/found"
    cmp "$work/wanted" "$work/found"
    ran=$((ran + 1))
}

# Talks to the device at its pseudo-terminal. A device that nobody talks to ends by itself.
talk() {
    timeout 120 python3 tools/device_example.py "$program" "$work/device"
    timeout 10 "$work/device" 0.1 >"$work/said"
    ran=$((ran + 1))
}

build examples/c/messages.c
hold "$work/messages"
build_shared examples/c/messages.c
readelf -d "$work/messages_shared${target:+.$target}" | grep -qF '[libhart.so.0]'
hold env LD_LIBRARY_PATH="$library" "$work/messages_shared"
build examples/c/device.c
talk
echo 'int main(void) { return 0; }' >"$work/nothing.c"
checks=
if build "$work/nothing.c" $sanitized 2>"$work/said"; then
    checks=$sanitized
    build examples/c/messages.c $sanitized
    hold "$work/messages"
    build examples/c/device.c $sanitized
    talk
    build tools/library_calls.c $sanitized
    "$work/library_calls"
else
    echo "no sanitizers: the calls and the examples in C were not run under them"
fi
# A gateway and two devices, one of which has commands of its own, at a line on which messages are lost and damaged.
build examples/c/own_command.c $checks
build examples/c/gateway.c $checks
timeout 600 python3 tools/bad_line.py "$work/gateway" "$work/device" "$work/own_command"
ran=$((ran + 2))
# A reply of Command 1 after a cold start, Command 11 with too few data, and a write.
cat >"$work/fields" <<'FIELDS'
reply, Command 1, read primary variable, success, cold start
    primary variable unit: degrees Celsius
    primary variable: 25
request, Command 11, read unique identifier associated with tag, too few data bytes
request, Command 19, write final assembly number, success
    final assembly number: 01 23 45
FIELDS
$cc -std=c11 $strict -Iinclude examples/c/fields.c "$library/libhart.a" -o "$work/fields_c"
emulate fields_c
printf '%s' FFFF86B7420A1B2C010700202041C80000C1 FFFFE28000000000AABBCC0B01FF4A FFFF82B7420A1B2C13030123453D |
    xxd -r -p >"$work/replies_heard"
"$work/fields_c" <"$work/replies_heard" >"$work/fields_written"
cmp "$work/fields" "$work/fields_written"
if "$cxx" --version >"$work/said" 2>&1; then
    $cxx -std=c++17 $strict -Iinclude examples/cpp/messages.cpp "$library/libhart.a" -o "$work/messages_cpp"
    emulate messages_cpp
    hold "$work/messages_cpp"
else
    echo "no C++ compiler: the example in C++ was not run"
fi
if [ -n "$target" ]; then
    echo "the examples in Rust and Python were not run for $target"
elif cargo --version >"$work/said" 2>&1; then
    HART_LIB_DIR=$library CARGO_TARGET_DIR=$work/rust RUSTFLAGS='-D warnings' \
        cargo build --quiet --release --offline --manifest-path examples/rust/Cargo.toml
    hold "$work/rust/release/messages"
else
    echo "no cargo: the example in Rust was not run"
fi
if [ -z "$target" ]; then
    hold python3 examples/python/messages.py "$library/libhart.so"
    python3 examples/python/vectors.py "$library/libhart.so" <docs/vectors.tsv
    python3 tools/bench.py "$program" --library "$library"
    ran=$((ran + 1))
fi
echo "$ran examples of the library did what the program does${target:+, under $qemu}"
