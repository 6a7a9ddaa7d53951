#!/bin/sh
# A view lends bytes of its scanner, so nothing may be pushed while the view is held: the compiler must refuse one line of the program
# below as a second borrow (E0499), and nothing else in it. Without that line the program must compile and find its frame.
#
# The script proves nothing. It builds a program from hart_frame and the crate below it, in a folder of its own.
set -eu
root=$(cd "$(dirname "$0")/.." && pwd)
work=$(mktemp -d)
trap 'rm -rf "$work"' EXIT

crate=$work/crates/held_view
mkdir -p "$crate/src"
for name in hart_values hart_frame; do
    mkdir "$work/crates/$name"
    for part in src specs proofs; do
        cp -R "$root/crates/$name/$part" "$work/crates/$name/"
    done
done
cp "$root/HANDLES" "$work"
grep -E '^hart_(values|frame):' "$root/crates.txt" >"$work/crates.txt"
echo 'held_view: hart_frame' >>"$work/crates.txt"

fail() {
    echo "$0: $1" >&2
    cat "$work/said" >&2
    exit 1
}

# Builds and runs the program, and writes all output to $work/said.
try_program() {
    (cd "$crate" && rt try) >"$work/said" 2>&1
}

cat >"$work/main.rt" <<'END'
//! A program that pushes a character while it holds a view of the scanner that it pushes to. It must not compile.
#![tactic(auto)]

use hart_frame::{Char, Scanner};

/// FF FF 02 80 00 00 82: Command 0 of the primary master to polling address 0.
const HEARD: [u8; 7] = [0xFF, 0xFF, 0x02, 0x80, 0x00, 0x00, 0x82];

fn main(rt: HostRuntime) {
    let mut scanner = Scanner::new();
    for byte in HEARD {
        let _ = scanner.take().is_none();
        let character = Char::new(byte, 0).unwrap();
        scanner.push(character);
    }
    if let Some(view) = scanner.take() {
        scanner.push(Char::new(0xFF, 0).unwrap()); // while the view is held
        let _ = println!(rt; "{} to {}, Command {}", view.start, view.stop, view.frame.command());
    }
}
END
cp "$work/main.rt" "$crate/src"
if try_program; then
    fail "a character was pushed while a view was held"
fi
grep -qi 'error.*e0499' "$work/said" || fail "it was refused, but not as a second borrow"
[ "$(grep -c 'error\[' "$work/said")" -eq 1 ] || fail "it was refused for more than the second borrow"

grep -v '// while the view is held$' "$work/main.rt" >"$crate/src/main.rt"
try_program || fail "without the second borrow it was refused"
grep -qx '2 to 7, Command 0' "$work/said" || fail "without the second borrow it did not find its frame"

echo "held view: refused, E0499; accepted without the second borrow"
