#!/bin/sh
# Runs the built program on the rows in tools/rows, on streams that a preloaded library cuts short or lets fail as a check says.
# Checks what each run writes, how it ends, and, where a check counts them, how often it reads and writes.
#
# Usage: tools/runs.sh [PROGRAM]; PROGRAM is the ./hart of the repository if absent. It needs cc.
set -eu
program=$(realpath "${1:-$(dirname "$0")/../hart}")
cd "$(dirname "$0")/.."
work=$(mktemp -d)
trap 'rm -rf "$work"' EXIT
cc -shared -fPIC -O1 -o "$work/cut_streams.so" tools/cut_streams.c -ldl
python3 tools/runs.py "$program" "$work"
