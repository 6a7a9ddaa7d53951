#!/bin/sh
# Runs the examples of the help texts and of the pages. Each has to write just the lines that are shown below it. An example without
# such lines is left out, since it names a file of the reader's own.
#
# Usage: tools/examples.sh [PROGRAM]; PROGRAM is the ./hart of the repository if absent.
set -eu
program=$(realpath "${1:-$(dirname "$0")/../hart}")
cd "$(dirname "$0")/.."
work=$(mktemp -d)
trap 'rm -rf "$work"' EXIT
mkdir "$work/examples" "$work/bin" "$work/folder"
ln -s "$program" "$work/bin/hart"
ln -s "$program" "$work/folder/hart"
ln -s "$PWD/docs" "$work/folder/docs"
ln -s "$PWD/tools" "$work/folder/tools"
ln -s "$PWD/examples" "$work/folder/examples"
# The program is built already, so `make` does nothing here.
printf '#!/bin/sh\n' >"$work/bin/make"
chmod +x "$work/bin/make"
PATH=$work/bin:$PATH

# A help text, below the line "$ hart .." that asks for it, indents its commands and what they write by two spaces, with the word
# "writes" between. A page has "$ " before a command, and "> " before a line that continues it.
awk -v folder="$work/examples" '
    function give() {
        if (text != "") {
            name = sprintf("%s/%03d", folder, ++number)
            printf "%s", command >(name ".command")
            printf "%s", text >(name ".text")
            close(name ".command")
            close(name ".text")
        }
        command = text = ""
        writes = 0
    }
    FNR == 1 { give(); page = FILENAME ~ /\.md$/; on = 0 }
    page && /^```/ { give(); on = !on; next }
    page && on && /^\$ / { give(); command = substr($0, 3) "\n"; next }
    page && on && command != "" && text == "" && /^> / { command = command substr($0, 3) "\n"; next }
    page && on && command != "" { text = text $0 "\n" }
    page { next }
    /^\$ / { give(); on = 0; next }
    /^Examples?:$/ { on = 1; next }
    on && /^writes$/ { writes = 1; next }
    on && /^  / && writes { text = text substr($0, 3) "\n"; next }
    on && /^  / { command = command substr($0, 3) "\n"; next }
    on { give() }
    END { give() }
' tools/texts.txt README.md docs/*.md

ran=0
for command in "$work/examples"/*.command; do
    wanted=${command%.command}.text
    # An example may show a fault, so it may end with the status 1 or 2 of `hart`, but not by a signal.
    status=0
    (cd "$work/folder" && sh "$command") >"$work/written" 2>&1 || status=$?
    if [ "$status" -gt 2 ]; then
        echo "an example ended with status $status:" >&2
        cat "$command" >&2
        exit 1
    fi
    if ! cmp -s "$wanted" "$work/written"; then
        echo "an example does not write what is shown below it:" >&2
        cat "$command" >&2
        diff "$wanted" "$work/written" >&2 || true
        exit 1
    fi
    ran=$((ran + 1))
done
if [ "$ran" -lt 10 ]; then
    echo "only $ran examples were found" >&2
    exit 1
fi
echo "examples: $ran ran, and wrote what is shown"
