#!/bin/sh
# Runs each call of the built program again and again, and refuses one allocation (growth) each time: the first, the second, and so
# on. Such a run writes a prefix of whole lines and ends with `out of memory`: with status 2 if the growth was for the words of the
# command line (most are clap's), and with 1 if it was the call's own. A call's own growths are its reservations. A script has one more
# for each word of characters, and those by which its events and its text grow; `hart dump`, `hart explain`, `hart encode` and
# `hart request` have none. A run may succeed without a growth only if the growth comes before clap has the words. In the last run no
# growth is left to refuse, and the call has to succeed.
#
# The program does not call `run`, and reports a refusal by `read_script` as its own. So a test of hart_tests_cli makes each call once
# by its function, and prints its result. Each growth of that test is refused in the same way.
#
# A refusing allocator cannot be passed to a call, so tools/refuse_growth.c refuses an allocation from outside. `rt try --fail-alloc`
# would build anew for each allocation, half a minute every time.
#
# Usage: tools/refused-growths.sh [PROGRAM [TESTS]]; PROGRAM is the ./hart of the repository if absent, and TESTS the tests that `rt test`
# or the gate has built in crates/hart_tests_cli. It needs cc.
set -eu
program=$(realpath "${1:-$(dirname "$0")/../hart}")
tests=$(realpath "${2:-$(dirname "$0")/../crates/hart_tests_cli/out/hart_tests_cli_tests}")
cd "$(dirname "$0")/.."
work=$(mktemp -d)
trap 'rm -rf "$work"' EXIT
cc -shared -fPIC -O1 -o "$work/refuse_growth.so" tools/refuse_growth.c -ldl

# Whether the output is a prefix, in whole lines, of what is wanted.
is_prefix() {
    lines=$(wc -l <"$work/output")
    head -n "$lines" "$work/wanted" | cmp -s - "$work/output"
}

# Whether the run of this status ended as it does with ample memory.
has_ample_memory() {
    [ "$1" -eq "$wanted_status" ] && cmp -s "$work/output" "$work/wanted" && cmp -s "$work/errors" "$work/fault"
}

# Whether the run was refused memory for the call itself.
lacks_memory() {
    [ "$1" -eq 1 ] && is_prefix && [ "$(cat "$work/errors")" = 'out of memory' ]
}

# Whether the run was refused memory for the words of the command line.
lacks_words() {
    [ "$1" -eq 2 ] && is_prefix && grep -q 'out of memory$' "$work/errors"
}

# Refuses each growth of one call in turn. Its input, and the output and errors that it must write, are files in $work. The first
# argument is the number of the call's own growths.
refuse_each() {
    wanted_own=$1
    shift
    wanted_status=0
    [ ! -s "$work/fault" ] || wanted_status=1
    number=1
    own=0
    of_clap=0
    of_main=0
    while :; do
        status=0
        REFUSED_GROWTH=$number LD_PRELOAD=$work/refuse_growth.so "$program" "$@" \
            <"$work/input" >"$work/output" 2>"$work/errors" 3>"$work/hit" || status=$?
        [ -s "$work/hit" ] || break
        if lacks_memory "$status"; then
            own=$((own + 1))
        elif lacks_words "$status" && grep -q 'the words cannot be read' "$work/errors"; then
            of_main=$((of_main + 1))
        elif lacks_words "$status"; then
            of_clap=$((of_clap + 1))
        elif ! has_ample_memory "$status"; then
            echo "hart $*, growth $number refused: status $status, $(cat "$work/output" "$work/errors")" >&2
            exit 1
        elif [ "$of_clap" -gt 0 ]; then
            echo "hart $*: it did without growth $number, so it has more of its own than it says" >&2
            exit 1
        fi
        number=$((number + 1))
    done
    if ! has_ample_memory "$status" || [ "$own" -ne "$wanted_own" ] || [ "$of_clap" -eq 0 ]; then
        echo "hart $*: status $status with ample memory, and $own growths of its own, but $wanted_own are wanted" >&2
        exit 1
    fi
    without=$((number - 1 - own - of_clap - of_main))
    echo "hart $*: $((number - 1)) growths refused in turn: $of_main for the words, $of_clap of clap, $own of its own, and" \
        "$without that it did without"
}

# Refuses each growth of a script of $1 submissions, each with a turn without characters. One growth is for the input, and one is
# that of `run_logged` for outcomes. The others let the events and the text grow to their size, and each at least doubles the room.
# The second argument is the number of all these growths.
refuse_script() {
    lines=0
    while [ "$lines" -lt "$1" ]; do
        printf 'submit P 37420A1B2C 19 012345\nturn P ok ok\n'
        lines=$((lines + 1))
    done >"$work/input"
    "$program" sim <"$work/input" >"$work/wanted"
    refuse_each "$2" sim
}

: >"$work/fault"
cp crates/hart/stdin "$work/input"
cp crates/hart/stdout "$work/wanted"
# Its own growths are for the input and for its characters.
refuse_each 2 answer
# With an image, here that of a new bench device, there is one more for the bytes of the image.
image=0200018208208208208208208208208208208208208208208208208208208208208208208208208208208208200000000000002020202020202020202020202020202020202020202020202020202020202020000000
refuse_each 3 answer --image "$image"

# Its own growths are for a line and for its characters, however many lines there are.
yes counter | head -n 3000 >"$work/input"
yes 'counter 0' | head -n 3000 >"$work/wanted"
refuse_each 2 serve
refuse_each 3 serve --image "$image"
exchange='submit 37420A1B2C 19 012345
send
heard FF FF 86 B7 42 0A 1B 2C 13 05 00 40 01 23 45 7F
ask @0 19 final_assembly_number=0x012345
heard 0G
tick 33'
yes "$exchange" | head -n 3000 >"$work/input"
answers='ok
send FF FF FF FF FF 82 B7 42 0A 1B 2C 13 03 01 23 45 3D
answered 1 0040012345
refused: wrong address
bad line: bad hex at 6
-'
yes "$answers" | head -n 3000 >"$work/wanted"
refuse_each 2 master --preambles 5

echo 'FF FF 02 80 00 00 82 FF!40 FF FF 82 B7 42 0A 1B 2C 13 03 01 23 45 3D' >"$work/input"
printf '%s\n' '2 7 STX P 0 @0 - 0 -' '10 22 STX P 0 37420A1B2C - 19 012345' >"$work/wanted"
refuse_each 0 dump

cat >"$work/wanted" <<'TEXT'
2-7: request of the primary master to the device at polling address 0, Command 0, read unique identifier
10-22: request of the primary master to device 37420A1B2C, Command 19, write final assembly number
    final assembly number: 0x012345
TEXT
refuse_each 0 explain

# The first of these messages as bytes.
printf '\377\377\002\200\000\000\202' >"$work/input"
sed -i 1q "$work/wanted"
refuse_each 0 explain --raw

# The same message as an object.
cat >"$work/wanted" <<'TEXT'
{"type":"message","start":2,"stop":7,"preambles":2,"kind":"request","master":"primary","address":"@0","burst":false,"expansion":"","command":0,"command_name":"read unique identifier","data":"","fields":{},"ignored":"","problem":null,"sending":1}
TEXT
refuse_each 0 explain --raw --json

# These messages are read in 52 portions, and their lines are written in more.
messages=40000
awk -v messages="$messages" 'BEGIN { while (messages--) print "FF FF 02 80 00 00 82" }' >"$work/input"
awk -v messages="$messages" 'BEGIN {
    for (place = 0; place < 7 * messages; place += 7) print place + 2, place + 7, "STX P 0 @0 - 0 -"
}' >"$work/wanted"
refuse_each 0 dump

cat >"$work/input" <<'SCRIPT'
# The reply is lost, the request is sent again, and noise is a garbled request, which the device replies to.
submit P 37420A1B2C 19 012345
submit S all 0
turn P ok lost
turn P FFFF!40 ok
noise FFFF82B7420A1B2C13030123453C
turn P ok ok
SCRIPT
cat >"$work/wanted" <<'TEXT'
P 20 82B7420A1B2C13030123453D
D 5 86B7420A1B2C130500400123457F
P 20 82B7420A1B2C13030123453D
D 5 86B7420A1B2C13028800D7
P 20 82B7420A1B2C13030123453D
D 5 86B7420A1B2C130500400123457F
1 answered 3 00 40 012345
2 refused 3
counter 2
image 0200018208208208208208208208208208208208208208208208208208208208208208208208208208208208200000000123452020202020202020202020202020202020202020202020202020202020202020000203
TEXT
# One growth is for the input, one that of `run_logged`, two for words of characters; the others for its six events and its text.
refuse_each 11 sim
refuse_each 12 sim --image "$image"

refuse_script 1 7
refuse_script 65 18
refuse_script 300 22
refuse_script 3000 29

# A script without events has growths for the input and for its text alone.
: >"$work/input"
"$program" sim <"$work/input" >"$work/wanted"
refuse_each 2 sim

# If memory for a line of the text is refused, the script ends before a later leg with undetected damage. Its own growths are one each
# for the input, the three events, a word of characters and an outcome, and two for the text.
printf 'submit P 37420A1B2C 19 012345\nturn P ok ok\nnoise FFFF0280000082\n' >"$work/input"
: >"$work/wanted"
echo 'undetected damage at event 2, noise' >"$work/fault"
refuse_each 6 sim
: >"$work/fault"

: >"$work/input"
echo 'FF FF FF FF FF 82 B7 42 0A 1B 2C 13 03 01 23 45 3D' >"$work/wanted"
refuse_each 0 encode P 37420A1B2C 19 012345
refuse_each 0 request P 37420A1B2C 19 final_assembly_number=0x012345

# Runs the test that makes each call by its function, and refuses the growth with this number. A refused growth makes the test fail, but
# only what it prints of the calls counts. Succeeds if there was such a growth.
refuse_by_name() {
    REFUSED_GROWTH=$1 LD_PRELOAD=$work/refuse_growth.so "$tests" cli::growths::each_call_succeeds_with_ample_memory \
        2>"$work/errors" 3>"$work/hit" | grep -E ' [0-9]+$' >"$work/output" || true
    [ -s "$work/hit" ]
}

# With ample memory each call returns 0. The second number of a line is how many bytes the call has written.
cat >"$work/wanted" <<'ANSWERS'
read_script 0
run 0
dump 0 58
explain 0 240
explain_raw 0 0
explain_json 0 546
explain_raw_json 0 0
answer 0 102
answer with an image 0 102
serve 0 102
serve with an image 0 102
master 0 3
simulate 0 410
simulate with an image 0 410
encode_text 0 51
request 0 51
ANSWERS

# Each growth belongs to a single call, whose answer differs if the growth is refused. All other calls answer as with ample memory.
: >"$work/refused"
number=1
while refuse_by_name "$number"; do
    diff "$work/wanted" "$work/output" >"$work/changes" || true
    if [ "$(wc -l <"$work/changes")" -ne 4 ]; then
        echo "the calls by their names, growth $number refused: not just one of them answers otherwise:" >&2
        cat "$work/changes" "$work/errors" >&2
        exit 1
    fi
    sed -n 's/^> //p' "$work/changes" >>"$work/refused"
    number=$((number + 1))
done

# How many growths each call has, and what it answers and how many bytes it has written if one of them is refused. `dump`, the four
# calls of `explain`, `encode_text` and `request` have none.
cat >"$work/growths" <<'GROWTHS'
2 answer 7 0
3 answer with an image 7 0
2 master 7 0
4 read_script 2
2 run 2
2 serve 7 0
3 serve with an image 7 0
11 simulate 7 0
12 simulate with an image 7 0
GROWTHS
LC_ALL=C sort "$work/refused" | uniq -c | sed 's/^ *//' >"$work/counted"
if ! cmp -s "$work/wanted" "$work/output" || ! diff "$work/growths" "$work/counted" >&2; then
    echo "the calls by their names: other refusals than are wanted, or other answers with ample memory" >&2
    exit 1
fi
echo "the calls by their names: $((number - 1)) growths refused in turn"
