#!/bin/sh
# Tests what no contract covers, on the built program. It must report bad streams and words that the system gives it: a full device,
# an unreadable input, a word that is not UTF-8. For example, if standard output were buffered, `hart dump >/dev/full` would wrongly
# report success, and no proof or test would notice. On a pipe that stays open `hart dump` has to write each line before it
# reads on, and to end at bad hex. All words have to reach the call, even a seventh one and an empty one, and the texts of clap have
# to be those in tools/texts.txt, each below its words.
#
# Usage: tools/streams.sh [PROGRAM]; PROGRAM is the ./hart of the repository if absent.
set -eu
program=$(realpath "${1:-$(dirname "$0")/../hart}")
cd "$(dirname "$0")/.."
work=$(mktemp -d)
trap 'rm -rf "$work"' EXIT
request=crates/hart/stdin

# Arguments: status, pattern, output file, words. Runs hart with these words. It must end with this status, write just a text of this
# pattern to standard error, and write nothing to the output.
ends_with() {
    wanted=$1
    text=$2
    output=$3
    shift 3
    words=$(printf '%s' "$*" | LC_ALL=C tr -c ' -~' '?')
    status=0
    : >"$work/output"
    "$program" "$@" >"$output" 2>"$work/errors" || status=$?
    # shellcheck disable=SC2254 # The text is a pattern, so it stands without quotes.
    case $status:$(cat "$work/errors") in
    $wanted:$text) ;;
    *)
        echo "hart $words: status $status and '$(cat "$work/errors")', but $wanted and '$text' are wanted" >&2
        exit 1
        ;;
    esac
    if [ -s "$work/output" ]; then
        echo "hart $words: it wrote '$(cat "$work/output")' before it gave its fault" >&2
        exit 1
    fi
    echo "hart $words: ended with $status, and gave '$(head -n 1 "$work/errors")'"
}

# Runs hart with the words after the first argument, on the file that `heard` names. It must write just the text of the first argument,
# write no errors, and end with 0.
heard=/dev/null
writes() {
    text=$1
    shift
    status=0
    "$program" "$@" <"$heard" >"$work/output" 2>"$work/errors" || status=$?
    printf '%s' "${text:+$text
}" >"$work/wanted"
    if [ "$status" -ne 0 ] || ! cmp -s "$work/wanted" "$work/output" || [ -s "$work/errors" ]; then
        echo "hart $*: status $status and '$(cat "$work/output" "$work/errors")', but 0 and '$text' are wanted" >&2
        exit 1
    fi
    echo "hart $*: wrote '$text'"
}

# Runs hart with these words. It must write the whole text below them in tools/texts.txt to standard error, write nothing else, and end
# with 2.
shows() {
    wanted=$work/text
    awk -v line="\$ hart $*" '/^\$ / { on = $0 == line; next } on' tools/texts.txt >"$wanted"
    status=0
    "$program" "$@" </dev/null >"$work/output" 2>"$work/errors" || status=$?
    if [ "$status" -ne 2 ] || [ -s "$work/output" ] || [ ! -s "$wanted" ] || ! cmp -s "$wanted" "$work/errors"; then
        echo "hart $*: status $status, but 2 is wanted, and against its text in tools/texts.txt:" >&2
        diff "$wanted" "$work/errors" >&2 || true
        exit 1
    fi
    echo "hart $*: showed its text"
}

# Runs hart with these words on a pipe that stays open.
begins() {
    word=$*
    timeout 60 "$program" "$@" <"$work/heard" >"$work/lines" 2>"$work/errors" &
    running=$!
    exec 3>"$work/heard" 4<"$work/lines"
}

# Gives a text to the running hart. It must write these lines, although its input stays open.
says_at_once() {
    printf '%s' "$1" >&3
    has_said "$1" "$2"
}

# Like `says_at_once`, with a write for each byte.
says_byte_by_byte() {
    printf '%s' "$1" | sed 's/./&\n/g' | while IFS= read -r byte; do
        printf '%s' "$byte" >&3
    done
    has_said "$1" "$2"
}

# Fails unless the running hart writes these lines for a text.
has_said() {
    lines=$(timeout 60 head -n "$(printf '%s\n' "$2" | wc -l)" <&4) || true
    if [ "$lines" != "$2" ]; then
        echo "hart $word: '$lines' at '$1' on an open pipe, but '$2' is wanted" >&2
        exit 1
    fi
    echo "hart $word: wrote '$lines' on an open pipe"
}

# Fails unless the running hart ends at this place of bad hex, although its input stays open.
ends_at_bad_hex() {
    printf 'FG' >&3
    status=0
    wait "$running" || status=$?
    exec 3>&- 4<&-
    if [ "$status" -ne 1 ] || [ "$(cat "$work/errors")" != "bad hex at $1" ]; then
        echo "hart $word: status $status and '$(cat "$work/errors")' on an open pipe, but 'bad hex at $1' is wanted" >&2
        exit 1
    fi
    echo "hart $word: ended with $status on an open pipe, and gave '$(cat "$work/errors")'"
}

mkfifo "$work/heard" "$work/lines"
begins dump
says_at_once 'FF FF 02 80 00 00 82 ' '2 7 STX P 0 @0 - 0 -'
printf 'FFFF020000000' >&3
says_at_once '2 ' '9 14 STX S 0 @0 - 0 -'
# The message that begins first says that 255 payload bytes follow. A character with a fault shows that they do not.
printf 'FFFF82B7420A1B2C13FFFFFFFFFFFF0280000082' >&3
says_at_once '00!40 ' '29 34 STX P 0 @0 - 0 -'
ends_at_bad_hex 82

identify='request of the primary master to the device at polling address 0, Command 0, read unique identifier'
begins explain
says_at_once 'FF FF 02 80 00 00 82 ' "2-7: $identify"
printf 'FF02000000' >&3
says_at_once '02 ' '8: no message: only one intact preamble byte stands directly before it
    seems: request of the secondary master to the device at polling address 0, Command 0, read unique identifier'
printf 'FF82B7420A1B2C13FFFFFF02800000' >&3
says_at_once '82 ' "24-29: $identify, sending 2"
printf 'FFFF82B7420A1B2C13' >&3
says_at_once '00!40 ' '31: no message: the character at 38 has the fault bits 0x40
    seems: request of the primary master to device 37420A1B2C, Command 19, write final assembly number'
ends_at_bad_hex 91

begins explain --json
identified='"address":"@0","burst":false,"expansion":"","command":0,"command_name":"read unique identifier"'
identified=$identified',"data":"","fields":{},"ignored":"","problem":null'
of_primary='"kind":"request","master":"primary"'
seems_write="{$of_primary,\"address\":\"37420A1B2C\",\"command\":19,\"command_name\":\"write final assembly number\"}"
says_byte_by_byte 'FF FF 02 80 00 00 82 ' "{\"type\":\"message\",\"start\":2,\"stop\":7,\"preambles\":2,$of_primary,$identified,\"sending\":1}"
says_byte_by_byte '@12:00:01 FF FF 02 80 00 00 82/' \
    "{\"type\":\"message\",\"time\":\"12:00:01\",\"start\":9,\"stop\":14,\"preambles\":2,$of_primary,$identified,\"sending\":2}"
says_byte_by_byte 'FFFF02/' '{"type":"miss","time":"12:00:01","start":16,"place":16,"reason":"ends_before_byte_count","seems":null}'
printf 'FFFF82B7420A1B2C13FFFFFFFFFFFF0280000082' >&3
says_byte_by_byte '00!40 ' '{"type":"miss","time":"12:00:01","start":19,"place":19,"reason":"faulty","at":37,"faults":"40","seems":'"$seems_write}
{\"type\":\"message\",\"time\":\"12:00:01\",\"start\":32,\"stop\":37,\"preambles\":6,$of_primary,$identified,\"sending\":3}"
ends_at_bad_hex 105

# A serving device answers each line with a line before it reads on, and stays the same device all the time.
mkfifo "$work/asked" "$work/said"
timeout 60 "$program" serve <"$work/asked" >"$work/said" 2>"$work/errors" &
serve=$!
exec 3>"$work/asked" 4<"$work/said"
while IFS='|' read -r asked wanted; do
    echo "$asked" >&3
    IFS= read -r said <&4 || true
    if [ "$said" != "$wanted" ]; then
        echo "hart serve: '$said' to '$asked' on an open pipe, but '$wanted' is wanted" >&2
        exit 1
    fi
done <<'LINES'
FF FF 82 B7 42 0A 1B 2C 13 03 01 23 45 3D|FF FF FF FF FF 86 B7 42 0A 1B 2C 13 05 00 40 01 23 45 7F
|-
restart|ok
FF FF 0G|bad line: bad hex at 6
FF FF 82 B7 42 0A 1B 2C 10 00 5A|FF FF FF FF FF 86 B7 42 0A 1B 2C 10 05 00 60 01 23 45 5C
counter|counter 1
LINES
exec 3>&- 4<&-
status=0
wait "$serve" || status=$?
if [ "$status" -ne 0 ] || [ -s "$work/errors" ]; then
    echo "hart serve: status $status and '$(cat "$work/errors")' at the end of an open pipe" >&2
    exit 1
fi
echo "hart serve: said a line for each line on an open pipe, and ended with 0"

# A master answers each line with a line before it reads on, and keeps its request all the time.
timeout 60 "$program" master --preambles 5 <"$work/asked" >"$work/said" 2>"$work/errors" &
master=$!
exec 3>"$work/asked" 4<"$work/said"
while IFS='|' read -r asked wanted; do
    echo "$asked" >&3
    IFS= read -r said <&4 || true
    if [ "$said" != "$wanted" ]; then
        echo "hart master: '$said' to '$asked' on an open pipe, but '$wanted' is wanted" >&2
        exit 1
    fi
done <<'LINES'
submit @0 0|ok
send|send FF FF FF FF FF 02 80 00 00 82
tick 32|-
frob|bad line: bad word 1
tick 1|retry
send|send FF FF FF FF FF 02 80 00 00 82
heard FF FF 06 80 00 18 00 40 FE 37 42 05 07 01 02 18 00 0A 1B 2C 05 04 00 01 00 00 37 00 37 01 70|answered 2 0040FE37420507010218000A1B2C05040001000037003701
send|-
LINES
exec 3>&- 4<&-
status=0
wait "$master" || status=$?
if [ "$status" -ne 0 ] || [ -s "$work/errors" ]; then
    echo "hart master: status $status and '$(cat "$work/errors")' at the end of an open pipe" >&2
    exit 1
fi
echo "hart master: said a line for each line on an open pipe, and ended with 0"

ends_with 1 'write fault' /dev/full dump <"$request"
ends_with 1 'write fault' /dev/full explain <"$request"
ends_with 1 'write fault' /dev/full explain --json <"$request"
ends_with 1 'write fault' /dev/full answer <"$request"
ends_with 1 'write fault' /dev/full serve <"$request"
ends_with 1 'write fault' /dev/full master <"$request"
ends_with 1 'write fault' /dev/full sim </dev/null
ends_with 1 'write fault' /dev/full encode P @0 0 </dev/null
ends_with 1 'read fault' "$work/output" dump <"$work"
ends_with 1 'read fault' "$work/output" explain <"$work"
ends_with 1 'read fault' "$work/output" explain --json <"$work"
ends_with 1 'read fault' "$work/output" explain --raw --json <"$work"
ends_with 1 'read fault' "$work/output" answer <"$work"
ends_with 1 'read fault' "$work/output" serve <"$work"
ends_with 1 'read fault' "$work/output" master <"$work"
ends_with 1 'bad word 1' "$work/output" master --who X <"$work"
ends_with 1 'read fault' "$work/output" sim <"$work"
# A bad image is refused before anything is read, and so before the fault of the input.
ends_with 1 'bad image: version' "$work/output" answer --image 03 <"$work"
ends_with 1 'bad image: length' "$work/output" answer --image 02 <"$work"
ends_with 1 'bad image: length' "$work/output" serve --image '' <"$work"
ends_with 1 'bad image: length' "$work/output" sim --image '' <"$work"
ends_with 1 'bad hex at 3' "$work/output" sim --image "$(printf '0\303\251')" <"$work"
ends_with 2 'error: *' "$work/output" answer --image "$(printf '\377')" <"$request"
ends_with 2 'error: *' "$work/output" "$(printf '\377')" <"$request"
ends_with 2 'error: *' "$work/output" encode P @0 "$(printf '\377')" <"$request"
ends_with 1 'bad word 1' "$work/output" encode '' @0 0 </dev/null
writes 'FF FF FF FF FF FF FF FF FF FF FF FF FF FF FF FF FF FF FF FF 82 00 00 00 00 00 0B 06 41 53 50 B7 1C 31 57' \
    encode S all 11 415350B71C31 --preambles 20
# The next run goes on from what a device holds, and a version 1 image is written as a version 2 image.
earlier=010501820820820820820820820820820820820820820820820820820820820820820820820820820820820820000000012345000107
image=0205018208208208208208208208208208208208208208208208208208208208208208208208208208208208200000000123452020202020202020202020202020202020202020202020202020202020202020000107
writes "$(printf 'counter 1\nimage %s' "$image")" sim --image "$image"
writes "$(printf 'counter 1\nimage %s' "$image")" sim "--image=$image"
writes "$(printf 'counter 1\nimage %s' "$image")" sim --image "$earlier"
shows --help
for word in answer dump explain serve master sim request encode; do
    shows "$word" --help
done
shows help help
shows --version
shows frob
shows encode P @0
# A file name is no word of a call. The error says how to pass a file.
shows dump heard.txt

# An input may have as many bytes as the limit, and not one more.
head -c 1048576 /dev/zero | tr '\0' ' ' >"$work/full"
cp "$work/full" "$work/longer"
printf ' ' >>"$work/longer"
heard=$work/full
writes '' dump
writes '' answer
writes "$(printf 'counter 1\nimage %s' "$image")" sim --image "$image"
for word in dump answer sim; do
    ends_with 1 'input too long' "$work/output" "$word" <"$work/longer"
done
heard=$work/longer
writes '' explain
writes '' explain --json

# `hart explain` needs no more memory for a longer input: with 12 MB of address space it explains 16.8 MB of messages and misses.
awk 'BEGIN { while (count++ < 400000) print "FF FF 02 80 00 00 82 FF FF 02 80 00 00 83" }' >"$work/long"

# Explains these messages, with the words after the first argument. The last lines must be the text of the first argument.
ends_long() {
    text=$1
    shift
    (ulimit -v 12000 && "$program" "$@" <"$work/long" >"$work/explained") || {
        echo "hart $*: failed at a long input" >&2
        exit 1
    }
    shown=$(tail -n "$(printf '%s\n' "$text" | wc -l)" "$work/explained")
    rm "$work/explained"
    if [ "$shown" != "$text" ]; then
        echo "hart $*: '$shown' at the end of a long input, but '$text' is wanted" >&2
        exit 1
    fi
    echo "hart $*: explained a long input in little memory"
}

ends_long "5599988-5599993: $identify, sending 400000
5599995: no message: the check byte is 0x83 at 5599999, and 0x82 would fit
    seems: $identify" explain
seems_identify="{$of_primary,\"address\":\"@0\",\"command\":0,\"command_name\":\"read unique identifier\"}"
ends_long "{\"type\":\"message\",\"start\":5599988,\"stop\":5599993,\"preambles\":2,$of_primary,$identified,\"sending\":400000}
{\"type\":\"miss\",\"start\":5599995,\"place\":5599995,\"reason\":\"bad_check\",\"at\":5599999,\"byte\":\"83\",\"fits\":\"82\",\"seems\":$seems_identify}" \
    explain --json

# Preamble bytes alone are no frame, however many there are, and a frame after them is found.
head -c 100000 /dev/zero | tr '\0' '\377' | od -An -v -tx1 >"$work/preamble"
heard=$work/preamble
writes '' dump
echo '02 80 00 00 82' >>"$work/preamble"
writes '100000 100005 STX P 0 @0 - 0 -' dump
