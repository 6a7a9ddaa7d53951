# Runs the rows of vectors.tsv, from standard input, on `hart serve`, and counts the rows whose reply differs. For a device of your own,
# put a command that answers line by line in place of `hart serve`.
#
# Usage: sh vectors.sh < vectors.tsv; HART is the program, ./hart if it is not set.
run=0 other=0
while IFS="$(printf '\t')" read -r image heard reply note; do
    case $image in '#'* | image) continue ;; -) image= ;; esac
    replied=$(echo "$heard" | sed 's/; /\n/g' | ${HART:-./hart} serve ${image:+--image $image} |
        awk '{ printf "%s%s", (NR > 1 ? "; " : ""), ($0 == "ok" ? "-" : $0) }')
    run=$((run + 1))
    [ "$replied" = "$reply" ] || { other=$((other + 1)); echo "other: $note"; }
done
[ "$run" -gt 1500 ] && echo "other replies: $other"
