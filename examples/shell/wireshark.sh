# Turns the messages in a file of bytes into the hex dump that text2pcap reads.
#
# Usage: sh wireshark.sh FILE; HART is the program, ./hart if it is not set.
xxd -p "$1" | ${HART:-./hart} dump | while read -r start stop kind rest; do
    echo "$kind $(xxd -p -s "$start" -l $((stop - start)) "$1" | tr -d '\n')"
done | awk -f "$(dirname "$0")/wireshark.awk"
