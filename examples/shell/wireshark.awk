# Turns messages into the hex dump that text2pcap reads: HART-IP, each message after a header of eight bytes. The last word of a line is a
# message from its delimiter to its check byte. The first letter of the line is P or S (STX) for a request, and D or A (ACK) for a reply.
/^[PSDA]/ {
    body = $NF
    gsub(/../, " &", body)
    printf "0000 01 %02X 03 00 %02X %02X 00 %02X%s\n", /^[DA]/, ++number / 256, number % 256, length($NF) / 2 + 8, body
}
