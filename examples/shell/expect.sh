# Shows the reply that a device should give to one request, given in the words of `hart encode`, without options. The device's image is
# kept in image.txt for the next call; an empty file is a new device. Writes the request and the reply, each after its number of preamble
# bytes.
#
# Usage: sh expect.sh WHO ADDRESS COMMAND [DATA]; HART is the program, ./hart if it is not set.
image=$(cat image.txt)
printf 'submit %s\nturn %s ok ok\n' "$*" "$1" | ${HART:-./hart} sim ${image:+--image $image} > run.txt || exit
sed -n 's/^image //p' run.txt > image.txt
sed -n 's/^[PSD] //p' run.txt
