# Turns the bytes of a port that is set to `inpck parmrk`, one a line in hex, into items of hart. The driver writes FF 00 before a damaged
# byte, which gets the fault bits 40, and FF FF for a good byte FF.
#
# Usage: xxd -p -c 1 PORT | sed -un -f parmrk.sed
/^ff$/!{p;d}
n;/^ff$/{p;d}
n;s/$/!40/p
