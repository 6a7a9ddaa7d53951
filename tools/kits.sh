#!/bin/sh
# Looks in tools, Makefile and .ci for internal names of `rt`: its modules and functions, and the folders and files that it makes for
# itself. They differ between versions of the toolchain; documented commands and flags of `rt` do not. Prints each line with such a name,
# and fails if there is one. The brackets in the patterns below keep the patterns from matching themselves.
#
# Usage: tools/kits.sh [FOLDER]; FOLDER is the repository if absent.
set -eu
cd "${1:-$(dirname "$0")/..}"

# Its Python modules, and how one would be loaded.
modules='\brt[l]ib|SourceFileLoader\("r[t]"|bin/r[t]\b'
# Functions and fields of these modules.
functions='\brt\.[a-z_]+\(|stamp_o[f]|\.linke[d]\(rt|crates_belo[w]\(|guarde[d]\(|makes_rli[b]|build_rli[b]'
# Folders of its own, and files in them.
folders='rt-edit[s]|rt-tr[y]|rt-wor[k]|rattle-nativ[e]|rattle-kep[t]|out/incrementa[l]|out/rli[b]|\.oant[t]|/stam[p]\b|module\.b[c]'

if grep -rnIE "$modules|$functions|$folders" tools Makefile .ci --include='*'; then
    echo "kits: these lines use what is inside one version of rt" >&2
    exit 1
fi
echo "kits: no tool uses what is inside rt"
