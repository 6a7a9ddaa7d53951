#!/bin/sh
# Makes tarballs of a built program and a built library, for systems without the toolchain. hart-VERSION-x86_64-linux.tar.gz has what
# `make install` and `make install-library` install, below one folder that may stand anywhere. For aarch64 there is only the library.
#
# Usage: tools/dist.sh FOLDER PROGRAM LIBRARY [LIBRARY_FOR_AARCH64]. The tarballs are put into FOLDER. A LIBRARY is a folder with libhart.a
# and libhart.so.0. All files get the time SOURCE_DATE_EPOCH, or that of the last commit.
set -eu
mkdir -p "$1"
folder=$(realpath "$1")
program=$(realpath "$2")
library=$(realpath "$3")
for_arm=${4:+$(realpath "$4")}
cd "$(dirname "$0")/.."
work=$(mktemp -d)
trap 'rm -rf "$work"' EXIT
umask 022
version=$(sh tools/version.sh)
SOURCE_DATE_EPOCH=${SOURCE_DATE_EPOCH:-$(git log -1 --format=%ct)}

# Puts a library below a folder, with the pages and examples for whoever calls it. hart.pc finds the library wherever the folder stands.
add_library() {
    make -s -o library install-library PREFIX="$2" BUILT="$1"
    sed -i 's|^prefix=.*|prefix=${pcfiledir}/../..|' "$2/lib/pkgconfig/hart.pc"
    install -d "$2/share/doc/hart/examples"
    install -m 644 examples/c/*.[ch] examples/cpp/*.cpp "$2/share/doc/hart/examples"
    install -m 644 CHANGELOG.md docs/LIBRARY.md "$2/share/doc/hart"
}

# Packs a folder.
pack() {
    tar -C "$work" --sort=name --owner=0 --group=0 --numeric-owner --mtime="@$SOURCE_DATE_EPOCH" -cf - "$1" | gzip -9n >"$folder/$1.tar.gz"
}

name=hart-$version-x86_64-linux
make -s -o hart install PREFIX="$work/$name" HART="$program"
add_library "$library" "$work/$name"
pack "$name"
if [ -n "$for_arm" ]; then
    name=libhart-$version-aarch64-linux
    add_library "$for_arm" "$work/$name"
    pack "$name"
fi
