#!/bin/sh
# Makes packages for Debian of a built program and a built library: `hart` has what `make install` installs, `libhart0` has libhart.so.0,
# and `libhart-dev` has the rest that a program in C needs, with the examples. For arm64 only the library is packed. `dpkg-deb` alone
# makes the packages, since their contents are built by the toolchain, which Debian does not have. The vectors are in share/hart, since
# no program may need a file of share/doc.
#
# Usage: tools/deb.sh FOLDER PROGRAM LIBRARY [LIBRARY_FOR_ARM64]. The packages are put into FOLDER. A LIBRARY is a folder with libhart.a
# and libhart.so.0. DEBFULLNAME and DEBEMAIL name the maintainer. All files get the time SOURCE_DATE_EPOCH, or that of the last commit.
set -eu
mkdir -p "$1"
folder=$(realpath "$1")
program=$(realpath "$2")
library=$(realpath "$3")
for_arm=${4:+$(realpath "$4")}
cd "$(dirname "$0")/.."
work=$(mktemp -d)
trap 'rm -rf "$work"' EXIT
umask 022
version=$(sh tools/version.sh)
maintainer="${DEBFULLNAME:-Heldruva maintainers} <${DEBEMAIL:-maintainers@users.noreply.heldruva.example}>"
SOURCE_DATE_EPOCH=${SOURCE_DATE_EPOCH:-$(git log -1 --format=%ct)}
# dpkg-deb reads this variable.
export SOURCE_DATE_EPOCH

# The least version of the C library that a file needs.
libc_of() {
    readelf -W --dyn-syms "$1" | grep -oE '@GLIBC_[0-9.]+' | sed 's/@GLIBC_//' | sort -uV | tail -n 1
}

# The folder of a package, with the changelog that each package has.
begin() {
    package=$1
    root=$work/$2/$package
    install -d "$root/DEBIAN" "$root/usr/share/doc/$package"
    {
        printf 'hart (%s) unstable; urgency=medium\n\n  * CHANGELOG.md says what is new.\n\n' "$version"
        printf ' -- %s  %s\n' "$maintainer" "$(LC_ALL=C date -u -R -d "@$SOURCE_DATE_EPOCH")"
    } | gzip -9n >"$root/usr/share/doc/$package/changelog.gz"
    install -m 644 CHANGELOG.md "$root/usr/share/doc/$package"
}

# Packs the folder of a package. Arguments: architecture, section, further fields, one line of description, and its other lines.
finish() {
    # The control files are written after the size is known.
    size=$(du -k --apparent-size -s "$root/usr" | cut -f 1)
    {
        printf 'Package: %s\nSource: hart\nVersion: %s\nArchitecture: %s\nMaintainer: %s\nInstalled-Size: %s\n' \
            "$package" "$version" "$1" "$maintainer" "$size"
        printf 'Section: %s\nPriority: optional\n%s\nDescription: %s\n' "$2" "$3" "$4"
        printf '%s\n' "$5" | sed 's/^/ /'
    } >"$root/DEBIAN/control"
    (cd "$root" && find usr -type f -print0 | LC_ALL=C sort -z | xargs -0 md5sum) >"$root/DEBIAN/md5sums"
    find "$root" -newermt "@$SOURCE_DATE_EPOCH" -exec touch -h -d "@$SOURCE_DATE_EPOCH" {} +
    dpkg-deb --root-owner-group -Zxz --build "$root" "$folder/${package}_${version}_$1.deb" >"$work/said"
}

# Packs the program, without making it anew.
pack_program() {
    begin hart amd64
    make -s -o hart install PREFIX="$root/usr" HART="$program"
    strip "$root/usr/bin/hart"
    gzip -9n "$root"/usr/share/man/man1/*.1
    sed -i '1s|^#!/usr/bin/env python3$|#!/usr/bin/python3|' "$root"/usr/bin/hart-*
    finish amd64 utils "Depends: libc6 (>= $(libc_of "$program")), python3:any
Suggests: libhart-dev, xxd" 'find, explain, write and answer messages of the HART protocol' \
'hart finds the messages on a wired HART line, explains them, writes
requests, answers as a field device, and simulates a device with its
two masters. Every function of it is proved to meet its contract.
.
hart-listen listens at a serial port, hart-report makes a page of a
capture, and hart-bench tries devices and masters.'
}

# Packs the library in a folder. Arguments: the folder, the architecture, and the GNU name of the target.
pack_library() {
    begin libhart0 "$2"
    install -d "$root/usr/lib/$3"
    install -m 644 "$1/libhart.so.0" "$root/usr/lib/$3"
    "$3-strip" --strip-unneeded "$root/usr/lib/$3/libhart.so.0"
    printf 'libhart 0 libhart0 (>= %s)\n' "$version" >"$root/DEBIAN/shlibs"
    # A program that calls the library requires at least this version.
    {
        printf 'libhart.so.0 libhart0 #MINVER#\n* Build-Depends-Package: libhart-dev\n'
        "$3-nm" -D --defined-only "$1/libhart.so.0" | awk -v version="$version" '{ print " " $3 "@Base " version }' | sort
    } >"$root/DEBIAN/symbols"
    echo 'activate-noawait ldconfig' >"$root/DEBIAN/triggers"
    finish "$2" libs "Multi-Arch: same
Depends: libc6 (>= $(libc_of "$1/libhart.so.0"))" 'HART protocol: frames, fields, devices and masters' \
'libhart finds frames in a stream of bytes, reads and writes messages of
the HART protocol, names their fields, answers as a device and matches
replies to requests. It allocates nothing and keeps no state. Every call
is proved to meet its contract.'

    begin libhart-dev "$2"
    make -s -o library install-library PREFIX="$root/usr" LIBDIR="lib/$3" BUILT="$1"
    rm "$root/usr/lib/$3/libhart.so.0"
    "$3-strip" --strip-debug --enable-deterministic-archives "$root/usr/lib/$3/libhart.a"
    sed -i 's|^prefix=.*|prefix=/usr|' "$root/usr/lib/$3/pkgconfig/hart.pc"
    install -d "$root/usr/share/doc/libhart-dev/examples"
    install -m 644 examples/c/*.[ch] examples/cpp/*.cpp "$root/usr/share/doc/libhart-dev/examples"
    install -m 644 docs/LIBRARY.md "$root/usr/share/doc/libhart-dev"
    finish "$2" libdevel "Multi-Arch: same
Depends: libhart0 (= $version)
Suggests: hart, pkg-config" 'HART protocol: header and static library for C and C++' \
'libhart finds frames in a stream of bytes, reads and writes messages of
the HART protocol, names their fields, answers as a device and matches
replies to requests.
.
This package has the header, the static library, hart.pc for pkg-config,
a page about the calls, and examples.'
}

pack_program
pack_library "$library" amd64 x86_64-linux-gnu
[ -z "$for_arm" ] || pack_library "$for_arm" arm64 aarch64-linux-gnu
