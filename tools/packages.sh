#!/bin/sh
# Makes the packages of `make deb` and the tarballs of `make dist`, and tries them. Each is installed below an empty folder. From there
# README's first example must write what README shows, each script must show its help, and examples/c/messages.c, built with the header
# and the library of the package, must find what `hart dump` finds. lintian may report no error or warning except the missing licence.
# Each place that states a version must state that of CHANGELOG.md.
#
# Usage: tools/packages.sh [PROGRAM [LIBRARY [LIBRARY_FOR_ARM64]]]; PROGRAM is the ./hart of the repository if absent. A LIBRARY is a folder
# with libhart.a and libhart.so.0. If absent, both libraries are built, the one for arm64 only if its compiler is installed. Without dpkg,
# lintian or pkg-config a line says so.
set -eu
program=$(realpath "${1:-$(dirname "$0")/../hart}")
library=${2:+$(realpath "$2")}
for_arm=${3:+$(realpath "$3")}
cd "$(dirname "$0")/.."
work=$(mktemp -d)
trap 'rm -rf "$work"' EXIT
fail() {
    echo "packages: $*" >&2
    exit 1
}
has() {
    command -v "$1" >/dev/null
}
arm=aarch64-linux-gnu

version=$(sh tools/version.sh)
[ "$("$program" --version 2>&1)" = "hart $version" ] || fail "the program is not of version $version"
for page in docs/*.1; do
    grep -q "^\.TH .*\"hart $version\"" "$page" || fail "$page is not of version $version"
done
number=$(printf '0x%02x%02x%02x' $(echo "$version" | tr . ' '))
grep -qx "#define HART_VERSION $number" include/hart.h || fail "include/hart.h is not of version $version"
grep -qx "version = \"$version\"" examples/rust/Cargo.toml || fail "examples/rust is not of version $version"

if [ -z "$library" ]; then
    library=$work/library
    mkdir -p "$library/$arm"
    sh tools/library.sh "$library"
    if has "$arm-gcc"; then
        for_arm=$library/$arm
        sh tools/library.sh --target "$arm" "$for_arm"
    fi
fi
[ -n "$for_arm" ] || echo "no library for arm64: it was not packed"

# README's first example builds the program first; here it is already built. The rest of the block is the output of the example.
example=$(sed -n 's/^\$ make && //p' README.md | head -n 1)
shown=$(awk '/^\$ make && / { on = 1; next } on && /^```/ { exit } on' README.md)
[ -n "$example" ] && [ -n "$shown" ] || fail "README has no first example"
echo 'FF FF 82 B7 42 0A 1B 2C 13 03 01 23 45 3D FF FF FF FF FF 86 B7 42 0A 1B 2C 13 05 00 40 01 23 45 7F' >"$work/heard.txt"
xxd -r -p "$work/heard.txt" "$work/heard"
"$program" dump <"$work/heard.txt" >"$work/wanted"

# Runs the example, the program on a capture, and the scripts from a folder of programs, as if nothing else were installed.
try_program() {
    written=$(cd "$1" && sh -c "$example")
    [ "$written" = "$shown" ] || fail "README's first example writes: $written"
    for script in "$1"/hart-*; do
        (cd / && env -i PATH="$1:/usr/bin:/bin" "$script" --help) >"$work/said" || fail "$(basename "$script") shows no help"
    done
    for page in "$1"/hart*; do
        [ -n "$(find "$1/../share/man/man1" -name "$(basename "$page").1*")" ] || fail "$(basename "$page") has no man page"
    done
    (cd / && "$1/hart-bench" device --no-vectors --deliveries 20 -- "$1/hart" serve --image '{image}') >"$work/said" ||
        fail "hart-bench: $(cat "$work/said")"
}

# Builds the example of a package, on the shared and on the static library, and runs it. Arguments: the root that the paths of hart.pc begin
# at, the folder of the libraries, the example, the compiler, and the words that run a program with these libraries.
try_library() {
    if has pkg-config; then
        flags=$(PKG_CONFIG_SYSROOT_DIR=$1 PKG_CONFIG_LIBDIR=$2/pkgconfig PKG_CONFIG_ALLOW_SYSTEM_CFLAGS=1 PKG_CONFIG_ALLOW_SYSTEM_LIBS=1 \
            pkg-config --cflags --libs "hart = $version")
    else
        echo "no pkg-config: hart.pc was not tried"
        flags="-I${2%%/lib*}/include -L$2 -lhart"
    fi
    for linked in dynamic static; do
        $4 -std=c11 -O2 -Wall -Wextra -Wpedantic -Werror "$3" "-Wl,-B$linked" $flags -Wl,-Bdynamic -o "$work/messages"
        $5 "$work/messages" <"$work/heard" >"$work/found"
        cmp "$work/wanted" "$work/found"
    done
}

# Tries a library for arm64 if a program for it can be built and run. Arguments: those of try_library except the last two.
try_arm() {
    if has "$arm-gcc" && has qemu-aarch64; then
        try_library "$@" "$arm-gcc" "qemu-aarch64 -L /usr/$arm -E LD_LIBRARY_PATH=$2"
    else
        echo "no $arm-gcc or no qemu-aarch64: the packed library for arm64 was not tried"
    fi
}

# Installs packages below an empty folder. Only root can install them as dpkg does. Their dependencies are not installed.
install_below() {
    root=$1
    shift
    mkdir "$root"
    if [ "$(id -u)" -eq 0 ]; then
        dpkg --root="$root" --force-depends --force-architecture -i "$@" >"$work/said" 2>&1 || fail "dpkg: $(cat "$work/said")"
    else
        for package in "$@"; do
            dpkg-deb -x "$package" "$root"
        done
    fi
}

tarball=hart-$version-x86_64-linux
sh tools/dist.sh "$work/dist" "$program" "$library" $for_arm
mkdir "$work/away"
tar -C "$work/away" -xzf "$work/dist/$tarball.tar.gz"
try_program "$work/away/$tarball/bin"
try_library '' "$work/away/$tarball/lib" "$work/away/$tarball/share/doc/hart/examples/messages.c" cc \
    "env LD_LIBRARY_PATH=$work/away/$tarball/lib"
if [ -n "$for_arm" ]; then
    tarball=libhart-$version-aarch64-linux
    tar -C "$work/away" -xzf "$work/dist/$tarball.tar.gz"
    try_arm '' "$work/away/$tarball/lib" "$work/away/$tarball/share/doc/hart/examples/messages.c"
fi
echo "packages: the tarballs work below an empty folder"

if ! has dpkg-deb; then
    echo "no dpkg-deb: no packages for Debian were made"
    exit 0
fi
debs=$work/debs
sh tools/deb.sh "$debs" "$program" "$library" $for_arm
install_below "$work/root" "$debs"/*_amd64.deb
try_program "$work/root/usr/bin"
try_library "$work/root" "$work/root/usr/lib/x86_64-linux-gnu" "$work/root/usr/share/doc/libhart-dev/examples/messages.c" cc \
    "env LD_LIBRARY_PATH=$work/root/usr/lib/x86_64-linux-gnu"
if [ -n "$for_arm" ]; then
    install_below "$work/root-arm" "$debs"/*_arm64.deb
    try_arm "$work/root-arm" "$work/root-arm/usr/lib/$arm" "$work/root-arm/usr/share/doc/libhart-dev/examples/messages.c"
fi
if has lintian; then
    lintian --allow-root --fail-on none "$debs"/*.deb >"$work/said" 2>&1
    ! grep -E '^[EW]: ' "$work/said" | grep -vE '^E: [a-z0-9-]+: no-copyright-file$' >"$work/named" || fail "lintian: $(cat "$work/named")"
else
    echo "no lintian: the packages were not read by it"
fi
echo "packages: $(find "$debs" -name '*.deb' | wc -l) packages for Debian work below an empty folder"
