#!/bin/sh
# Proves and builds crates: a program to target/bin/NAME, a static library to target/staticlib/libNAME.a.
#
#     tools/build.sh NAME...
#
# What an earlier run proved and built here is taken again. Where a crate cannot be proved or built, what the
# toolchain says goes to standard error, and the status is 1.
set -eu
if [ $# -eq 0 ]; then
    echo "tools/build.sh NAME..." >&2
    exit 2
fi
root=$(cd "$(dirname -- "$0")/.." && pwd)
said=$(mktemp)
trap 'rm -f "$said"' EXIT
mkdir -p "$root/target/bin" "$root/target/staticlib"

# A program is built by being run: once, on no input, with which each of them ends with status 0.
build() {
    if [ -f "$1/src/main.rt" ]; then
        cd "$1" && rt run </dev/null
    else
        cd "$1" && rt lib
    fi
}

for name; do
    crate=$root/crates/$name
    if [ -f "$crate/src/main.rt" ]; then
        made=$crate/out/$name
        place=$root/target/bin/$name
    elif [ -f "$crate/src/lib.rt" ]; then
        made=$crate/out/lib$name.a
        place=$root/target/staticlib/lib$name.a
    else
        echo "there is no crate $name" >&2
        exit 1
    fi
    if ! (build "$crate") >"$said" 2>&1; then
        cat "$said" >&2
        echo "$name could not be proved and built: see above" >&2
        exit 1
    fi
    # It gets its name when it is whole, so that another run may use the one that is there.
    cp "$made" "$place.$$"
    mv -f "$place.$$" "$place"
done
