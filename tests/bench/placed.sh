#!/usr/bin/env bash
# Proves crate honemagenta, builds it as a static library, links it with plain C and the reference to the
# program of that name, and runs that: placed.sh certificates|catalogue|lip_table [WORD...]
# The archive and plain C (with the division that it calls) stand at five places of the program each,
# since where code lies changes how long it takes. So does what lip_table works by the archive of pair_c.
set -euo pipefail
cd "$(dirname "$0")/../.."
program=$1
shift
here=tests/bench
made=target/bench
mkdir -p $made
libgcc=$(cc -print-libgcc-file-name)

# Proves a crate and takes its object from the static library.
object_of() {
    tools/build.sh "$1"
    (cd $made && ar x "../staticlib/lib$1.a" "$1.o")
}

object_of honemagenta
cargo build --release --offline -q --manifest-path $here/reference/Cargo.toml --target-dir $made/reference
compile="cc -O2 -Wall -Wextra -Werror -Iinclude"
$compile -c -o $made/newton.o $here/plain.c
$compile -DROOTS_BY_BITS -c -o $made/bits.o $here/plain.c
$compile -DROOTS_OF_DOUBLES -c -o $made/doubles.o $here/plain.c
# All calls of the archive begin alike then.
objcopy --redefine-sym hm_catalogue_report=hm_certificate_report \
    --redefine-sym hm_lip_coefficient=hm_certificate_lookup \
    --redefine-sym hm_lip_table=hm_certificate_table $made/honemagenta.o
if [ "$program" = lip_table ]; then
    object_of pair_c
    $compile -c -o $made/own_k.o $here/own_k.c
    ld -r -o $made/own.o $made/own_k.o $made/pair_c.o
fi

# An object of so many bytes, which pushes on what is linked behind it.
padding() {
    printf '.section .note.GNU-stack,"",@progbits\n.text\n.skip %d, 0x90\n' "$1" | cc -c -x assembler -o "$2" -
}

# NAME_PLACE.o: what NAME.o has, behind some bytes; its calls, which begin with PREFIX, are named anew.
placed() {
    name=$1 prefix=$2 place=$3
    padding $((16 + place * 1040)) $made/before.o
    padding $((16 + place * 48)) $made/between.o
    ld -r -o $made/joined.o $made/before.o "$made/$name.o" $made/between.o "$libgcc"
    set --
    for call in write check from_numbers report lookup k table; do
        objcopy --redefine-sym "${prefix}_$call=${name}_${call}_$place" $made/joined.o
        set -- "$@" --keep-global-symbol="${name}_${call}_$place"
    done
    objcopy "$@" $made/joined.o "$made/${name}_$place.o"
    objects="$objects $made/${name}_$place.o"
}

objects=
for place in 0 1 2 3 4; do
    placed honemagenta hm_certificate "$place"
    for roots in newton bits doubles; do
        placed $roots plain "$place"
    done
    if [ "$program" = lip_table ]; then placed own own "$place"; fi
done

# libm stands in front, or plain C would get the cube root of Rust's own library.
# shellcheck disable=SC2086
$compile -o "$made/$program" "$here/$program.c" $objects -lm $made/reference/release/libreference_calls.a -lpthread -ldl
grep -m 1 "model name" /proc/cpuinfo || true
"$made/$program" "$@"
