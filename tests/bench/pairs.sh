#!/bin/sh
# Proves crate pair_c, builds it as a static library and times it beside plain C.
set -eu
cd "$(dirname "$0")/../.."
tools/build.sh pair_c
mkdir -p target/bench
cc -O2 -Wall -Wextra -Werror -o target/bench/pair tests/bench/pair.c target/staticlib/libpair_c.a -lm
target/bench/pair
