#!/bin/sh
# Proves crates honemagenta and pair_c, builds them as static libraries and calls both from outside, in
# some seconds; with --long, in some minutes, on 200,000 of each sort of random case; with --seed NUMBER,
# on other random cases.
set -eu
cd "$(dirname "$0")/../.."
tools/build.sh honemagenta pair_c
cargo test --release --offline -q --manifest-path tests/outside/Cargo.toml
cargo run --release --offline -q --manifest-path tests/outside/Cargo.toml -- "$@"
