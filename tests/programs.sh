#!/usr/bin/env bash
# Proves and builds certify, verify, survey and tabulate, runs them as a user would, and holds what they print
# against the reference.
set -eu
cd "$(dirname "$0")/.."
tools/build.sh certify verify survey tabulate
cargo run --release --offline -q --manifest-path tests/reference/Cargo.toml --bin programs -- target/bin

# README's first command shows the certificate alone.
shown=$(examples/certify.sh examples/sheet_b.txt)
[ "$shown" = "$(cat crates/certify/stdout)" ] || {
    echo "examples/certify.sh: does not print the certificate of sheet B" >&2
    exit 1
}
