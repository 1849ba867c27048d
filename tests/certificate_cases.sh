#!/usr/bin/env bash
# Holds what crates/certify, verify, survey, tabulate and certificate_cases read and have to print, and the sheets,
# the catalogue and the output of examples/, against what the reference makes. With --write, writes them.
set -eu
cd "$(dirname "$0")/.."
cargo run --release --offline -q --manifest-path tests/reference/Cargo.toml --bin certificate_cases -- "$@"
