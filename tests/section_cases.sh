#!/usr/bin/env bash
# Holds what crates/section_cases reads and has to print against what the reference makes. With --write, writes
# both files.
set -eu
cd "$(dirname "$0")/.."
cargo run --release --offline -q --manifest-path tests/reference/Cargo.toml --bin section_cases -- "$@"
