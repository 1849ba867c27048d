#!/usr/bin/env bash
# Holds section 18 of docs/WORKING.md, from its heading to the end of the file, against what the reference
# makes: sheet B worked with every pair. With --write, writes it. Without the heading it fails.
set -eu
cd "$(dirname "$0")/.."
cargo run --release --offline -q --manifest-path tests/reference/Cargo.toml --bin worked_example -- "$@"
