#!/usr/bin/env bash
# Holds tests/reference/thresholds.txt against the sheets near the thresholds that the reference finds, in less than
# a minute. With --write, writes it. No part of tests/run.sh, which tests that the kept sheets lie where they should.
set -eu
cd "$(dirname "$0")/.."
cargo run --release --offline -q --manifest-path tests/reference/Cargo.toml --bin sections -- --thresholds "$@"
