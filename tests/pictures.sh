#!/usr/bin/env bash
# Holds docs/sheet_b.svg against what the reference makes, and sees that every picture of docs/ is
# well-formed. With --write, writes docs/sheet_b.svg.
set -eu
cd "$(dirname "$0")/.."
cargo run --release --offline -q --manifest-path tests/reference/Cargo.toml --bin picture -- "$@"
python3 -c 'import sys, xml.dom.minidom as xml; [xml.parse(path) for path in sys.argv[1:]]' docs/*.svg
