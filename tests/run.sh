#!/usr/bin/env bash
# Passes all tests. The last line is rt's: 'N passed, 0 failed'.
set -euo pipefail
cd "$(dirname "$0")/.."

# The toolchain that the proofs are made with.
rt version

# The expected output of the cases is what exact arithmetic gives, and not what the program printed.
if ! command -v python3 >/dev/null; then
    echo "python3 is not here: it is needed to make the expected values of the cases anew" >&2
    exit 1
fi
python3 tests/pair_cases.py
python3 tests/lines_cases.py

# The reference holds to the paper's cases, and what the programs read and have to print is its own, and so
# are the worked example of docs/WORKING.md and the picture of sheet B. Each command that makes kept files
# holds them here, and writes them with --write.
cargo test --release --offline -q --manifest-path tests/reference/Cargo.toml
tests/section_cases.sh
tests/certificate_cases.sh
tests/worked_example.sh
tests/pictures.sh

# The header is C by itself (and C++, where that can be tried).
strict="-pedantic -Wall -Wextra -Werror -Iinclude -fsyntax-only"
# shellcheck disable=SC2086
echo '#include "honemagenta.h"' | cc -x c -std=c99 $strict -
if command -v c++ >/dev/null; then
    # shellcheck disable=SC2086
    echo '#include "honemagenta.h"' | c++ -x c++ $strict -
fi

# Every crate is proved, the must-fail edits are tried and the programs run; what passed on this machine before
# is kept. What comes behind is built on what is proved here.
closing=$(mktemp)
trap 'rm -f "$closing"' EXIT
rt ci | tee "$closing"
if grep -q '^rt: ok.*, [1-9][0-9]* bad' "$closing"; then
    echo "a must-fail edit is bad: it cannot be applied, compiled or read" >&2
    exit 1
fi

# The archive answers as the reference does, also to the programs of examples/. Here the tests from outside are
# the quick ones.
tests/outside/run.sh
tests/examples.sh

# The built programs print what the reference says, and say when they cannot read or write.
tests/programs.sh

# The example's loop over many sheets keeps certificates alone, and returns a status.
tests/certify_all.sh

# All has passed: rt's last line again.
tail -n 1 "$closing"
