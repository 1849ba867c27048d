#!/bin/sh
# Prints the certificate of a sheet, or the refusal:
#
#     examples/certify.sh examples/sheet_b.txt
#
# The program is proved and built first where that has not been done: some three minutes and 1.1 GiB,
# once. If that fails the end of what was said is shown. examples/certify_all.sh takes many
# sheets and returns a status.
set -eu
if [ $# -ne 1 ]; then
    echo "usage: examples/certify.sh SHEET" >&2
    exit 2
fi
root=$(dirname -- "$0")/..
log=$(mktemp)
trap 'rm -f "$log"' EXIT
if [ ! -x "$root/target/bin/certify" ]; then
    echo "proving and building certify: some three minutes, once" >&2
fi
if ! "$root/tools/build.sh" certify 2>"$log"; then
    tail -n 20 "$log" >&2
    echo "certify could not be proved and built: see above" >&2
    exit 2
fi
"$root/target/bin/certify" <"$1"
