#!/usr/bin/env bash
# Says which functions of the archive a certificate spends its instructions in (valgrind), and its time (perf):
# profile.sh [FINE [ROUNDS]], 1 and 3 if not given. Small functions are counted with those that the compiler put
# them into.
set -euo pipefail
cd "$(dirname "$0")/../.."
made=target/bench
sheets=400
passes=20
version=honemagenta_0
fine=${1:-1}
rounds=${2:-3}
tests/bench/certificates.sh $version 1 "$fine" "$rounds" | tail -1

valgrind -q --tool=callgrind --callgrind-out-file=$made/callgrind.out --toggle-collect=honemagenta_from_numbers_0 \
    $made/certificates $version $passes "$fine" "$rounds" >/dev/null
awk -v calls=$((sheets * passes)) '/^(summary|totals):/ { printf "%.0f instructions for one certificate; and each share:\n", $2 / calls; exit }' \
    $made/callgrind.out
callgrind_annotate --threshold=100 $made/callgrind.out | awk -v calls=$((sheets * passes)) '
    /\[/ {
        sub(/^ */, "")
        gsub(/,/, "", $1)
        count = $1
        share = $0
        sub(/^[^(]*\( */, "", share)
        sub(/%.*/, "", share)
        name = $0
        sub(/^[^)]*\) */, "", name)
        sub(/^[^:]*:/, "", name)
        sub(/ \[.*/, "", name)
        if (share + 0 >= 0.5) printf "%8.0f %6.1f%%  %s\n", count / calls, share, name
    }'

if command -v perf >/dev/null && perf record -q -e cpu-clock -F 5000 -o $made/perf.data $made/certificates $version 4000 "$fine" "$rounds" >/dev/null 2>&1; then
    echo "time, its share:"
    perf report -i $made/perf.data --stdio --percent-limit 0.5 2>/dev/null | awk '/%/ { sub(/^ */, ""); $2 = $3 = $4 = ""; print "  " $0 }'
fi
