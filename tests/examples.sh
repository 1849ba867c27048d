#!/usr/bin/env bash
# Builds and runs the programs of examples/ over the archive of `tools/build.sh honemagenta`. Both print
# examples/output.txt, which is the reference's (tests/certificate_cases.sh), and end with status 0. Then the Python
# module is imported, as a program would.
set -euo pipefail
cd "$(dirname "$0")/.."
archive=target/staticlib/libhonemagenta.a
made=target/examples
mkdir -p "$made"

cc -std=c99 -pedantic -Wall -Wextra -Werror -Iinclude examples/certificate.c "$archive" -o "$made/certificate"
"$made/certificate" | diff examples/output.txt -
echo "examples/certificate.c: prints what the reference answers"

# -z text: all of the archive is position independent.
cc -shared -Wl,-z,text -o "$made/libhonemagenta.so" -Wl,--whole-archive "$archive" -Wl,--no-whole-archive
python3 examples/honemagenta.py "$made/libhonemagenta.so" | diff examples/output.txt -
echo "examples/honemagenta.py: prints what the reference answers"
PYTHONPATH=examples python3 -B tests/python_module.py "$made/libhonemagenta.so"
echo "examples/honemagenta.py: certificates, reports, lip coefficients, refusals and numbers outside 64 bits, by import"
