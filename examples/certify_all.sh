#!/bin/sh
# Certifies many sheets. In the repository's folder:
#
#     tools/build.sh certify verify
#     examples/certify_all.sh SHEET...
#
# For a sheet FILE that is certified, FILE.certificate is written, whole and passed by verify. For one that
# is refused a line is printed, such as 'FILE: refused=7 line=3', and a FILE.certificate that was there is
# removed. Where something cannot be read or written a line on standard error says so, and a
# FILE.certificate that was there stays.
#
# The status is 0 if all sheets are certified, 1 if some are refused, 2 if something could not be read or
# written. The environment's PROGRAMS is the folder of certify and verify, otherwise it is target/bin.
set -u
programs=${PROGRAMS:-$(dirname -- "$0")/../target/bin}
status=0

# What certify prints goes into this file, which gets its name when it is known to be a certificate.
part=
drop() {
    rm -f -- "$part" 2>/dev/null
}
trap drop EXIT
trap 'exit 2' HUP INT TERM

refused() {
    drop
    printf '%s: %s\n' "$1" "$2"
    if [ "$status" -eq 0 ]; then status=1; fi
}

failed() {
    drop
    printf '%s: %s\n' "$1" "$(printf '%s' "$2" | tr '\n' ' ')" >&2
    status=2
}

certify_sheet() {
    sheet=$1
    certificate=$sheet.certificate
    part=$certificate.$$

    # The programs end with status 0: where standard error is empty, standard output is whole.
    if ! said=$({ "$programs/certify" <"$sheet" >"$part"; } 2>&1) || [ -n "$said" ]; then
        failed "$sheet" "${said:-certify failed}"
        return
    fi
    first=''
    second=''
    { IFS= read -r first && IFS= read -r second; } <"$part"
    case "$first $second" in
    form=*) ;;
    refused=*' line='*)
        if said=$(rm -f -- "$certificate" 2>&1); then
            refused "$sheet" "$first $second"
        else
            failed "$sheet" "$first $second, and $said"
        fi
        return
        ;;
    *)
        failed "$sheet" 'certify printed neither a certificate nor a refusal'
        return
        ;;
    esac

    # As the file holds it, the certificate is in order.
    said=$("$programs/verify" <"$part" 2>&1)
    if [ "$said" != "passed=$(($(wc -c <"$part")))" ]; then
        failed "$sheet" "what was written does not pass: $said"
    elif [ -d "$certificate" ]; then
        failed "$sheet" "$certificate is a directory"
    elif ! said=$(mv -f -- "$part" "$certificate" 2>&1); then
        failed "$sheet" "$said"
    fi
}

if [ $# -eq 0 ]; then
    echo "certify_all.sh SHEET..." >&2
    exit 2
fi
for sheet in "$@"; do
    certify_sheet "$sheet"
done
exit "$status"
