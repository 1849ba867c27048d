#!/usr/bin/env bash
# Runs examples/certify_all.sh on sheets that are certified, refused, cannot be read or cannot be written, and
# over programs that fail: its status, what it says, and the files that are there afterwards. PROGRAMS is the
# folder of certify and verify, otherwise it is target/bin.
set -eu
cd "$(dirname "$0")/.."
script=$PWD/examples/certify_all.sh
examples=$PWD/examples
real=$(realpath "${PROGRAMS:-target/bin}")
made=$(mktemp -d)
trap 'rm -rf "$made"' EXIT
count=0

wrong() {
    printf 'certify_all.sh, %s: %s\n' "$case" "$1" >&2
    exit 1
}

# A case begins: its name, an empty folder, and the programs.
begin() {
    case=$1
    count=$((count + 1))
    rm -rf "$made/sheets" "$made/programs"
    mkdir "$made/sheets" "$made/programs"
    cd "$made/sheets"
    ln -s "$real/certify" "$real/verify" "$made/programs"
    export PROGRAMS=$made/programs
}

# Instead of a program comes what standard input says.
replace() {
    rm "$made/programs/$1"
    { echo '#!/bin/sh'; cat; } >"$made/programs/$1"
    chmod +x "$made/programs/$1"
}

# Runs the script on sheets and holds its status.
run() {
    local expected=$1 status=0
    shift
    said=$("$script" "$@" 2>&1) || status=$?
    held "$status" "$expected"
}

held() {
    if [ "$1" -ne "$2" ]; then wrong "status $1 and not $2; it said: $said"; fi
}

# The lines that were said match these patterns.
says() {
    local lines=() i=0 pattern
    if [ -n "$said" ]; then mapfile -t lines <<<"$said"; fi
    if [ "${#lines[@]}" -ne $# ]; then wrong "$# lines are due; it said: $said"; fi
    for pattern in "$@"; do
        # shellcheck disable=SC2053
        if [[ ${lines[i]} != $pattern ]]; then wrong "'$pattern' is due; it said: $said"; fi
        i=$((i + 1))
    done
}

# These files are there, and no others.
files() {
    diff <(printf '%s\n' "$@" | sort) <(find . -mindepth 1 -maxdepth 1 -printf '%P\n' | sort) || wrong 'other files are there'
}

# These sheets have the certificate that certify prints.
certified() {
    local sheet
    for sheet in "$@"; do
        "$real/certify" <"$sheet" | cmp - "$sheet.certificate" || wrong "the certificate of $sheet"
    done
}

refused_sheet() { sed 's/^c=1600$/c=2600/' "$examples/sheet_a.txt"; }

begin 'all certified'
cp "$examples/sheet_a.txt" 'sheet a .txt'
cp "$examples/sheet_b.txt" .
cp "$examples/z_section.txt" ./-z
run 0 'sheet a .txt' sheet_b.txt -z
says
files -z -z.certificate 'sheet a .txt' 'sheet a .txt.certificate' sheet_b.txt sheet_b.txt.certificate
certified ./-z 'sheet a .txt' sheet_b.txt

begin 'again, by paths'
mkdir 'a folder'
cp "$examples/sheet_a.txt" "$examples/sheet_b.txt" "$examples/fine.txt" 'a folder'
run 0 'a folder'/*
echo old >'a folder/sheet_a.txt.certificate'
run 0 'a folder'/*.txt
says
certified 'a folder'/*.txt

begin 'refused'
cp "$examples/sheet_a.txt" "$examples/sheet_b.txt" .
refused_sheet >'too long.txt'
: >empty.txt
echo old >'too long.txt.certificate'
run 1 sheet_a.txt 'too long.txt' empty.txt sheet_b.txt
says 'too long.txt: refused=7 line=3' 'empty.txt: refused=1 line=1'
files empty.txt sheet_a.txt sheet_a.txt.certificate sheet_b.txt sheet_b.txt.certificate 'too long.txt'
certified sheet_a.txt sheet_b.txt
said=$("$script" 'too long.txt' empty.txt 2>/dev/null) || :
says 'too long.txt: refused=7 line=3' 'empty.txt: refused=1 line=1'

begin 'unreadable'
cp "$examples/sheet_b.txt" .
refused_sheet >refused.txt
mkdir directory
echo old >directory.certificate
run 2 directory missing.txt sheet_b.txt refused.txt
says 'directory: *' 'missing.txt: *' 'refused.txt: refused=7 line=3'
files directory directory.certificate refused.txt sheet_b.txt sheet_b.txt.certificate
grep -qx old directory.certificate || wrong 'the certificate that was there'
certified sheet_b.txt
said=$("$script" directory missing.txt 2>/dev/null) || :
says

begin 'no such certificate can be written'
long=$(printf '%0250d' 0)
cp "$examples/sheet_a.txt" "$examples/sheet_b.txt" .
cp sheet_a.txt "$long"
mkdir sheet_a.txt.certificate
run 2 sheet_a.txt "$long" /proc/version sheet_b.txt
says 'sheet_a.txt: *' "$long: *" '/proc/version: *'
files "$long" sheet_a.txt sheet_a.txt.certificate sheet_b.txt sheet_b.txt.certificate
if [ -n "$(ls -A sheet_a.txt.certificate)" ]; then wrong 'something is in the directory'; fi

# A limit of no bytes for any file is as a full disk, whether the program is ended or its write fails.
for signal in - ''; do
    begin "a full disk, the signal '$signal'"
    cp "$examples/sheet_a.txt" "$examples/sheet_b.txt" .
    echo old >sheet_a.txt.certificate
    # shellcheck disable=SC2064
    said=$(trap "$signal" XFSZ; ulimit -f 0; "$script" sheet_a.txt sheet_b.txt 2>&1; echo "status $?")
    says 'sheet_a.txt: *' 'sheet_b.txt: *' 'status 2'
    files sheet_a.txt sheet_a.txt.certificate sheet_b.txt
    grep -qx old sheet_a.txt.certificate || wrong 'the certificate that was there'
done

# Programs that fail. A certificate that was there stays.
fails_with() {
    begin "$1"
    cp "$examples/sheet_b.txt" .
    replace "$2"
    echo old >sheet_b.txt.certificate
    run 2 sheet_b.txt
    says "sheet_b.txt: $3"
    files sheet_b.txt sheet_b.txt.certificate
    grep -qx old sheet_b.txt.certificate || wrong 'the certificate that was there'
}
fails_with 'half a certificate' certify 'what was written does not pass: *' <<<"$real/certify | head -c 100"
fails_with 'half a refusal' certify 'certify printed neither*' <<<'echo refused=1'
fails_with 'nothing printed' certify 'certify printed neither*' <<<':'
fails_with 'something on standard error' certify 'oh' <<<"$real/certify; echo oh >&2"
fails_with 'a status' certify '*' <<<"$real/certify; exit 3"
fails_with 'ended by a signal' certify '*' <<<"$real/certify; kill -KILL \$\$"
fails_with 'another length' verify 'what was written does not pass: passed=168' <<<'echo passed=168'
fails_with 'verify refuses' verify 'what was written does not pass: refused=13' <<<'echo refused=13'
fails_with 'verify says nothing' verify 'what was written does not pass: ' <<<':'

begin 'interrupted'
cp "$examples/sheet_b.txt" .
replace certify <<<"$real/certify | head -c 100; touch $made/begun; until [ -e $made/told ]; do sleep 0.05; done"
"$script" sheet_b.txt &
until [ -e "$made/begun" ]; do sleep 0.05; done
kill -TERM $!
touch "$made/told"
status=0
wait $! || status=$?
said=
held "$status" 2
files sheet_b.txt

begin 'no programs, no sheets'
cp "$examples/sheet_b.txt" .
rm "$made/programs/certify"
run 2 sheet_b.txt
says 'sheet_b.txt: *'
run 2
says '*SHEET*'
files sheet_b.txt

echo "examples/certify_all.sh: $count cases, as they should be"
