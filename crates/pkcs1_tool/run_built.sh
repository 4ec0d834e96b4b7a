#!/usr/bin/env bash
# Runs the program as the gate built it, by each compiler: the rows, and every exit status that can be had, with its
# standard error. Called by .ci/run after rt ci. It exits with 1 if any result is another than expected. PROGRAMS names
# other programs to run, one in each line; EMULATED says that they are run by an emulator.
set -u
# All of it ends in ten minutes, of which it takes seconds, a minute under an emulator.
[ -n "${LIMITED-}" ] || LIMITED=1 exec timeout 600 "$0" "$@"
cd "$(dirname "$0")" || exit 1
room=$(mktemp -d) || exit 1
trap 'rm -rf "$room"' EXIT
trap 'fails "it does not end"; exit 1' TERM
passed=0
failed=0

# fails WHAT: counts a failure and prints what differs.
fails() {
    failed=$((failed + 1))
    echo "run_built: $program: $1"
}

# runs_on_rows: the output for the line of each row is that of the row.
runs_on_rows() {
    ./all_rows.sh > "$room/rows" || fails "its rows can't be printed"
    sed -e 's/ => .*//' "$room/rows" > "$room/lines"
    sed -e 's/^.* => //' "$room/rows" > "$room/wanted"
    "$program" < "$room/lines" > "$room/answers" 2> "$room/error"
    if cmp -s "$room/answers" "$room/wanted" && [ ! -s "$room/error" ]; then
        passed=$((passed + $(wc -l < "$room/rows")))
    else
        fails "the rows are answered otherwise:"
        diff "$room/wanted" "$room/answers" | head -n 20
    fi
}

# ends WHAT STATUS ERROR OUTPUT GOT: the last run, which exited with GOT, has this status, standard error and output.
ends() {
    if [ "$5" = "$2" ] && [ "$(cat "$room/error")" = "$3" ] && [ "$(head -c 200 "$room/output")" = "$4" ]; then
        passed=$((passed + 1))
    else
        fails "$1: status $5, not $2; standard error: $(cat "$room/error"); output: $(head -c 200 "$room/output")"
    fi
}

runs_to_each_status() {
    : > "$room/output"
    "$program" < /dev/null > "$room/output" 2> "$room/error"
    ends "no input" 0 "" "" $?
    head -c 16777216 /dev/zero | "$program" > "$room/output" 2> "$room/error"
    ends "the longest input" 0 "" "bad line" $?
    head -c 16777217 /dev/zero | "$program" > "$room/output" 2> "$room/error"
    ends "a longer input" 1 "fault: read" "" $?
    printf 'pub 3006020107020103\r\n' | "$program" > "$room/output" 2> "$room/error"
    ends "a carriage return before the end of a line" 0 "" "bad line" $?
    "$program" < . > "$room/output" 2> "$room/error"
    ends "a folder as input" 1 "fault: read" "" $?
    "$program" <&- > "$room/output" 2> "$room/error"
    ends "no standard input" 1 "fault: read" "" $?
    : > "$room/output"
    "$program" < stdin > /dev/full 2> "$room/error"
    ends "a full device as output" 1 "fault: write" "" $?
    "$program" < stdin 2> "$room/error" >&-
    ends "no standard output" 1 "fault: write" "" $?
    head -c 200000 /dev/zero | tr '\0' '\n' > "$room/lines"
    { "$program" < "$room/lines" 2> "$room/error"; echo $? > "$room/ended"; } | true
    ends "a pipe that nobody reads" 1 "fault: write" "" "$(cat "$room/ended")"
    "$program" lines < stdin > "$room/output" 2> "$room/error"
    ends "an argument" 2 "$usage" "" $?
    "$program" "" < stdin > "$room/output" 2> "$room/error"
    ends "an empty argument" 2 "$usage" "" $?
    "$program" "$(printf '\377')" < stdin > "$room/output" 2> "$room/error"
    ends "an argument that is no text" 2 "$usage" "" $?
    "$program" < stdin > "$room/output" 2> "$room/error"
    ends "the stored run" 0 "" "$(cat stdout)" $?
}

# shellcheck source=copies.sh
. ./copies.sh || exit 1

# The man page names each word that has an answer, and the version of the header of the library.
manual_is_right() {
    local version
    version=$(sed -n 's/^#define PKCS1_VERSION_[A-Z]* //p' ../../ffi/lib/include/pkcs1.h | paste -s -d .)
    grep '^\.TH ' pkcs1_tool.1 | grep -q "\"pkcs1 $version\"" || fails "pkcs1_tool.1 has another version than $version"
    grep -v '=> bad line' "$room/rows" | sed -n 's/^\([a-z][a-z0-9-]*\) .*/\1/p' | sort -u > "$room/words"
    grep '^\.BI ' pkcs1_tool.1 | grep -oE '[a-z][a-z0-9-]* "' | tr -d ' "' | sort | diff "$room/words" - ||
        fails "pkcs1_tool.1 has other words (>)"
}

usage="usage: pkcs1_tool [copy pub|priv IN OUT]"
programs=("$PWD/out/pkcs1_tool" "$PWD/out/pkcs1_tool.by-rattle")
builder=': rt ci builds it'
[ -z "${PROGRAMS-}" ] || {
    mapfile -t programs <<< "$PROGRAMS"
    builder=
}
for program in "${programs[@]}"; do
    if [ -x "$program" ]; then
        runs_on_rows
        runs_to_each_status
        copies_keys
        manual_is_right
    else
        fails "it isn't there$builder"
    fi
done
echo "run_built: $(./all_rows.sh | wc -l) rows and ${less-}87 runs, of each program"
echo "$passed passed, $failed failed"
[ "$failed" = 0 ]
