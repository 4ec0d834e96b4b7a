#!/usr/bin/env bash
# Out of memory: runs the built program with each of its allocations failing in turn, one in each run, until a run makes
# no more. A run with a failed allocation must report that it is out of memory and exit with 1. Of the stored input, and
# of the rows, it has then written the whole output for the first lines, however many; when it copies a key, OUT is
# unchanged; allocations for the arguments fail too. A run without a failed allocation must do what was asked. One run
# more can't sync its new file. Called by .ci/run and ffi/tests/check.sh after run_built.sh; it needs gcc. It prints any
# other result, and then exits with 1; the last line counts.
set -u
# All of it ends in ten minutes, of which it takes seconds.
[ -n "${LIMITED-}" ] || LIMITED=1 exec timeout 600 "$0" "$@"
cd "$(dirname "$0")" || exit 1
room=$(mktemp -d) || exit 1
trap 'rm -rf "$room"' EXIT
trap 'fails "it, which does not end"; exit 1' TERM
requests=0
failed=0
built=("$PWD/out/pkcs1_tool" "$PWD/out/pkcs1_tool.by-rattle")
[ -z "${PROGRAMS-}" ] || mapfile -t built <<< "$PROGRAMS"
[ -x "${built[0]}" ] || {
    echo "refuse_memory: ${built[0]} isn't there: rt run builds it" >&2
    exit 1
}

# shellcheck disable=SC2086
${CC:-gcc} -shared -fPIC -O1 -Wall -Wextra -Werror -o "$room/refuse.so" refuse_memory.c || exit 1

# hex BYTES: prints the bytes with these hexadecimal digits.
hex() {
    printf '%b' "$(printf '%s' "$1" | sed 's/../\\x&/g')"
}

# refusing NUMBER ARGUMENT..: runs the program with the allocation of this number failing; whether it made so many.
refusing() {
    local number=$1
    shift
    : > "$room/refused"
    (cd "$room" && LD_PRELOAD=$room/refuse.so REFUSED=$number "$program" "$@" < "$room/input" > "$room/output" 2> "$room/error" 9> "$room/refused")
    status=$?
    [ -s "$room/refused" ]
}

# fails WHAT: counts a failure and prints the result of the run.
fails() {
    failed=$((failed + 1))
    echo "refuse_memory: $program: request $number of $1: status $status, standard error: $(cat "$room/error")"
}

# tells: whether the run exited with 1 and reported that it is out of memory.
tells() {
    case "$status:$(cat "$room/error")" in
    "1:fault: memory" | "1:reading in.der: PKCS#1 ASN.1 error: no memory was found" | \
        "1:writing out.der: no memory was found") return 0 ;;
    *) return 1 ;;
    esac
}

# some WHAT: counts the allocations that failed; there must be some.
some() {
    requests=$((requests + number - 1))
    [ "$number" -gt 1 ] || fails "$1, which makes none"
}

# answers INPUT OUTPUT: lines, and the output for them.
answers() {
    number=1
    cat "$1" > "$room/input" # where the source can't be written, cp makes a file that can't be either
    while refusing "$number"; do
        { tells && head -n "$(wc -l < "$room/output")" "$2" | cmp -s - "$room/output"; } || fails "$1"
        number=$((number + 1))
    done
    { [ "$status" = 0 ] && cmp -s "$2" "$room/output"; } || fails "$1"
    some "$1"
}

# copies KIND TEXT: copies the key with this encoding.
copies() {
    number=1
    : > "$room/input"
    hex "$2" > "$room/in.der"
    printf old > "$room/out.der"
    while refusing "$number" copy "$1" in.der out.der; do
        { tells && [ "$(cat "$room/out.der")" = old ] && [ ! -e "$room/.pkcs1_tool" ]; } || fails "copy $1 $2"
        printf old > "$room/out.der"
        number=$((number + 1))
    done
    { [ "$status" = 0 ] && cmp -s "$room/in.der" "$room/out.der"; } || fails "copy $1 $2"
    some "copy $1 $2"
}

# syncs: a new file that can't be synced isn't renamed.
syncs() {
    number=0
    printf old > "$room/out.der"
    UNSYNCED=1 refusing 0 copy priv in.der out.der
    { [ "$status:$(cat "$room/error")" = "1:writing out.der: a write failed" ] && [ "$(cat "$room/out.der")" = old ] &&
        [ ! -e "$room/.pkcs1_tool" ]; } || fails "a file that can't be synced"
}

# words ARGUMENT..: arguments for which the usage is printed.
words() {
    number=1
    : > "$room/input"
    while refusing "$number" "$@"; do
        { tells && [ ! -s "$room/output" ]; } || fails "the words $*"
        number=$((number + 1))
    done
    [ "$status" = 2 ] || fails "the words $*"
    some "the words $*"
}

./all_rows.sh > "$room/rows" || exit 1
sed 's/ => .*//' "$room/rows" > "$room/lines"
sed 's/^.* => //' "$room/rows" > "$room/answers"
programs=0
for program in "${built[@]}"; do
    if [ -x "$program" ]; then
        programs=$((programs + 1))
        answers stdin stdout
        answers "$room/lines" "$room/answers"
        copies pub 3006020107020103
        copies priv 301b02010002010702010302010502010b02010d020102020104020106
        copies priv 302802010102010702010302010502010b02010d020102020104020106300b3009020111020102020103
        syncs
        words copy pem in.der out.der
    fi
done
echo "refuse_memory: $requests requests of $programs programs, $failed failed"
[ "$failed" = 0 ]
