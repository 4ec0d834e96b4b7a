#!/usr/bin/env bash
# Counts the instructions of the calls in count.c, and compares them with the table ffi/tests/counts. It fails where a
# call has 3 % more or fewer, or where a row is missing or new. Contracts say nothing of time. Where a function is large,
# rustc may leave another out of line, and a call takes a fifth more: it's seen here.
#
#     ffi/tests/count.sh [LIBRARY]    LIBRARY: a libpkcs1.a, in place of those that make builds of ffi/lib/generated, in
#                                     assembly and in C. It is compared with the first
#     ffi/tests/count.sh --write      writes the table anew
#
# It needs make, gcc, binutils and valgrind, on x86-64. Counts depend neither on the processor nor on the C library, but
# on the gcc that compiles pkcs1.c. The table names the one that it was made with.
set -eu
export LC_ALL=C
. "$(dirname "$0")/../../tools/shell.sh"
table=ffi/tests/counts
tolerance=3

library=
case $#:${1-} in
    0: | 1:--write) ;;
    1:[!-]*) library=$(realpath "$1") ;;
    *) stop "usage: ffi/tests/count.sh [LIBRARY | --write]" ;;
esac
cd "$(dirname "$0")/../.."
needs make gcc objcopy valgrind
[ "$(ffi/lib/machine.sh gcc)" = x86_64 ] || stop "the table is of x86-64, which gcc doesn't build for here"
room=$(mktemp -d)
trap 'rm -rf "$room"' EXIT

# quietly COMMAND..: what it prints is shown only if it fails.
quietly() {
    "$@" > "$room/log" 2>&1 || {
        cat "$room/log" >&2
        stop "$1 fails"
    }
}
# count NAME LIBRARY: leaves a row for each call in $room/NAME, less what is counted without a call.
count() {
    local wraps
    wraps=$(sed -n 's/^UNCOUNTED([^,]*, \([a-z]*\),.*/-Wl,--wrap=\1/p' ffi/tests/count.c)
    # shellcheck disable=SC2086 # words
    quietly gcc -std=c99 -O2 -Wall -Wextra -Werror -pedantic -Iffi/lib/include ffi/tests/count.c "$2" $wraps \
        -o "$room/count"
    quietly valgrind --tool=callgrind --collect-atstart=no --combine-dumps=yes --callgrind-out-file="$room/dumps" \
        "$room/count" ffi/tests/keys
    awk 'sub(/^desc: Trigger: Client Request: /, "") { call = $1; input = $2; next }
        /^totals: / && call == "nothing" { besides = $2 }
        /^totals: / && call ~ /^pkcs1_/ { printf "%-33s %-18s %8d\n", call, input, $2 - besides }
        /^totals: / { call = "" }' "$room/dumps" > "$room/$1"
}
# count_all: leaves the rows in $room/counts, with a number for each way to build, or for the LIBRARY alone.
count_all() {
    local code
    echo "# instructions of a call on an input, in assembly and in C, with gcc $(gcc -dumpfullversion)" > "$room/counts"
    if [ -n "$library" ]; then
        count given "$library"
        cat "$room/given" >> "$room/counts"
        return
    fi
    for code in assembly c; do
        quietly make OUT="$room/$code.out" CC=gcc CFLAGS=-O2 CPPFLAGS= LDFLAGS= CODE=$code "$room/$code.out/libpkcs1.a"
        count $code "$room/$code.out/libpkcs1.a"
    done
    awk 'NR == FNR { c[$1, $2] = $3; next } { printf "%s %8d\n", $0, c[$1, $2] }' "$room"/{c,assembly} >> "$room/counts"
}
# compare: prints each row that differs too much, and then how many.
compare() {
    awk -v tolerance="$tolerance" -v last="${library:+3}" '
        function fails(how) { failures++; print row ": " how }
        function differs(at, change) {
            change = 100 * ($at / was[row, at] - 1)
            if (change < -tolerance || change > tolerance)
                fails(sprintf("%s was %d, is %d, %+.1f %%", at == 3 ? "assembly" : "C", was[row, at], $at, change))
        }
        /^#/ && NR == FNR { then = $NF }
        /^#/ { now = $NF; next }
        { row = $1 " " $2 }
        NR == FNR { known[row]; was[row, 3] = $3; was[row, 4] = $4; next }
        { calls++ }
        !(row in known) { fails("new, is " $3 " and " $4); next }
        { for (at = 3; at <= (last ? last : 4); at++) differs(at); delete known[row] }
        END {
            for (row in known) fails("missing, was " was[row, 3] " and " was[row, 4])
            if (failures && then != now) print "the table was made with gcc " then ", and this is " now
            printf "%d calls counted, %d failures\n", calls, failures
            exit failures > 0
        }' "$table" "$room/counts"
}

count_all
if [ "${1-}" = --write ]; then
    cp "$room/counts" "$table"
    echo "$(grep -vc '^#' "$table") rows written to $table"
else
    compare
fi
