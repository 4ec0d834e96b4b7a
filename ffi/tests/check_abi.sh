#!/bin/sh
# check_abi.sh [--write]: compares the binary interface that pkcs1.h declares with the list in abi: the number PKCS1_ABI,
# the size of each struct and where its fields stand, the types of each call and constant, the values of statuses. The
# number is in the soname and in the version of symbols. So what is in the list may change only with the number.
# --write keeps the list anew, but refuses such a change. CC, CFLAGS and NM are as in the Makefile. The list is for machines on
# which a size has 64 bits.
set -eu
here=$(dirname "$0")
lib=$here/../lib
room=$(mktemp -d)
trap 'rm -rf "$room"' EXIT
export LC_ALL=C

stop() {
    echo "ffi/tests/check_abi.sh: $*" >&2
    exit 1
}
# Of each struct and field a text, and behind | what its number is in C.
members() {
    grep -oE 'struct pkcs1_[a-z_]+ \{[^}]*\}' "$room/text" | awk -F ' [{]|[}]' '{
        print $1 ": octets|sizeof(" $1 ")"
        count = split($2, fields, ";") - 1
        for (i = 1; i <= count; i++) {
            names = split(fields[i], named, ",")
            type = named[1]
            sub(/[a-z0-9_]+$/, "", type)
            for (j = 1; j <= names; j++) {
                match(named[j], /[a-z0-9_]+$/)
                name = substr(named[j], RSTART)
                print $1 ":" type name " at|offsetof(" $1 ", " name ")"
            }
        }
    }'
}
list() {
    $CC -E -P "$lib/include/pkcs1.h" | tr -s '\n ' ' ' | sed 's/\<_Bool\>/bool/g' > "$room/text"
    members > "$room/members"
    # Compiled and not run: the size of each array tells a number.
    { echo '#include "pkcs1.h"' && awk -F '|' '{ print "char at_" NR "[" $2 " + 1];" }' "$room/members"; } > "$room/sizes.c"
    $CC -fno-common "-I$lib/include" -c "$room/sizes.c" -o "$room/sizes.o"
    sed -n 's/^#define \(PKCS1_ABI\) \([0-9]*\)$/\1 = \2/p' "$lib/include/pkcs1.h"
    ${NM:-nm} -P -t d "$room/sizes.o" | sed -n 's/^at_//p' | sort -n | awk '{ print $NF - 1 }' |
        paste -d ' ' "$room/members" - | sed 's/|.* / /'
    grep -oE '(const )?[A-Za-z0-9_]+ \*?pkcs1_[a-z0-9_]+\([^)]*\);' "$room/text" |
        sed -E -e 's/([ *])[a-z0-9_]+([,)])/\1\2/g' -e 's/ ([,)])/\1/g'
    sed 's/;/\n/g' "$room/text" | sed -n 's/^ *extern //p' | awk -F ', *' '{
        type = $1
        sub(/[^ ]*$/, "", type)
        $1 = substr($1, length(type) + 1)
        for (i = 1; i <= NF; i++)
            print type $i
    }'
    grep -oE 'PKCS1_[A-Z0-9_]+ = [0-9]+' "$room/text"
}

CC=${CC:-cc}
# shellcheck disable=SC2086
case $("$lib/machine.sh" $CC ${CFLAGS-}) in other | windows | archive) exit 0 ;; esac
list > "$room/abi"
[ "$(wc -l < "$room/abi")" -gt 90 ] || stop "pkcs1.h can't be read"
! diff -N "$here/abi" "$room/abi" > "$room/differs" || exit 0
if grep -q '^<' "$room/differs" && ! grep -q '^< PKCS1_ABI' "$room/differs"; then
    cat "$room/differs" >&2
    stop "programs built for this number break: raise PKCS1_ABI in pkcs1.h, then call ffi/tests/check_abi.sh --write"
fi
[ "${1-}" = --write ] || {
    cat "$room/differs" >&2
    stop "ffi/tests/abi has another list: ffi/tests/check_abi.sh --write keeps this one"
}
cp "$room/abi" "$here/abi"
