#!/bin/sh
# link_proved.sh LIBRARY OUT: leaves libpkcs1 in OUT, of lib/pkcs1.c and this libpkcs1_c.a, which rt compiled. CC and
# CFLAGS are the compiler and its options. ffi/proof/build.sh and rust/check.sh call it.
set -eu
lib=$(dirname "$0")/../lib
CC=${CC:-gcc}
export CC
ld -r -o "$2/proved.o" --whole-archive "$1"
objcopy --wildcard --keep-global-symbol='pkcs1_c_*' "$2/proved.o"
# shellcheck disable=SC2086
"$CC" -std=c99 -O2 ${CFLAGS-} -fPIC -ffunction-sections -fdata-sections -Wall -Wextra -Werror -pedantic \
    "-I$lib/include" -c "$lib/pkcs1.c" -o "$2/calls.o"
"$lib/link.sh" "$2"
