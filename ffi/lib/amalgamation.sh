#!/bin/sh
# amalgamation.sh GENERATED: prints the library for C as one file, of which pkcs1.h is the only header. The Makefile calls
# it.
set -eu
unset CDPATH
generated=$(realpath "$1")
cd "$(dirname "$0")"
version=$(sed -n 's/^#define PKCS1_VERSION_[A-Z]* //p' include/pkcs1.h | paste -s -d .)

cat << END
/* RSA keys and parameters in DER, proved (PKCS #1): the library for C, version $version, as one file. Any C99 compiler takes
 * it without options. Its calls are in pkcs1.h. Made by "make amalgamation": not to be changed. */
END
awk '/^#include "pkcs1_c.h"$/ { while ((getline line < "include/pkcs1_c.h") > 0) print line; next } { print }' \
    "$generated/pkcs1_c.c"
grep -vx '#include "pkcs1_c.h"' pkcs1.c
