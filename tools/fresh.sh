#!/bin/sh
# Is ffi/lib/generated made of the text that is here? If not, one line says so, and the status is 1. Where sha256sum is
# missing nothing is said. make, release.sh and generate.sh call it.
#
#     tools/fresh.sh [--hash]    the hash of what the files are made of, and of what makes them, alone
set -eu
unset CDPATH
cd "$(dirname "$0")/.."
generated=ffi/lib/generated
text='rust/src/clones.rs rust/src/numbers.rs rust/src/proved rust/src/rattle_std rust/src/bin/pkcs1_tool/rattle_std
    rust/src/bin/pkcs1_tool/tool rust/c/src rust/tool/src'
makers='tools/generate.sh tools/debian_rust.sh tools/generate/plain.py tools/generate/marks.py
    tools/generate/rust_names.py tools/generate/provenance.sh tools/generate/border.c tools/generate/ir2c'
command -v sha256sum > /dev/null || exit 0
# shellcheck disable=SC2086
hash=$(find $text $makers -type f ! -path '*/__pycache__/*' | LC_ALL=C sort | tr '\n' '\0' | xargs -0 sha256sum |
    sha256sum)
[ "${1-}" != --hash ] || {
    echo "${hash%% *}"
    exit
}
grep -qsx "sources: ${hash%% *}" $generated/PROVENANCE || {
    echo "$generated, which is built here, is made of other sources: tools/generate.sh makes it again" >&2
    exit 1
}
