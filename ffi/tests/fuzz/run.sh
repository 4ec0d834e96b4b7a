#!/usr/bin/env bash
# run.sh [SECONDS [OUT]]: watches the proved calls in what `make` left in OUT, under the calls of pkcs1.h: each time
# that one is called, each clause of ffi/proof/pkcs1.acsl.h is looked at, beside a second reader and writer. The C tests
# are run, then the decoders are fuzzed for so long, a minute unless said, from the worked rows and the keys in
# ffi/tests/keys. It needs clang with libFuzzer, and python3. With 0 seconds the rows and keys are tried alone.
set -eu
cd "$(dirname "$0")/../../.."
seconds=${1:-60} out=${2:-out}
room=$(mktemp -d)
trap 'rm -rf "$room"' EXIT
mkdir "$room/found"
ffi/tests/fuzz/corpus.py "$room/rows"
ffi/proof/seam/seam.py ffi/proof/pkcs1.acsl.h ffi/lib/include/pkcs1.h > "$room/seam.c"
mapfile -t wraps < <(sed -n 's/^[a-z0-9_]* __real_\(pkcs1_c_[a-z_]*\)(.*;$/-Wl,--wrap=\1/p' "$room/seam.c")
# build PROGRAM FLAG.. SOURCE..: links it with the proved calls, which are watched.
build() {
    clang -std=gnu11 -O1 -g -Wall -Wextra -Werror -Wno-unused-function -Wno-unused-parameter -DWATCHED \
        -fsanitize="$2" -fno-sanitize-recover=all -Iffi/lib/include -Iffi/tests{,/fuzz} -Iffi/proof{,/seam} "${@:3}" \
        "$room/seam.c" ffi/proof/seam/{terms,meaning,writer}.c ffi/tests/fuzz/{reference,elements,compare}.c \
        ffi/tests/rows.c "$out"/{calls,proved}.o "${wraps[@]}" -o "$room/$1"
}
build test address,undefined ffi/tests/{test,large}.c &
build fuzz fuzzer,address,undefined ffi/tests/fuzz/fuzz.c
wait $!
# try COMMAND..: shows the end of what it says if it fails.
try() {
    "$@" > "$room/log" 2>&1 || {
        tail -n 40 "$room/log" >&2
        exit 1
    }
}
try "$room/test" crates/pkcs1_vectors/stdin
limits=(-max_total_time="$seconds")
[ "$seconds" != 0 ] || limits=(-runs=0)
try "$room/fuzz" "${limits[@]}" -max_len=2000 -artifact_prefix="$room/found/" "$room/found" "$room/rows"
runs=$(sed -n 's/^Done \([0-9]*\) runs.*/\1/p' "$room/log")
echo "fuzz: the C tests, $(find "$room/rows" -type f | wc -l) rows and keys, and $runs runs, as contracts and reference say"
