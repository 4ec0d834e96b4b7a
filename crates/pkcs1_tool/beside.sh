#!/usr/bin/env bash
# Runs the tool that make builds beside cargo's, and beside the one that rt builds, if it is there. Each call on files
# fails, COUNT paths are tried by chance, by another SEED each day, and copies in folders without a path. What the first
# two ask the system for is written by hand, and apart. Called by .ci/run after run_built.sh. It needs make, gcc, cargo
# and python3. Where root calls it, the tools run as another user. It prints what differs, and then exits with 1.
set -eu
# All of it ends in ten minutes, of which it takes half of one.
[ -n "${LIMITED-}" ] || LIMITED=1 exec timeout 600 "$0" "$@"
cd "$(dirname "$0")/../.."
. tools/shell.sh
OUT=$(realpath -m "${OUT:-out/beside}")
export PYTHONDONTWRITEBYTECODE=1 CARGO_TARGET_DIR=${CARGO_TARGET_DIR:-$PWD/out/rust/target} CARGO_TERM_QUIET=true
needs make cargo python3 "${CC:-gcc}"
room=$(mktemp -d)
trap 'rm -rf "$room"' EXIT
chmod 755 "$room"
compared=()

# compares NAME PROGRAM: a copy of it is compared, which each user may run.
compares() {
    cp "$2" "$room/$1"
    compared+=("$1=$room/$1")
}
make --silent OUT="$OUT" "$OUT/pkcs1_tool"
compares make "$OUT/pkcs1_tool"
cargo build --manifest-path rust/Cargo.toml --release --bin pkcs1_tool
compares cargo "$CARGO_TARGET_DIR/release/pkcs1_tool"
if [ -x crates/pkcs1_tool/out/pkcs1_tool ]; then
    compares rattle crates/pkcs1_tool/out/pkcs1_tool
else
    echo "beside: the tool that rt builds isn't there, and isn't compared"
fi
cd crates/pkcs1_tool/beside
${CC:-gcc} -shared -fPIC -O1 -Wall -Wextra -Werror -o "$room/refuse_calls.so" refuse_calls.c -ldl
# In memory nothing waits for a disk.
[ ! -w /dev/shm ] || export TMPDIR=/dev/shm
failed=0
./faults.py "$room/refuse_calls.so" "${compared[@]}" || failed=1
./paths.py "${COUNT:-1000}" "${SEED:-$(date +%Y%j)}" "${compared[@]}" || failed=1
./folders.py "${compared[@]}" || failed=1
exit $failed
