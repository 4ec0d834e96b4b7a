#!/bin/sh
# Installs the packages of Debian that the gate needs and that aren't there: as root, without a question. What it prints is
# shown only if it fails. Somebody else is told what is missing.
set -eu
packages='make gcc g++ clang binutils perl python3 pkg-config openssl openssh-client valgrind strace acl cmake meson qemu-user shellcheck
    gcc-aarch64-linux-gnu gcc-riscv64-linux-gnu gcc-i686-linux-gnu gcc-s390x-linux-gnu gcc-mips-linux-gnu
    gcc-arm-linux-gnueabihf libc6-dev-arm64-cross libc6-dev-riscv64-cross libc6-dev-i386-cross libc6-dev-s390x-cross
    libc6-dev-mips-cross libc6-dev-armhf-cross libclang-rt-14-dev llvm musl-tools frama-c-base why3 z3 cvc4 nodejs
    gcc-m68k-linux-gnu libc6-dev-m68k-cross tcc gcc-mingw-w64-x86-64 wine wine64 lld wasi-libc libclang-rt-14-dev-wasm32'
missing=
for it in $packages; do
    dpkg-query -W -f '${Status}' "$it" 2> /dev/null | grep -q 'ok installed' || missing="$missing $it"
done
[ -n "$missing" ] || exit 0
[ "$(id -u)" = 0 ] || {
    echo "tools/install.sh: these packages aren't installed, and are needed:$missing" >&2
    exit 1
}
log=$(mktemp)
trap 'rm -f "$log"' EXIT
{
    apt-get update
    # shellcheck disable=SC2086
    DEBIAN_FRONTEND=noninteractive apt-get install -y --no-install-recommends $missing
} > "$log" 2>&1 || {
    tail -n 20 "$log" >&2
    exit 1
}
