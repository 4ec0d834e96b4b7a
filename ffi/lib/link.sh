#!/bin/sh
# link.sh OUT: links OUT/proved.o, the proved calls, and OUT/calls.o, those of pkcs1.h over them, into libpkcs1.a and
# libpkcs1.so.ABI, in which only what pkcs1.h declares is global, with the version PKCS1_ABI. For Windows it is
# libpkcs1-ABI.dll, with its import library libpkcs1.dll.a. Elsewhere there is libpkcs1.a alone. In the archives for
# these the proved calls are global too. The Makefile and link_proved.sh call it. CC, CFLAGS, LDFLAGS, AR, OBJCOPY and
# NM are as in the Makefile.
set -eu
out=$1
here=$(dirname "$0")
header=$here/include/pkcs1.h
abi=$(sed -n 's/^#define PKCS1_ABI //p' "$header")
soname=libpkcs1.so.$abi
export LC_ALL=C

# exports LESS: whether libpkcs1.a exports what is declared, and what has the names of this pattern.
exports() {
    # On 32 bits C's names for Windows have a _ in front.
    ${NM:-nm} -g --defined-only "$out/libpkcs1.a" | sed -n 's/^[0-9a-f]* [A-Z] //p' | sed 's/^_pkcs1/pkcs1/' |
        grep -v "^$1" | sort | diff "$out/declared" - || {
        echo "ffi/lib/link.sh: what pkcs1.h declares (<) and what libpkcs1.a exports (>) differ" >&2
        exit 1
    }
}
# What ELF has: one object, in which other names are local, and versions of names.
# shellcheck disable=SC2086 # words
elf() {
    $CC ${CFLAGS-} -fno-lto -fno-sanitize=all -r -nostdlib -o "$out/pkcs1.o" "$out/proved.o" "$out/calls.o"
    # On i386 each object has the same functions that tell where it is, of which a program keeps one. On MIPS a name that
    # is called by a table can't be local.
    others='__x86.get_pc_thunk.'
    case $($CC ${CFLAGS-} -dumpmachine) in mips*) others=pkcs1_c_ ;; esac
    ${OBJCOPY:-objcopy} -w --keep-global-symbols="$out/declared" --keep-global-symbol="$others*" "$out/pkcs1.o"
    # Else a C library's own start files, as those of musl, may add names.
    printf 'PKCS1_%s { global: %s local: *; };\n' "$abi" "$(sed 's/$/;/' "$out/declared")" > "$out/exports.map"
    # A sanitizer's calls are in the program that is linked with it.
    hardened=-Wl,-Bsymbolic,-z,relro,-z,now
    case "$CC ${CFLAGS-}" in *-fsanitize=*) ;; *) hardened=$hardened,-z,defs ;; esac
    $CC ${CFLAGS-} -fno-lto -shared ${LDFLAGS-} -o "$out/$soname" -Wl,-soname,"$soname" \
        -Wl,--version-script="$out/exports.map" $hardened "$out/pkcs1.o"
    # A copy, since rt ci takes no tree with links.
    cp "$out/$soname" "$out/libpkcs1.so"
    ${AR:-ar} rcs "$out/libpkcs1.a" "$out/pkcs1.o"
    exports "$others"
}
# Each object of C has no other global names than those of the headers.
archive() {
    ${AR:-ar} rcs "$out/libpkcs1.a" "$out/proved.o" "$out/calls.o"
}
# shellcheck disable=SC2086 # words
windows() {
    archive
    exports pkcs1_c_
    { echo EXPORTS && sed "/^pkcs1_oid_equal\$/!s/^pkcs1_oid_.*/& DATA/" "$out/declared"; } > "$out/exports.def"
    $CC ${CFLAGS-} -fno-lto -shared -static-libgcc ${LDFLAGS-} -o "$out/libpkcs1-$abi.dll" \
        -Wl,--out-implib="$out/libpkcs1.dll.a" "$out/exports.def" "$out/proved.o" "$out/calls.o"
}

{
    grep -o 'pkcs1_[a-z0-9_]*(' "$header" | tr -d '('
    grep '^extern const' "$header" | grep -o 'pkcs1_oid_[a-z0-9_]*'
} | sort -u > "$out/declared"
rm -f "$out"/libpkcs1[.-]*
# shellcheck disable=SC2086
case $("$here/machine.sh" $CC ${CFLAGS-}) in
    windows) windows ;;
    archive) archive ;;
    *) elf ;;
esac
