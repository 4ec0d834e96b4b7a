#!/usr/bin/env bash
# Proves libpkcs1, and builds it for callers in C; usage says how. The Makefile at the top builds it from what was
# proved before, without the toolchain. This needs rt, gcc and binutils, for the tests g++ too; test.sh reports what
# else it could use and doesn't find. No network. .ci/run calls it after rt ci, with --library and
# --over-ci, which needs all of that too.
set -eu
usage="usage: ffi/proof/build.sh                    builds libpkcs1 into ffi/out, and runs its tests
       ffi/proof/build.sh --library          builds crates/pkcs1_c/out/libpkcs1_c.a behind rt ci, over the libraries
                                             that it proved
       ffi/proof/build.sh --over-ci          builds libpkcs1 over that one, and runs its tests
       ffi/proof/build.sh --tools            whether all is installed that --over-ci needs
       ffi/proof/build.sh install PREFIX     builds it, and installs it below PREFIX; pkcs1_tool with its man page too,
                                             if rt run built it in crates/pkcs1_tool
       ffi/proof/build.sh uninstall PREFIX   removes what install put there
   CRATES: another folder of the same crates, with the libraries that rt ci proved, for --library
   DESTDIR, LIBDIR: a folder to install below, and the libraries' folder in place of PREFIX/lib
   CC, CFLAGS, LDFLAGS: the compiler, its options, and those for linking libpkcs1.so"
here=$(realpath "$(dirname "$0")")
ffi=$here/..
. "$here/../../tools/shell.sh"
crate=$ffi/../crates/pkcs1_c
out=$ffi/out
library=$crate/out/libpkcs1_c.a
export CC=${CC:-gcc} CXX=${CXX:-g++}

action='test'
prefix=
case "$#:${1-}" in
    0:) ;;
    1:--library) action=library ;;
    1:--over-ci) action=over-ci ;;
    1:--tools) action=tools ;;
    1:-h | 1:--help)
        printf '%s\n' "$usage"
        exit 0
        ;;
    2:install | 2:uninstall)
        action=$1
        prefix=$2
        ;;
    *)
        printf '%s\n' "$usage" >&2
        exit 2
        ;;
esac

say() {
    printf 'ffi: %s\n' "$*"
}

version=$(sed -n 's/^#define PKCS1_VERSION_[A-Z]* //p' "$ffi/lib/include/pkcs1.h" | paste -s -d .)
case $action:$prefix in *install*:) stop "PREFIX is empty" ;; esac
[ "$action" != uninstall ] || exec "$ffi/lib/install.sh" remove "$prefix" "$version"

tools=(rt "$CC" ar ld nm objcopy)
case $action in
    test) tools+=("$CXX") ;;
    over-ci | tools) tools+=("$CXX" clang clang++ valgrind pkg-config openssl) ;;
esac
needs "${tools[@]}"
[ "$action" != tools ] || exit 0
mkdir -p "$out"
crates=$(realpath "${CRATES:-$ffi/../crates}")
kit=$(dirname "$(rt doc)")

# The hash of all that the proved library is made of, and of how it is made.
inputs() {
    {
        rt version
        cd "$ffi/.."
        cat crates.txt ffi/proof/build.sh
        for name in standard der_core spki_core pkcs1_params pkcs1 pkcs8_core pkcs1_c; do
            find "crates/$name/src" "crates/$name/specs" "crates/$name/proofs" -type f
        done | LC_ALL=C sort | tr '\n' '\0' | xargs -0 sha256sum
    } | sha256sum
}

# A toolchain in the folder $toolchain whose clang also writes down how to go back from each call, for debuggers. No
# instruction changes.
make_toolchain() {
    toolchain=$(mktemp -d)
    trap 'rm -rf "$toolchain"' EXIT
    mkdir "$toolchain/bin"
    ln -s "$kit/toolchain/lib" "$toolchain"
    ln -s "$kit"/toolchain/bin/* "$toolchain/bin"
    rm "$toolchain/bin/clang"
    printf '#!/bin/sh\nexec "%s" -fforce-dwarf-frame "$@"\n' "$kit/toolchain/bin/clang" > "$toolchain/bin/clang"
    chmod +x "$toolchain/bin/clang"
}
# Builds this crate over libraries that rt ci or rt lib proved and kept, and over what checks or rt lib kept of its own
# proof; rt ci keeps none of that. rt ci builds no static library, and rt lib takes no other toolchain.
build_over() {
    local words=(--extern "std=$kit/rlibs/std.rlib" -L "dependency=$kit/rlibs") name
    for name in standard der_core spki_core pkcs1_params pkcs1 pkcs8_core; do
        words+=(--extern "$name=$crates/$name/out/rlib/$name.rlib" -L "dependency=$crates/$name/out/rlib")
    done
    mkdir -p out "$crates/pkcs1_c/out"
    make_toolchain
    "$kit/bin/rattle" build --crate-name pkcs1_c --crate-type staticlib src/lib.rt "${words[@]}" --jobs 2 \
        --antt-project "$kit/rattle/logic/antt-project.json" --logic-built "$kit/logic_built" \
        --incremental "$crates/pkcs1_c/out/incremental" --toolchain "$toolchain" --cpu x86-64 -o out/libpkcs1_c.a
}
prove() {
    (cd "$crate" && "$@" > "$out/rt.log" 2>&1) || {
        cat "$out/rt.log" >&2
        stop "the library isn't proved"
    }
}
# The stamp has the hash of what the library was proved from, and that of the library.
stamp() {
    printf '%s %s\n' "$(inputs)" "$(sha256sum < "$library")"
}
build_library() {
    case $action in
        over-ci) [ -e "$library" ] || stop "there is no $library: ffi/proof/build.sh --library builds it" ;;
        library)
            prove build_over
            say "the library is proved and built, after $SECONDS seconds"
            ;;
        *)
            if [ -e "$library" ] && [ "$(cat "$out/stamp" 2> /dev/null)" = "$(stamp)" ]; then
                say "the proved library is up to date"
                return
            fi
            rm -f "$out/stamp"
            say "proving and building the library, and the first time all below it, which takes 10 minutes and more; ffi/out/rt.log tells how far it is"
            prove rt lib
            prove build_over
            say "proved and built, after $SECONDS seconds"
            ;;
    esac
    stamp > "$out/stamp"
}

link_library() {
    "$here/link_proved.sh" "$library" "$out" || stop "the library isn't linked"
    say "ffi/out/libpkcs1.a and libpkcs1.so, version $version"
}

build_library
[ "$action" != library ] || exit 0
link_library
case $action in
    install)
        tool=$ffi/../crates/pkcs1_tool/out/pkcs1_tool
        [ -x "$tool" ] || tool=
        "$ffi/lib/install.sh" add "$prefix" "$version" "$out" ${tool:+"$tool"}
        ;;
    *)
        say "testing, half a minute"
        "$ffi/tests/test.sh"
        ;;
esac
