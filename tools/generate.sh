#!/usr/bin/env bash
# Makes ffi/lib/generated, of which a C compiler builds the library and the tool: what Debian's rustc 1.85 makes of the
# text in rust, as assembly and as C. tools/erase/compare.py says that this text is that of the proved crates. So it needs
# neither the toolchain nor a proof, but python3, sha256sum, and what debian_rust.sh needs.
#
#     tools/generate.sh            makes it
#     tools/generate.sh --check    makes it in another folder, compares the two octet by octet, and tests what it made:
#                                  generate/test.sh, make check
#     tools/generate.sh --fresh    whether it is made of the text that is here (fresh.sh), in a second
#
# DEBIAN: the folder of rustc, ~/.cache/pkcs1-gate/debian unless said; rust/check.sh takes the same. RUSTC_1_85: an
# installed rustc in its place. The status is 1 if files differ or can't be made. ffi/lib/generated is replaced in the
# end, and stays as it is if anything fails.
set -eu
cd "$(dirname "$0")/.."
. tools/shell.sh
. tools/debian_rust.sh
parts=tools/generate
generated=ffi/lib/generated
export PYTHONDONTWRITEBYTECODE=1

say() {
    printf 'generate: %s, after %s s\n' "$1" "$SECONDS"
}

# Of all, of the tool, of assembly, and of the IR that the C is made of: without what computes several values at once, and
# without tables of addresses, which not each machine can hold.
options=(--edition 2024 --crate-type staticlib -C opt-level=3 -C lto=fat -C codegen-units=1 -C panic=abort
    -C symbol-mangling-version=v0)
of_tool=(--cfg 'feature="alloc"')
of_assembly=(-C relocation-model=pic -C force-unwind-tables=yes)
of_ir=(-C relocation-model=static -C no-vectorize-loops -C no-vectorize-slp -C llvm-args=-switch-to-lookup=false)

# rust PROCESSOR KIND NAME SOURCE WORD..: leaves NAME.s or NAME.ll in the folder KIND.PROCESSOR of the room. Without
# `link` core isn't taken in.
rust() {
    "$RUSTC" "${options[@]}" "${@:5}" --crate-name "$3" --target "$1-unknown-linux-gnu" --emit "$2,link" \
        --out-dir "$room/$2.$1" "$4" > "$room/$3.$2.$1.log" 2>&1 || {
        cat "$room/$3.$2.$1.log" >&2
        stop "rustc doesn't compile $4 for $1"
    }
}
# assembly PROCESSOR: that of the library and of the tool.
assembly() {
    local made=$room/generated/$1
    mkdir -p "$made"
    rust "$1" asm pkcs1_c rust/c/src/lib.rs "${of_assembly[@]}"
    $parts/plain.py "$1" library < "$room/asm.$1/pkcs1_c.s" > "$made/pkcs1_c.s"
    rust "$1" asm pkcs1_tool rust/tool/src/lib.rs "${of_tool[@]}" "${of_assembly[@]}"
    $parts/plain.py "$1" tool < "$room/asm.$1/pkcs1_tool.s" > "$made/pkcs1_tool.s"
    say "assembly for $1"
}
# make_all: makes all, in the folder generated of the room.
make_all() {
    tools/erase/compare.py > "$room/log" || {
        cat "$room/log" >&2
        stop "the text in rust isn't that of the crates: tools/erase/erase.py makes it again"
    }
    debian_rust
    assembly aarch64 &
    assembly x86_64
    rust x86_64 llvm-ir pkcs1_c rust/c/src/lib.rs "${of_ir[@]}"
    python3 $parts/ir2c "$room/llvm-ir.x86_64/pkcs1_c.ll" $parts/border.c "$room/generated/pkcs1_c.c"
    say "C"
    wait $!
    $parts/provenance.sh "${options[*]}" "${of_tool[*]}" "${of_assembly[*]}" "${of_ir[*]}" > "$room/generated/PROVENANCE"
}
check() {
    local apart=(-I '^commit: ')
    tools/fresh.sh
    make_all
    # A release also names its commit, and an installed rustc is another file.
    [ -z "${RUSTC_1_85-}" ] || apart+=(-I '^rustc: ' -I '^driver: ')
    diff -rq "${apart[@]}" $generated "$room/generated" >&2 ||
        stop "$generated isn't what rustc makes of the text that is here: tools/generate.sh makes it again"
    $parts/test.sh "$room/generated"
    make check OUT="$room/out" GENERATED="$room/generated"
    say "$generated is what rustc makes of the text that is here, and is tested"
}
replace() {
    make_all
    rm -rf $generated.new
    cp -r "$room/generated" $generated.new
    rm -rf $generated
    mv $generated.new $generated
    say $generated
}

case "$#:${1-}" in
    1:--fresh) exec tools/fresh.sh ;;
    0:) action=replace ;;
    1:--check) action=check ;;
    *) stop "it takes --check, --fresh or nothing" ;;
esac
needs python3 sha256sum
room=$(mktemp -d)
trap 'wait; rm -rf "$room"' EXIT
$action
