#!/usr/bin/env bash
# test_making.sh: tests how generate.sh makes and compares files, and what it refuses. rustc is a stand-in here, which
# gives a function of its own, and what was made isn't tested. test.sh calls it.
set -eu
here=$(realpath "$(dirname "$0")")
. "$here/../shell.sh"
room=$(mktemp -d)
trap 'rm -rf "$room"' EXIT
tree=$room/tree
export DEBIAN=$room/debian
made=$tree/ffi/lib/generated

# A rustc that is called as the file `name` says. It fails where there is a file `fails`.
stand_in() {
    mkdir -p "$DEBIAN/12/usr/bin" "$DEBIAN/12/usr/lib/it"
    echo driver > "$DEBIAN/12/usr/lib/it/librustc_driver-0.so"
    printf '\t.section\t.text.it,"ax",@progbits\n\t.type\tit,@function\nit:\n\t.cfi_startproc\n\tret\n' > "$room/asm"
    printf 'define void @pkcs1_c_it() {\n  ret void\n}\n' > "$room/llvm-ir"
    sed -n "s/^debian_named='\(.*\) with \(LLVM\) \(.*\)'$/\1\n\2 version: \3/p" "$here/../debian_rust.sh" \
        > "$room/name"
    cat > "$DEBIAN/12/usr/bin/rustc" << END
#!/usr/bin/env bash
set -eu
case \$1 in
    --version) exec head -n 1 "$room/name" ;;
    -vV) exec cat "$room/name" ;;
    --print) exec echo "$DEBIAN/12/usr" ;;
esac
[ ! -e "$room/fails" ] || { echo 'error: it fails' >&2 && exit 1; }
while [ \$# -gt 0 ]; do
    case \$1 in
        --crate-name) name=\$2 ;;
        --emit) kind=\${2%,link} ;;
        --out-dir) folder=\$2 ;;
    esac
    shift
done
mkdir -p "\$folder"
case \$kind in asm) cp "$room/asm" "\$folder/\$name.s" ;; *) cp "$room/\$kind" "\$folder/\$name.ll" ;; esac
END
    chmod +x "$DEBIAN/12/usr/bin/rustc"
}
make_tree() {
    mkdir -p "$tree/ffi/lib"
    (cd "$here/../.." && tar c --exclude=target crates.txt crates/*/src rust \
        tools/{generate,fresh,debian_rust,shell}.sh tools/{generate,erase}) | tar x -C "$tree"
    printf '#!/bin/sh\necho tested\n' > "$tree/tools/generate/test.sh"
    printf 'check:\n\t@echo checked\n' > "$tree/Makefile"
}
# makes STATUS TEXT WORD..: generate.sh with these words has this status, and says this. If it fails, no file changes.
makes() {
    local status=0 before
    before=$(cd "$tree" && find ffi -type f -exec sha256sum {} + | sort)
    "$tree/tools/generate.sh" "${@:3}" > "$room/said" 2>&1 || status=$?
    { [ "$status" = "$1" ] && grep -q "$2" "$room/said"; } ||
        stop "generate.sh ${*:3} has the status $status, and says $(cat "$room/said"); wanted: $*"
    [ $status = 0 ] || [ "$before" = "$(cd "$tree" && find ffi -type f -exec sha256sum {} + | sort)" ] ||
        stop "generate.sh ${*:3} fails, and changes files"
}
# spoiled FILE EDIT TEXT WORD..: with the file so edited by sed, generate.sh fails and says this.
spoiled() {
    cp -p "$tree/$1" "$room/whole"
    sed -i "$2" "$tree/$1"
    ! cmp -s "$tree/$1" "$room/whole" || stop "nothing is changed in $1 by $2"
    makes 1 "$3" "${@:4}"
    mv "$room/whole" "$tree/$1"
}

stand_in
make_tree
makes 0 'ffi/lib/generated, after'
makes 0 'is tested' --check
"$tree/tools/generate.sh" --fresh || stop "what was made isn't fresh"
spoiled rust/src/proved/der_core/length.rs 's/0x80/0x81/' "isn't that of the crates"
spoiled rust/src/proved/der_core/length.rs 's/0x80/0x81/' 'made of other sources' --check
spoiled crates/der_core/src/length.rt 's/0x80/0x81/' "isn't that of the crates" --check
echo > "$tree/tools/erase/compare.py" # which takes some seconds, and has said what it has to
for it in pkcs1_c.c {x86_64,aarch64}/pkcs1_{c,tool}.s PROVENANCE; do
    spoiled "ffi/lib/generated/$it" 3s/./_/ "isn't what rustc makes" --check
done
mv "$made/aarch64" "$room/aarch64"
makes 1 "isn't what rustc makes" --check
mv "$room/aarch64" "$made/aarch64"
sed -i 's/^sources: .*/&\ncommit: 1/' "$made/PROVENANCE"
makes 0 'is tested' --check
sed -i 's/1.85.0/1.85.1/' "$room/name"
makes 1 'rustc is rustc 1.85.1 .*, and not rustc 1.85.0'
makes 1 'rustc is rustc 1.85.1 .*, and not rustc 1.85.0' --check
sed -i 's/1.85.1/1.85.0/' "$room/name"
touch "$room/fails"
makes 1 "rustc doesn't compile rust/c/src/lib.rs"
rm "$room/fails"
mv "$DEBIAN" "$room/installed"
export DEBIAN_SOURCES=copy:$room/none
makes 1 "isn't there"
export RUSTC_1_85=$room/installed/12/usr/bin/rustc
sed -i "s,$DEBIAN/12,$room/installed/12," "$RUSTC_1_85"
makes 0 'is tested' --check
makes 0 'ffi/lib/generated, after'
grep -q '^rustc: .*, installed$' "$made/PROVENANCE" || stop "PROVENANCE doesn't say that rustc was installed"
makes 1 'it takes --check' --again
makes 0 'is tested' --check
echo "generated: how files are made and compared, and what stops that"
