#!/usr/bin/env bash
# Runs all that is tested of the crate, but for what `cargo test` runs everywhere.
#
#     rust/check.sh [PART]..     these parts, or all:
#
#     erase            src/proved is what crates/ gives, token for token, and no code by hand changes what it means;
#                      the tests of tools/erase
#     crate            with each feature, without a warning: its tests, clippy, documentation, layout and package;
#                      clippy and layout of the tool over the C library
#     own              types of one's own: what sequence! makes is, token for token, what is proved of the same types in
#                      crates/examples, and mistakes in it are refused at their places
#     preconditions    no function with a `requires` is reached from outside; calls of one by hand are known
#     rows             the worked rows, the tests in Rattle and the tool, erased
#     beside           COUNT inputs by chance, beside the library that rt compiles, the other compiler of the same proof:
#                      ffi/proof/build.sh --library leaves it. Where it isn't, beside the one that make builds, and a
#                      line says so. The SEED is another one each day
#     memory           each request for memory refused
#     secrets          the path on a private key, under valgrind
#     rustcrypto       the crate with the names of RustCrypto's pkcs1, over Debian's crates: rustcrypto/check.sh
#     oldest           the crate and the rows, by Debian's rustc 1.85
#     machines         rows, memory and beside for a 32-bit and a big-endian machine, by the same rustc, under qemu
#     wasm             the crate without std for wasm32; the rows, and those of the tool, for wasm32-wasip1, under node
#
# What is made stands in out/rust, or below OUT. It needs cargo with clippy and rustfmt, and python3. `beside`,
# `secrets` and `machines` need make and gcc, `secrets` valgrind too, and `machines` qemu-user and
# gcc-{i686,s390x}-linux-gnu. `rustcrypto`, `oldest`, `machines` and `wasm` need apt-get and Debian's packages from the
# network, or the folder DEBIAN, ~/.cache/pkcs1-gate/debian unless said, into which they were unpacked. Nothing is
# installed. Without node or its packages `wasm` is left out.
set -eu
cd "$(dirname "$0")/.."
. tools/shell.sh
. tools/platforms.sh
. tools/debian_rust.sh
OUT=$(realpath -m "${OUT:-out/rust}")
room=$OUT/room
COUNT=${COUNT:-500000}
SEED=${SEED:-$(date +%Y%j)}
export CARGO_TARGET_DIR=$OUT/target CARGO_TERM_QUIET=true
crate=rust/Cargo.toml check=rust/check/Cargo.toml tool=rust/tool/Cargo.toml
rows=(crates/pkcs1_vectors/stdin crates/pkcs1_tool/rows)
keys=(ffi/tests/keys/{priv2,priv3,p8_2,p8_3}.der)
parts=(erase crate own preconditions rows beside memory secrets rustcrypto oldest machines wasm)

# quietly WHAT COMMAND..: what the command prints is shown if it fails.
quietly() {
    "${@:2}" > "$OUT/log" 2>&1 || { cat "$OUT/log" >&2 && stop "$1 fails"; }
}

erase() {
    tools/erase/erase.py --check
    tools/erase/compare.py
    tools/erase/by_hand.py
    quietly tools/erase/test.py tools/erase/test.py
    grep '^Ran' "$OUT/log"
}

# tests: the crate's, with each feature.
tests() {
    local features
    for features in "" alloc std; do
        quietly "cargo test --features '$features'" \
            cargo test --manifest-path $crate --no-default-features --features "$features"
    done
}

crate() {
    local features
    RUSTFLAGS="-D warnings" tests
    for features in "" alloc std; do
        cargo clippy --manifest-path $crate --all-targets --no-default-features --features "$features" -- -D warnings
    done
    RUSTDOCFLAGS="-D warnings" cargo doc --manifest-path $crate --no-deps
    rust/api.py "$CARGO_TARGET_DIR/doc/pkcs1_proved"
    cargo fmt --manifest-path $crate --check
    cargo fmt --manifest-path $check --check
    cargo clippy --manifest-path $tool -- -D warnings
    cargo fmt --manifest-path $tool --check
    packaged
    beside_another
    echo "crate: tests, clippy, documentation, layout and package, with no feature, alloc and std"
}
# packaged: the crate's package passes its tests in a folder where nothing else is, and has no part of the tool.
packaged() {
    local folder
    cargo package --manifest-path $crate --allow-dirty --offline
    folder=$(mktemp -d)
    tar xzf "$CARGO_TARGET_DIR"/package/pkcs1-proved-*.crate -C "$folder" --strip-components=1
    [ ! -e "$folder/src/bin" ] || stop "the package has the tool"
    (cd "$folder" && quietly "cargo test of the package" cargo test --offline)
    rm -rf "$folder"
}
# beside_another: a program that depends on a crate pkcs1 too is built.
beside_another() {
    local folder=$OUT/beside_another
    rm -rf "$folder"
    mkdir -p "$folder"/{src,pkcs1/src}
    printf '[package]\nname = "pkcs1"\n' > "$folder/pkcs1/Cargo.toml"
    printf '[package]\nname = "program"\nedition = "2024"\n[dependencies]\n%s\n[workspace]\n' \
        'pkcs1 = { path = "pkcs1" }'$'\n'"pkcs1-proved = { path = \"$PWD/rust\" }" > "$folder/Cargo.toml"
    echo 'pub struct Other;' > "$folder/pkcs1/src/lib.rs"
    echo 'pub type Both = (pkcs1::Other, pkcs1_proved::UintRef<'"'static>);" > "$folder/src/lib.rs"
    cargo check --offline --manifest-path "$folder/Cargo.toml"
}

own() {
    local it
    RUSTC_BOOTSTRAP=1 cargo rustc --manifest-path $crate --test proved_records -- -Zunpretty=expanded > "$OUT/expanded"
    tools/erase/expanded.py "$OUT/expanded"
    planted_in_expansion 's/let (r, (s, ())) = row/let (s, (r, ())) = row/'
    planted_in_expansion 's/SequenceTag/IntegerTag/'
    planted_in_expansion 's/then_some/xor/'
    for it in types words; do
        refused "$it"
    done
}
# refused NAME: the calls of sequence! in this file of mistakes are refused as it says.
refused() {
    local folder=$OUT/mistakes/$1 source=$PWD/rust/check/mistakes/$1.rs
    mkdir -p "$folder"
    printf '[package]\nname = "mistakes"\nedition = "2024"\n[lib]\npath = "%s"\n[dependencies]\n%s\n[workspace]\n' \
        "$source" "pkcs1-proved = { path = \"$PWD/rust\" }" > "$folder/Cargo.toml"
    ! cargo check --offline --manifest-path "$folder/Cargo.toml" --message-format=json > "$OUT/messages" 2> "$OUT/log" ||
        stop "$source is compiled"
    rust/check/mistakes/mistakes.py "$source" < "$OUT/messages"
}
# planted_in_expansion COMMAND: what sequence! makes, changed by the command, isn't what is proved.
planted_in_expansion() {
    sed "$1" "$OUT/expanded" > "$OUT/planted_expansion"
    ! tools/erase/expanded.py "$OUT/planted_expansion" > "$OUT/log" || stop "expanded.py doesn't notice $1"
}

# planted FILE COMMAND MESSAGE: with this file of src changed by the command, preconditions.py says so.
planted() {
    rm -rf "$OUT/planted"
    mkdir -p "$OUT/planted"
    cp -r rust/src "$OUT/planted"
    sed -i "$2" "$OUT/planted/src/$1"
    ! rust/preconditions.py "$OUT/planted" > "$OUT/log" || stop "preconditions.py doesn't notice $2 in $1"
    grep -qF "$3" "$OUT/log" || { cat "$OUT/log" >&2 && stop "preconditions.py doesn't say $3 of $2 in $1"; }
}
# shellcheck disable=SC2016 # $ is the last line, to sed
preconditions() {
    rust/preconditions.py
    planted lib.rs 's/^mod proved/pub mod proved/' 'proved can be reached'
    planted lib.rs '$a pub use proved::spki_core::read_field;' 'read_field has a'
    planted lib.rs '$a pub use proved::der_core::{EncodeValue, Uint as U};' 'append_value has a'
    planted lib.rs '$a pub use proved::der_core::*;' 'names all of a module'
    planted lib.rs '$a pub trait Reached: proved::der_core::EncodeValue {}' 'a trait is below'
    planted pss.rs '/if mask >> view/,/}$/d' 'calls encode_spelling,'
    planted oaep.rs 's/(&view).encode_spelling(/(\&view).encode_spelling_into(/' 'calls encode_spelling_into,'
    planted idioms.rs 's/if number > 30/if number > 31/' 'calls new,'
    planted idioms.rs '$a fn more() -> Length { Length::of(1 << 40) }' 'calls of,'
    planted idioms.rs '$a type Count = Length; const MORE: fn(usize) -> Count = Count::of;' 'calls of,'
    planted idioms.rs '$a impl From<u8> for Length { fn from(it: u8) -> Length { Self::of(1 << it) } }' 'calls of,'
    planted idioms.rs '$a use crate::proved::spki_core::read_field as field;' 'calls read_field,'
    planted values.rs '$a fn more(it: impl der_core::EncodeValue) { it.append_value(todo!()) }' 'calls append_value,'
    planted identifier.rs '$a fn more() { proved::ObjectIdentifier::new(&[]); }' 'calls new,'
    planted kernel.rs 's/OctetStringTag, /OctetStringTag, BackWriter, /' 'BackWriter is named, and writes'
    planted kernel.rs '$a pub use crate::proved::der_core::Prepend;' 'Prepend is named, and writes'
    planted kernel.rs '$a pub use crate::proved::der_core::Decode;' 'read_one has a'
    planted lib.rs '$a pub use proved::der_core::PrependRow;' 'PrependRow is named, and writes'
    planted part.rs 's/fn read_value(memory: M/fn read_all(memory: M/' 'calls read_value,'
    planted list.rs 's/T::read_one(memory, left)/read_front(memory, left)/' 'which calls no such function'
    planted conversions.rs 's/Length::of(self.as_bytes().len())/self.len()/' 'is 0 calls'
}

# vectors WORD..: builds the program of the worked rows, by these words for cargo.
vectors() {
    tools/erase/erase.py --programs rust/check/src/programs > "$OUT/log"
    cargo build --manifest-path $check --features programs --bin vectors "$@"
}
# answers PROGRAM WORD..: the program answers the rows as they are to be.
answers() {
    "$@" < crates/pkcs1_vectors/stdin | cmp - crates/pkcs1_vectors/stdout || stop "$* answers the rows otherwise"
}
rows() {
    vectors
    answers "$CARGO_TARGET_DIR/debug/vectors"
    vectors --release
    answers "$CARGO_TARGET_DIR/release/vectors"
    quietly "cargo test" cargo test --manifest-path $check --lib
    grep 'test result' "$OUT/log"
    cargo build --manifest-path $crate --release --bin pkcs1_tool
    # A closed standard input or output is an empty one for Rust's standard library. Where no other user can run the
    # tool, what they may not do isn't tried, nor are access lists where there are none.
    local count closed=': no standard (in|out)put: status 0, not 1; standard error: ; output: $'
    count=$(crates/pkcs1_tool/all_rows.sh | wc -l)
    PROGRAMS=$CARGO_TARGET_DIR/release/pkcs1_tool crates/pkcs1_tool/run_built.sh > "$OUT/log" || true
    grep -vE "$closed|isn't tried: no other user|access lists aren't tried" "$OUT/log" > "$OUT/left"
    { tail -n 1 "$OUT/left" | grep -qxE "($((count + 79))|$((count + 82))|$((count + 85))) passed, 2 failed" &&
        [ "$(wc -l < "$OUT/left")" = 2 ]; } || { cat "$OUT/log" >&2 && stop "the tool fails"; }
    echo "rows: $(cat crates/pkcs1_vectors/stdout), and the tool does all but for closed streams"
}

# with_c COMPILER FOLDER WORD..: the folder has the C that programs are linked with, as make builds it by these words.
with_c() {
    needs make "$1" ar
    quietly make make --silent OUT="$2" CC="$1" "${@:3}" "$2/libpkcs1.a"
    with_built "$1" "$2"
}
# with_built COMPILER FOLDER: the folder has what calls its library for programs.
with_built() {
    "$1" -std=c99 -O2 -Wall -Wextra -Werror -pedantic -Iffi/lib/include -Iffi/tests -nostdlib -r rust/check/built.c \
        ffi/tests/rows.c ffi/tests/fuzz/{reference,elements,compare}.c -o "$2/built.o"
    cp "$2/libpkcs1.a" "$2/libbuilt.a"
    ar rs "$2/libbuilt.a" "$2/built.o" 2> "$OUT/log"
}
# linked NAME FOLDER WORD..: builds a program of the check with the C in the folder, by these words for cargo.
linked() {
    cargo rustc --manifest-path $check --bin "$1" "${@:3}" -- -L "native=$2"
}
beside() {
    local proved=crates/pkcs1_c/out/libpkcs1_c.a of="that rt compiled" folder=$OUT/proved
    if [ -e $proved ]; then
        needs gcc ar ld objcopy
        mkdir -p "$folder"
        quietly ffi/proof/link_proved.sh ffi/proof/link_proved.sh $proved "$folder"
        with_built gcc "$folder"
    else
        of="that make builds, as $proved isn't there: ffi/proof/build.sh --library has rt compile it" folder=$OUT/c
        with_c gcc "$folder"
    fi
    linked beside "$folder" --profile checked
    "$CARGO_TARGET_DIR/checked/beside" "$COUNT" "$SEED" "${rows[@]}"
    echo "beside: the library $of"
}
memory() {
    cargo build --manifest-path $check --profile checked --bin refuse
    "$CARGO_TARGET_DIR/checked/refuse" "${rows[@]}"
}

secrets() {
    needs valgrind
    with_c gcc "$OUT/c"
    gcc -O2 -c rust/check/marks.c -o "$OUT/c/marks.o"
    ar rs "$OUT/c/libbuilt.a" "$OUT/c/marks.o" 2> "$OUT/log"
    linked secrets "$OUT/c" --release
    valgrind --quiet --error-exitcode=9 "$CARGO_TARGET_DIR/release/secrets" "${keys[@]}" ||
        stop "by $(rustc --version), the path on a private key depends on its secret numbers"
    ! valgrind --error-exitcode=9 "$CARGO_TARGET_DIR/release/secrets" --leak "${keys[@]}" 2> "$OUT/log" ||
        stop "a branch on a secret octet isn't noticed"
    grep -q 'depends on uninitialised' "$OUT/log" || stop "a branch on a secret octet is noticed otherwise"
    echo "secrets: by $(rustc --version), the path on ${#keys[@]} private keys doesn't depend on their secret numbers"
}

rustcrypto() {
    OUT=$OUT DEBIAN=$DEBIAN rust/rustcrypto/check.sh
}

# with_debian_rust: Debian's rustc 1.85 is what cargo calls.
with_debian_rust() {
    debian_rust
    export CARGO_TARGET_DIR=$OUT/debian_target
}
with_oldest() {
    tests
    vectors
    answers "$CARGO_TARGET_DIR/debug/vectors"
}
oldest() (
    with_debian_rust
    platform "Linux" "x86-64" "the crate for Rust, by rustc 1.85" "tested" -- with_oldest
)

# on_machine TRIPLE COMPILER QEMU ROWS: these rows, memory and beside.
on_machine() (
    local run=("$3" -L "/usr/${2%-gcc}") made=$CARGO_TARGET_DIR/$1/checked name
    needs "$3"
    with_c "$2" "$OUT/$1" CODE=c
    # shellcheck disable=SC2030 # of this machine alone
    export RUSTFLAGS="-C linker=$2"
    vectors --profile checked --target "$1"
    for name in refuse beside; do
        linked $name "$OUT/$1" --features programs --profile checked --target "$1"
    done
    "${run[@]}" "$made/vectors" < "$4" | grep '^[0-9]* rows held, 0 differ' || stop "$1 answers rows otherwise"
    "${run[@]}" "$made/refuse" "${rows[@]}"
    "${run[@]}" "$made/beside" $((COUNT / 20)) "$SEED" "${rows[@]}"
)
# rows_of_32_bits: but for four rows, which name a number that no usize of 32 bits holds.
rows_of_32_bits() {
    grep -vE ' (4294967296|18446744073709551615)\b' crates/pkcs1_vectors/stdin
}
machines() (
    with_debian_rust
    rows_of_32_bits > "$OUT/rows_of_32_bits"
    platform "Linux" "i386" "the crate for Rust, by rustc 1.85" "tested under qemu" -- \
        on_machine i686-unknown-linux-gnu i686-linux-gnu-gcc qemu-i386 "$OUT/rows_of_32_bits"
    platform "Linux" "s390x" "the crate for Rust, by rustc 1.85" "tested under qemu" -- \
        on_machine s390x-unknown-linux-gnu s390x-linux-gnu-gcc qemu-s390x crates/pkcs1_vectors/stdin
)

# debian_wasm: Debian 13 has a standard library for wasm32. Its rustc, run by its C library, is what cargo calls.
debian_wasm() {
    local root=$DEBIAN/13 it
    [ -x "$root/usr/bin/rustc" ] || unpack "$root" 'bookworm trixie' '"amd64";' {libllvm19,lld-19}/bookworm \
        {rustc,libstd-rust-1.85,libstd-rust-dev-wasm32,libc6,libgcc-s1,libstdc++6}/trixie || return
    for it in bin/rustc lib/llvm-19/bin/lld; do
        printf '#!/bin/sh\nexec %q --library-path %q %q "$@"\n' "$root/usr/lib64/ld-linux-x86-64.so.2" \
            "$root/usr/lib/x86_64-linux-gnu:/usr/lib/x86_64-linux-gnu" "$root/usr/$it" > "$OUT/${it##*/}"
        chmod +x "$OUT/${it##*/}"
    done
    # shellcheck disable=SC2031 # no machine's
    export RUSTC=$OUT/rustc RUSTFLAGS="--sysroot=$root/usr -C linker=$OUT/lld" CARGO_TARGET_DIR=$OUT/wasm_target
}
on_wasm() {
    cargo build --manifest-path $crate --no-default-features --target wasm32-unknown-unknown
}
on_wasi() {
    local run=(node --single-threaded --no-warnings tools/wasi.mjs) made=$OUT/wasm_target/wasm32-wasip1/debug told=$OUT/tool_rows
    cargo build --manifest-path $crate --bin pkcs1_tool --target wasm32-wasip1
    vectors --target wasm32-wasip1
    rows_of_32_bits | "${run[@]}" "$made/vectors.wasm" | grep '^[0-9]* rows held, 0 differ' ||
        stop "wasm32 answers the rows otherwise"
    crates/pkcs1_tool/all_rows.sh > "$told"
    sed 's/ => .*//' "$told" | "${run[@]}" "$made/pkcs1_tool.wasm" | cmp - <(sed 's/^.* => //' "$told") ||
        stop "the tool for wasm32 answers otherwise"
}
wasm() (
    rm -f "$OUT/rustc"
    debian_wasm || echo "wasm: Debian's rustc for it isn't there"
    export CARGO_PROFILE_DEV_DEBUG=0
    platform "WebAssembly" "no C library" "the crate for Rust, by rustc 1.85" "only compiled" "$OUT/rustc" -- on_wasm
    platform "WebAssembly" "WASI" "the crate for Rust, by rustc 1.85" "tested under node" "$OUT/rustc" node -- on_wasi
)

[ $# -gt 0 ] || set -- "${parts[@]}"
for part; do
    [[ " ${parts[*]} " = *" $part "* ]] || stop "there is no part $part: it knows ${parts[*]}"
done
mkdir -p "$room"
rm -f "$room/platforms"
needs cargo cargo-clippy rustfmt python3
TIMEFORMAT='%0R s, of processor time %0U s and %0S s of the system'
for part; do
    time "$part"
    echo "rust/check.sh: $part: passed"
done
[[ " $* " != *" oldest machines wasm "* ]] || all_declared rust/check.sh
