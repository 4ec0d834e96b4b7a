#!/usr/bin/env bash
# Builds and tests the crate with the names of RustCrypto's pkcs1, 0.7 over the crates of Debian 13, 0.8 over those of
# forky, and nothing of another registry:
#
#     rust/rustcrypto/check.sh [UPSTREAM]
#
#     each feature, without a warning of clippy; layout; documentation; its own tests
#     over 0.7, each with not a line changed: the tests of keys of rsa 0.9, and those of RustCrypto's pkcs1
#     inputs by damage, beside RustCrypto's pkcs1 0.7
#     programs with the types of other crates, and with x509-cert
#     with UPSTREAM, over 0.8: the tests of RustCrypto's pkcs1 0.8, with not a line changed; what tests/faults.rs says, and
#     inputs by damage, beside that crate itself
#
# Debian has no package of RustCrypto's pkcs1 0.8. UPSTREAM is a folder with its src and tests. Or it has its files as
# text, a list INDEX.md with a line `- NAME: PATH` for each, and in tests/part1.rs the tests, each below a line with its
# path.
#
# What is made stands in out/rust, or below OUT. It needs cargo with clippy and rustfmt, apt-get, and Debian's packages
# from the network or the folder DEBIAN, ~/.cache/pkcs1-gate/debian unless said, into which they were unpacked. Nothing
# is installed. forky isn't released: where it has no der 0.8 any more, 0.8 isn't tried, and a line says so.
set -eu
theirs=${1:+$(realpath "$1")}
cd "$(dirname "$0")/../.."
. tools/shell.sh
. tools/debian_rust.sh
OUT=$(realpath -m "${OUT:-out/rust}")/rustcrypto
here=$OUT/tree/rust/rustcrypto
export CARGO_TERM_QUIET=true CARGO_NET_OFFLINE=true KEYS=$OUT/tree/ffi/tests/keys

trixie=(arbitrary autocfg base64ct bitflags block-buffer byteorder cfg-if const-oid cpufeatures crypto-common der
    der-derive derive-arbitrary digest errno fastrand flagset generic-array getrandom hex-literal lazy-static libc libm
    linux-raw-sys num-bigint-dig num-integer num-iter num-traits once-cell pem-rfc7468 pkcs1 pkcs5 pkcs8 ppv-lite86
    proc-macro-error proc-macro-error-attr proc-macro2 quote rand rand-chacha rand-core rsa rustix sha2 signature
    smallvec spin spki subtle syn syn-1 tempfile typenum unicode-ident version-check zerocopy zerocopy-derive zeroize
    zeroize-derive)
forky=(base64ct block-buffer cfg-if const-oid const-oid-0.9 cpufeatures cpufeatures-0.2 crypto-common der der-0.7
    der-derive der-derive-0.7 digest flagset hybrid-array libc pem-rfc7468 pkcs8 proc-macro2 quote sha2 spki spki-0.7
    syn syn-2 typenum unicode-ident x509-cert zeroize zeroize-derive)

# crates SUITE PACKAGE..: cargo takes crates from these packages of Debian alone.
crates() {
    local root=$DEBIAN/crates-$1 packages=("${@:2}")
    packages=("${packages[@]/#/librust-}")
    [ -d "$root" ] || unpack "$root" "$1" '"amd64";' "${packages[@]/%/-dev}" || return
    take "$1" "$root/usr/share/cargo/registry"
}
# take NAME FOLDER: cargo takes crates from this folder alone.
take() {
    export CARGO_HOME=$OUT/$1/home CARGO_TARGET_DIR=$OUT/$1/target
    registry=$2
    mkdir -p "$CARGO_HOME"
    printf '[source.crates-io]\nreplace-with = "debian"\n[source.debian]\ndirectory = "%s"\n' "$registry" \
        > "$CARGO_HOME/config.toml"
}

# tested WHAT WORD..: cargo test by these words passes, and has a test. What it prints is shown if not.
tested() {
    local count
    cargo test "${@:2}" > "$OUT/log" 2>&1 || { cat "$OUT/log" >&2 && stop "cargo test of $1 fails"; }
    count=$(awk '/^test result: ok/ { all += $4 } END { print all + 0 }' "$OUT/log")
    [ "$count" -gt 0 ] || stop "$1 has no test"
    echo "rustcrypto: $1: $count tests passed"
}

# itself FOLDER: the crate of the folder.
itself() {
    local features manifest=$1/Cargo.toml
    for features in "" zeroize alloc std pem pkcs8 alloc,pkcs8 std,pem,pkcs8; do
        cargo clippy --manifest-path "$manifest" --features "$features" -- -D warnings
    done
    rustfmt --check --edition 2024 --config-path "$here/.." "$here/src/lib.rs" "$1"/{release.rs,tests/*.rs}
    RUSTDOCFLAGS="-D warnings" cargo doc --manifest-path "$manifest" --features std,pem,pkcs8 --no-deps
    tested "${1##*/}, bare" --manifest-path "$manifest" --test bare
    tested "${1##*/}" --manifest-path "$manifest" --features std,pem,pkcs8 --test items
}

# of_debian NAME TEST..: these tests, with check/NAME.toml, over the crates that `crates` chose.
of_debian() {
    rm -rf "$OUT/check"
    mkdir -p "$OUT/check/tests"
    cp -r "${@:2}" "$OUT/check/tests"
    sed "s|HERE|$here|; s|UPSTREAM|$OUT/upstream|" "$here/check/$1.toml" > "$OUT/check/Cargo.toml"
    tested "$1" --manifest-path "$OUT/check/Cargo.toml"
}

# upstream FOLDER: RustCrypto's pkcs1 0.8, so that it is built over Debian's crates, and its tests.
upstream() {
    local to=$OUT/upstream name path
    rm -rf "$to"
    mkdir -p "$to/tests"
    if [ -d "$1/src" ]; then
        cp -r --no-preserve=mode "$1"/{src,tests} "$to"
    else
        while read -r _ name path _; do
            mkdir -p "$(dirname "$to/$path")"
            cp --no-preserve=mode "$1/${name%:}" "$to/$path"
        done < <(cat "$1"/*INDEX.md | grep '^- ')
        [ -e "$to/src/lib.rs" ] || stop "$1 has neither src nor a list of its files"
        (cd "$to" && awk '/^\/\/ ===== tests\/.* =====$/ { path = $3 } path { print > path }' tests/part1.rs)
        rm "$to/tests/part1.rs"
    fi
    cp -r "$DEBIAN"/crates-trixie/usr/share/cargo/registry/pkcs1-0.7.*/tests/examples "$to/tests"
    cp "$here/check/upstream.toml" "$to/Cargo.toml"
    cp "$here/check/later.rs" "$to/src"
    sed -i '/README.md/d; $a mod later;' "$to/src/lib.rs"
    sed -i 's/AsUintRef, O/O/; $a use crate::later::AsUintRef;' "$to/src/private_key.rs"
    sed -i 's/, AsAlgorithmIdentifierRef}/}/; $a use crate::later::AsAlgorithmIdentifierRef;' "$to/src/params.rs"
}

# beside_upstream FOLDER: this crate, by the tests of that in the folder, and beside it. Some crates of the tests are
# unpacked for Debian 13 alone.
beside_upstream() {
    rm -rf "$OUT/both"
    mkdir -p "$OUT/both"
    ln -s "$DEBIAN"/crates-trixie/usr/share/cargo/registry/* "$OUT/both"
    ln -sf "$DEBIAN"/crates-forky/usr/share/cargo/registry/* "$OUT/both"
    take both_suites "$OUT/both"
    upstream "$1"
    of_debian newer "$OUT"/upstream/tests/*
    of_debian newer "$here"/{check/{beside,upstream}.rs,tests/shared}
}

# In a copy of what it reads, as cargo writes Cargo.lock.
rm -rf "$OUT/tree"
mkdir -p "$OUT/tree/rust" "$OUT/tree/ffi/tests"
cp -r rust/{Cargo.toml,README.md,rustfmt.toml,src,examples,rustcrypto} "$OUT/tree/rust"
cp -r ffi/tests/keys "$OUT/tree/ffi/tests"
crates trixie "${trixie[@]}" || stop "crates of Debian 13 aren't there"
itself "$here/older"
of_debian trixie "$registry"/rsa-0.9.*/tests/{pkcs1.rs,pkcs8.rs,examples} "$registry"/pkcs1-0.7.*/tests/* \
    "$here/check/programs.rs"
of_debian beside "$here/check/beside.rs"
if crates forky "${forky[@]}" && compgen -G "$registry/der-0.8.*" > "$OUT/log"; then
    itself "$here"
    if [ -d "$registry/der-0.8.1" ]; then
        tested "rustcrypto, faults" --manifest-path "$here/Cargo.toml" --features std,pem --test faults
    else
        echo "rustcrypto: Debian's forky has no der 0.8.1 any more, so its errors aren't compared"
    fi
    of_debian forky "$here"/check/{programs,x509}.rs
    [ -z "$theirs" ] || beside_upstream "$theirs"
else
    echo "rustcrypto: Debian's forky has no der 0.8, so pkcs1 0.8 isn't tried"
fi
