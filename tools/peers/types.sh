#!/usr/bin/env bash
# Measures types of one's own: by `sequence!`, and by the derives of RustCrypto's `der` and of rust-asn1.
#
#     tools/peers/types.sh FOLDER                           instructions of a call, in Markdown, and lines of the user
#     tools/peers/types.sh FOLDER beside SECONDS [SEED]     reads encodings by chance, so much processor time long, and
#                                                           prints where the three differ, with the shortest example
#
# FOLDER gets all that is made. It isn't in the repository. The other crates are Debian's, which are unpacked there.
# callgrind counts 3000 calls and 1000, and of both the loop without a call is taken off.
set -eu
here=$(realpath "$(dirname "$0")")
top=$(realpath "$here/../..")
. "$top/tools/shell.sh"
. "$top/tools/debian_rust.sh"
failure=2
crates=(asn1 asn1-derive base64ct const-oid der der-derive flagset itoa pem-rfc7468 proc-macro2 proc-macro-error
    proc-macro-error-attr quote spki syn syn-1 unicode-ident version-check zeroize)
libraries=('sequence!' der rust-asn1)
types=(Signature DsaAlgorithm EcKey Container)
called=('DSA or ECDSA signature' 'AlgorithmIdentifier with DSA parameters' 'EC private key' 'PKCS #8 with a public key')

# built PROFILE: builds the program.
built() {
    local packages=("${crates[@]/#/librust-}")
    [ -e debian ] || unpack "$PWD/debian" trixie '"amd64";' "${packages[@]/%/-dev/trixie}" ||
        stop "Debian's packages aren't there"
    mkdir -p tree/tools/peers/libraries
    ln -sfn "$top/rust" tree/rust
    rm -rf tree/tools/peers/libraries/types
    cp -r "$here/libraries/types" tree/tools/peers/libraries
    (cd tree/tools/peers/libraries/types && CARGO_TARGET_DIR=$folder/target cargo build --quiet --offline \
        --config 'source.crates-io.replace-with="debian"' \
        --config "source.debian.directory='$folder/debian/usr/share/cargo/registry'" --profile "$1")
}
# counted CALL LIBRARY N: instructions of the program.
counted() {
    valgrind --tool=callgrind --callgrind-out-file=/dev/null target/release/types count "$@" 2>&1 |
        sed -n 's/.*Collected : //p'
}
# each CALL LIBRARY: instructions of one call, with those of the loop.
each() {
    echo $((($(counted "$1" "$2" 3000) - $(counted "$1" "$2" 1000)) / 2000))
}
lines() {
    grep -cvE '^ *(//|$)' "$here/libraries/types/src/$1.rs"
}
table() {
    local at call it loop
    # shellcheck disable=SC2016 # sequence! stands in backticks
    echo '| instructions | `sequence!` | `der` 0.7.7, derive | rust-asn1 0.20, derive |'
    echo '|---|---|---|---|'
    for at in "${!types[@]}"; do
        for call in read write; do
            loop=$(each "$call-${types[at]}" none)
            printf '| %s, %s |' "${called[at]}" "$call"
            for it in "${libraries[@]}"; do
                printf ' %s |' $(($(each "$call-${types[at]}" "$it") - loop))
            done
            echo
        done
    done
    printf '| lines of the user | %s | %s | %s |\n' "$(lines ours)" "$(lines derived)" "$(lines rust_asn1)"
}

[ $# -gt 0 ] || stop 'usage: tools/peers/types.sh FOLDER [beside SECONDS [SEED]]'
folder=$(realpath -m "$1")
case $folder/ in "$top"/*) stop "$folder is in the repository: name another folder" ;; esac
needs cargo valgrind
mkdir -p "$folder" && cd "$folder"
if [ "${2:-}" = beside ]; then
    built checked
    target/checked/types beside "${4:-$(date +%s%N)}" "$3"
else
    built release
    table
fi
