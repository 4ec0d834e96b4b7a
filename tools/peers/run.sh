#!/usr/bin/env bash
# Measures libpkcs1 and the crate for Rust beside other libraries and a straight line of C.
# README.md beside this file says what is measured.
#
#     tools/peers/run.sh FOLDER [check|bounds|speed|rows|tool|times]..    without a part, all of them
#
# FOLDER gets all that is made, with the tables in tables.md, which are printed too. It isn't in the repository. The
# other libraries are Debian's packages, which are unpacked there. Nothing is installed.
#     ONLY=OpenSSL,mbedTLS    only these libraries beside libpkcs1, in the parts speed and times
#     LIBPKCS1=FILE           this libpkcs1.a, in place of the one that make builds from this tree
set -eu
libraries=(OpenSSL mbedTLS wolfSSL Botan GnuTLS libtasn1 RustCrypto rust-asn1)
own=(libpkcs1 'line of C' 'our crate, structs' 'our crate, views')
here=$(realpath "$(dirname "$0")")
top=$(realpath "$here/../..")
. "$top/tools/shell.sh"
. "$top/tools/debian_rust.sh"
failure=2
python=/usr/bin/python3
export PEERS_MODULE=$here/libraries/pkcs1.asn

# The packages: those of Debian 12, with the libraries that they load, and crates of Debian 13.
of_12=(
    libssl-dev libssl3 libmbedtls-dev libmbedcrypto7 libmbedtls14 libmbedx509-1 libwolfssl-dev libwolfssl35
    libbotan-2-dev libbotan-2-19 libtspi1 libtasn1-6-dev libtasn1-6 libgnutls28-dev libgnutls30 nettle-dev libnettle8 libhogweed6
    libgmp10 libp11-kit0 libidn2-0 libunistring2 golang-1.19-go golang-1.19-src
)
of_13=(librust-{pkcs1,der,spki,pkcs8,const-oid,zeroize,base64ct,pem-rfc7468,asn1{,-derive},syn,quote,proc-macro2}-dev
    librust-{unicode-ident,itoa}-dev)

get_packages() {
    unpack "$root" 'bookworm trixie' '"amd64";' "${of_12[@]/%//bookworm}" "${of_13[@]/%//trixie}" ||
        stop "Debian's packages aren't there"
}
# versions: of what was unpacked.
versions() {
    (cd "$loaded/pkgconfig" && sed -sn '/^Version: /F;s/^Version: //p' {libcrypto,wolfssl,botan-2,libtasn1,gnutls}.pc)
    grep -h 'define MBEDTLS_VERSION_STRING ' "$root"/usr/include/mbedtls/*.h
    (cd "$root" && cat usr/lib/go-1.19/VERSION && echo && ls usr/share/cargo/registry)
}
# file KIND LIBRARY: the name of the file with what a library answered.
file() {
    printf '%s.%s' "$1" "${2// /_}"
}
# crate NAME WORD..: builds the crate of this name in libraries/, by these words for cargo.
crate() {
    mkdir -p tree/tools/peers
    ln -sfn "$top/rust" tree/rust
    rm -rf tree/tools/peers/libraries && cp -r "$here/libraries" tree/tools/peers
    (cd "tree/tools/peers/libraries/$1" &&
        CARGO_TARGET_DIR=$folder/target cargo build --quiet --release --offline "${@:2}")
}
# objects FILE..: leaves the object of each file of C in a list.
objects() {
    local it
    for it; do
        made+=("$(basename "$it").o")
        gcc -std=gnu11 -O2 -Wall $alone "${headers[@]}" -c "$it" -o "${made[-1]}"
    done
}
build_own() {
    make -s -C "$top" OUT="$PWD/out" > make.log 2>&1 || stop "make failed: $PWD/make.log tells why"
    crate own
    made=()
    objects "$here"/harness/{main,inputs,check,measure,speed,rows}.c "$here"/libraries/{libpkcs1,line}.c
    [ -z "$alone" ] || gcc -o peers "${made[@]}" "$library" target/release/libown.a -lpthread -ldl
}
build_others() {
    local it
    crate others --config 'source.crates-io.replace-with="debian"' \
        --config "source.debian.directory='$root/usr/share/cargo/registry'"
    objects "$here"/libraries/{libpkcs1_bignums,openssl,mbedtls,wolfssl,gnutls,libtasn1,walk_of_nettle,walk_of_openssl}.c
    g++ -std=c++17 -O2 -w "${headers[@]}" -isystem "$root/usr/include/botan-2" -c "$here/libraries/botan.cc" -o botan.o
    g++ -o peers "${made[@]}" botan.o "$library" target/release/libothers.a -L"$loaded" -Wl,-rpath-link="$loaded" \
        -lcrypto -lmbedx509 -lmbedtls -lmbedcrypto -lwolfssl -lbotan-2 -ltasn1 -lgnutls -lhogweed -lnettle -lpthread -ldl
    gcc -shared -fPIC -O1 "$here/harness/allocations.c" -o allocations.so
    GOROOT=$root/usr/lib/go-1.19 GO111MODULE=off GOCACHE=$PWD/go_cache \
        "$root/usr/lib/go-1.19/bin/go" build -o peers_go "$here"/libraries/go/*.go
}
# is_made FILE: whether it is there, and no input's generator is newer.
is_made() {
    [ -e "$1" ] && [ -z "$(find "$here/inputs" -newer "$1" -name '*.py')" ]
}
inputs() {
    is_made corpus || "$python" "$here/inputs/corpus.py" corpus
    is_made cases/tiny.public_key || "$python" "$here/inputs/cases.py" cases
    [ -n "$alone" ] || is_made sets/mixed.oaep || "$python" "$here/inputs/sets.py" sets
}

# The damaged encodings, by what is of this repository, which has to accept and write what libpkcs1 does. Views aren't
# written.
check_own() {
    local it
    for it in "${own[@]}" 'libpkcs1 strict'; do
        ./peers check corpus "$(file answers "$it")" "$it"
    done
    for it in "${own[@]:1}"; do
        # cmp has these digits in octal: 71 is a type that isn't there, and 61 what is only read, as others accept it.
        ! cmp -l "$(file answers libpkcs1)" "$(file answers "$it")" | grep -qvE ' (71|(6[1-7]|70) +61)$' ||
            stop "$it isn't as strict as libpkcs1, or writes something else"
    done
}
check() {
    local it
    check_own
    for it in "${libraries[@]}"; do
        timeout 300 ./peers check corpus "$(file answers "$it")" "$it" || echo "$it: status $?"
    done
    ./peers_go check corpus answers.Go
}

# Long numbers, salts, labels and identifiers.
bounds() {
    local it
    "$python" "$here/inputs/bounds.py" make bounds
    for it in libpkcs1 "${libraries[@]}"; do
        ./peers check bounds "$(file bounds "$it")" "$it" > /dev/null
    done
    ./peers_go check bounds bounds.Go > /dev/null
}

# Instructions, branches and calls for memory.
speed() {
    local it
    rm -f speed.callgrind.* allocations
    for it in "${timed[@]}"; do
        callgrind "speed.callgrind.$it" speed instructions sets "$it" "${named[@]}"
        # shellcheck disable=SC2094 # allocations.so is another file than allocations
        LD_PRELOAD=$PWD/allocations.so ./peers speed allocations sets "$it" "${named[@]}" >> allocations
    done
}
# callgrind FILE ARGUMENT..: runs the program while callgrind counts, which leaves all dumps in the file.
callgrind() {
    valgrind --tool=callgrind --branch-sim=yes --combine-dumps=yes --callgrind-out-file="$1" ./peers "${@:2}" > callgrind.log 2>&1 ||
        stop "callgrind failed: $PWD/callgrind.log tells why"
}

# The instructions of each call on each input, beside the line of C.
rows() {
    check_own
    rm -f rows.callgrind
    callgrind rows.callgrind rows instructions cases "${cases[@]}"
}

# Lines of the tool, each another.
tool() {
    (cd "$top/rust" && CARGO_TARGET_DIR=$folder/target cargo build --quiet --release --offline --bin pkcs1_tool)
    "$python" "$here/tables/tool.py" cases out/pkcs1_tool target/release/pkcs1_tool > tool.table
}

# Times of what `speed` and `rows` count, which only a quiet processor tells.
times() {
    local it round
    rm -f times.* rows.times.*
    for it in "${timed[@]}"; do
        [ -z "$alone" ] || break
        for round in 1 2 3 4 5; do
            ./peers speed time sets "$it" "${named[@]}" >> "times.$round"
            [ -n "${ONLY:-}" ] || GOMAXPROCS=1 ./peers_go speed sets "$it" >> "times.go$round"
        done
    done
    for round in 1 2; do
        ./peers rows time cases "${cases[@]}" > "rows.times.$round"
    done
}

tables() {
    local it answers=() accepted=()
    echo "Versions: $(rustc --version), gcc $(gcc -dumpfullversion)" && { [ -n "$alone" ] || versions; } && echo
    for it in libpkcs1 'libpkcs1 strict' "${libraries[@]}" Go; do
        [ ! -e "$(file answers "$it")" ] || answers+=("$(file answers "$it")")
        [ ! -e "$(file bounds "$it")" ] || accepted+=("$(file bounds "$it")")
    done
    [ ! -e answers.Go ] || "$python" "$here/tables/damages.py" corpus "${answers[@]}"
    [ ${#accepted[@]} = 0 ] || "$python" "$here/inputs/bounds.py" show bounds "${accepted[@]}"
    [ ! -e allocations ] || "$python" "$here/tables/speed.py" .
    [ ! -e rows.callgrind ] || "$python" "$here/tables/rows.py" .
    [ ! -e tool.table ] || cat tool.table
}

[ $# -gt 0 ] || stop 'usage: tools/peers/run.sh FOLDER [check|bounds|speed|rows|tool|times]..'
folder=$(realpath -m "$1")
shift
case $folder/ in "$top"/*) stop "$folder is in the repository: name another folder" ;; esac
[ $# -gt 0 ] || set -- check bounds speed rows tool times
alone=-DOWN
for part; do
    case $part in
        rows | tool) ;;
        check | bounds | speed | times) alone= ;;
        *) stop "there is no part $part" ;;
    esac
done
needs gcc g++ make valgrind cargo "$python"
library=$(realpath -m "${LIBPKCS1:-$folder/out/libpkcs1.a}")
root=$folder/debian loaded=$folder/debian/usr/lib/x86_64-linux-gnu
headers=(-I"$here/harness" -I"$top/ffi/lib/include")
mkdir -p "$folder" && cd "$folder"
[ -n "$alone" ] || [ -e "$root" ] || get_packages
[ -n "$alone" ] || headers+=(-isystem "$root/usr/include" -isystem "$root/usr/include/x86_64-linux-gnu")
build_own
[ -n "$alone" ] || build_others
[ -n "$alone" ] || export LD_LIBRARY_PATH=$loaded
inputs
mapfile -t timed < <("$python" "$here/tables/speed.py")
mapfile -t cases < <(find cases -name '*.*' ! -name '*.lines' -printf '%f\n' | sort)
named=()
[ -z "${ONLY:-}" ] || IFS=, read -ra named <<< "libpkcs1,$ONLY"
for part; do
    echo "$part:" && "$part"
done
tables > tables.md
cat tables.md
