# shellcheck shell=bash
# Sourced by scripts, at the top of the repository, which have `stop` and `needs`: rustc 1.85 of Debian, in a folder of
# its own, in DEBIAN. Nothing is installed. In Debian 12 it is rustc-web, which stays in the main part of the archive.
# It has links, at which rt ci stops in the repository. So it is unpacked outside of it, once for all clones.
#
#     RUSTC_1_85=FILE       this rustc instead, without a network. Its commit and its LLVM are compared
#     DEBIAN_SOURCES=URL..  where the packages are looked for, one after the other
#
# A point release takes older versions out of Debian. snapshot.debian.org keeps them, as of each day. Wherever a package
# comes from, its hash is compared.
debian_cache=${XDG_CACHE_HOME:-~/.cache}/pkcs1-gate/debian
DEBIAN=$(realpath -m "${DEBIAN:-$debian_cache}")
debian_sources=${DEBIAN_SOURCES-http://deb.debian.org/debian
    http://snapshot.debian.org/archive/debian/20260712T000000Z}
debian_version=1.85.0+dfsg3-1~deb12u3
debian_named='rustc 1.85.0 (4d91de4e4 2025-02-17) with LLVM 19.1.7'
# The packages, below pool/main, and the SHA-256 of each.
debian_packages="l/llvm-toolchain-19/libllvm19_19.1.7-3~deb12u1_amd64.deb
    6edf3a8b28495cdba883d9760e0dca1a81983fc497a5f989dc64d0d96d23b4aa
r/rustc-web/rustc-web_${debian_version}_amd64.deb
    ef797a56697a0b6a82c1d704119ccaa85ab3486ccf805472de46c31971346702
r/rustc-web/libstd-rust-web-1.85_${debian_version}_amd64.deb
    c8b03bff73b2990b2a3e56b0cfb100eb4c70a9331f4232dc9783c9e50b1038be
r/rustc-web/libstd-rust-web-dev_${debian_version}_amd64.deb
    5360a1aa03979ccc4cc91dd3d9bad1d5ff30f36d615ed01e2c5209c5e8ece21b
r/rustc-web/libstd-rust-web-dev_${debian_version}_arm64.deb
    55e965bf1d9c31734b347387a5f3e0a4e66c748cc620e3af45460792fff30b0d
r/rustc-web/libstd-rust-web-dev_${debian_version}_i386.deb
    70dcaaafcb38d1374c2900b0671c7ebcd7eda88135a373308f522f970aeb9e1f
r/rustc-web/libstd-rust-web-dev_${debian_version}_s390x.deb
    31a07851b63b6990e920f01e2510b6c32e914761d07a8e1b7b55d8fa643debca"

# unpack ROOT SUITES ARCHITECTURES PACKAGE..: puts these packages of Debian into a folder of their own.
unpack() {
    local root=$1 made=$1.new.$$ apt=$1.apt.$$ suite it
    needs apt-get dpkg
    mkdir -p "$apt/lists/partial" "$apt/archives/partial" "$made"
    for suite in $2; do
        echo "deb [signed-by=/usr/share/keyrings/debian-archive-keyring.gpg] http://deb.debian.org/debian $suite main"
    done > "$apt/sources"
    printf '%s\n' "Dir::State::lists \"$apt/lists\"; Dir::Cache \"$apt\"; APT::Sandbox::User \"\";" \
        "Dir::Etc::sourcelist \"$apt/sources\"; Dir::Etc::sourceparts \"-\"; APT::Architectures { $3 };" > "$apt/conf"
    (
        export APT_CONFIG=$apt/conf
        cd "$apt" && apt-get update && apt-get download "${@:4}"
    ) > "$apt/log" 2>&1 || { cat "$apt/log" >&2 && rm -rf "$apt" "$made" && return 1; }
    for it in "$apt"/*.deb; do
        dpkg -x "$it" "$made" || return
    done
    rm -rf "$apt" "$root"
    mv -T "$made" "$root"
}

# fetch_package PATH HASH FOLDER: gets this package of Debian, from the first source that has it, into the folder.
fetch_package() {
    local file=$3/${1##*/} source hash
    for source in $debian_sources; do
        /usr/lib/apt/apt-helper -o APT::Sandbox::User= download-file "$source/pool/main/$1" "$file" >> "$3/log" 2>&1 ||
            continue
        hash=$(sha256sum < "$file")
        [ "${hash%% *}" = "$2" ] || stop "$source/pool/main/$1 has the SHA-256 ${hash%% *}, and not $2"
        return
    done
    cat "$3/log" >&2
    stop "Debian's ${1##*/} isn't there, neither in Debian nor in its archive: $debian_sources"
}
# fetch_rust ROOT: puts Debian's rustc into this folder, with what it needs to compile for four machines.
fetch_rust() {
    local made=$1.new.$$ path hash
    needs /usr/lib/apt/apt-helper dpkg sha256sum
    mkdir -p "$made/packages"
    while read -r path && read -r hash; do
        (fetch_package "$path" "$hash" "$made/packages") || { rm -rf "$made" && exit 1; }
        dpkg -x "$made/packages/${path##*/}" "$made/root"
    done <<< "$debian_packages"
    rm -rf "$1"
    mv -T "$made/root" "$1"
    rm -rf "$made"
}
# debian_rust: this rustc is what cargo calls.
debian_rust() {
    local root=$DEBIAN/12 named
    if [ -n "${RUSTC_1_85-}" ]; then
        RUSTC=$RUSTC_1_85 RUSTDOC=$(dirname "$RUSTC_1_85")/rustdoc
    else
        [ -x "$root/usr/bin/rustc" ] || fetch_rust "$root"
        export LD_LIBRARY_PATH=$root/usr/lib/x86_64-linux-gnu
        RUSTC=$root/usr/bin/rustc RUSTDOC=$root/usr/bin/rustdoc
    fi
    export RUSTC RUSTDOC
    # Debian's also says that it was built from a tarball.
    named=$("$RUSTC" -vV | awk 'NR == 1 { it = $1 " " $2 " " $3 " " $4 } /^LLVM version/ { print it " with LLVM " $3 }')
    [ "$named" = "$debian_named" ] || stop "$RUSTC is ${named:-broken}, and not $debian_named"
}
