#!/usr/bin/env bash
# Tests where debian_rust.sh gets rustc from: the first source that has the packages, none whose hash is another, and no
# source where a rustc is named. Folders stand in for Debian and for its archive, so no network is needed. test.sh calls
# it. Without apt or dpkg it tests nothing, and says so.
set -eu
here=$(realpath "$(dirname "$0")")
. "$here/../shell.sh"
room=$(mktemp -d)
trap 'rm -rf "$room"' EXIT
package=r/rustc-web/rustc-web_1_amd64.deb

# make_rustc FOLDER VERSION: a rustc there that says this of itself.
make_rustc() {
    mkdir -p "$1"
    printf '#!/bin/sh\nprintf "rustc %s\\nLLVM version: %s\\n"\n' "${2% *}" "${2##* }" > "$1/rustc"
    chmod +x "$1/rustc"
}
# make_package: a package with the right rustc, in the archive.
make_package() {
    local tree=$room/tree made=$room/archive/pool/main/$package
    make_rustc "$tree/usr/bin" "$right"
    mkdir -p "$tree/DEBIAN" "${made%/*}" "$room"/{empty,damaged/pool/main/${package%/*}}
    printf 'Package: %s\nVersion: 1\nArchitecture: amd64\nMaintainer: it\nDescription: it\n' rustc-web \
        > "$tree/DEBIAN/control"
    dpkg-deb --build "$tree" "$made" > "$room/log"
    { cat "$made" && echo; } > "$room/damaged/pool/main/$package"
    sum=$(sha256sum < "$made")
}
# debian_rust_of SOURCE..: the path of the rustc that these folders give, below the room, or why there is none.
debian_rust_of() (
    rm -rf "$room/debian"
    export DEBIAN=$room/debian DEBIAN_SOURCES
    DEBIAN_SOURCES=$(printf "copy:$room/%s " "$@")
    . "$here/../debian_rust.sh"
    debian_packages=$package$'\n'${sum%% *}
    debian_rust 2>&1
    echo "${RUSTC#"$room/"}"
)
# gives TEXT SOURCE..: they give a rustc at this path, or the last line has this text.
gives() {
    local said
    said=$(debian_rust_of "${@:2}" | tail -n 1) || true
    [[ $said = *"$1"* ]] || stop "from ${*:2} comes $said, and not $1"
}

right=$(sed -n "s/^debian_named='rustc \(.*\) with LLVM \(.*\)'$/\1 \2/p" "$here/../debian_rust.sh")
if [ ! -x /usr/lib/apt/apt-helper ] || ! have dpkg-deb "where rustc comes from"; then
    echo "tools/generate/test_debian_rust.sh: apt is not installed: where rustc comes from isn't tested"
    exit
fi
make_package
gives debian/12/usr/bin/rustc archive empty
gives debian/12/usr/bin/rustc empty archive
gives "rustc-web_1_amd64.deb isn't there" empty empty
gives "$package has the SHA-256" damaged archive
gives "and not ${sum%% *}" damaged archive
[ ! -e "$room/debian/12" ] || stop "a rustc was unpacked whose hash is another"
make_rustc "$room/installed" "$right"
RUSTC_1_85=$room/installed/rustc gives installed/rustc empty
[ ! -e "$room/debian" ] || stop "something was fetched, though a rustc is named"
for it in '1.85.1 (4d91de4e4 2025-02-17) 19.1.7' '1.85.0 (59807616e 2025-02-17) 19.1.7' "${right% *} 18.1.0"; do
    make_rustc "$room/other" "$it"
    RUSTC_1_85=$room/other/rustc gives "is rustc ${it% *} with LLVM ${it##* }, and not rustc ${right% *}" archive
done
echo "generated: where rustc comes from"
