#!/usr/bin/env bash
# Installs the library that make or build.sh made, and removes it again. They call this. DESTDIR and LIBDIR are as
# there.
#     install.sh add PREFIX VERSION BUILT [TOOL]   from the folder BUILT; the program TOOL with its man page too
#     install.sh remove PREFIX VERSION
set -eu
umask 022
here=$(realpath "$(dirname "$0")")
top=$here/../..
action=$1 prefix=$2 version=$3
case $prefix in
    /*) ;;
    '')
        echo "ffi/lib/install.sh: PREFIX is empty" >&2
        exit 1
        ;;
    *) prefix=$PWD/$prefix ;;
esac
libdir=${LIBDIR:-$prefix/lib}
case $libdir in /*) ;; *) libdir=$PWD/$libdir ;; esac
include=${DESTDIR-}$prefix/include
lib=${DESTDIR-}$libdir
doc=${DESTDIR-}$prefix/share/doc/libpkcs1
bin=${DESTDIR-}$prefix/bin
man=${DESTDIR-}$prefix/share/man/man1
abi=$(sed -n 's/^#define PKCS1_ABI //p' "$here/include/pkcs1.h")
soname=libpkcs1.so.$abi
dll=libpkcs1-$abi.dll

# put MODE FILE FOLDER: replaces the file of this name in one step. A program that maps the old one goes on with it.
put() {
    install -m "$1" "$2" "$3/.new.$$"
    mv -fT "$3/.new.$$" "$3/$(basename "$2")"
}
# link TARGET NAME FOLDER
link() {
    ln -s "$1" "$3/.new.$$"
    mv -fT "$3/.new.$$" "$3/$2"
}
add() {
    local built=$1 tool=${2-} to_prefix text
    mkdir -p "$include" "$lib/pkgconfig" "$doc"
    put 644 "$here/include/pkcs1.h" "$include"
    put 644 "$built/libpkcs1.a" "$lib"
    if [ -e "$built/$soname" ]; then
        put 644 "$built/$soname" "$lib"
        link "$soname" libpkcs1.so "$lib"
    fi
    if [ -e "$built/$dll" ]; then
        mkdir -p "$bin"
        put 755 "$built/$dll" "$bin"
        put 644 "$built/libpkcs1.dll.a" "$lib"
    fi
    to_prefix=$(realpath -sm --relative-to="$libdir/pkgconfig" "$prefix")
    text=$(< "$here/libpkcs1.pc.in")
    text=${text//@version@/"$version"}
    printf '%s\n' "${text//@to_prefix@/"${to_prefix// /\\ }"}" > "$lib/pkgconfig/.new.$$"
    mv -fT "$lib/pkgconfig/.new.$$" "$lib/pkgconfig/libpkcs1.pc"
    put 644 "$top/LICENSE-APACHE" "$doc"
    put 644 "$top/LICENSE-MIT" "$doc"
    put 644 "$here/copyright" "$doc"
    [ ! -e "$top/SBOM.spdx.json" ] || put 644 "$top/SBOM.spdx.json" "$doc" # a release has it
    if [ -n "$tool" ]; then
        mkdir -p "$bin" "$man"
        put 755 "$tool" "$bin"
        put 644 "$top/crates/pkcs1_tool/pkcs1_tool.1" "$man"
    fi
    # What the loader keeps of its own folders names the library only then. A root's PATH may lack ldconfig's folder.
    case ${DESTDIR-}$libdir in /usr/*) PATH=$PATH:/usr/sbin:/sbin ldconfig 2> /dev/null || true ;; esac
    echo "installed below ${DESTDIR-}$prefix: libpkcs1${tool:+, pkcs1_tool and its man page}"
}
remove() {
    local it
    for it in "$include/pkcs1.h" "$lib/libpkcs1.a"; do
        [ -e "$it" ] || {
            echo "ffi/lib/install.sh: there is no $it: PREFIX and LIBDIR are to be those of the install" >&2
            exit 1
        }
    done
    rm -f "$include/pkcs1.h" "$lib"/libpkcs1.{a,so,dll.a} "$lib/$soname" \
        "$lib/pkgconfig/libpkcs1.pc" "$bin"/{pkcs1_tool,"$dll"} "$man/pkcs1_tool.1" \
        "$doc"/{LICENSE-APACHE,LICENSE-MIT,copyright,SBOM.spdx.json}
    rmdir --ignore-fail-on-non-empty "$doc"
}
case $action in
    add) add "${@:4}" ;;
    remove) remove ;;
    *) exit 2 ;;
esac
