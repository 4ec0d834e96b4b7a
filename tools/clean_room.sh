#!/usr/bin/env bash
# Does what README says to users work for one who has a C compiler and cargo, and nothing of the toolchain? Here the
# toolchain's folders are empty, and there is no network. A clone is built, tested, installed and used as README and
# docs/USING.md say, where users may have it and with their options, then a release alike. other_platforms.sh has
# other machines.
#
#     tools/clean_room.sh             all of this
#     tools/clean_room.sh FOLDER      the first half of it, of a copy of this folder: README's commands, and programs
set -eu
here=$(realpath "$(dirname "$0")")
ulimit -t 600 # no test runs forever
. "$here/shell.sh"
. "$here/platforms.sh"

# step NAME COMMAND..: runs the command, and says how long it took; what it prints is shown only if it fails.
step() {
    local began=$SECONDS status
    set +e
    (set -e && "${@:2}") > "$room/log" 2>&1
    status=$?
    set -e
    [ $status = 0 ] || {
        cat "$room/log" >&2
        stop "$1: failed"
    }
    echo "clean room: $1, $((SECONDS - began)) s"
}

# What README says that the tool prints.
line='pub n=07 e=03 again=3006020107020103'
# The two commands of README, as they stand there.
readme() {
    local commands
    mapfile -t commands < <(sed -n 's/^    \(make\b.*\)/\1/p' README.md)
    [ ${#commands[@]} = 2 ] || stop "README has ${#commands[@]} commands that begin with make, not 2"
    sh -c "${commands[0]}" | tee "$room/printed"
    tail -n 1 "$room/printed" | grep -qx "$line" || stop "the tool prints another line"
    sh -c "${commands[1]}"
}
# prints PROGRAM..: it prints the modulus of a key.
prints() {
    printf '\060\010\002\003\000\301\177\002\001\003' > "$room/key.der"
    [ "$("$@" "$room/key.der")" = c17f ] || stop "$1 prints another modulus"
}
# Installed where the umask shuts others out, with another folder of libraries, found by pkg-config, and linked either
# way; then nothing is left of it.
c_program() {
    local prefix=$room/installed
    export LIBDIR=$prefix/lib64
    (umask 077 && make install PREFIX="$prefix")
    [ "$(find "$prefix" \( -type f ! -perm 644 -o -type d ! -perm 755 \) -printf '%P %m')" = 'bin/pkcs1_tool 755' ] ||
        stop "what is installed has other modes"
    [ "$(ls "$prefix/include")" = pkcs1.h ] || stop "another header than pkcs1.h is installed"
    [ ! -e SBOM.spdx.json ] || cmp SBOM.spdx.json "$prefix/share/doc/libpkcs1/SBOM.spdx.json"
    export PKG_CONFIG_PATH=$LIBDIR/pkgconfig
    [ "$(pkg-config --cflags-only-other --libs-only-other --libs-only-l libpkcs1 | xargs)" = -lpkcs1 ] ||
        stop "libpkcs1.pc adds options"
    # shellcheck disable=SC2046 # words
    cc ffi/examples/modulus.c $(pkg-config --cflags --libs libpkcs1) -Wl,-rpath,"$LIBDIR" -o "$room/shared"
    # shellcheck disable=SC2046 # words
    cc -static ffi/examples/modulus.c $(pkg-config --static --cflags --libs libpkcs1) -o "$room/static"
    prints "$room/shared"
    prints "$room/static"
    readelf -d "$room/shared" | grep -q 'NEEDED.*libpkcs1\.so\.1' || stop "libpkcs1.so isn't linked"
    printf 'pub 0500\n' | "$prefix/bin/pkcs1_tool" | grep -qx refused
    make uninstall PREFIX="$prefix"
    [ -z "$(find "$prefix" ! -type d)" ] || stop "uninstall leaves files"
}
# block LANGUAGE: README's only block in this language.
block() {
    awk -v language="$1" '/^```/ { inside = $0 == "```" language; next } inside' README.md
}
# depends_by LINE: README's program in Rust, in $room/program, which depends on the crate by this line.
depends_by() {
    rm -rf "$room/program"
    mkdir -p "$room/program/src" "$room/program/.cargo"
    printf '%s\n' '[package]' 'name = "program"' 'edition = "2024"' '[dependencies]' "$1" > "$room/program/Cargo.toml"
    block rust > "$room/program/src/main.rs"
}
# counts_bits PROGRAM..: it prints how many bits a modulus has.
counts_bits() {
    [ "$(printf '\060\010\002\003\000\301\177\002\001\003' | "$@")" = '16 bits' ] || stop "$1 counts other bits"
}
rust_program() {
    depends_by "$(block toml | sed "s|PATH|$PWD/rust|")"
    counts_bits cargo run --offline --quiet --manifest-path "$room/program/Cargo.toml"
}
# The tool, by cargo alone.
cargo_tool() {
    cargo install --offline --quiet --force --path rust --root "$room/by_cargo"
    printf 'pub 3006020107020103\n' | "$room/by_cargo/bin/pkcs1_tool" | grep -qx "$line" ||
        stop "cargo builds another tool"
}
# Built of what cargo vendor takes out of the repository, which is the crate's package alone.
vendored_program() {
    depends_by "$(block toml | sed "s|path = \"PATH\"|git = \"file://$PWD\"|")"
    cd "$room/program"
    CARGO_HOME=$room/cargo CARGO_NET_OFFLINE=false cargo vendor > .cargo/config.toml
    CARGO_HOME=$room/no_packages counts_bits cargo run --locked --quiet
}

# use WHAT: this folder, as users would.
use() {
    echo "clean room: $1"
    platform "Linux" "x86-64" "assembly, by make and gcc" "tested" -- readme
    step "$1: a program in C" c_program
    step "$1: a program in Rust" rust_program
    step "$1: the tool by cargo" cargo_tool
}

# By clang, whose sanitizers stop at what they find.
sanitized() {
    make check OUT=out/sanitized CODE=c CC=clang \
        CFLAGS='-O1 -g -fsanitize=address,undefined -fno-sanitize-recover=all'
}
# What make was told is what is installed; another Makefile makes all again. By an option the static library says that
# its control flow is marked, and the shared one if the C library's start files do.
# shellcheck disable=SC2016 # make and the shell that it starts expand this
told() {
    local prefix=$room/what\'s\ told marks
    ! make OUT=out/options CPPFLAGS='-include nowhere.h' || stop "CPPFLAGS aren't used"
    make OUT=out/options CFLAGS='-O1 -fcf-protection=full -DX="\"a#b\$$c\""' CPPFLAGS=-D_FORTIFY_SOURCE=2 \
        LDFLAGS=-Wl,-z,nodelete
    readelf -n out/options/libpkcs1.a | grep -q IBT || stop "the static library isn't marked"
    marks=$(readelf -n "$(cc -print-file-name=crti.o)" | grep -c IBT || true)
    [ "$(readelf -n out/options/libpkcs1.so | grep -c IBT)" = "$marks" ] || stop "start files are marked otherwise"
    cp -r out/options "$room/built"
    make install OUT=out/options PREFIX="$prefix"
    diff -r out/options "$room/built" || stop "make install makes other files than make"
    cmp "$prefix/lib/libpkcs1.a" "$room/built/libpkcs1.a"
    make install OUT=out/options PREFIX="$prefix" LDFLAGS=
    ! readelf -d "$prefix/lib/libpkcs1.so" | grep NODELETE || stop "make install doesn't do what it is told"
    git clone --quiet . "$room/edited"
    make -C "$room/edited"
    sed -i 's,-z\,now -o,-z\,now -Wl\,-rpath\,/nowhere -o,' "$room/edited/Makefile"
    make -C "$room/edited"
    readelf -d "$room/edited/out/pkcs1_tool" | grep -q /nowhere || stop "another Makefile makes nothing again"
    touch "$room/edited/ffi/lib/include/pkcs1_c.h"
    make -C "$room/edited" | grep -q -- '-c ffi/lib/pkcs1.c ' || stop "another header makes nothing again"
}
# Installed below DESTDIR, where nothing is asked of this system, and uninstalled: all of it, or nothing.
staged() {
    local to=$room/staged
    mkdir "$room/system"
    printf '#!/bin/sh\ntouch "%s"\n' "$room/asked" > "$room/system/ldconfig"
    chmod +x "$room/system/ldconfig"
    PATH=$room/system:$PATH make install DESTDIR="$to" PREFIX=/usr LIBDIR=/usr/lib64
    [ ! -e "$room/asked" ] || stop "ldconfig is called for what is staged"
    cp -r "$to" "$room/kept"
    ! make uninstall DESTDIR="$to" PREFIX=/usr 2> "$room/printed" || stop "uninstall takes another LIBDIR"
    grep -q 'there is no .*/usr/lib/libpkcs1.a: ' "$room/printed" || stop "uninstall doesn't say what is missing"
    diff -r "$to" "$room/kept" || stop "uninstall is refused, and done in part"
    make uninstall DESTDIR="$to" PREFIX=/usr LIBDIR=/usr/lib64
    [ -z "$(find "$to" ! -type d)" ] || stop "uninstall leaves files"
}
# With clang alone, by the name cc or its own.
without_gcc() {
    local folder folders
    mkdir "$room/tools"
    IFS=: read -ra folders <<< "$PATH"
    for folder in "${folders[@]}"; do
        [ ! -d "$folder" ] || cp -rsn "$(realpath "$folder")"/. "$room/tools"
    done
    rm -f "$room"/tools/{,*-}{gcc,cc}{,-[0-9]*}
    PATH=$room/tools make OUT=out/clang
    grep -q '^clang ' out/clang/settings || stop "make takes another compiler than clang"
    ln -s "$(command -v clang)" "$room/tools/cc"
    PATH=$room/tools make -n OUT=out/clang | grep -q '^cc ' || stop "make takes another compiler than cc"
}
# By gcc with one sanitizer, and with another C library.
address() {
    make check OUT=out/address CFLAGS='-O1 -g -fsanitize=address'
}
musl() {
    make check OUT=out/musl CC=musl-gcc
}
# With LLVM's tools alone, but for the linker.
llvm() {
    export CC=clang NM=llvm-nm READELF=llvm-readelf
    make OUT=out/llvm AR=llvm-ar OBJCOPY=llvm-objcopy
    ffi/tests/check.sh out/llvm objects
    ffi/tests/check_abi.sh
}
# A folder with a space is refused, in one line, before anything is made. `clean` is through before the others begin.
goals() {
    local before
    before=$(ls -A)
    ! make OUT="$room/out put" > "$room/printed" 2>&1 || stop "make takes a folder with a space"
    grep -q "OUT can't have a space" "$room/printed" || stop "make doesn't say that OUT has a space"
    [ "$(wc -l < "$room/printed")" = 1 ] || stop "make says more than that OUT has a space"
    [ "$(ls -A)" = "$before" ] || stop "make leaves something where OUT has a space"
    mkdir "$room/slow"
    printf '#!/bin/sh\nsleep 1\nexec %s "$@"\n' "$(command -v rm)" > "$room/slow/rm"
    chmod +x "$room/slow/rm"
    make OUT=out/again
    [ -z "$(nm -g out/again/{os,tool}.o | grep -o 'pkcs1_os_.*' | sort | uniq -u)" ] || stop "the tool needs less of os.c"
    PATH=$room/slow:$PATH make -j8 OUT=out/again clean all
    [ -e out/again/libpkcs1.a ] || stop "make -j clean all removes what it makes"
    make -n test | grep -q ffi/tests/check.sh || stop "make test runs no tests"
    ! PROGRAMS=none crates/pkcs1_tool/run_built.sh > "$room/printed" || stop "a tool that isn't there passes its tests"
    ! grep -w rt "$room/printed" || stop "users are told to use the toolchain"
}
# The shared library has its number from the header, and all that it calls from itself and the C library. A program
# that was built for another number doesn't start with it.
shared_library() {
    local prefix=$room/seven
    make install PREFIX="$room/one"
    cc ffi/examples/modulus.c "-I$room/one/include" "-L$room/one/lib" -lpkcs1 -o "$room/of_one"
    LD_LIBRARY_PATH=$room/one/lib prints "$room/of_one"
    git clone --quiet . "$room/other"
    sed -i 's/^\(#define PKCS1_ABI\) .*/\1 7/' "$room/other/ffi/lib/include/pkcs1.h"
    make -C "$room/other" install PREFIX="$prefix"
    readelf -d "$prefix/lib/libpkcs1.so" | grep -q 'SONAME.*\.so\.7\]' || stop "the soname has another number"
    nm -D "$prefix/lib/libpkcs1.so" | grep -q ' pkcs1_version@@PKCS1_7$' || stop "calls have another version"
    [ "$(readlink "$prefix/lib/libpkcs1.so")" = libpkcs1.so.7 ] || stop "the library is installed by another number"
    ! LD_LIBRARY_PATH=$prefix/lib "$room/of_one" "$room/key.der" 2> "$room/printed" || stop "a program starts without its library"
    grep -q 'libpkcs1\.so\.1' "$room/printed" || stop "a program that lacks its library doesn't say so"
    cp "$prefix/lib/libpkcs1.so" "$room/one/lib/libpkcs1.so.1"
    ! LD_LIBRARY_PATH=$room/one/lib "$room/of_one" "$room/key.der" 2> "$room/printed" || stop "a program starts with another library"
    grep -q 'PKCS1_1' "$room/printed" || stop "a program doesn't name the version of its calls"
    make -C "$room/other" uninstall PREFIX="$prefix"
    [ -z "$(find "$prefix" ! -type d)" ] || stop "uninstall leaves a library of another number"
    objcopy --redefine-sym pkcs1_c_bit_len=call_of_none "$room/other/out/calls.o"
    ! CC=cc ffi/lib/link.sh "$room/other/out" 2> "$room/printed" || stop "a call that isn't defined is linked"
    grep -q call_of_none "$room/printed" || stop "a call that isn't defined isn't named"
}
# changes EDIT..: these edits of pkcs1.h are refused, but with another number they are kept.
changes() {
    local tree=$room/changed edit
    for edit; do
        rm -rf "$tree" && mkdir -p "$tree"/{lib,tests}
        cp -r ffi/lib/{include,machine.sh} "$tree/lib"
        cp ffi/tests/{abi,check_abi.sh} "$tree/tests"
        sed -i "$edit" "$tree"/lib/include/*.h
        ! "$tree/tests/check_abi.sh" --write 2> "$room/printed" || stop "$edit is kept without another number"
        grep -q 'raise PKCS1_ABI' "$room/printed" || stop "$edit: the message doesn't say what to do"
        sed -i 's/^#define PKCS1_ABI .*/#define PKCS1_ABI 9/' "$tree/lib/include/pkcs1.h"
        "$tree/tests/check_abi.sh" --write
    done
}
interface() {
    changes 's/uint8_t salt_len;/uint16_t salt_len;/' 's/\(prime1\), \(prime2\)/\2, \1/' 's/size_t others_room/uint32_t others_room/' \
        's/^extern const struct pkcs1_bytes /&*/' '/^const char \*pkcs1_version/d' \
        's/PKCS1_VALUE = 14/PKCS1_VALUE = 18/' 's/^bool pkcs1_pss_is/int pkcs1_pss_is/' 's/pkcs1_oid_mgf1, //'
    "$room/changed/tests/check_abi.sh"
    sed -i 's/^uint64_t pkcs1_bit_len/uint64_t pkcs1_new(void);\n&/' "$room/changed/lib/include/pkcs1.h"
    ! "$room/changed/tests/check_abi.sh" || stop "an added call isn't noticed"
    "$room/changed/tests/check_abi.sh" --write
}
# plain_program KEY: installed by a root whose PATH lacks the folder of ldconfig, the library is found by a program that
# prints the modulus. What is written goes away with the mounts.
plain_program() {
    mkdir "$room/etc"
    cp -r /etc/alternatives /etc/ld.so.conf* "$room/etc"
    # shellcheck disable=SC2016 # the shell that it starts expands this
    unshare --mount sh -euc '
        mount -t tmpfs none /usr/local
        mount -t tmpfs none /var/cache
        mount --bind "$1" /etc
        PATH=/usr/bin:/bin
        make install > "$1/log"
        cc ffi/examples/modulus.c -lpkcs1 -o "$1/plain"
        "$1/plain" "$2"' sh "$room/etc" "$1"
}
crate_tests() {
    cargo test --offline --quiet --manifest-path rust/Cargo.toml
}
# A release, made in another folder, of sources that can't be written, by a user who isn't root, where this machine has one
# here. It is made as for a machine that isn't like x86-64.
read_only() {
    local user=(setpriv --reuid=65534 --regid=65534 --clear-groups)
    "${user[@]}" true || user=()
    cp -r . "$room/locked"
    chmod -R a-w,go+rX "$room/locked"
    chmod 711 "$room"
    mkdir -m 777 "$room/c"
    "${user[@]}" make -C "$room/locked" check OUT="$room/c" CODE=c CFLAGS='-O2 -DPKCS1_FOREIGN'
    chmod -R u+w "$room/locked"
}
release() {
    local it
    ssh-keygen -q -t ed25519 -N '' -f "$room/key"
    tools/release.sh "$room/release" "$room/key"
    git clone --quiet . "$room/again"
    (umask 077 && cd "$room/again" && tools/release.sh "$room/release_again" "$room/key")
    diff -r "$room/release" "$room/release_again"
    (verified "$room/release_again")
    echo > "$room/again/new"
    ! "$room/again/tools/release.sh" "$room/refused" || stop "a release is made of what isn't committed"
    [ ! -e "$room/refused" ] || stop "a release is refused, and made in part"
    make -C "$room/again"
    for it in libpkcs1.a libpkcs1.so pkcs1_tool; do
        cmp "out/$it" "$room/again/out/$it"
    done
    (cd "$room/release" && sha256sum --quiet -c -- *.sha256)
    for it in "$room"/release/*.tar.gz; do
        tar xzf "$it" -C "$room"
    done
    mv "$room"/pkcs1-proved-*-one-file "$room/one file"
    mv "$room"/pkcs1-proved-*-corpus "$room/corpus"
    mv "$room"/pkcs1-proved-* "$room/unpacked"
    (cd "$room/unpacked" && sha256sum --quiet -c SHA256SUMS && tools/fresh.sh && tools/erase/compare.py)
    for it in crates/*/{src,specs,proofs}; do
        [ ! -d "$it" ] || diff -r "$it" "$room/unpacked/$it"
    done
    tools/docs/check_tree.py "$room/unpacked" README.md
    grep -qx "commit: $(git rev-parse HEAD)" "$room/unpacked/ffi/lib/generated/PROVENANCE" || stop "no commit is named"
    parts "$room/unpacked"
}
# verified FOLDER: the commands in VERIFY.txt accept each archive, and none that is changed.
verified() {
    local command commands
    cd "$1"
    echo "pkcs1-proved $(cat "$room/key.pub")" > SIGNERS
    mapfile -t commands < <(sed -n 's/^    //p' VERIFY.txt)
    [ ${#commands[@]} = 3 ] || stop "VERIFY.txt has ${#commands[@]} commands, not 3"
    for command in "${commands[@]}"; do
        sh -c "$command"
        echo >> "${command##*< }"
        ! sh -c "$command" || stop "a changed archive is verified"
    done
}
# The one file of a release, which is that of make too: in a program of one's own, and under the C test.
one_file() {
    make amalgamation OUT="$room/amalgamation"
    diff "$room/amalgamation/pkcs1_all.c" "$room/one file/pkcs1_all.c"
    cc ffi/examples/modulus.c "$room/one file/pkcs1_all.c" "-I$room/one file" -o "$room/own"
    prints "$room/own"
    cc ffi/tests/{test,rows,large,fuzz/{reference,elements,compare}}.c "$room/one file/pkcs1_all.c" "-I$room/one file" \
        -Iffi/lib/include -o "$room/own_test"
    "$room/own_test" crates/pkcs1_vectors/stdin
}
# parts FOLDER: the list of a release's parts has each crate that is built in, what rustc took in of Rust's own, and the
# hash of the compiler.
parts() {
    python3 - "$1" << 'END'
import json, os, re, sys
list_, said = (open(f"{sys.argv[1]}/{it}").read() for it in ("SBOM.spdx.json", "ffi/lib/generated/PROVENANCE"))
list_ = json.loads(list_)
parts = {it["name"]: it for it in list_["packages"]}
folders = "src/proved", "c/src/calls", "src/bin/pkcs1_tool/tool"
built = {it for folder in folders for it in os.listdir(f"{sys.argv[1]}/rust/{folder}") if not it.endswith(".rs")}
others = {"pkcs1-proved", "pkcs1-proved-crate", "core", "alloc", "rustc", "LLVM"}
assert len(built) == 8 and parts.keys() == built | others, parts.keys()
hashes = [it["checksums"][0]["checksumValue"] for it in parts.values() if "checksums" in it]
assert hashes == re.findall(r"sha256 ([0-9a-f]{64})", said) and len(hashes) == 1, hashes
for it in parts.values():
    names = {ref["referenceType"]: ref["referenceLocator"] for ref in it["externalRefs"]}
    assert "Apache-2.0" in it["licenseConcluded"] == it["licenseDeclared"], it
    assert it["supplier"] in ("Organization: Vedqunor maintainers", "Organization: Debian"), it
    number = it["versionInfo"].split()[0]
    assert re.fullmatch(rf"pkg:(generic|deb/debian)/[a-z0-9-]+@{number}(%2B\S+)?(\?arch=source)?(#[a-z0-9_/]+)?", names["purl"]), it
    assert re.fullmatch(rf"cpe:2\.3:a:[a-z-]+:[a-z0-9-]+:{number}(:\*){{7}}", names["cpe23Type"]), it
ends = {it[end] for it in list_["relationships"] for end in ("spdxElementId", "relatedSpdxElement")}
assert ends == {"SPDXRef-DOCUMENT", *(it["SPDXID"] for it in parts.values())}, ends
END
}

# In the room: $1 is its folder, which holds the tree, and $2 says whether to do all.
inside() {
    room=$1
    ! command -v rt > /dev/null || stop "the toolchain can be reached, as $(command -v rt)"
    ! grep : /proc/net/dev | grep -qv ' lo:' || stop "the network can be reached"
    cd "$room/the tree"
    mkdir -p "$room"/elsewhere/{ffi/{lib,tests},tools}
    export CDPATH=$room/elsewhere # where no script goes
    use tree
    [ "$2" = all ] || return 0
    step "tree: the crate's tests" crate_tests
    step "tree: a program in Rust with the crate vendored" vendored_program
    platform "Linux" "x86-64" "C, by make and clang, with sanitizers" "tested" -- sanitized
    platform "Linux" "x86-64" "assembly, by make and clang" "linked" -- without_gcc
    step "tree: what make was told" told
    step "tree: make install and uninstall, staged" staged
    platform "Linux" "x86-64" "assembly, by make and gcc, with -fsanitize=address" "tested" -- address
    platform "Linux" "x86-64 with musl" "assembly, by make and musl-gcc" "tested" -- musl
    platform "Linux" "x86-64" "assembly, by make, clang and LLVM's tools" "linked" -- llvm
    step "tree: goals of make" goals
    step "tree: the shared library" shared_library
    step "tree: changes of the binary interface" interface
    step "tree: make install, without a prefix" prints plain_program
    step "a release" release
    cd "$room/unpacked"
    platform "Linux" "x86-64" "C as for other machines, by make and gcc" "tested" -- read_only
    use release
    step "release: the crate's tests" crate_tests
    step "release: what is fuzzed" ffi/tests/fuzz/run.sh 0 out
    platform "Linux" "x86-64" "one file, by gcc" "tested" -- one_file
    all_declared "$here/clean_room.sh"
}
# enter FOLDER WORD: goes on in a room of this folder. What is mounted there is seen there only.
enter() {
    local kit words=(--net --mount)
    [ "$(id -u)" = 0 ] || words+=(--map-root-user)
    unshare "${words[@]}" true 2> /dev/null || stop "unshare ${words[*]} isn't allowed here, and is needed"
    kit=$(rt doc 2> /dev/null) && kit=$(dirname "$(realpath "$kit")") || kit=/opt
    # shellcheck disable=SC2016 # the shell that it starts expands this
    unshare "${words[@]}" sh -euc '
        for folder in /opt "$1"; do
            [ ! -d "$folder" ] || mount -t tmpfs none "$folder"
        done
        exec env -i PATH="$PATH" HOME="$HOME" CARGO_NET_OFFLINE=true CARGO_INCREMENTAL=0 "$2" --inside "$3" "$4"' \
        sh "$kit" "$here/clean_room.sh" "$1" "$2"
}

[ "${1-}" != --inside ] || {
    inside "$2" "$3"
    exit
}
room=$(mktemp -d)
trap 'rm -rf "$room"' EXIT
needs unshare make cc ar objcopy readelf pkg-config cargo
case $#:${1-} in
    0:)
        needs git clang python3 setpriv ssh-keygen musl-gcc llvm-nm
        echo 'int main(void) { return 0; }' > "$room/empty.c"
        clang -fsanitize=address,undefined "$room/empty.c" -o "$room/empty" 2> /dev/null ||
            stop "clang's sanitizers (libclang-rt-14-dev) aren't installed, and are needed"
        ;;
    1:-*) stop "there is no $1" ;;
esac
if [ $# = 0 ]; then
    git clone --quiet "$here/.." "$room/the tree"
    enter "$room" all
else
    mkdir "$room/the tree"
    tar c -C "$1" --exclude=./.git --exclude=out --exclude=target . | tar x -C "$room/the tree"
    enter "$room" half
fi
echo "clean room: all of it works, after $SECONDS s"
