#!/usr/bin/env bash
# Tests what build.sh, which calls this, made in out/ of the proved library: by check.sh, as make does; in C99 and C++, by
# gcc, and by clang if it is installed; under the sanitizers and valgrind; beside a second reader, on octets that
# libFuzzer makes; installed, and found by pkg-config; on what OpenSSL makes. A tool that isn't installed is reported, and
# its tests are left out.
set -eu
here=$(realpath "$(dirname "$0")")
. "$here/../../tools/shell.sh"
ffi=$here/..
out=$ffi/out
rows=$ffi/../crates/pkcs1_vectors/stdin
CC=${CC:-gcc} CXX=${CXX:-g++}
room=$(mktemp -d)
trap 'rm -rf "$room"' EXIT
ulimit -t 600 # no test runs forever

have clang "the C tests are compiled by $CC alone" && clang='clang' || clang=
have clang++ "the C++ test is compiled by $CXX alone" && clangxx='clang++' || clangxx=

# C and C++.
flags=(-O1 -g -Wall -Wextra -Werror -pedantic "-I$ffi/lib/include")
second=("$here"/fuzz/{reference,elements,compare}.c)
test=("$here"/{test,rows,large}.c "${second[@]}")
printf '%s\n' '#include <pkcs1.h>' 'void ignore(struct pkcs1_public_key *key);' \
    'void ignore(struct pkcs1_public_key *key) { pkcs1_public_key_decode(0, 0, key); }' > "$room/ignored.c"
# warns COMPILER..: it warns of a caller that ignores a status.
warns() {
    if "$@" "${flags[@]}" -c "$room/ignored.c" -o "$room/ignored.o" 2> "$room/log" ||
        ! grep -q unused-result "$room/log"; then
        stop "$* doesn't warn of a status that is ignored"
    fi
}
[ -z "$(awk '/^uint32_t pkcs1_/ && before != "PKCS1_MUST_CHECK"; { before = $0 }' "$ffi/lib/include/pkcs1.h")" ] ||
    stop "pkcs1.h has a call whose status may be ignored"
for compiler in "$CXX" $clangxx; do
    warns "$compiler" -x c++
    "$compiler" -std=c++11 -Wold-style-cast "${flags[@]}" -x c++ "$here/header.cc" -x none "$out/libpkcs1.a" \
        -o "$room/header"
    "$room/header"
done
for compiler in $clang "$CC"; do
    warns "$compiler"
    "$compiler" -std=c99 "${flags[@]}" -fsyntax-only "$here/freestanding.c"
    "$compiler" -std=c99 "${flags[@]}" "${test[@]}" "$out/libpkcs1.a" -o "$room/test"
    for source in "$ffi"/examples/*.c; do
        "$compiler" -std=c99 "${flags[@]}" "$source" "$out/libpkcs1.a" -o "$room/$(basename "$source" .c)"
    done
    "$room/test" "$rows"
    for name in lengths states; do
        "$compiler" -std=c99 "${flags[@]}" "$here"/{$name,rows}.c "${second[@]}" "$out/libpkcs1.a" -o "$room/$name"
        "$room/$name"
    done
    "$room/many_keys" 2000 > "$room/log"
done
"$CC" -std=c11 "${flags[@]}" -fsanitize=address,undefined -fno-sanitize-recover=all "${test[@]}" "$ffi/lib/pkcs1.c" \
    "$out/proved.o" -o "$room/sanitized"
"$room/sanitized" "$rows"
CFLAGS=-O2 "$here/check.sh" "$out"
"$CC" -std=c99 "${flags[@]}" "$here/dlopen.c" -ldl -o "$room/dlopen"
"$room/dlopen" "$out/libpkcs1.so"
if have valgrind "the C test runs under the sanitizers alone"; then
    valgrind --quiet --error-exitcode=9 --leak-check=full "$room/test" "$rows"
fi
[ -z "$clang" ] || "$here/fuzz/run.sh" 10 "$out"
conduct=$here/conduct.sh
for tool in gcc make python3 valgrind; do
    have $tool "path, traces and stack of the calls aren't tested" || conduct=
done
[ -z "$conduct" ] || "$conduct"

# Octets that change during a call; two threads a mode.
"$CC" -std=c99 "${flags[@]}" "$here"/{races,rows}.c "${second[@]}" "$out/libpkcs1.a" -lpthread -o "$room/races"
"$room/races" | xargs -P $((($(nproc) + 1) / 2)) -n 1 timeout 60 "$room/races" > "$room/log" ||
    stop "octets that change during a call do harm"

# Installed into a folder with a space in its name, by itself and below DESTDIR; and again: files are replaced, not
# changed, as a program may be running with them. tools/clean_room.sh has more of it.
version=$("$room/test" --version)
printf '\060\010\002\003\000\301\177\002\001\003' > "$room/pub.der"
DESTDIR=$room/stage "$ffi/proof/build.sh" install /usr > /dev/null
"$ffi/proof/build.sh" install "$room/a b" > /dev/null
diff -r "$room/a b" "$room/stage/usr"
cp -al "$room/a b" "$room/old"
"$ffi/proof/build.sh" install "$room/a b" > /dev/null
[ -z "$(find "$room/old" -type f -links +1)" ] || stop "an installed file is changed"
if have pkg-config "libpkcs1.pc is not used"; then
    export PKG_CONFIG_PATH="$room/a b/lib/pkgconfig"
    [ "$(pkg-config --modversion libpkcs1)" = "$version" ] || stop "libpkcs1.pc tells another version"
    shared=$(pkg-config --cflags --libs libpkcs1)
    static=$(pkg-config --static --cflags --libs libpkcs1)
else
    shared="-I\"$room/a b/include\" -L\"$room/a b/lib\" -lpkcs1"
    static=$shared
fi
eval "\"$CC\" -Wall -Werror \"$ffi/examples/modulus.c\" $shared -Wl,-rpath,\"$room/a b/lib\" -o \"$room/shared\""
if printf 'int main(void) { return 0; }' | "$CC" -static -x c - -o "$room/empty_program" 2> "$room/log"; then
    eval "\"$CC\" -Wall -Werror -static \"$ffi/examples/modulus.c\" $static -o \"$room/static\""
else
    printf 'ffi/tests/test.sh: there is no static C library: no program is linked with -static\n' >&2
    "$CC" "-I$room/a b/include" "$ffi/examples/modulus.c" "$room/a b/lib/libpkcs1.a" -o "$room/static"
fi
"$ffi/proof/build.sh" install > /dev/null 2>&1 && stop "build.sh takes wrong arguments"

# The example in each language: it prints the key in a file, and rejects other files.
: > "$room/empty"
head -c 65537 /dev/zero > "$room/long"
programs=("$room/modulus" "$room/shared" "$room/static")
# loads NAME COMMAND: a further program of this name is the command, where the loader finds the library.
loads() {
    printf '%s\n' '#!/bin/sh' "export LD_LIBRARY_PATH='$room/a b/lib'" "exec $2 \"\$@\"" > "$room/$1"
    chmod +x "$room/$1"
    programs+=("$room/$1")
}
if have python3 "the program in Python isn't run"; then
    loads python "python3 '$ffi/examples/modulus.py'"
fi
if have go "the program in Go isn't run" && have pkg-config "the program in Go isn't run"; then
    # Go 1.19 can't take a folder with a space from pkg-config.
    GOCACHE=$room/cache PKG_CONFIG_PATH=$room/stage/usr/lib/pkgconfig go build -o "$room/public_key" \
        "$ffi/examples/public_key.go"
    loads go "'$room/public_key'"
fi
for program in "${programs[@]}"; do
    case $program in */go) want='16 bits, exponent 3' ;; *) want=c17f ;; esac
    [ "$("$program" "$room/pub.der")" = "$want" ] || stop "$program doesn't print '$want'"
    for file in none empty long; do
        "$program" "$room/$file" > "$room/text" 2>&1 && stop "$program reads a key in $file"
        [ -s "$room/text" ] || stop "$program doesn't say what is wrong with $file"
    done
done
[ "$("$room/bits" < "$room/pub.der")" = '16 bits' ] || stop "bits prints another bit length"
for file in empty long; do
    "$room/bits" < "$room/$file" > "$room/text" 2>&1 && stop "bits reads a key in $file"
    [ -s "$room/text" ] || stop "bits doesn't say what is wrong with $file"
done
for want in 'none: No such file' 'empty: the file is empty' 'long: the file is longer than 65536 bytes'; do
    "$room/modulus" "$room/${want%%:*}" 2>&1 | grep -q "$want" || stop "modulus doesn't print '$want'"
done
if have openssl "nothing was compared with it"; then
    "$here/openssl.sh" "$room"
fi
printf 'ffi: %s calls and constants, tested in C\n' "$(wc -l < "$out/declared")"
