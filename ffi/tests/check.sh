#!/bin/sh
# check.sh OUT [PART]: tests what make left in this folder: what a linker, a loader and a debugger ask of it, the tests in
# C over the static and the shared library, a program without a C library, and the tool. Where there is no ELF it is the
# tests in C alone, for Windows over the DLL too. PART is one of the functions here: `shared`, `objects` or
# `freestanding`. CC, CFLAGS, NM, READELF and RUN are as in the Makefile, which calls this.
set -eu
unset CDPATH
# No test runs forever.
# shellcheck disable=SC3045 # dash has it, and bash
[ "$(ulimit -t)" != unlimited ] || ulimit -t 600
out=$(realpath "$1")
cd "$(dirname "$0")/../.."
export LC_ALL=C
CC=${CC:-cc} nm=${NM:-nm} readelf=${READELF:-readelf}
tests=$out/tests
helpers='ffi/tests/rows.c ffi/tests/fuzz/reference.c ffi/tests/fuzz/elements.c ffi/tests/fuzz/compare.c'
mkdir -p "$tests"
: > "$tests/none"
# Where qemu, of which RUN may be one, finds the C library of the other machine.
[ -z "${RUN-}" ] || export QEMU_LD_PREFIX="${QEMU_LD_PREFIX:-/usr/$($CC -dumpmachine)}"

say() {
    echo "check: $*"
}
stop() {
    echo "ffi/tests/check.sh: $*" >&2
    exit 1
}
# compile OPTION..: in C99, and without what is left to the link.
compile() {
    # shellcheck disable=SC2086 # words
    $CC ${CFLAGS-} -fno-lto -std=c99 -Iffi/lib/include "$@"
}
# link NAME WORD..: a program in C of these words, with what the tests share.
link() {
    name=$1
    shift
    # shellcheck disable=SC2086 # words
    $CC ${CFLAGS-} -std=c99 -Iffi/lib/include $helpers "$@" -o "$tests/$name"
}
# c_test NAME WORD..: the C test with the library that these words name.
c_test() {
    name=$1
    shift
    link "$name" ffi/tests/test.c ffi/tests/large.c "$@"
    ${RUN-} "$tests/$name" crates/pkcs1_vectors/stdin
}
# tables [END]: the tests in C that try all of a table, with the static library. The names of programs end so.
tables() {
    for test in lengths states; do
        link "$test${1-}" "ffi/tests/$test.c" "$out/libpkcs1.a"
        ${RUN-} "$tests/$test${1-}"
    done
}
# windows and archive: the C test with what was built for these.
windows() {
    cp "$out"/libpkcs1-*.dll "$tests"
    c_test static.exe "$out/libpkcs1.a"
    c_test shared.exe "$out/libpkcs1.dll.a"
    tables .exe
    say "the C test, with the static library and the DLL"
}
archive() {
    c_test static "$out/libpkcs1.a"
    tables
    say "the C test, with the static library"
}
# The library keeps nothing between calls. It asks for four functions of C alone, and for what a compiler calls by
# itself: to find addresses, to guard the stack, for numbers that the machine has no instruction for, and where CFLAGS
# ask for it. So it allocates nothing.
asks_for_little() {
    own='\.TOC\.|_GLOBAL_OFFSET_TABLE_|_gp_disp|__aeabi_.*|__stack_chk_(fail|guard)|__mem[a-z]*_chk|__[a-z]*[sdt]i[2-4]'
    case "$CC ${CFLAGS-}" in
        *-fsanitize=* | *--coverage*) own="$own|__.*" ;;
        *)
            # A compiler's own constants are called .LC, and may stand there if they have addresses.
            ! $nm -f sysv "$out/pkcs1.o" | grep -E '\|(\.data|\.bss|\*COM\*)[.a-z0-9_]*$' |
                grep -vE '\.data\.rel\.ro|^\.LC[0-9]+ ' || stop "the calls share data"
            ;;
    esac
    asked=$({ $nm -u "$out/libpkcs1.a" && $nm -D -u "$out/libpkcs1.so"; } | sed -n 's/^ *U \([^@]*\).*/\1/p' |
        sort -u | grep -vxE "mem(cpy|move|set|cmp)|bcmp|$own" | paste -s -d ' ')
    [ -z "$asked" ] || stop "the library asks for $asked"
}
# hardened PROGRAM: the addresses of calls can't be written over, and the stack can't be run.
hardened() {
    { $readelf -lW "$1" | grep -q GNU_RELRO && $readelf -dW "$1" | grep -qwE 'BIND_NOW|NOW'; } ||
        stop "in $1 the addresses of calls can be written over"
    # shellcheck disable=SC2086 # words
    case $($CC ${CFLAGS-} -dumpmachine):$($readelf -lW "$1" | awk '$1 == "GNU_STACK" { print $7 }') in
        *:RW | mips*) ;; # on MIPS the C library's own files ask for it
        *) stop "the stack of $1 may be run" ;;
    esac
}
# What a loader asks of libpkcs1.so: its name, what it exports, with its version, and what can't be replaced in it.
shared() {
    abi=$(sed -n 's/^PKCS1_ABI = //p' ffi/tests/abi)
    $readelf -dW "$out/libpkcs1.so" | grep -qF "soname: [libpkcs1.so.$abi]" || stop "it has another soname"
    sed -nE "s/^const .* (pkcs1_oid_.*)|.*[ *](pkcs1_[a-z0-9_]+)\(.*/\1\2@@PKCS1_$abi/p" ffi/tests/abi | sort > "$tests/listed"
    # GNU's ld also makes a symbol with the name of the version.
    $nm -D --defined-only "$out/libpkcs1.so" | sed 's/^[0-9a-f]* [A-Z] //' | grep -v "^PKCS1_$abi" | sort |
        diff "$tests/listed" - || stop "libpkcs1.so exports other names (>) than ffi/tests/abi has (<)"
    ! $readelf -dW "$out/libpkcs1.so" | grep TEXTREL || stop "libpkcs1.so has text relocations"
    taken=$($readelf -rW "$out/libpkcs1.so" | grep -o 'pkcs1_[a-z0-9_]*' | paste -s -d ' ')
    [ -z "$taken" ] || stop "a program can replace $taken in libpkcs1.so"
    hardened "$out/libpkcs1.so"
}
# The same of the objects, and what a linker and a debugger ask of them, and of pkcs1_tool, where it was built.
objects() {
    for object in "$out"/*.o; do
        $readelf -SW "$object" | grep -q '\.note\.GNU-stack *PROGBITS *0* [0-9a-f]* 0* 00 *0' ||
            stop "$object doesn't say that its stack isn't run"
    done
    shared
    [ ! -e "$out/pkcs1_tool" ] || hardened "$out/pkcs1_tool"
    asks_for_little
    # On 32-bit Arm the ways back are in a table of their own. LLVM's readelf has no --debug-dump.
    frames=$({ $readelf --debug-dump=frames --unwind "$out/pkcs1.o" || $readelf --unwind "$out/pkcs1.o"; } 2> "$tests/log" |
        grep -cE 'FDE cie|FDE length|^0x[0-9a-f]+( <|: )' || true)
    places=$($readelf -sW "$out/pkcs1.o" | awk '/ FUNC / { print $7, $2 }' | sort -u | wc -l)
    [ "$frames" = "$places" ] || stop "a debugger can't go back from each call: $frames ways back, $places calls"
}
# The C test with either library, in a program with functions of the proved calls' names: the library calls its own.
both() {
    {
        echo '#include <stdlib.h>'
        sed -n 's/^[a-z].* \(pkcs1_c_[a-z0-9_]*\)(.*/void \1(void);\nvoid \1(void) { abort(); }/p' ffi/lib/include/pkcs1_c.h
    } > "$tests/clash.c"
    # link.sh says where they are global in the static library.
    # shellcheck disable=SC2086 # words
    case $($CC ${CFLAGS-} -dumpmachine) in
        mips*) c_test static "$out/libpkcs1.a" ;;
        *) c_test static "$tests/clash.c" "$out/libpkcs1.a" ;;
    esac
    c_test shared "$tests/clash.c" "-L$out" -lpkcs1 "-Wl,-rpath,$out"
    tables
    say "the C test, with the static and the shared library"
}
# Whether programs have the C library whose calls for memory valgrind and what is preloaded take over.
has_glibc() {
    # shellcheck disable=SC2086 # words
    case "$CC ${CFLAGS-}" in *-fsanitize=*) return 1 ;; esac
    echo "#include <features.h>" | $CC -E -dM - 2> "$tests/log" | grep -q __GLIBC__
}
# No call reads what stands after a false flag, where states.c has set nothing.
unset_is_unread() {
    status=0
    has_glibc || {
        say "this C library isn't known to valgrind: whether a call reads what was never set isn't looked at"
        return
    }
    valgrind --quiet --error-exitcode=9 "$tests/states" > "$tests/log" 2>&1 || status=$?
    case $status in
        0) say "valgrind sees no call that reads what was never set" ;;
        9) cat "$tests/log" >&2 && stop "a call reads what was never set" ;;
        *) say "there is no valgrind for this program: whether a call reads what was never set isn't looked at" ;;
    esac
}
# size CALL MOST: a program that makes this call alone has so many octets at most, with what a debugger needs.
size() {
    compile -nostdlib -static "-Wl,--gc-sections,-e,$1,-u,$1" "$tests/freestanding.o" "$out/libpkcs1.a" -o "$tests/one_call"
    octets=$((0$($readelf -SW "$tests/one_call" | sed -n 's/^ *\[ *[0-9]*\] //p' |
        awk '$7 ~ /A/ && $2 !~ /NOBITS|NOTE/ { printf "+0x%s", $5 }')))
    { [ "$octets" -gt 0 ] && [ "$octets" -le "$2" ]; } || stop "a program with $1 alone has $octets octets, not $2"
}
# Every kind of call, in a program that has no C library, as firmware has none. And how much a program grows, on x86-64
# with -O2: README says 2.5 and 19 KB of the assembly, and the C takes 3 and 21 by gcc.
freestanding() {
    case $machine in x86_64 | aarch64) ;; *) say "it isn't tested without a C library on this machine" && return ;; esac
    ! $nm -u "$out/libpkcs1.a" | grep -q ' __' || {
        say "a library with a sanitizer, or that guards its stack, isn't tested without a C library"
        return
    }
    compile -ffreestanding -fno-stack-protector -ffunction-sections -c ffi/tests/freestanding.c -o "$tests/freestanding.o"
    compile -nostdlib -static "$tests/freestanding.o" "$out/libpkcs1.a" -o "$tests/freestanding"
    ${RUN-} "$tests/freestanding" || stop "the check in line $? of freestanding.c fails"
    [ "$machine ${CFLAGS-}" != 'x86_64 -O2' ] || { size pkcs1_public_key_decode 3072 && size pkcs1_private_key_info_decode 21504; }
    say "every kind of call, in a program without a C library"
}
# The tool's rows, and what else can be seen of it from outside.
tool() {
    program=$out/pkcs1_tool
    if [ -n "${RUN-}" ]; then
        program=$tests/pkcs1_tool
        printf '#!/bin/sh\nexec %s "%s" "$@"\n' "$RUN" "$out/pkcs1_tool" > "$program"
        chmod +x "$program"
    fi
    PROGRAMS=$program EMULATED=${RUN-} BY_MAKE=yes crates/pkcs1_tool/run_built.sh
    [ -n "${RUN-}" ] || memory
}
# The tool with each of its requests for memory refused, by functions that are preloaded, and watched by valgrind.
memory() {
    if has_glibc; then
        PROGRAMS=$program crates/pkcs1_tool/refuse_memory.sh
        watched
        interrupted
    else
        say "malloc is a sanitizer's, or not glibc's: none of the tool's calls is refused, watched or interrupted"
    fi
}
# preloaded WORD..: the tool with interrupt.so, in its folder, as LD_PRELOAD takes a space for an end.
preloaded() {
    (cd "$tests" && LD_PRELOAD=./interrupt.so "$program" "$@" 9> calls)
}
# What a signal interrupts the tool does again, and goes on where it did a part.
interrupted() {
    # shellcheck disable=SC2086 # words
    $CC -shared -fPIC -O1 -Wall -Wextra -Werror ffi/tests/interrupt.c -ldl -o "$tests/interrupt.so"
    key=$PWD/ffi/tests/keys/pub3.der
    rm -f "$tests/copied"
    : > "$tests/copied"
    chmod 664 "$tests/copied" # which fchmod gives to the new file
    preloaded copy pub "$key" copied ||
        stop "the tool doesn't copy where calls are interrupted"
    cmp "$key" "$tests/copied"
    [ "$(stat -c %a "$tests/copied")" = 664 ] || stop "rights aren't kept where calls are interrupted"
    [ "$(sort -u "$tests/calls" | paste -s -d ' ')" = 'fchmod fsync open read write' ] ||
        stop "other calls are interrupted than the tool makes: $(sort -u "$tests/calls" | paste -s -d ' ')"
    preloaded < crates/pkcs1_tool/stdin > "$tests/printed" ||
        stop "the tool doesn't answer where calls are interrupted"
    cmp crates/pkcs1_tool/stdout "$tests/printed"
    say "the tool does again what a signal interrupts"
}
# watch ARGUMENT..: valgrind sees no wrong address in the tool, and no memory that isn't given back.
watch() {
    valgrind --quiet --error-exitcode=9 --leak-check=full --show-leak-kinds=all --errors-for-leak-kinds=all "$program" "$@"
}
watched() {
    valgrind --quiet "$program" < "$tests/none" > "$tests/log" 2>&1 || {
        say "there is no valgrind for this program: the tool's memory isn't watched"
        return
    }
    crates/pkcs1_tool/all_rows.sh > "$tests/rows"
    sed 's/ => .*//' "$tests/rows" > "$tests/lines"
    sed 's/^.* => //' "$tests/rows" > "$tests/answers"
    watch < "$tests/lines" > "$tests/printed"
    cmp "$tests/answers" "$tests/printed"
    rm -f "$tests/copied" # which may be read only, as the key is
    watch copy priv ffi/tests/keys/priv3.der "$tests/copied"
    cmp ffi/tests/keys/priv3.der "$tests/copied"
    say "valgrind finds nothing in the tool"
}

# shellcheck disable=SC2086
machine=$(ffi/lib/machine.sh $CC ${CFLAGS-})
case ${2-}:$machine in
    shared:* | objects:* | freestanding:*) "$2" ;;
    :windows | :archive) "$machine" ;;
    :*)
        ffi/tests/check_abi.sh
        objects
        both
        [ -n "${RUN-}" ] || unset_is_unread
        freestanding
        [ ! -x "$out/pkcs1_tool" ] || tool
        ;;
    *) stop "it has no part $2" ;;
esac
