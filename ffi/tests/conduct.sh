#!/usr/bin/env bash
# Tests what pkcs1.h says that the calls do besides, of the assembly and of the generated C, as make builds them with
# gcc: secret octets of a private key don't change the path of a call, and stay nowhere but in `out`; a call takes no
# more stack than is said; nothing is kept between calls, and nothing allocated; what stands after a false flag isn't
# read. Then mistakes are planted in copies of pkcs1.c, and each must be noticed. It needs make, gcc, binutils, python3 and
# valgrind, on x86-64.
set -eu
cd "$(dirname "$0")/../.."
. tools/shell.sh
room=$(mktemp -d)
trap 'rm -rf "$room"' EXIT
export CC=gcc CFLAGS=-O2 CPPFLAGS='' LDFLAGS=''
warned='-std=c99 -Wall -Wextra -Werror -pedantic -Iffi/lib/include'
coders=$(grep -oE 'pkcs1_[a-z0-9_]*_(de|en)code(_strict)?\(' ffi/lib/include/pkcs1.h | tr -d '(')

# link FOLDER PROGRAM OBJECT..: links a test with the calls in the folder. The loader takes stack where it looks for a
# function, so it has looked before.
link() {
    gcc "${@:3}" "$1"/{calls,proved}.o -Wl,-z,now -o "$1/$2"
}
link_secrets() {
    link "$1" secrets "$room"/{secrets,painted}.o -Wl,--wrap=memcpy,--wrap=memmove
}

# The tests are of the calls in a folder. Each prints what it finds wrong.
path_is_public() {
    link_secrets "$1" && valgrind --quiet --error-exitcode=9 "$1/secrets" ffi/tests/keys path
}
first_octets_are_alike() {
    link_secrets "$1" && valgrind --tool=callgrind --collect-atstart=no --combine-dumps=yes \
        --callgrind-out-file="$1/dumps" "$1/secrets" ffi/tests/keys first_octets || return
    awk 'sub(/^desc: Trigger: Client Request: /, "") { key = $0 } /^totals: / && key { print key, $2; key = "" }' \
        "$1/dumps" | sort -u > "$1/counts"
    cat "$1/counts"
    [ "$(wc -l < "$1/counts")" = 4 ]
}
leaves_nothing() {
    link_secrets "$1" && "$1/secrets" ffi/tests/keys traces
}
# takes FOLDER DECODE ENCODE: whether pkcs1.h says so many octets of stack, or more, of the code in this folder.
takes() {
    local of=assembly
    case $1 in */c) of='Generated C' ;; */i386) of=i386 ;; esac
    tr -s '\n *' ' ' < ffi/lib/include/pkcs1.h | awk -v of="$of" -v decode="${2-}" -v encode="${3-}" '
        match($0, of ": [0-9]+ to decode, [0-9]+ to encode") { split(substr($0, RSTART + length(of)), may, /[^0-9]+/) }
        END {
            print "calls take " decode " and " encode " octets of stack"
            exit !(0 < decode && decode + 0 <= may[2] + 0 && 0 < encode && encode + 0 <= may[3] + 0)
        }'
}
stack_suffices() {
    # shellcheck disable=SC2046
    takes "$1" $(ffi/tests/deepest.py "$1/libpkcs1.so")
}
stack_suffices_in_tests() {
    # shellcheck disable=SC2046,SC2086
    link "$1" stack "$room"/{stack,painted,test,rows,large,reference,elements,compare}.o \
        ${coders//pkcs1_/-Wl,--wrap=pkcs1_} &&
        "$1/stack" crates/pkcs1_vectors/stdin > "$1/taken" && takes "$1" $(sed -n 's/^stack //p' "$1/taken")
}
keeps_nothing() {
    ffi/tests/check.sh "$1" objects
}
states_hold() {
    link "$1" states "$room"/{states,rows,reference,elements,compare}.o &&
        valgrind --quiet --error-exitcode=9 "$1/states"
}

# notices TEST TEXT WHERE MISTAKE: with the mistake planted behind each such line of pkcs1.c, the test prints this text.
notices() {
    local planted=$room/planted
    mkdir -p "$planted"
    cp "$room/assembly/proved.o" "$planted"
    awk -v where="    $3" -v mistake="$4" '{ print } $0 == where { print mistake; count++ } END { exit count != 1 }' \
        ffi/lib/pkcs1.c > "$planted/pkcs1.c" || stop "pkcs1.c has no one line $3"
    # shellcheck disable=SC2086
    gcc $warned -O2 -fPIC -fasynchronous-unwind-tables -c "$planted/pkcs1.c" -o "$planted/calls.o"
    ffi/lib/link.sh "$planted"
    ! "$1" "$planted" > "$room/log" 2>&1 || stop "$1 doesn't notice $4"
    grep -qE "$2" "$room/log" || stop "$1 notices $4 otherwise: $(cat "$room/log")"
}

for name in painted secrets stack states test rows large fuzz/{reference,elements,compare}; do
    # shellcheck disable=SC2086
    gcc $warned -O1 -g -c "ffi/tests/$name.c" -o "$room/${name#*/}.o"
done
# holds FOLDER TEST..: the calls in this folder of the room pass the tests.
holds() {
    local test
    for test in "${@:2}"; do
        "$test" "$room/$1" > "$room/log" 2>&1 || {
            cat "$room/log" >&2
            stop "$test fails with $1, by gcc $(gcc -dumpfullversion)"
        }
    done
}
for code in assembly c; do
    make --silent OUT="$room/$code" CODE=$code "$room/$code/libpkcs1.a"
    holds $code path_is_public first_octets_are_alike leaves_nothing stack_suffices{,_in_tests} keeps_nothing \
        states_hold
done
if have i686-linux-gnu-gcc "the stack on i386 isn't looked at"; then
    make --silent OUT="$room/i386" CC=i686-linux-gnu-gcc "$room/i386/libpkcs1.a"
    holds i386 stack_suffices
fi

on_read='*key = *read;'
on_write='uint8_t *place = output(out, room);'
frame='volatile uint8_t frame[2048]; *frame = 1;'
notices path_is_public 'jump .* uninit' "$on_read" 'if (read->prime1.data[1] & 1) __asm__ volatile("nop");'
notices path_is_public 'jump .* uninit' "$on_write" 'if (key->exponent2.data[9] & 1) __asm__ volatile("nop");'
notices path_is_public 'Use of uninit' "$on_read" \
    '(void)*(volatile const uint8_t *)&read->prime2.data[read->prime1.data[1] & 1];'
notices first_octets_are_alike priv2.der "$on_read" 'if (read->prime1.data[0] > 200) __asm__ volatile("nop");'
notices leaves_nothing 'sizeof left' "$on_read" 'volatile uint8_t copy = read->coefficient.data[1]; (void)copy;'
notices leaves_nothing 'sizeof left' "$on_write" \
    '__asm__ volatile("movd %0, %%xmm9" : : "r"(0u + key->prime1.data[1]));'
notices leaves_nothing 'sizeof filled_in' "$on_read" 'key->prime2.len -= read->prime1.data[1] & 1;'
for test in stack_suffices{,_in_tests}; do
    notices "$test" 'take [2-9][0-9]{3} and ' "$on_read" "$frame"
    notices "$test" 'and [2-9][0-9]{3} octets' "$on_write" "$frame"
done
notices stack_suffices 'no fixed size' "$on_read" 'volatile uint8_t frame[read->prime1.len]; *frame = 1;'
notices stack_suffices 'calls an address' "$on_read" 'void (*volatile none)(void) = 0; if (none) none();'
notices stack_suffices 'comes back' "$on_read" \
    'if (others_room > 9) put_key(read, listed, key, others, 9), key->other_primes++;'
notices keeps_nothing 'share data' "$on_read" 'static volatile size_t calls; calls++;'
notices keeps_nothing 'asks for malloc' "$on_read" \
    'extern void *malloc(size_t); void *volatile taken = malloc(9); (void)taken;'
notices states_hold 'pkcs1_pss_is' \
    'if (oid->data != NULL && is_whole_algorithm(hash) && is_whole_mask_gen(mask_gen))' \
    'return pkcs1_c_algorithm_is(hash, oid); else if (false)'
notices states_hold 'jump .* uninit' 'struct pkcs1_mask_gen made = NO_MASK_GEN;' \
    'made.hash = copy_algorithm(&given->hash);'
echo "conduct: path, traces and stack of the calls, in assembly and C, what they keep, and what they don't read"
