#!/usr/bin/env bash
# test.sh [FOLDER]: tests the files that generate.sh made there, else in ffi/lib/generated: the objects are such that
# they link with anything, and the C passes the test of the library as the assembly does. And what makes and compares
# them: a panic is a trap, and what isn't known is refused. It needs gcc, clang, llc, binutils and python3, and for the
# other processor its gcc and qemu.
set -eu
here=$(realpath "$(dirname "$0")")
. "$here/../shell.sh"
ffi=$here/../../ffi
rows=$here/../../crates/pkcs1_vectors/stdin
generated=$(realpath "${1:-$ffi/lib/generated}")
room=$(mktemp -d)
trap 'rm -rf "$room"' EXIT
ulimit -t 300 # no test runs forever
export PYTHONDONTWRITEBYTECODE=1

needs gcc clang llc readelf nm python3

# links OBJECT CC: it can be moved, and has the marks of control flow that $asked has the linker look for.
links() {
    "$2" -shared -nostdlib "-Wl,-z,text,-z,$asked" "$1" -o "$room/shared" > "$room/said" 2>&1 && [ ! -s "$room/said" ]
}
# object_is_right OBJECT CC EXPORTS IMPORTS: no part of the stack is executed, nothing in the code depends on where it
# is loaded, control flow is marked, and these names alone are given and asked for.
object_is_right() {
    local object=$1
    readelf -SW "$object" | grep -F .note.GNU-stack | grep -qv ' X ' || stop "$object: its stack would be executable"
    links "$object" "$2" || stop "$object: $(cat "$room/said")"
    nm -g --defined-only "$object" | sed 's/.* //' | grep -vxE "$3" && stop "$object gives other names"
    nm -u "$object" | sed 's/.* //' | grep -vxE "$4" && stop "$object asks for other names"
    return 0
}
# leads_back PROCESSOR CC: a debugger goes back from each function of the two objects; a program does so by itself.
leads_back() {
    local object frames run=() words=()
    for object in c tool; do
        frames=$(readelf --debug-dump=frames "$room/$object.o" 2> /dev/null | grep -c 'FDE cie')
        [ "$frames" = "$(readelf -sW "$room/$object.o" | grep -c ' FUNC ')" ] ||
            stop "$1: a debugger can't go back from each call of $object"
    done
    if [ "$1" != "$(uname -m)" ]; then
        run=("qemu-$1") words=(-static)
        command -v "${run[0]}" > /dev/null || {
            echo "tools/generate/test.sh: ${run[0]} is not installed: no code for $1 is run"
            return
        }
    fi
    "$2" "${words[@]}" -std=c99 -O1 -fasynchronous-unwind-tables -Wl,--wrap=memcpy,--wrap=memmove \
        "-I$ffi/lib/include" "$here/way_back.c" "$ffi/lib/pkcs1.c" "$room/c.o" -o "$room/way_back"
    "${run[@]}" "$room/way_back" || stop "$1: a debugger doesn't come back to main"
}
# calls_run OUT CC OPTION: the library there runs where the processor looks for marks, and each call goes to an address.
calls_run() {
    CC=$2 CFLAGS="-O2 -fPIC -fno-plt $3 -Wl,-z,force-bti" RUN='qemu-aarch64 -cpu max' \
        "$ffi/tests/check.sh" "$1" freestanding > "$room/said" 2>&1
}
# library_is_marked PROCESSOR CC OPTION: by a compiler with this option, the library has the marks of its calls and of
# the assembly. Where those of the assembly are gone, the linker misses them, and so does the processor.
library_is_marked() {
    local from=$generated it
    mkdir -p "$room/plain/$1"
    "$here/marks.py" remove "$1" < "$generated/$1/pkcs1_c.s" > "$room/plain/$1/pkcs1_c.s"
    for it in marked unmarked; do
        make --silent -C "$here/../.." CC="$2" CFLAGS="-O2 -fPIC -fno-plt $3" OUT="$room/$it" GENERATED="$from" \
            "$room/$it/libpkcs1.a"
        from=$room/plain
    done
    links "$room/marked/pkcs1.o" "$2" || stop "$1: the library isn't marked: $(cat "$room/said")"
    ! links "$room/unmarked/pkcs1.o" "$2" || stop "$1: the linker misses no marks"
    grep -qE 'IBT and SHSTK|BTI' "$room/said" || stop "$1: marks are missed otherwise: $(cat "$room/said")"
    [ "$1" = aarch64 ] && command -v qemu-aarch64 > /dev/null || return 0
    calls_run "$room/marked" "$2" "$3" || stop "$1: marks stop the calls: $(cat "$room/said")"
    ! calls_run "$room/unmarked" "$2" "$3" || stop "$1: the processor misses no marks"
    grep -q 'Illegal instruction' "$room/said" || stop "$1: calls stop otherwise: $(cat "$room/said")"
}
# tool_is_marked: the tool answers its rows where the processor looks for marks, of which the start files have none, so
# it has a start of its own; without its marks it is stopped.
tool_is_marked() {
    local it own
    command -v qemu-aarch64 > /dev/null || return 0
    own='.globl _start; _start: hint #38; mov x29, #0; mov x30, #0; mov x5, x0; ldr x1, [sp]; add x2, sp, #8;
        mov x6, sp; adrp x0, main; add x0, x0, :lo12:main; mov x3, #0; mov x4, #0; bl __libc_start_main; bl abort;
        .section ".note.GNU-stack","",@progbits'
    echo "$own" > "$room/start.s"
    "$here/marks.py" remove aarch64 < "$generated/aarch64/pkcs1_tool.s" > "$room/unmarked.s"
    "$ffi/../crates/pkcs1_tool/all_rows.sh" > "$room/rows"
    for it in "$generated/aarch64/pkcs1_tool.s" "$room/unmarked.s"; do
        aarch64-linux-gnu-gcc -O2 -mbranch-protection=bti -nostartfiles -Wl,-z,force-bti "$room/start.s" "$it" \
            "$ffi/lib/os.c" -o "$room/tool" 2> "$room/said"
        sed 's/ => .*//' "$room/rows" > "$room/lines"
        { qemu-aarch64 -cpu max -L /usr/aarch64-linux-gnu "$room/tool" < "$room/lines" > "$room/printed" || break; } \
            2> "$room/said"
        sed 's/^.* => //' "$room/rows" | cmp - "$room/printed" || stop "marks change what the tool prints"
    done
    [ "$it" = "$room/unmarked.s" ] || stop "marks stop the tool: $(cat "$room/said")"
    grep -q 'Illegal instruction' "$room/said" || stop "the processor misses no marks of the tool"
}
objects_are_right() {
    local calls='pkcs1_c_[a-z0-9_]*' processor cc option asked marking
    local of_c='memcpy|memmove|memset|memcmp' of_tool
    of_tool="$of_c|strlen|malloc|realloc|free|_GLOBAL_OFFSET_TABLE_"
    of_tool="$of_tool|$(grep -oE 'pkcs1_os_\w+' "$ffi/lib/os.c" | sort -u | paste -sd '|')"
    for processor in x86_64 aarch64; do
        cc=$processor-linux-gnu-gcc
        [ $processor != "$(uname -m)" ] || cc=gcc
        command -v $cc > /dev/null || {
            echo "tools/generate/test.sh: $cc is not installed: the code for $processor isn't tested"
            continue
        }
        case $processor in
            x86_64) asked=cet-report=error marking=-fcf-protection=full ;;
            aarch64) asked=force-bti marking=-mbranch-protection=bti ;;
        esac
        $cc -c "$generated/$processor/pkcs1_c.s" -o "$room/c.o"
        $cc -c "$generated/$processor/pkcs1_tool.s" -o "$room/tool.o"
        object_is_right "$room/c.o" $cc "$calls" "$of_c"
        object_is_right "$room/tool.o" $cc pkcs1_tool_main "$of_tool"
        leads_back $processor $cc
        library_is_marked $processor $cc $marking
        [ $processor != aarch64 ] || tool_is_marked
        for option in -UPKCS1_FOREIGN -DPKCS1_FOREIGN; do
            $cc -std=c99 -Wall -Wextra -Werror -pedantic -O2 -fPIC $marking $option "-I$ffi/lib/include" \
                -c "$generated/pkcs1_c.c" -o "$room/portable.o"
            object_is_right "$room/portable.o" $cc "$calls" "$of_c"
        done
    done
}

# The library's test, over the assembly and over the C, also as it is built for other machines and by other compilers, and
# as one file that the link looks into.
library_passes() {
    local compiler flags sanitized='-O0 -fsanitize=address,undefined -fno-sanitize-recover=all'
    local tests=("$ffi"/tests/{test,rows,large,fuzz/{reference,elements,compare}}.c)
    local files=("-I$ffi/lib/include" "$ffi/lib/pkcs1.c" "${tests[@]}")
    gcc -O1 "${files[@]}" "$generated/$(uname -m)/pkcs1_c.s" -o "$room/test"
    "$room/test" "$rows" > /dev/null
    for compiler in gcc clang; do
        for flags in -O2 "$sanitized" "$sanitized -DPKCS1_FOREIGN" "$sanitized -DPKCS1_PLAIN -U__BYTE_ORDER__"; do
            # shellcheck disable=SC2086
            $compiler -std=c99 -Wall -Wextra -Wvla -Werror -pedantic $flags "${files[@]}" "$generated/pkcs1_c.c" \
                -o "$room/test"
            "$room/test" "$rows" > /dev/null
        done
    done
    "$ffi/lib/amalgamation.sh" "$generated" > "$room/pkcs1_all.c"
    for compiler in gcc clang; do
        $compiler -std=c99 -Wall -Wextra -Werror -pedantic -O3 -flto=auto -fstrict-aliasing "-I$ffi/lib/include" \
            "${tests[@]}" "$room/pkcs1_all.c" -o "$room/test"
        "$room/test" "$rows" > /dev/null
    done
}

# Where an int has 16 bits, the C isn't compiled.
small_machines_are_refused() {
    clang --target=msp430 -ffreestanding -w -fsyntax-only "-I$ffi/lib/include" "$generated/pkcs1_c.c" 2> "$room/error" &&
        stop "the C is compiled for 16 bits"
    grep -q '#error "pkcs1.*int has 32 bits' "$room/error" || stop "16 bits stop elsewhere: $(head -n 3 "$room/error")"
}

# refuses TEXT MESSAGE: a function with this line isn't translated, and one line says why.
refuses() {
    printf 'define void @pkcs1_c_it(ptr %%0, i64 %%1) {\n  %s\n  ret void\n}\n' "$1" > "$room/it.ll"
    rm -f "$room/it.c"
    python3 "$here/ir2c" "$room/it.ll" "$here/border.c" "$room/it.c" 2> "$room/error" && stop "$1 is translated"
    if [ -e "$room/it.c" ] || [ "$(wc -l < "$room/error")" != 1 ] || ! grep -qF "$2" "$room/error"; then
        stop "$1 is refused otherwise: $(cat "$room/error")"
    fi
}
unknown_is_refused() {
    refuses '%2 = fadd double 1.0, 2.0' 'not known: the instruction fadd'
    refuses '%2 = sdiv i64 %1, 3' 'not known: the instruction sdiv'
    refuses '%2 = load volatile i64, ptr %0, align 8' 'not known: volatile'
    refuses '%2 = load i20, ptr %0, align 1' 'a number of 20 bits in memory'
    refuses 'call void @llvm.umul.with.overflow.i64(i64 %1, i64 1)' 'not known: @llvm.umul.with.overflow.i64'
    refuses 'call void @llvm.memset.p0.i64(ptr %0, i8 0, i64 %1, i1 true)' 'a volatile fill'
    refuses 'call void %0(i64 %1)' 'not known: %0'
    refuses $'ret void\n}\ndeclare i32 @memcmp(ptr, ptr, i64)\ndefine void @pkcs1_c_i() {' 'of another file, @memcmp'
    refuses '%2 = add <2 x i64> zeroinitializer, zeroinitializer' 'not known: <'
    refuses '%2 = add i256 1, 1' 'a number of 256 bits'
    refuses 'store i64 %1, ptr %0, align 8, !nontemporal !0, more' 'more'
    refuses '%2 = alloca i8, i64 %1, align 1' 'not known'
    refuses '%2 = alloca { i64, i8 }, align 8' 'not known: struct s_u64_u8 in memory'
    refuses $'ret void\n}\n@it = private constant [1 x ptr] [ptr @a]\ndefine void @pkcs1_c_i() {' 'not known: [ ptr @a'
}

# function_of NAME LINE..: the assembly of a function of these lines.
function_of() {
    printf '\t.section\t.text.%s,"ax",@progbits\n\t.type\t%s,@function\n%s:\n\t.cfi_startproc\n' "$1" "$1" "$1"
    printf '\t%b\n' "${@:2}" .cfi_endproc
}
# isnt_plain TEXT MESSAGE PROCESSOR KIND: this assembly isn't kept, and one line says why.
isnt_plain() {
    "$here/plain.py" "$3" "$4" <<< "$1" > "$room/it.s" 2> "$room/error" && stop "this is kept: $1"
    if [ -s "$room/it.s" ] || [ "$(wc -l < "$room/error")" != 1 ] || ! grep -qF "$2" "$room/error"; then
        stop "$1 is refused otherwise: $(cat "$room/error")"
    fi
}
# A panic is a trap. It isn't where it could come back; no other function of core is left in the library.
panics_are_traps() {
    local write=_ZN4core3fmt5write17h0123456789abcdefE panic=_ZN4core9panicking5panic17hfedcba9876543210E own stops
    local kind processor call trap
    stops=$(function_of $panic 'bl\trust_begin_unwind'; function_of rust_begin_unwind 'bl\tpkcs1_stop')
    for processor in x86_64 aarch64; do
        case $processor in x86_64) call=callq trap=ud2 ;; aarch64) call=bl trap='brk\t#0x1' ;; esac
        own=$(function_of own "$call\t$panic" ret)
        for kind in library tool; do
            "$here/plain.py" $processor $kind <<< "$stops"$'\n'"$own" > "$room/it.s"
            { ! grep -q 'panic\|unwind\|stop' "$room/it.s" && grep -qx $'\t'"$(printf %b "$trap")" "$room/it.s"; } ||
                stop "a panic isn't a trap: $(cat "$room/it.s")"
            isnt_plain "$(function_of $panic "$call\town" ret)" 'comes back' $processor $kind
            isnt_plain "$(function_of own "$call\tpkcs1_stop")" "stops that isn't of core" $processor $kind
            isnt_plain "$(function_of own "$call\t$write" ret)" "isn't there" $processor $kind
            isnt_plain "$stops"$'\n'"$(function_of own ".quad\t$panic")" 'otherwise than by a call' $processor $kind
        done
        isnt_plain "$(function_of $write ret)" 'comes back' $processor library
        "$here/plain.py" $processor tool <<< "$(function_of $write ret)" | grep -q fmt5write ||
            stop "what prints isn't kept in the tool"
    done
    isnt_plain "$(function_of $panic 'jne\town' ud2)" 'comes back' x86_64 library
    isnt_plain "$(function_of $panic 'cbz\tx0, own' 'brk\t#1')" 'comes back' aarch64 library
    isnt_plain "$(function_of _RNvNtCs0123456789a_4core3fmt5write ret)" 'comes back' x86_64 library
    refuses $'ret void\n}\ndefine void @'$panic$'() {\n  ret void' 'comes back'
    refuses $'ret void\n}\ndeclare void @'$write$'()\ndefine void @pkcs1_c_i() {' 'a function of another file'
    printf 'define void @pkcs1_c_it() {\n  call void @%s()\n  unreachable\n}\ndefine void @%s() {\n  unreachable\n}\n' \
        $panic $panic > "$room/it.ll"
    python3 "$here/ir2c" "$room/it.ll" "$here/border.c" "$room/it.c"
    { grep -qx '    TRAP();' "$room/it.c" && ! grep -q panicking "$room/it.c"; } || stop "a panic isn't a trap in C"
}

# Code that goes to an address in a way that isn't known gets no marks.
unknown_ways_are_refused() {
    local line
    for line in 'x86_64 jmpq\t*%rax' 'x86_64 callq\t*8(%rdi)' 'aarch64 br\tx8' 'aarch64 blr\tx8'; do
        isnt_plain "$(function_of own "${line#* }" ret)" "isn't known" "${line%% *}" library
    done
    isnt_plain "$(function_of own 'leaq\t.LJTI1_0(%rip), %rcx' 'jmpq\t*%rax')" "isn't known" x86_64 tool
    isnt_plain "$(function_of own 'add\tx8, x8, :lo12:.LJTI1_0' 'br\tx8')" "isn't known" aarch64 tool
}

objects_are_right
library_passes
small_machines_are_refused
unknown_is_refused
panics_are_traps
unknown_ways_are_refused
"$here/test_opcodes.py" "$room"
"$here/test_debian_rust.sh"
"$here/test_making.sh"
echo "generated: the objects, the library's test over assembly and C, the translation, traps, other rustcs and texts"
