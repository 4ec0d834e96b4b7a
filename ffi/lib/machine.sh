#!/bin/sh
# machine.sh COMPILER OPTION..: prints the machine that the compiler builds for: x86_64 or aarch64, for which there is
# assembly; or one for which there is C: other, windows, and archive where a static library is all that is linked here.
# Where nothing can be built it prints, in one line, why.
set -u
compiler="$*"

say() {
    printf '%s\n' "$*"
    exit 0
}
command -v "${1-}" > /dev/null 2>&1 ||
    say "there is no compiler ${1-}: install gcc or clang, or name yours, as in make CC=clang"
machine=$("$@" -E -P -x c - 2> /dev/null << 'END' | tail -n 1
#ifdef __BYTE_ORDER__
#if defined _WIN32
windows
#elif !defined __ELF__
archive
#elif __BYTE_ORDER__ != __ORDER_LITTLE_ENDIAN__ || __SIZEOF_POINTER__ != 8 || !defined __linux__
other
#elif defined __x86_64__
x86_64
#elif defined __aarch64__
aarch64
#else
other
#endif
#endif
END
)
case $machine in
    x86_64 | aarch64 | other | windows | archive) ;;
    *) say "$compiler doesn't compile C: name gcc or clang, as in make CC=clang, and look at CFLAGS" ;;
esac
echo '#include <stdlib.h>' | "$@" -E -x c - > /dev/null 2>&1 ||
    say "$compiler finds no stdlib.h: install the C library's headers (libc6-dev, glibc-devel)"
say "$machine"
