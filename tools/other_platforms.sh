#!/usr/bin/env bash
# Builds the library for machines that aren't this one, and runs its tests under qemu. For systems other than Linux and
# by other compilers it runs the C test: as one file by tcc and in MSVC's dialect, for Windows under wine, for WASI
# under node, by CMake for these and for Linux, and without a C library. For other platforms it is only compiled. It
# needs nothing of the toolchain. What isn't installed is left out, with a line.
set -eu
cd "$(dirname "$0")/.."
ulimit -t 600 # no test runs forever
room=$(mktemp -d)
export WINEPREFIX=$room/wine WINEDEBUG=-all
leave() {
    ! command -v wineserver > "$room/log" || wineserver -k 2> "$room/log" || true
    rm -rf "$room"
}
trap leave EXIT
rows=$PWD/crates/pkcs1_vectors/stdin
tests=(-Iffi/lib/include ffi/tests/{test,rows,large,fuzz/{reference,elements,compare}}.c)
wasi=(clang --target=wasm32-wasi --sysroot=/usr -I/usr/include/wasm32-wasi)
node=(node --single-threaded --no-warnings "$PWD/tools/wasi.mjs")

. tools/shell.sh
. tools/platforms.sh

# on MACHINE NAME: another machine, as qemu calls it, and what the name of its compiler begins with.
on() {
    make check OUT="$room/$1" CC="$2-gcc" RUN="qemu-$1"
}
# A build of one's own, by a compiler that has little more than C99.
by_tcc() {
    tcc -Wall -Werror "${tests[@]}" "$room/pkcs1_all.c" -o "$room/by_tcc"
    "$room/by_tcc" "$rows"
}
# Compiled for MSVC by clang, with no header of MSVC's: what the C library has for it is declared in a few lines. The
# program around it is compiled and linked by mingw, whose calls are alike.
in_dialect() {
    local windows=x86_64-w64-mingw32-gcc
    clang --target=x86_64-pc-windows-msvc -std=c99 -Wall -Wextra -Werror -O1 -ffreestanding "-I$room/few" \
        -Iffi/lib/include -c "$room/pkcs1_all.c" -o "$room/dialect.o"
    "$windows" "${tests[@]}" "$room/dialect.o" -o "$room/dialect.exe"
    wine "$room/dialect.exe" "$rows"
}
# runs FOLDER: the program that was built there prints the modulus.
runs() {
    cmake --build "$1"
    [ "$(cd "$1" && ctest --verbose --no-tests=error | tr -d '\r' | grep -cx '[0-9]: c17f')" = 1 ] ||
        stop "$1: the program prints another modulus"
}
# by_cmake SHARED OPTION..: configured, built, tested and installed, OFF: static, or ON: shared. A program finds it, and
# runs.
by_cmake() {
    local built=$room/cmake.$1
    rm -rf "$built"
    cmake -B "$built" -DCMAKE_BUILD_TYPE=Debug "-DBUILD_SHARED_LIBS=$1" "-DCMAKE_INSTALL_PREFIX=$built/prefix" "${@:2}"
    cmake --build "$built"
    (cd "$built" && ctest --output-on-failure --no-tests=error)
    cmake --build "$built" --target install
    [ "$(ls "$built/prefix/include")" = pkcs1.h ] || stop "CMake installs another header than pkcs1.h"
    cmake -S "$room/program" -B "$built/program" "-DCMAKE_PREFIX_PATH=$built/prefix" "${@:2}"
    [ ! -d "$built/prefix/bin" ] || cp "$built"/prefix/bin/*.dll "$built/program"
    runs "$built/program"
}
windows_by_cmake() {
    local it
    for it in OFF ON; do
        by_cmake $it -DCMAKE_SYSTEM_NAME=Windows -DCMAKE_C_COMPILER=x86_64-w64-mingw32-gcc \
            -DCMAKE_CROSSCOMPILING_EMULATOR=wine
    done
    ! grep pkcs1_c_ "$room/cmake.ON/prefix/lib/libpkcs1.dll.a" || stop "CMake's DLL exports proved calls"
}
wasi_by_cmake() {
    by_cmake OFF "-DCMAKE_TOOLCHAIN_FILE=$room/wasi.cmake" -DCMAKE_C_FLAGS_DEBUG=-O2 # for 64 KiB of stack
}
# Here also as a part of the program's own build.
linux_by_cmake() {
    by_cmake OFF
    by_cmake ON
    ffi/tests/check.sh "$room/cmake.ON" shared
    cmake -S "$room/program" -B "$room/part" -DCMAKE_BUILD_TYPE=Debug "-DPART=$PWD" -DPKCS1_CODE=c
    runs "$room/part"
}
for_windows() {
    make check OUT="$room/windows" CROSS=x86_64-w64-mingw32- RUN=wine
}
for_wasi() {
    make check OUT="$room/wasi" CC="${wasi[*]}" AR=llvm-ar RUN="${node[*]}"
}
# without_library OPTION..: each kind of call in a program that has the four functions and nothing else of C.
without_library() {
    clang "$@" -std=c99 -Wall -Wextra -Werror -O2 -ffreestanding "-I$room/few" -Iffi/lib/include -c "$room/pkcs1_all.c" \
        -o "$room/free.o"
    clang "$@" -std=c99 -O2 -ffreestanding "-I$room/few" -Iffi/lib/include -c ffi/tests/freestanding.c -o "$room/program.o"
}
on_arm() {
    without_library --target=arm-linux-gnueabihf -mthumb
    arm-linux-gnueabihf-gcc -nostdlib -static "$room"/{program,free}.o -lgcc -o "$room/on_arm"
    qemu-arm "$room/on_arm" || stop "the check in line $? of ffi/tests/freestanding.c fails"
}
on_wasm() {
    without_library --target=wasm32-unknown-unknown
    wasm-ld --no-entry --export=tested "$room"/{program,free}.o -o "$room/on.wasm"
    node --single-threaded -e 'WebAssembly.instantiate(require("fs").readFileSync(process.argv[1])).then(
        (it) => { process.exitCode = it.instance.exports.tested() === 0 ? 0 : 1; })' "$room/on.wasm"
}
# alone TARGET: compiled without a warning, and no more.
alone() {
    clang "--target=$1" -std=c99 -Wall -Wextra -Werror -ffreestanding "-I$room/few" -Iffi/lib/include \
        -c "$room/pkcs1_all.c" -o "$room/alone.o"
}

make amalgamation OUT="$room" > "$room/log"
mkdir "$room/few" "$room/program"
cat > "$room/few/string.h" << 'END'
#include <stddef.h>
void *memcpy(void *to, const void *from, size_t len);
void *memmove(void *to, const void *from, size_t len);
void *memset(void *to, int octet, size_t len);
int memcmp(const void *left, const void *right, size_t len);
END
echo '_Noreturn void abort(void);' > "$room/few/stdlib.h"
cat > "$room/program/CMakeLists.txt" << END
cmake_minimum_required(VERSION 3.14)
project(program C)
if(PART)
    add_subdirectory(\${PART} pkcs1)
else()
    find_package(pkcs1 0.7 QUIET)
    if(pkcs1_FOUND)
        message(FATAL_ERROR "another minor version is found")
    endif()
    find_package(pkcs1 0.8 REQUIRED)
endif()
add_executable(program $PWD/ffi/examples/modulus.c)
target_link_libraries(program pkcs1::pkcs1)
enable_testing()
add_test(NAME program COMMAND program $room/key.der)
END
printf '\060\010\002\003\000\301\177\002\001\003' > "$room/key.der"
cat > "$room/wasi.cmake" << END
set(CMAKE_SYSTEM_NAME Generic)
set(CMAKE_C_COMPILER clang)
set(CMAKE_C_COMPILER_TARGET wasm32-wasi)
set(CMAKE_C_FLAGS_INIT "${wasi[*]:2}")
set(CMAKE_AR llvm-ar)
set(CMAKE_RANLIB llvm-ranlib)
set(CMAKE_CROSSCOMPILING_EMULATOR "${node[0]};${node[1]};${node[2]};${node[3]}")
END

platform "Linux" "aarch64" "assembly, by make and gcc" "tested under qemu" aarch64-linux-gnu-gcc qemu-aarch64 -- \
    on aarch64 aarch64-linux-gnu
platform "Linux" "riscv64" "C, by make and gcc" "tested under qemu" riscv64-linux-gnu-gcc qemu-riscv64 -- \
    on riscv64 riscv64-linux-gnu
platform "Linux" "i386" "C, by make and gcc" "tested under qemu" i686-linux-gnu-gcc qemu-i386 -- \
    on i386 i686-linux-gnu
platform "Linux" "32-bit Arm" "C, by make and gcc" "tested under qemu" arm-linux-gnueabihf-gcc qemu-arm -- \
    on arm arm-linux-gnueabihf
platform "Linux" "s390x" "C, by make and gcc" "tested under qemu" s390x-linux-gnu-gcc qemu-s390x -- \
    on s390x s390x-linux-gnu
platform "Linux" "MIPS" "C, by make and gcc" "tested under qemu" mips-linux-gnu-gcc qemu-mips -- \
    on mips mips-linux-gnu
platform "Linux" "m68k" "C, by make and gcc" "tested under qemu" m68k-linux-gnu-gcc qemu-m68k -- \
    on m68k m68k-linux-gnu
platform "Linux" "x86-64" "one file, by tcc" "tested" tcc -- by_tcc
platform "Linux" "x86-64" "assembly and C, by CMake and gcc" "tested" cmake -- linux_by_cmake
platform "Windows" "x86-64" "C, by make and mingw, static and a DLL" "tested under wine" x86_64-w64-mingw32-gcc wine -- \
    for_windows
platform "Windows" "x86-64" "C, by CMake and mingw, static and a DLL" "tested under wine" cmake x86_64-w64-mingw32-gcc \
    wine -- windows_by_cmake
platform "Windows" "x86-64" "one file in MSVC's dialect, by clang" "tested under wine" clang x86_64-w64-mingw32-gcc \
    wine -- in_dialect
platform "WebAssembly" "WASI" "C, by make and clang" "tested under node" clang wasm-ld llvm-ar \
    /usr/include/wasm32-wasi node -- for_wasi
platform "WebAssembly" "WASI" "C, by CMake and clang" "tested under node" cmake clang wasm-ld llvm-ar \
    /usr/include/wasm32-wasi node -- wasi_by_cmake
platform "WebAssembly" "no C library" "one file, by clang" "tested under node" clang wasm-ld node -- on_wasm
platform "no system" "32-bit Arm" "one file, by clang" "tested under qemu" clang arm-linux-gnueabihf-gcc qemu-arm -- \
    on_arm
platform "no system" "Cortex-M4" "one file, by clang" "only compiled" clang -- alone thumbv7em-none-eabi
platform "no system" "riscv32" "one file, by clang" "only compiled" clang -- alone riscv32-none-elf
platform "Android" "aarch64" "one file, by clang" "only compiled" clang -- alone aarch64-linux-android
platform "FreeBSD" "x86-64" "one file, by clang" "only compiled" clang -- alone x86_64-unknown-freebsd
platform "macOS" "x86-64" "one file, by clang" "only compiled" clang -- alone x86_64-apple-macos
platform "macOS" "arm64" "one file, by clang" "only compiled" clang -- alone arm64-apple-macos
platform "Windows" "i386" "one file in MSVC's dialect, by clang" "only compiled" clang -- alone i686-pc-windows-msvc
all_declared tools/other_platforms.sh
echo "other platforms: all that is installed works"
