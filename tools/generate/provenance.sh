#!/usr/bin/env bash
# Prints what PROVENANCE says: provenance.sh OPTIONS OF_TOOL OF_ASSEMBLY OF_IR, those of rustc. RUSTC is the
# compiler.
set -eu
cd "$(dirname "$0")/../.."
. tools/shell.sh
. tools/debian_rust.sh
driver=$(find "$("$RUSTC" --print sysroot)/lib" -maxdepth 2 -name 'librustc_driver-*.so')
from=installed
[ -n "${RUSTC_1_85-}" ] || from="of Debian's rustc-web $debian_version"
llvm=$("$RUSTC" -vV | sed -n 's/^LLVM version: //p')
cat << END
Made by tools/generate.sh, as are the files beside it. None is changed by hand.

rustc: $("$RUSTC" --version | cut -d ' ' -f 2-), $from
driver: sha256 $(sha256sum < "$driver" | cut -d ' ' -f 1)
LLVM: $llvm
sources: $(tools/fresh.sh --hash)

rustc takes the text of the proved crates without what is there for the proof, which tools/erase/compare.py compares
with the crates. It makes

    x86_64/pkcs1_c.s, aarch64/pkcs1_c.s          of rust/c, for Linux
    x86_64/pkcs1_tool.s, aarch64/pkcs1_tool.s    of rust/tool, for Linux
    pkcs1_c.c                                    of rust/c for x86_64, as IR, which tools/generate/ir2c translates

each with $1
the tool with $2
assembly with $3
IR with $4

Where the code would panic, which the proof excludes, it has a trap. To see that these files come from the text that is
here, on Debian or with such a rustc:

    tools/generate.sh --check      makes the files again elsewhere, compares them octet by octet, and tests them

Debian 13's rustc, which is 1.85.1, was tried once. All these files came out the same, octet by octet.

Licences. All is of this repository's text, Apache-2.0 or MIT, but for what rustc takes in of Rust's core and, in the
tool, alloc. These are MIT or Apache-2.0 too, and have their notices in https://github.com/rust-lang/rust. What is made
of these files may be published.
END
