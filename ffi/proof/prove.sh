#!/usr/bin/env bash
# Proves ffi/lib/pkcs1.c with Frama-C: that each call of pkcs1.h does what ffi/proof/pkcs1.acsl.h says, over the proved
# calls, as gcc reads it for x86-64 and for x86 of 32 bits, and that what ffi/proof/promises.c says follows. Names each
# goal that isn't proved, says how many are, and fails if one isn't.
#
#     ffi/proof/prove.sh [--must] [WORD..]    WORDs go to Frama-C, such as -wp-fct NAME: only their goals are proved then
#
# Where the variable SAMPLE is set, and no WORD is there, tools/verdicts.py draws the calls that are proved.
# It needs frama-c, why3, z3 and cvc4, which tools/install.sh installs on Debian. If they aren't there, the proof is left
# out, which is a failure with --must or if CI is set.
# AT_ONCE: how many provers run at a time. GIVE_UP: after how many steps, where it is known that goals are open. KEEP: a
# file for what Frama-C says of the goals of WORDs.
set -eu
cd "$(dirname "$0")/../.."
must=${CI-}
[ "${1-}" != --must ] || {
    must=must
    shift
}
if [ $# = 0 ] && [ -n "${SAMPLE-}" ]; then
    drawn=$(grep -oE '\bpkcs1_[a-z0-9_]+\(' ffi/lib/include/pkcs1.h | tr -d '(' | sort -u | tools/verdicts.py drawn 3 |
        sed 's/^pkcs1_\(.*\)/&,promises_\1/')
    drawn=$(paste -s -d , <<< "$drawn")
    echo "ffi/proof/prove.sh: drawn: $drawn"
    set -- -wp-fct "$drawn"
fi
room=$(mktemp -d)
trap 'rm -rf "$room"' EXIT
at_once=${AT_ONCE:-$(nproc)}

missing() {
    local tool
    for tool in frama-c why3 z3 cvc4; do
        command -v "$tool" > /dev/null || return 0
    done
    return 1
}
if missing; then
    echo "ffi/proof/prove.sh: frama-c, why3, z3 and cvc4 aren't all installed: the proof of pkcs1.c is left out" >&2
    [ -z "$must" ] || exit 1
    exit 0
fi
export WHY3CONFIG=$room/why3.conf
why3 config detect > "$room/detected" 2>&1

# frama LOG WORD..: Frama-C on proof.c. A caller may pass the constants that are named: they lie in the same memory as
# what callers pass.
machine=gcc_x86_64
frama() {
    local log=$1
    shift
    frama-c -machdep "$machine" -no-frama-c-stdlib \
        -cpp-extra-args="-nostdinc -Iffi/proof/include -Iffi/lib/include" ffi/proof/proof.c \
        -wp -wp-rte -wp-par "$at_once" -wp-alias-vars pkcs1_oid_mgf1,pkcs1_oid_p_specified "$@" > "$log" 2>&1 || {
        cat "$log" >&2
        exit 1
    }
}
# prove LOG WORD..: what one prover leaves is tried by the other, and then by both with more time. Steps don't depend on
# how much else the machine does: the slowest proof has 300000.
prove() {
    local log=$1
    shift
    if [ -n "${GIVE_UP-}" ]; then
        frama "$log" "$@" -wp-prover cvc4 -wp-timeout 1200 -wp-steps "$GIVE_UP"
        return
    fi
    frama "$log" "$@" -wp-prover cvc4 -wp-timeout 120 -wp-steps 1000000 \
        -then -wp-prover z3 -wp-timeout 120 -wp-steps 10000000 \
        -then -wp-prover cvc4,z3 -wp-timeout 1200 -wp-steps 10000000
}
# goals PATTERN LOG..: the names of the goals in lines that end like this.
goals() {
    local pattern=$1
    shift
    sed -nE "s/^\[wp\] \[[^]]*\] (Goal|Smoke-test) ([^ ]+)$pattern/\2/p" "$@" | sort -u
}
logs=()
: > "$room/proved"
: > "$room/open"
# judge LOG: adds the names of its goals to those that are proved, or to those that are open.
judge() {
    goals ' : Valid.*' "$1" > "$1.proved"
    goals '.*' "$1" | comm -23 - "$1.proved" >> "$room/open"
    cat "$1.proved" >> "$room/proved"
    logs+=("$1")
}
if [ $# -gt 0 ]; then
    prove "$room/calls" -wp-no-init-const "$@"
    judge "$room/calls"
else
    prove "$room/calls" -wp-no-init-const -wp-skip-fct identifiers
    judge "$room/calls"
    prove "$room/identifiers" -wp-fct identifiers # with their octets, which make other proofs slower
    judge "$room/identifiers"
    machine=gcc_x86_32
    prove "$room/calls_of_32_bits" -wp-no-init-const -wp-skip-fct identifiers
    judge "$room/calls_of_32_bits"
    machine=gcc_x86_64
fi
sed 's/^/not proved: /' "$room/open"
[ -z "${KEEP-}" ] || cp "$room/calls" "$KEEP"

# The contracts contradict nothing: no prover finds that a place can't be reached.
smoke() {
    local kind others=
    for kind in requires ensures assigns exits terminates assert invariant variant; do
        others=$others,-@$kind
    done
    frama "$room/smoke" -wp-no-init-const -wp-skip-fct identifiers -wp-smoke-tests -wp-prop="${others#,}" \
        -wp-prover cvc4 -wp-timeout 1 -wp-smoke-timeout 1
    sed -nE 's/^\[wp\] \[Passed\] Smoke-test //p' "$room/smoke" > "$room/passed"
    goals '.*' "$room/smoke" | comm -23 - <(sort -u "$room/passed") > "$room/doomed"
}
# What WP assumes besides, or leaves out, it says in a warning.
warned='Stronger|Degenerated|Missing assigns|[Nn]either code|Cast with incompatible|hypotheses'
holds=true
! grep -hE "$warned" "${logs[@]}" || holds=false
if [ $# = 0 ]; then
    smoke
    sed 's/^/out of reach: /' "$room/doomed"
    echo "$(wc -l < "$room/passed") places are within reach"
    [ ! -s "$room/doomed" ] && [ -s "$room/passed" ] || holds=false
fi
echo "$(wc -l < "$room/proved") proved, $(wc -l < "$room/open") not"
[ -s "$room/proved" ] && [ ! -s "$room/open" ] && $holds
