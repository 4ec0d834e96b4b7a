#!/usr/bin/env bash
# Does everything work? Runs what is tested of the sources, in a copy of the tree, and proves nothing: the layout that
# `rt ci` asks for, shellcheck, the documents' checks, what C declares, the worked rows, the tests, and what users build.
# .ci/run proves all, and has the other tests.
#
#     tools/unproved/run.sh [layout|documents|declared|rows|tests|clean_room|rust]..
#
# Without the toolchain it does what needs none, with the crate's tests by cargo: layout, documents, declared, clean_room,
# rust. The library for C and the tool are those of ffi/lib/generated, which tools/generate.sh makes of edited sources.
# `rt try` builds a program without a proof. What a step prints is shown if it fails. The status is 0 if all passed, 1 if
# not, 2 if nothing could be tried.
set -eu
shopt -s nullglob
exec < /dev/null
cd "$(dirname "$0")/../.."
. tools/shell.sh
failure=2
room=$(mktemp -d)
trap 'rm -rf "$room"' EXIT
trap 'exit 2' INT TERM HUP
tree=$room/tree
export RT_SECONDS=600

# copy_kit: $room/kit, a copy of the kit, of links. In it rattle does nothing: rt try asks it which names a check will
# refuse, and prints that alone, but it takes as long as the try.
copy_kit() {
    mkdir "$room/kit"
    ln -s "$kit"/* "$room/kit"
    rm "$room/kit/bin"
    cp -rsL "$kit/bin" "$room/kit"
    cp --remove-destination "$kit/bin/rt" "$kit"/bin/*.py "$room/kit/bin"
    ln -sf "$(command -v true)" "$room/kit/bin/rattle"
}

# What shellcheck says of the scripts, and the layout. The sources are laid out in a copy, so that a file that isn't laid
# out stays as it is, and is shown.
layout() {
    local scripts
    if have shellcheck "the scripts aren't looked at"; then
        mapfile -t scripts < <(find . -name '*.sh' ! -path './tools/generate/*')
        shellcheck --external-sources --source-path=SCRIPTDIR .ci/run ffi/tests/keys/make "${scripts[@]}"
    fi
    [ -n "$kit" ] || return 0
    mkdir "$room/laid_out"
    cp -r crates "$room/laid_out"
    find "$room"/laid_out/crates/*/{src,specs,proofs} \( -name '*.rt' -o -name '*.antt' \) \
        -exec "$kit/bin/rattle" fmt --write {} +
    diff -r --exclude=out crates "$room/laid_out/crates"
}
documents() {
    local check
    needs python3 perl
    for check in tools/docs/{check,test}_*; do
        "$check"
    done
}
# declared: what C declares is what the proved calls take, as their contracts in ACSL have it.
declared() {
    needs python3
    ffi/proof/check_contracts.py
}
# rows CRATE: what the program writes for its stored input.
rows() {
    cd "crates/$1"
    "$room/kit/bin/rt" try --steps 1 < stdin > "$room/$1.stdout"
    diff stdout "$room/$1.stdout"
}
tests() {
    cd "crates/$1"
    "$room/kit/bin/rt" try --test
}

clean_room() {
    tools/clean_room.sh .
}
rust() {
    needs cargo
    cargo test --offline --quiet --manifest-path rust/Cargo.toml
}

# step NAME COMMAND..: runs the command in the copy, and says how it ended, and what it took.
step() {
    local began=$SECONDS log=$room/$1.log ended=passed user system
    set +e
    (set -e && cd "$tree" && "${@:2}") > "$log" 2>&1
    case $? in
        0) grep 'not installed' "$log" ;;
        *) ended=FAILED && cat "$log" ;;
    esac
    times > "$log.times"
    read -r user system < <(tail -n 1 "$log.times")
    echo "$1: $ended, $((SECONDS - began)) s, of processor time $user and $system of the system"
    echo "$1" >> "$room/$ended"
}
# The steps of a part.
steps_of() {
    local it
    case $1 in
    layout | documents | declared | clean_room | rust) echo "$1" ;;
    rows) for it in crates/*/src/main.rt; do
        it=${it#crates/} && echo "rows ${it%%/*}"
    done ;;
    tests) grep -rl --include='*.rt' '#\[test\]' crates/*/src | sed 's,crates/\([^/]*\)/.*,tests \1,' | sort -u ;;
    *) stop "there is no part $1: it knows layout, documents, declared, rows, tests, clean_room and rust" ;;
    esac
}

parts=("$@") kit=
if command -v rt > /dev/null; then
    page=$(rt doc) || stop "rt doesn't run"
    kit=$(dirname "$page")
    copy_kit
    [ $# -gt 0 ] || parts=(tests rows declared clean_room documents layout)
else
    [[ ! " $* " =~ \ (tests|rows)\  ]] || stop "rt isn't installed, and $* needs it"
    [ $# -gt 0 ] || parts=(clean_room rust documents declared layout)
    echo "rt isn't installed. So nothing is compiled of crates/: no test and no worked row is tried of sources that were"
    echo "edited, and their layout isn't looked at. What make and cargo build is tried."
fi
for part in "${parts[@]}"; do
    steps_of "$part" >> "$room/steps"
done
needs python3 tar
mkdir "$tree"
tar c --exclude=./.git --exclude=out --exclude=target . | tar x -C "$tree"
lanes=$(nproc)
while read -r part crate; do
    while (($(jobs -rp | wc -l) >= (lanes < 4 ? lanes : 4))); do
        wait -n
    done
    step "$part${crate:+ of $crate}" "$part" ${crate:+"$crate"} < /dev/null &
done < "$room/steps"
wait
touch "$room/passed" "$room/FAILED"
echo "Nothing was proved: .ci/run does that. It took $SECONDS s."
echo "$(wc -l < "$room/passed") passed, $(wc -l < "$room/FAILED") failed"
[ ! -s "$room/FAILED" ]
