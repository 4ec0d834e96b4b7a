# shellcheck shell=bash disable=SC2154 # who reads this sets `room`
# Sourced by the scripts that build for platforms, which have `stop` and the folder $room. Each call of `platform` is a
# row of the table in docs/USING.md: tools/docs/check_tree.py --platforms makes it of them.

# platform SYSTEM MACHINE BUILT DONE TOOL.. -- COMMAND..: runs the command if these are there, and says in one line that
# it did what is declared, and how long it took, or what is missing. What it prints is shown only if it fails. The four
# words are quoted, in one line. Where the variable SAMPLE is set, only those are tried that tools/verdicts.py draws.
platform() {
    local row="$1 | $2 | $3 | $4" began=$SECONDS
    shift 4
    echo "$row" >> "$room/platforms"
    [ -z "${SAMPLE-}" ] || declared "$0" | tools/verdicts.py drawn 3 | grep -qxF "$row" || {
        echo "platform: $row | not drawn"
        return
    }
    while [ "$1" != -- ]; do
        [ -e "$1" ] || command -v "$1" > "$room/log" || {
            echo "platform: $row | left out: $1 isn't installed"
            return
        }
        shift
    done
    (set -e && "${@:2}") > "$room/log" 2>&1 &
    wait $! || {
        cat "$room/log" >&2
        stop "$row: failed"
    }
    echo "platform: $row | $((SECONDS - began)) s"
}
# declared SCRIPT..: the rows of these.
declared() {
    sed -snE 's/^ *platform "([^"]*)" "([^"]*)" "([^"]*)" "([^"]*)" .*/\1 | \2 | \3 | \4/p' "$@"
}
# all_declared SCRIPT: fails where the rows that ran, or were left out with a line, aren't those that it declares.
all_declared() {
    diff <(declared "$1" | sort -u) <(sort -u "$room/platforms") >&2 ||
        stop "the platforms that it declares (<) aren't those that it came to (>)"
}
