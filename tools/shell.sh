# shellcheck shell=bash
# Sourced by scripts: how they end where they can't go on, with the status $failure, and what they need.
failure=1
unset CDPATH # by which cd may print, or go elsewhere

# stop TEXT: says in a line why the script ends.
stop() {
    printf '%s: %s\n' "$0" "$*" >&2
    exit "$failure"
}
# needs TOOL..: stops if one isn't installed.
needs() {
    local it
    for it; do
        command -v "$it" > /dev/null || stop "$it isn't installed, and is needed"
    done
}
# have TOOL WHAT: whether it is installed; if not, says what isn't tested.
have() {
    command -v "$1" > /dev/null && return
    printf '%s: %s is not installed: %s\n' "$0" "$1" "$2" >&2
    return 1
}
