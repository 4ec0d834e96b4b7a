#!/usr/bin/env bash
# Runs the built program on one row at a time, with each of the row's allocations failing in turn, one in each run, until
# a run makes no more. One way of reading or writing then reports out of memory, and every other answers as the row says;
# or the row itself ends by it, where its own output was to be allocated. Nothing else may come of a failed allocation.
# Left out are the rows that stand for many encodings.
# Called by .ci/run behind rt ci; it needs gcc. By hand: refuse_memory.sh [WORD], the rows of that word alone. It prints
# what differs, and ends with 1 then; the last line counts. Where the variable SAMPLE is set, tools/verdicts.py draws the
# rows.
set -u
cd "$(dirname "$0")" || exit 1
room=$(mktemp -d) || exit 1
trap 'rm -rf "$room"' EXIT
[ -x out/pkcs1_vectors ] || {
    echo "refuse_memory: out/pkcs1_vectors isn't there: rt run builds it" >&2
    exit 1
}
"${CC:-gcc}" -shared -fPIC -O1 -Wall -Wextra -Werror -o "$room/refuse.so" ../pkcs1_tool/refuse_memory.c || exit 1

grep "^${1:-[a-z0-9-]*} " stdin | grep -vE '^(changed|types|joined|priv-rooms|pub-filled)' |
    if [ -n "${SAMPLE-}" ]; then ../../tools/verdicts.py drawn 20; else cat; fi > "$room/rows"
lanes=$(nproc)

# lane NUMBER: each row of the lane, with the program's output where its first allocation fails, its second, and so on.
lane() {
    local row number
    mkdir "$room/$1"
    awk -v lanes="$lanes" -v lane="$1" 'NR % lanes == lane' "$room/rows" | while read -r row; do
        echo "$row" > "$room/$1/row"
        echo "row $row"
        for ((number = 1; number < 10000; number++)); do
            : > "$room/$1/refused"
            echo "request $number"
            LD_PRELOAD=$room/refuse.so REFUSED=$number out/pkcs1_vectors < "$room/$1/row" 2>&1 9> "$room/$1/refused"
            echo "status $?"
            [ -s "$room/$1/refused" ] || break
        done
    done > "$room/$1/output"
}
for ((number = 0; number < lanes; number++)); do
    lane "$number" &
done
wait

cat "$room"/*/output | awk '
# Puts new in the place of each old in the text.
function replaced(text, old, new,    at, done) {
    while (old != "" && (at = index(text, old)) > 0) {
        done = done substr(text, 1, at - 1) new
        text = substr(text, at + length(old))
    }
    return done text
}
function judged(    at, answer) {
    if (text ~ /\n1 rows held, 0 differ/) return "held"
    if (text ~ /OutOfMemory/ && text ~ /\nstatus 1/) return "ended"
    at = index(text, "    is answered: ")
    if (at == 0) return "wrong"
    answer = substr(text, at + 17)
    answer = substr(answer, 1, index(answer, "\n") - 1)
    if (answer == "not a row") return "ended"
    answer = replaced(replaced(answer, want, "W"), "refused: no memory was found", "M")
    answer = replaced(replaced(replaced(answer, given, "W"), again, "W"), front, "W")
    return answer ~ /^[WM](; [a-z0-9_]+: [WM])*$/ && answer ~ /M/ ? "told" : "wrong"
}
function judge(is_last,    outcome) {
    if (number == 0) return
    outcome = judged()
    if (outcome == "wrong" || (outcome == "held") != is_last) {
        print "refuse_memory: request " number " of " asked ":" text
        failed++
    }
    count[outcome]++
    requests += !is_last
    number = 0
}
/^row / {
    judge(1)
    rows++
    asked = substr($0, 5, index($0, " = ") - 5)
    want = substr($0, index($0, " = ") + 3)
    parts = split(asked, part, " ")
    given = tolower(part[parts])
    again = want ~ /again=/ ? substr(want, index(want, "again=") + 6) : ""
    front = want ~ /, / ? substr(want, 1, index(want, ", ") - 1) : ""
    next
}
/^request / { judge(0); number = $2; text = ""; next }
{ text = text "\n" $0 }
END {
    judge(1)
    print "refuse_memory: " rows + 0 " rows, " requests + 0 " requests, told of " count["told"] + 0 ", the row ended by " count["ended"] + 0 ", " failed + 0 " failed"
    exit failed > 0 || requests == 0
}'
