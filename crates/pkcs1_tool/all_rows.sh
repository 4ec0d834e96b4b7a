#!/bin/sh
# Prints each row of the tool, a line of the input, ` => `, and the line that answers it: those of `rows`, then what
# follows from the worked rows of ../pkcs1_vectors/stdin whose word the tool has.
set -eu
cd "$(dirname "$0")"
sed -e '/^#/d' -e '/^$/d' rows
awk -F ' = ' '
BEGIN {
    count = split("pub priv info:p8 pss oaep pss-strict:strict-pss oaep-strict:strict-oaep pss-same:same-pss " \
        "oaep-same:same-oaep pss-spellings:spell-pss oaep-spellings:spell-oaep", pairs, " ")
    for (i = 1; i <= count; i++) {
        split(pairs[i] ":" pairs[i], pair, ":")
        words[pair[1]] = pair[2]
    }
}
# The numbers of a private key.
function numbers(text) {
    sub(/^TwoPrime/, "version=0", text)
    sub(/^Multi/, "version=1", text)
    sub(/ others=-$/, "", text)
    sub(/ others=\[/, " other=", text)
    gsub(/\]\[/, " other=", text)
    sub(/\]$/, "", text)
    return text
}
# A container: its key, and its attributes.
function container(text,    parts) {
    sub(/^.* attributes=/, "", text)
    split(text, parts, "; ")
    return numbers(parts[2]) " attributes=" (parts[1] == "none" ? "-" : parts[1] == "-" ? "" : parts[1])
}
# Parameters: the algorithm in that of the mask stands in brackets.
function parameters(text) {
    sub(/ trailer=BC/, " trailer=1", text)
    if (text !~ / mask=[0-9a-f]*\/-/) {
        sub(/ mask=[0-9a-f]*\//, "&[", text)
        sub(/ mask=[^ ]*/, "&]", text)
    }
    return text
}
function answer(word, input, text) {
    if (word ~ /^strict-/ && text ~ /^refused: the contents of tag 0xa[0-3] are not in shortest form$/)
        return word " no"
    if (text ~ /refused: /)
        return "refused"
    if (word ~ /^strict-/)
        return word " yes"
    if (word ~ /^(same|spell)-/)
        return word " " text
    text = word == "priv" ? numbers(text) : word == "p8" ? container(text) : parameters(text)
    return word " " text (text ~ / again=/ ? "" : " again=" tolower(input))
}
{
    count = split($1, asked, " ")
    if (asked[1] in words) {
        line = word = words[asked[1]]
        for (i = 2; i <= count; i++)
            line = line " " (asked[i] == "-" ? "" : asked[i])
        print line " => " answer(word, asked[2], $2)
    }
}' ../pkcs1_vectors/stdin
