#!/usr/bin/env bash
# Runs each block of `sh` in README.md and docs/USING.md, and each example of the tool's man page, as it stands, where
# the files that it names are there: keys and a certificate that OpenSSL made, programs in C, and the library and the
# tool that make built and installed. A block finds few tools, which a small Debian has too, and so no xxd. What the
# blocks print and write is compared with what OpenSSL says. The blocks on CMake and Meson build a program, where these
# are installed. And each command of OpenSSL that a document or pkcs1.h names is run on each kind of its input.
set -eu
cd "$(dirname "$0")/../.."
. tools/shell.sh
top=$PWD
limit=$(command -v timeout) sh=$(command -v sh)
allowed='cat grep ls nproc od openssl paste pkg-config sed sh split tail tr xargs'
# The parameters in the certificate, and all that stands in front of them in their algorithm identifier.
params=3034a00f300d06096086480165030402010500a11c301a06092a864886f70d010108300d06096086480165030402010500a203020120
identifier=304106092a864886f70d01010a
sha256=608648016503040201/05:
printed_params="hash=$sha256 mask=2a864886f70d010108/[$sha256] salt=32 trailer=1 defaults=1 again=$params"

# blocks FILE..: each block of these documents, in a file.
blocks() {
    perl -ne '
        if (/^```(\w*)/ || /^\.(nf|fi)$/) {
            $in = !$in && $1 =~ /^(sh|nf)$/;
            open($to, ">", sprintf("%s/blocks/%03d", $ENV{room}, ++$count)) if $in;
            next;
        }
        next if !$in;
        if ($ARGV =~ /\.1$/) { s/\\-/-/g; s/\\\(aq/\x27/g; s/\\e/\\/g }
        print $to $_' "$@"
}
# bin: the tools that a block finds. A compiler calls others by itself.
bin() {
    local tool
    for tool in $allowed; do
        ln -s "$(command -v "$tool")" "$room/bin/$tool"
    done
    ln -s "$room/out/pkcs1_tool" "$room/bin/pkcs1_tool"
    printf '#!/bin/sh\nPATH=%q exec cc "$@"\n' "$PATH" > "$room/bin/cc"
    chmod +x "$room/bin/cc"
}
# files: what the blocks name, and a certificate of an RSA-PSS key that is signed otherwise.
files() {
    local pss=(-sigopt rsa_padding_mode:pss -sigopt rsa_pss_saltlen:32)
    openssl genrsa -out key.pem 2048 &&
        openssl rsa -in key.pem -traditional -outform DER -out key.der &&
        openssl rsa -in key.pem -RSAPublicKey_out -outform DER -out pub.der &&
        openssl rsa -in key.pem -pubout -out public.pem &&
        openssl req -new -x509 -key key.pem -subj /CN=a -sha256 "${pss[@]}" -out cert.pem &&
        openssl genpkey -algorithm RSA-PSS -pkeyopt rsa_keygen_bits:2048 -out pss.pem &&
        openssl req -new -key pss.pem -subj /CN=b -out pss.csr &&
        openssl x509 -req -in pss.csr -CA cert.pem -CAkey key.pem -sha256 -out otherwise.pem &&
        mkdir keys && cp pub.der 'keys/a key.der' && cp key.der keys/private.der &&
        head -c 99 pub.der > keys/short.der && yes 'pub 3006020107020103' | head -n 800000 > lines
}
# run BLOCK: runs it, and leaves what it says of errors in `log`.
run() {
    PATH=$room/bin "$limit" 120 "$sh" -eu "$1" 2> log
}
# block LANGUAGE: the only block in this language of docs/USING.md.
block() {
    LANGUAGE=$1 perl -ne 'if (/^```(\w*)/) { $in = $1 eq $ENV{LANGUAGE}; next } print if $in' "$top/docs/USING.md"
}
# prints_modulus PROGRAM: it prints that of the key in pub.der.
prints_modulus() {
    [ "$(LD_LIBRARY_PATH=$PREFIX/lib "$1" pub.der)" = "$(openssl rsa -in key.pem -noout -modulus |
        sed 's/Modulus=//' | tr A-F a-f)" ] || stop "$1 prints another modulus"
}
# built: CMake and Meson build a program, as their blocks say.
built() {
    export PKG_CONFIG_PATH=$PREFIX/lib/pkgconfig
    if have cmake "its block isn't tested"; then
        printf '%s\n' 'cmake_minimum_required(VERSION 3.7)' 'project(program C)' "$(block cmake)" > CMakeLists.txt
        { cmake -S . -B by_cmake > log 2>&1 && cmake --build by_cmake > log 2>&1; } || stop "CMake fails: $(cat log)"
        prints_modulus by_cmake/program
    fi
    if have meson "its block isn't tested"; then
        block meson > meson.build
        { meson setup by_meson > log 2>&1 && meson compile -C by_meson > log 2>&1; } || stop "Meson fails: $(cat log)"
        prints_modulus by_meson/program
    fi
}
hex() {
    perl -0777 -ne 'print unpack("H*", $_)' "$1"
}
# What the blocks print, in their order: of README, of USING, of the man page.
wanted() {
    local version n e d p q dp dq qi public private error='PKCS#1 ASN.1 error:'
    read -r version n e d p q dp dq qi \
        <<< "$(openssl asn1parse -inform DER -in key.der | sed -n 's/.*INTEGER *://p' | tr 'A-F\n' 'a-f ')"
    public="pub n=$n e=$e again=$(hex pub.der)"
    private="priv version=${version#0} n=$n e=$e d=$d p=$p q=$q dp=$dp dq=$dq qi=$qi again=$(hex key.der)"
    printf '%s\n' '2048 bits' "$public" "$private" "pss $printed_params"
    printf '%s\n' "keys/a key.der $public" 'keys/private.der refused' 'keys/short.der refused'
    yes 'pub n=07 e=03 again=3006020107020103' | head -n 800000
    printf '%s\n' "reading keys/private.der: $error bytes follow the value" \
        "reading keys/short.der: $error the input ends too early"
    printf '%s\n' "n=$n" "$public"
    printf '%s\n' "reading keys/a key.der: $error the value of tag 0x02 is not allowed" \
        "reading keys/short.der: $error the input ends too early"
    yes 'pub n=07 e=03 again=3006020107020103' | head -n 800000
}
# converts COMMAND KIND INPUT..: of each of these inputs it makes what the tool reads as this kind, with the same modulus.
converts() {
    local input modulus words public
    for input in "${@:3}"; do
        rm -f made
        read -ra words <<< "$(sed -E "s/ -in [^ ]+/ -in $input/; s/ -out [^ ]+/ -out made/" <<< "$1")"
        { "${words[@]}" > log 2>&1 && [ -s made ]; } || stop "$1: fails for $input: $(cat log)"
        public=$([[ $input != *public* ]] || echo -pubin)
        # shellcheck disable=SC2086
        modulus=$(openssl rsa $public -in "$input" -noout -modulus | sed 's/Modulus=//' | tr A-F a-f)
        echo "$2 $(hex made)" | pkcs1_tool | grep -q " n=$modulus " || stop "$1: makes no $2 with the modulus of $input"
    done
}
# conversions: each command of OpenSSL with -out, of the header too, does what it is for.
conversions() {
    local header=$top/ffi/lib/include/pkcs1.h command
    openssl rsa -in key.pem -traditional -out traditional.pem 2> log
    openssl pkey -in pss.pem -pubout -out pss_public.pem
    for command in 'rsa -in' 'rsa -pubin'; do
        grep -q "openssl $command" "$header" || stop "$header has no command: openssl $command .."
    done
    sed 's/\\-/-/g' "$header" "$top"/{README.md,rust/README.md,docs/*.md,crates/pkcs1_tool/pkcs1_tool.1} |
        grep -oE 'openssl [a-z0-9]+ -[^`#|"]*' | grep -e ' -out ' | sed 's/ *$//' | sort -u > commands
    while read -r command; do
        case $command in
            *' -pubin '*' -RSAPublicKey_out '*) converts "$command" pub public.pem pss_public.pem ;;
            *' -RSAPublicKey_out '*) converts "$command" pub key.pem traditional.pem pss.pem ;;
            'openssl rsa '*' -traditional '*) converts "$command" priv key.pem traditional.pem pss.pem ;;
            'openssl pkcs8 '*) converts "$command" p8 key.pem traditional.pem ;;
            'openssl x509 '*' -pubkey '*)
                { ${command/-out */-out made} 2> log && cmp made public.pem; } || stop "$command: gives another key"
                ;;
            'openssl x509 '*' -outform DER '*)
                { ${command/-out */-out made} 2> log && openssl x509 -inform DER -in made | cmp - cert.pem; } ||
                    stop "$command: gives another certificate"
                ;;
            *) stop "$command: what is it for?" ;;
        esac
    done < commands
    echo "$(wc -l < commands) commands of OpenSSL do what they are for"
}
# refusals: what the blocks do with files of another kind.
refusals() {
    local block cutting
    mapfile -t cutting < <(grep -l asn1parse "$room"/blocks/*)
    cp otherwise.pem cert.pem
    cp pub.der params.der
    for block in "${cutting[@]}"; do
        { ! run "$block" && grep -q 'no PSS signature' log; } || stop "$(cat "$block") cuts of another signature: $(cat log)"
    done
    { run "$(grep -l again.der "$room"/blocks/*)" && grep -q refused log && [ ! -s again.der ]; } ||
        stop "a refusal is written to a file: $(cat log)"
    { ! pkcs1_tool < lines > log 2>&1 && grep -qx 'fault: read' log; } || stop "a block of long input isn't needed"
}

# shellcheck disable=SC2086
needs make cc perl $allowed
export room PREFIX
room=$(mktemp -d)
trap 'rm -rf "$room"' EXIT
PREFIX=$room/installed
mkdir "$room/bin" "$room/blocks" "$room/files"
make OUT="$room/out" PREFIX="$PREFIX" install > "$room/log" 2>&1 || stop "make fails: $(cat "$room/log")"
bin
blocks README.md docs/USING.md crates/pkcs1_tool/pkcs1_tool.1
ln -s "$PWD/ffi" "$room/out" "$room/files"
cp ffi/examples/modulus.c "$room/files/program.c"

cd "$room/files"
PATH=$room/out:$PATH
files > log 2>&1 || stop "$(cat log)"
count=0
for block in "$room"/blocks/*; do
    run "$block" >> ../printed || stop "these commands fail: $(cat "$block" log)"
    count=$((count + 1))
done
wanted > ../wanted
cmp ../printed ../wanted || stop "the blocks print something else: $(diff ../printed ../wanted | cut -c -200 | head)"
cmp key.der checked.der
[ "$(hex params.der) $(hex again.der) $(hex alg.der)" = "$params $params $identifier$params" ] ||
    stop "parameters are cut out or written otherwise: $(hex params.der) $(hex again.der) $(hex alg.der)"
prints_modulus ./a.out
built
conversions
refusals
echo "$count blocks of commands do what they are for"
