#!/usr/bin/env bash
# openssl.sh FOLDER: the examples in the folder read what OpenSSL makes. read_key KIND FILE OUT decodes it, and encodes it
# again as the same bytes. The others do one thing each, which OpenSSL does too. Called by test.sh.
set -eu -o pipefail
examples=$1
room=$(mktemp -d)
trap 'rm -rf "$room"' EXIT
count=0

# again KIND FILE: read_key decodes the file, and encodes it again.
again() {
    "$examples/read_key" "$1" "$2" "$room/again" > "$room/numbers"
    cmp "$2" "$room/again"
    count=$((count + 1))
}
# rejects NAME IN [OUT [TEXT]]: the example says that it can't read the file, by a line that has TEXT.
rejects() {
    if "$examples/$1" "${@:2:2}" > "$room/text" 2>&1 || ! grep -q "$2: .*${4-}" "$room/text"; then
        echo "ffi/tests/openssl.sh: $examples/$1 reads $2, or doesn't say what is wrong: $(cat "$room/text")" >&2
        exit 1
    fi
}
# does NAME IN WANT [TEXT]: the example makes the file WANT of the file IN, and prints TEXT.
does() {
    "$examples/$1" "$2" "$room/made" | cmp - <(printf '%s' "${4+$4
}")
    cmp "$room/made" "$3"
}
# opens MODULUS PRIMES: open_container reads the key alone and in the container, and tells why it reads others not. Of
# what may be a container it is the error of reading that.
opens() {
    local from text="modulus of $1 octets, $2 primes, without attributes"
    for from in p8 key; do
        does open_container "$room/$from.der" "$room/key.der" "$text"
        (cat "$room/$from.der" && echo) > "$room/long.der"
        rejects open_container "$room/long.der" "$room/made" 'bytes follow the value'
    done
    rejects open_container "$room/pub.der" "$room/made" 'a public key'
    rejects open_container "$room/key.pem" "$room/made" 'PEM'
}

# of_params NAME: writes the parameters after id-RSASSA-PSS in the file NAME to params.der.
of_params() {
    local at
    at=$(openssl asn1parse -inform DER -in "$1" | sed -n '/:rsassaPss/{n;s/^ *\([0-9]*\):.*/\1/p;q}')
    openssl asn1parse -inform DER -in "$1" -strparse "$at" -noout -out "$room/params.der"
}

for key in 2:2047 3:2048 4:4096; do
    openssl genrsa -traditional -primes "${key%:*}" "${key#*:}" 2> /dev/null > "$room/key.pem"
    openssl rsa -in "$room/key.pem" -traditional -outform DER -out "$room/key.der" 2> /dev/null
    openssl rsa -in "$room/key.pem" -RSAPublicKey_out -outform DER -out "$room/pub.der" 2> /dev/null
    again priv "$room/key.der"
    again pub "$room/pub.der"
    openssl pkcs8 -topk8 -nocrypt -in "$room/key.pem" -outform DER -out "$room/p8.der"
    again p8 "$room/p8.der"
    does public_half "$room/key.der" "$room/pub.der"
    rejects public_half "$room/pub.der" "$room/made"
    opens $(((${key#*:} + 7) / 8)) "${key%:*}"
    does make_container "$room/key.der" "$room/p8.der"
    rejects make_container "$room/p8.der" "$room/made"
    openssl rsa -in "$room/key.pem" -noout -modulus | sed 's/Modulus=//' | tr A-F a-f > "$room/modulus"
    "$examples/read_key" pub "$room/pub.der" | sed -n 's/^n=//p' | cmp - "$room/modulus"
    bits=$(openssl rsa -in "$room/key.pem" -noout -text | sed -n 's/.*(\([0-9]*\) bit.*/\1/p')
    "$examples/read_key" pub "$room/pub.der" | sed -n 's/^bits=//p' | cmp - <(echo "$bits")
done
# says FILE TEXT: signature_algorithm prints the text of the certificate's signatureAlgorithm. It reads no certificate.
says() {
    local at
    at=$(openssl asn1parse -inform DER -in "$1" | sed -n 's/^ *\([0-9]*\):d=1 .*: SEQUENCE.*/\1/p' | tail -1)
    openssl asn1parse -inform DER -in "$1" -strparse "$at" -noout -out "$room/algorithm.der"
    "$examples/signature_algorithm" "$room/algorithm.der" | cmp - <(echo "$2")
    rejects signature_algorithm "$1"
}
for salt in 20 32 -1; do
    openssl req -new -x509 -key "$room/key.pem" -subj /CN=a -sha256 -sigopt rsa_padding_mode:pss \
        -sigopt rsa_pss_saltlen:$salt -outform DER -out "$room/certificate.der"
    of_params "$room/certificate.der"
    again pss "$room/params.der"
    says "$room/certificate.der" "SHA-256, a salt of ${salt/-1/32} octets"
    "$examples/make_params" "$room/made"
    [ "$salt" = 20 ] || cmp "$room/made" "$room/algorithm.der"
done
openssl req -new -key "$room/key.pem" -subj /CN=a -sha1 -sigopt rsa_padding_mode:pss -sigopt rsa_pss_saltlen:20 \
    -outform DER -out "$room/request.der"
of_params "$room/request.der"
again pss "$room/params.der"
echo "ffi: $count encodings that OpenSSL made are read, and written again"
